"""Rows of a plan text before their values are read: added, changed and dropped, line by line."""
from dataclasses import dataclass, field

from .columns import word
from .image import raw_limits
from .schema import BY_KIND, KINDS, SETTINGS, Table
from .statements import pairs, split_name
from .troubles import BadValue, Place, meant


@dataclass
class Draft:
    """A row: its values as text, and where each of them stands."""

    table: Table
    place: Place
    name: str = ""
    values: dict = field(default_factory=dict)
    places: dict = field(default_factory=dict)
    broken: bool = False

    def lines(self):
        """The row's own line, then those that changed it, in order."""
        return list(dict.fromkeys([self.place, *self.places.values()]))

    def title(self):
        return f"{self.table.kind} {self.name}".rstrip()

    def put(self, place, words):
        """Takes the values of key=value words; a row with bad words is not read further."""
        try:
            values = pairs(self.table.kind, words, self.table.keys)
        except BadValue:
            self.broken = True
            raise
        self.values.update(values)
        self.places.update(dict.fromkeys(values, place))


class Drafts:
    """All rows of a text, kind by kind, with the plan line and raw changes."""

    def __init__(self):
        self.settings = None
        self.rows = {kind: [] for kind in KINDS}
        self.raw = []
        self.verbs = {SETTINGS.kind: self._plan, "change": self._change, "drop": self._drop, "raw": self._raw}

    def empty(self):
        return not (self.settings or self.raw or any(self.rows.values()))

    def take(self, place, words):
        """One line."""
        head, rest = words[0], words[1:]
        if head in BY_KIND:
            self._add(place, BY_KIND[head], rest)
        elif head in self.verbs:
            self.verbs[head](place, rest)
        else:
            known = [*KINDS, *self.verbs, "base"]
            raise BadValue(f"no kind of line starts with '{head}'{meant(head, known)}; known are {', '.join(known)}")

    def _plan(self, place, words):
        if self.settings:
            raise BadValue(f"the plan line stands already at {self.settings.place}")
        self.settings = Draft(SETTINGS, place)
        self.settings.put(place, words)

    def _add(self, place, table, words):
        """A row counts also where its line is bad, so that no other line is blamed for it."""
        draft = Draft(table, place, broken=True)
        self.rows[table.kind].append(draft)
        name, words = split_name(words)
        twin = name and self._named(table.kind, name)
        if twin:
            raise BadValue(f"{twin.title()} stands already at {twin.place}")
        draft.name, draft.broken = name, False
        draft.put(place, words)

    def _named(self, kind, name):
        return next((draft for draft in self.rows[kind] if draft.name == name), None)

    def _change(self, place, words):
        if words[:1] == [SETTINGS.kind]:
            if not self.settings:
                raise BadValue("there is no plan line to change")
            self.settings.put(place, words[1:])
        else:
            self._find(words).put(place, words[2:])

    def _drop(self, place, words):
        draft = self._find(words)
        if words[2:]:
            raise BadValue(f"'{words[2]}' after the row to drop")
        self.rows[draft.table.kind].remove(draft)

    def _find(self, words):
        """The row that a kind and a name or number stand for."""
        if len(words) < 2 or "=" in words[1]:
            raise BadValue("write the row's kind and its name or number")
        kind, text = words[:2]
        if kind not in BY_KIND:
            raise BadValue(f"no kind of row is called '{kind}'{meant(kind, KINDS)}")
        rows = self.rows[kind]
        if not text[:1].isdigit():
            draft = self._named(kind, text)
        else:
            draft = rows[word(text)] if word(text) < len(rows) else None
        if draft is None:
            raise BadValue(f"there is no {kind} {text}" + meant(text, [row.name for row in rows]))
        return draft

    def _raw(self, place, words):
        limits = raw_limits()
        for key, value in pairs("raw", words, list(limits)).items():
            number = word(value)
            if number > limits[key]:
                raise BadValue(f"{key}={value} is past {limits[key]}")
            self.raw.append((key, number))
