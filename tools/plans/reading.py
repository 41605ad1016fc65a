"""Plan texts to plans."""
from pathlib import Path

from .drafts import Drafts
from .model import Names, Plan
from .schema import SETTINGS, TABLES
from .statements import statements
from .troubles import BadValue, Place, Trouble


def read_text(path, text):
    """The plan of a text; raises all troubles found, each with its line."""
    reader = Reader()
    reader.take_text(Path(path), text, [])
    return reader.plan(path)


class Reader:
    """Collects the lines of a text and of those it is based on."""

    def __init__(self):
        self.drafts = Drafts()
        self.troubles = []

    def take_text(self, path, text, above):
        above = [*above, path.resolve()]
        for line, words in statements(text):
            place = Place(str(path), line)
            try:
                if words[0] == "base":
                    self._base(path, words[1:], above)
                else:
                    self.drafts.take(place, words)
            except BadValue as bad:
                self.troubles.append((place, str(bad)))

    def _base(self, path, words, above):
        """Takes another text's rows first; its path starts where this text lies."""
        if len(words) != 1:
            raise BadValue("write base and one file")
        if not self.drafts.empty():
            raise BadValue("base stands before all other lines")
        other = path.parent / words[0]
        if other.resolve() in above:
            raise BadValue(f"{words[0]} is based on itself")
        try:
            text = other.read_text(encoding="utf-8-sig")
        except (OSError, UnicodeDecodeError) as error:
            raise BadValue(f"{words[0]} cannot be read: {error}") from None
        self.take_text(other, text, above)

    def plan(self, path):
        """The plan, or all troubles."""
        self._ask_counts(Place(str(path)))
        rows = self.drafts.rows
        given = {kind: [draft.name for draft in drafts] for kind, drafts in rows.items()}
        names = Names(given)
        settings = self._record(self.drafts.settings, names) if self.drafts.settings else None
        records = {kind: [self._record(draft, names) for draft in drafts] for kind, drafts in rows.items()}
        if self.troubles:
            raise Trouble(sorted(self.troubles, key=lambda pair: (pair[0].file, pair[0].line)))
        places = {kind: [draft.lines() for draft in drafts] for kind, drafts in rows.items()}
        return Plan(settings, records, given, places, self.drafts.raw)

    def _ask_counts(self, whole):
        if not self.drafts.settings:
            self.troubles.append((whole, f"no {SETTINGS.kind} line; write {SETTINGS.kind} {SETTINGS.keys[0]}=..."))
        for table in TABLES:
            drafts = self.drafts.rows[table.kind]
            if len(drafts) < table.least:
                self.troubles.append((whole, f"no {table.kind} row; a plan has at least {table.least}"))
            if len(drafts) > table.most:
                message = f"{len(drafts)} {table.kind} rows; a plan has at most {table.most}, and this is the next"
                self.troubles.append((drafts[table.most].place, message))

    def _record(self, draft, names):
        """The words of a row, or None where something is wrong with it."""
        if draft.broken or not self._complete(draft):
            return None
        words = []
        for column in draft.table.columns:
            try:
                words += column.read(draft.values.get(column.key, column.default), names)
            except BadValue as bad:
                self.troubles.append((draft.places[column.key], f"{draft.title()}: {column.key}: {bad}"))
                return None
        return draft.table.record(*words)

    def _complete(self, draft):
        needed = [column.key for column in draft.table.columns if column.default is None]
        missing = [key for key in needed if key not in draft.values]
        if missing:
            self.troubles.append((draft.place, f"{draft.title()} lacks {', '.join(missing)}"))
        return not missing
