"""A plan: settings and rows of words, with a name and a place for each row."""
from .columns import word
from .schema import KINDS, SETTINGS
from .troubles import BadValue, meant


class Names:
    """Names of rows, kind by kind; a row without one has its kind and number for a name."""

    def __init__(self, given):
        self.given = given
        self.all = {kind: _complete(kind, names) for kind, names in given.items()}
        self._numbers = {
            kind: {name: row for row, name in enumerate(names) if name} for kind, names in self.all.items()
        }

    def number(self, kind, text):
        """The row that a name or number in text stands for; a number need not exist."""
        if text[:1].isdigit():
            return word(text)
        known = self._numbers[kind]
        if text not in known:
            raise BadValue(f"no {kind} is named '{text}'" + meant(text, known))
        return known[text]

    def name(self, kind, row):
        """The name of a row, or its number where there is no such row."""
        names = self.all[kind]
        return names[row] if row < len(names) else str(row)


def _complete(kind, names):
    """The names with generated ones in the gaps, none of them twice."""
    taken = set(names)
    return [name or free_name(f"{kind}{row}", taken) for row, name in enumerate(names)]


def free_name(name, taken):
    """The name, with as many _ behind it as make it another one than those taken."""
    while name in taken:
        name += "_"
    return name


class Plan:
    """Settings and tables; row numbers and values may be wrong, that is the checker's word."""

    def __init__(self, settings, rows, given_names=None, places=None, raw=()):
        self.settings = SETTINGS.record(*settings)
        self.rows = rows
        self.names = Names(given_names or {kind: [""] * len(rows[kind]) for kind in KINDS})
        self.places = places or {}
        self.raw = tuple(raw)

    @property
    def cycle(self):
        return self.settings.cycle

    @property
    def precision(self):
        return self.settings.precision

    def row(self, kind, number):
        """The row, or None where there is no such row."""
        rows = self.rows[kind]
        return rows[number] if number < len(rows) else None

    def name(self, kind, number):
        return self.names.name(kind, number)

    def title(self, kind, number):
        """The row's name, with its kind where the name does not begin with that."""
        name = self.name(kind, number)
        return name if name.startswith(kind) else f"{kind} {name}"

    def lines(self, kind, number):
        """Where the row stands in text and where it is changed; none for a row of an image."""
        places = self.places.get(kind, ())
        return places[number] if number < len(places) else []
