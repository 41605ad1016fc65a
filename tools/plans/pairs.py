"""Two plans beside each other: rows by file and line, kind, number and name, and what differs of them in words. Numbers are compared, not names."""
from collections import Counter
from dataclasses import dataclass

from .model import Plan
from .ordering import order_key
from .schema import BY_KIND, SETTINGS
from .troubles import Place, trouble

MANY = 12  # lines; of more the last are only counted


@dataclass(frozen=True)
class PlanFile:
    """A plan, and the file it comes from."""

    file: str
    plan: Plan

    def rows(self, kind):
        return self.plan.rows[kind]

    def refuse_raw(self, verb):
        """Raises where the text breaks its image on purpose; the image itself can be taken."""
        if self.plan.raw:
            raise trouble(self.file, f"has raw lines, so its rows need not be those of its image; {verb} the image")

    def place(self, kind, row):
        """Where the row got its words last, or the file."""
        return [Place(self.file), *self.plan.lines(kind, row)][-1]

    def title(self, kind, row):
        """Kind, number and name of a row."""
        name = self.plan.names.given[kind][row]
        return f"{kind} {row} ({name})" if name else f"{kind} {row}"

    def shown(self, column, row):
        """A column's value in a row, with the number where a name may stand for it, since numbers are compared."""
        words = words_of(column, row)
        text = column.show(words, self.plan.names)
        if not column.names_rows_of:
            return text
        nameless = (f"{words[0]}", f"{column.names_rows_of}{words[0]}")
        return f"{words[0]}" if text in nameless else f"{words[0]} ({text})"

    def described(self, kind, row):
        """All values of a row."""
        record = self.rows(kind)[row]
        return ", ".join(f"{column.key} {self.shown(column, record)}" for column in BY_KIND[kind].columns)


def told(pairs, place):
    """The (place, words) pairs, as many as are told; of more the last are counted, at this place."""
    return pairs if len(pairs) <= MANY else [*pairs[:MANY - 1], (place, f"{len(pairs) - MANY + 1} more rows differ")]


def other_settings(first, second):
    """H and P, as far as they differ."""
    for key, ours, theirs in zip(SETTINGS.keys, first.plan.settings, second.plan.settings):
        if ours != theirs:
            yield Place(second.file), f"{key} {theirs}, not {ours}"


def other_rows(first, second, kind):
    """The rows of a kind that differ, row by row, and those that one plan has more."""
    yield from differing(first, second, kind, min(len(first.rows(kind)), len(second.rows(kind))))
    yield from left_over(first, second, kind)
    yield from left_over(second, first, kind)


def left_over(plan, other, kind):
    """The rows that a plan has more than the other."""
    rows = len(other.rows(kind))
    for row in range(rows, len(plan.rows(kind))):
        yield plan.place(kind, row), f"{plan.title(kind, row)} is missing in {other.file}, which has {rows}"


def differing(first, second, kind, rows):
    """The first rows of a kind, so many, as far as their words differ."""
    for row in range(rows):
        words = "; ".join(other_words(first, second, kind, row))
        if words:
            yield second.place(kind, row), f"{second.title(kind, row)} differs from {first.place(kind, row)}: {words}"


def other_words(first, second, kind, row):
    """The values of the second's row that are not the first's."""
    ours, theirs = first.rows(kind)[row], second.rows(kind)[row]
    for column in BY_KIND[kind].columns:
        if words_of(column, ours) != words_of(column, theirs):
            yield f"{column.key} {second.shown(column, theirs)}, not {first.shown(column, ours)}"


def words_of(column, row):
    return [getattr(row, field) for field in column.fields]


def missing_rows(first, second, kind):
    """The windows or pieces that one plan alone has, wherever they stand; those of both plans in one order, so that a moved one is told as a pair."""
    missing = []
    for plan, other in ((first, second), (second, first)):
        missing += [(plan.rows(kind)[row], row, plan, other) for row in unpaired(plan.rows(kind), other.rows(kind))]
    for _, row, plan, other in sorted(missing, key=lambda found: order_key(found[0])):
        yield plan.place(kind, row), f"{plan.title(kind, row)} is missing in {other.file}: {plan.described(kind, row)}"


def unpaired(ours, theirs):
    """The places of our rows that no row of theirs equals, each of theirs being the equal of one row at most."""
    left = Counter(theirs)
    for place, row in enumerate(ours):
        if left[row]:
            left[row] -= 1
        else:
            yield place
