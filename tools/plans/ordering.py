"""The order of windows, pieces and frames: by start, equal starts by the row's words from the first on (question 32)."""
from bisect import bisect_right
from dataclasses import dataclass

from .model import Plan
from .schema import BY_KIND, ORDERED


@dataclass(frozen=True)
class Fall:
    """How a row is below its predecessor: the fields that are equal, the one that decides, and the row it belongs before."""

    equal: tuple
    decides: str
    before: int


def order_key(row):
    """What rows are compared by: the start, then all words of the row."""
    return (row.start, *row)


def order_of(plan, kind):
    """The row numbers of a kind in order; equal rows stay as they stand, and so do kinds without a start."""
    rows = plan.rows[kind]
    return sorted(range(len(rows)), key=lambda number: order_key(rows[number])) if kind in ORDERED else range(len(rows))


def in_order(plan):
    """The plan with windows, pieces and frames in order; names and lines go with their rows."""
    rows, names, places = dict(plan.rows), dict(plan.names.given), dict(plan.places)
    for kind in ORDERED:
        order = order_of(plan, kind)
        for lists in (rows, names, places):
            if kind in lists:
                lists[kind] = [lists[kind][number] for number in order]
    return Plan(plan.settings, rows, names, places, plan.raw)


def below(plan, kind, row):
    """Whether a row stands below the row before it."""
    rows = plan.rows[kind] if kind in ORDERED else ()
    return 0 < row < len(rows) and order_key(rows[row]) < order_key(rows[row - 1])


def fall(plan, kind, row):
    """How a row stands below its predecessor, the rows before being in order; None where it does not."""
    if not below(plan, kind, row):
        return None
    rows = plan.rows[kind]
    fields = ["start", *(field for field in BY_KIND[kind].record._fields if field != "start")]
    differ = [getattr(rows[row], field) != getattr(rows[row - 1], field) for field in fields].index(True)
    before = bisect_right([order_key(record) for record in rows[:row]], order_key(rows[row]))
    return Fall(tuple(fields[:differ]), fields[differ], before)
