"""One plan for two modes (request 10): the first plan whole, with what the second adds.

The second's tasks behind the shared ones are appended. Its pieces, streams, frames, buffers and chains get the new numbers of the tasks and
streams that they name; a row that then equals a row of the first is that row (the lowest such), others are appended. Then pieces and frames
are put in order. Names and lines go with their rows.
"""
from itertools import count
from typing import NamedTuple

from .model import Plan, free_name
from .ordering import in_order
from .schema import BY_KIND, KINDS

AGREEING = ("core", "vcpu", "window", "link")  # kinds that both plans have alike
GROWING = tuple(kind for kind in KINDS if kind not in AGREEING)


class Rename(NamedTuple):
    """A row of the second that has another name in the joined plan: as a row of the first (found), or since another row has its name."""

    kind: str
    row: int
    old: str
    new: str
    found: bool


class Join(NamedTuple):
    """The joined plan, how many rows of the second are rows of the first, kind by kind, and which names are others."""

    plan: Plan
    found: dict
    renames: list


class Grown(NamedTuple):
    """A table of the joined plan before it is put in order: rows, names and lines; the numbers of the second's rows in it, and those added."""

    rows: list
    names: list
    lines: list
    numbers: list
    added: list


def joined(first, second, shared):
    """The join of two accepted plans that agree and share so many leading tasks (questions 35 and 36)."""
    tables = {}
    for kind in KINDS:
        tables[kind] = grown(kind, first, second, shared, tables)
    rows, names, lines = ({kind: table[part] for kind, table in tables.items()} for part in range(3))
    found = {kind: len(table.numbers) - len(table.added) for kind, table in tables.items()}
    renames = [rename for kind, table in tables.items() for rename in renamed(kind, second.names.given[kind], table)]
    return Join(in_order(Plan(first.settings, rows, names, lines)), found, renames)


def grown(kind, first, second, shared, tables):
    """A table of the joined plan; those of the rows that it names are there."""
    ours, theirs = first.rows[kind], [renumbered(kind, row, tables) for row in second.rows[kind]]
    same = same_rows(kind, ours, theirs, shared)
    added = [row for row, number in enumerate(same) if number is None]
    names = [*first.names.given[kind], *new_names(first.names.given[kind], second.names.given[kind], added)]
    lines = [*(first.lines(kind, row) for row in range(len(ours))), *(second.lines(kind, row) for row in added)]
    return Grown([*ours, *(theirs[row] for row in added)], names, lines, new_numbers(same, len(ours)), added)


def renumbered(kind, row, tables):
    """A row of the second with the numbers that the rows it names have in the joined plan."""
    naming = [column for column in BY_KIND[kind].columns if column.names_rows_of in GROWING]
    return row._replace(**{column.key: tables[column.names_rows_of].numbers[getattr(row, column.key)] for column in naming})


def same_rows(kind, ours, theirs, shared):
    """For each of their rows the number of our row that it is, or None; tasks are ours by their place alone."""
    if kind in AGREEING or kind == "task":
        alike = shared if kind == "task" else len(ours)
        return [number if number < alike else None for number in range(len(theirs))]
    lowest = {row: number for number, row in reversed(list(enumerate(ours)))}
    return [lowest.get(row) for row in theirs]


def new_numbers(same, ours):
    """The number of each of their rows: that of our row, or the next behind ours, which are so many."""
    behind = count(ours)
    return [next(behind) if number is None else number for number in same]


def new_names(ours, theirs, added):
    """The names of the added rows; one that a row of ours has, which is another row, is made free."""
    taken = {*ours, *theirs}
    for row in added:
        name = theirs[row]
        if name and name in ours:
            name = free_name(name, taken)
            taken.add(name)
        yield name


def renamed(kind, names, table):
    """The renames of a kind, of rows that had these names."""
    for row, (old, number) in enumerate(zip(names, table.numbers)):
        new = table.names[number]
        if old and new and old != new:
            yield Rename(kind, row, old, new, row not in table.added)
