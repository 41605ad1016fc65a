"""Whether two plans can be joined: questions 35 to 37, and in words what differs where one says no."""
from itertools import takewhile
from pathlib import Path

from .joins import AGREEING, joined
from .pairs import differing, other_rows, other_settings, told
from .questions import phrase
from .schema import TABLES
from .troubles import Place, Trouble
from .writing import write_text


def join(first, second, shared):
    """The join of two modes, or a Trouble that tells what keeps them apart."""
    for mode in (first, second):
        mode.refuse_raw("join")
    refuse_for(35, first, second, list(disagreements(first, second)))
    refuse_for(36, first, second, unshared(first, second, shared))
    found = joined(first.plan, second.plan, shared)
    refuse_for(37, first, second, list(overfull(first, second, found.plan)))
    return found


def join_text(first, second, shared, plan):
    """The text of a joined plan; it says what it was made from."""
    files = " joined with ".join(Path(mode.file).name for mode in (first, second))
    return write_text(plan, f"# {files}, {shared} leading tasks shared (tools/plan join).")


def refuse_for(number, first, second, pairs):
    """Raises the (place, words) pairs that say no to a question, where there are any."""
    if pairs:
        place = Place(second.file)
        raise Trouble([(place, f"cannot be joined to {first.file} ({number}): {phrase(number)}"), *told(pairs, place)])


def disagreements(first, second):
    """What says no to 35: H, P, and rows of the kinds that both plans have alike."""
    yield from other_settings(first, second)
    for kind in AGREEING:
        yield from other_rows(first, second, kind)


def unshared(first, second, shared):
    """What says no to 36: too few tasks, or tasks that differ; before it, how many leading tasks are equal."""
    counts = {mode.file: len(mode.rows("task")) for mode in (first, second)}
    found = [(Place(file), f"{shared} shared tasks of {count}") for file, count in counts.items() if shared > count]
    found += differing(first, second, "task", min(shared, *counts.values()))
    pairs = zip(first.rows("task"), second.rows("task"))
    equal = len(list(takewhile(lambda pair: pair[0] == pair[1], pairs)))
    return [(Place(second.file), f"of the leading tasks {equal} are equal"), *found] if found else []


def overfull(first, second, plan):
    """What says no to 37: tables of the joined plan with too many rows."""
    for table in TABLES:
        rows, ours = len(plan.rows[table.kind]), len(first.rows(table.kind))
        if rows > table.most:
            yield Place(second.file), f"{rows} {table.kind} rows, at most {table.most}: {ours} of {first.file}, {rows - ours} appended"
