"""What lanes show in an accepted plan: entries, as dispatch tables have them; those of each core's lane, and what such an entry is about."""
from bisect import bisect_left
from collections import defaultdict
from typing import NamedTuple

from .meaning import Meaning

IDLE, VCPU_SWITCH, WINDOW, TASK_SWITCH, WORK, SENDING = range(6)


class Entry(NamedTuple):
    """From this tick on, until the next entry's, a lane shows this kind and row."""

    tick: int
    kind: int
    row: int


class Stretch(NamedTuple):
    """The ticks of a window or a piece; until it has switched it shows its switch."""

    start: int
    switched: int
    end: int
    row: int


class Subject(NamedTuple):
    """What a VCPU shows: the kind, and for task switch and work task and job, whichever row the piece has. The window's row does not matter."""

    vcpu: int
    kind: int
    task: int = None
    job: int = None


def core_lanes(plan):
    """The entries of each core's lane, by the core's row."""
    meaning, pieces = Meaning(plan), plan.rows["piece"]
    outer = by_core(plan, "window", meaning.core_of_window, meaning.window_charge)
    inner = by_core(plan, "piece", meaning.core_of_piece, lambda row: meaning.piece_charge(pieces[row].task))
    return [entries(plan.cycle, outer[core], inner[core]) for core in range(len(plan.rows["core"]))]


def by_core(plan, kind, core_of, charge_of):
    """The stretches of windows or pieces on each core, by start."""
    found = defaultdict(list)
    for row, record in enumerate(plan.rows[kind]):
        found[core_of(row)].append(Stretch(record.start, record.start + charge_of(row), record.start + record.length, row))
    return {core: sorted(found[core]) for core in range(len(plan.rows["core"]))}


def entries(cycle, windows, pieces):
    """A lane's entries: something else can be shown only from the cycle's start and where a stretch starts, has switched or ends."""
    found = []
    for tick in sorted({0, *(tick for stretch in (*windows, *pieces) for tick in stretch[:3])}):
        entry = Entry(tick, *shown(tick, windows, pieces))
        if tick < cycle and (not found or entry[1:] != found[-1][1:]):
            found.append(entry)
    return found


def shown(tick, windows, pieces):
    """Kind and row at a tick: a piece's, else a window's, else idle."""
    for stretches, switch, rest in ((pieces, TASK_SWITCH, WORK), (windows, VCPU_SWITCH, WINDOW)):
        stretch = stretch_at(tick, stretches)
        if stretch:
            return switch if tick < stretch.switched else rest, stretch.row
    return IDLE, 0


def stretch_at(tick, stretches):
    """The stretch that a tick lies in, or None; they do not overlap."""
    started = bisect_left(stretches, (tick + 1,))
    return stretches[started - 1] if started and tick < stretches[started - 1].end else None


def subject(plan, entry):
    """What an entry is about; None for idle."""
    if entry.kind == IDLE:
        return None
    if entry.kind in (VCPU_SWITCH, WINDOW):
        return Subject(plan.rows["window"][entry.row].vcpu, entry.kind)
    piece = plan.rows["piece"][entry.row]
    return Subject(plan.rows["task"][piece.task].vcpu, entry.kind, piece.task, piece.job)
