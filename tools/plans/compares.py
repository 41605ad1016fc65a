"""Two accepted plans compared guest by guest (request 11): which VCPUs have other tasks or pieces, where each first notices, whose own rows are equal.

Cores and VCPUs go by row, tasks by number, windows and pieces wherever they stand. A task belongs to its VCPU, a piece to its task's. A VCPU
notices at a tick where a core's lane shows something of it in one plan, and in the other something else.
"""
from collections import Counter, defaultdict
from dataclasses import dataclass, field
from itertools import zip_longest
from typing import NamedTuple

from .lanes import IDLE, Entry, core_lanes, subject
from .pairs import unpaired


@dataclass
class Guest:
    """What belongs to a VCPU: tasks by number, and pieces."""

    tasks: dict = field(default_factory=dict)
    pieces: list = field(default_factory=list)


class Change(NamedTuple):
    """How many tasks and pieces of a VCPU are the first plan's alone (gone), the second's alone (added), or have other words (changed)."""

    vcpu: int
    tasks_gone: int
    tasks_added: int
    tasks_changed: int
    pieces_gone: int
    pieces_added: int


class Notice(NamedTuple):
    """The first tick at which a VCPU notices, the core, and the entries that are then shown there."""

    tick: int
    core: int
    vcpu: int
    ours: Entry
    theirs: Entry


def changes(first, second):
    """The VCPUs that differ, by number."""
    ours, theirs = guests(first), guests(second)
    compared = [change(vcpu, ours[vcpu], theirs[vcpu]) for vcpu in sorted({*ours, *theirs})]
    return [found for found in compared if any(found[1:])]


def guests(plan):
    """The guest of each VCPU that has a task."""
    found, tasks = defaultdict(Guest), plan.rows["task"]
    for number, task in enumerate(tasks):
        found[task.vcpu].tasks[number] = task
    for piece in plan.rows["piece"]:
        found[tasks[piece.task].vcpu].pieces.append(piece)
    return found


def change(vcpu, ours, theirs):
    both = ours.tasks.keys() & theirs.tasks.keys()
    return Change(
        vcpu,
        len(ours.tasks) - len(both),
        len(theirs.tasks) - len(both),
        sum(ours.tasks[number] != theirs.tasks[number] for number in both),
        len(list(unpaired(ours.pieces, theirs.pieces))),
        len(list(unpaired(theirs.pieces, ours.pieces))),
    )


def alone(first, second):
    """The VCPUs of both plans whose own rows are equal. What a VCPU shows hangs on nothing else, wherever its windows and pieces stand."""
    return [vcpu for vcpu, (ours, theirs) in enumerate(zip(own_rows(first), own_rows(second))) if ours == theirs]


def own_rows(plan):
    """What belongs to each VCPU, by number: its core with d and v, its windows, tasks and pieces."""
    found, windows = guests(plan), defaultdict(Counter)
    for window in plan.rows["window"]:
        windows[window.vcpu][window] += 1
    for vcpu, (core,) in enumerate(plan.rows["vcpu"]):
        switches = plan.rows["core"][core]
        yield core, switches.d, switches.v, windows[vcpu], found[vcpu].tasks, Counter(found[vcpu].pieces)


def the_one(found):
    """The VCPU that the premises set aside: the only one that differs; None where none does, or several do."""
    return found[0].vcpu if len(found) == 1 else None


def notices(first, second):
    """Where each VCPU that notices does so first, the first of them first; below the shorter cycle's end."""
    found, nothing = {}, [Entry(0, IDLE, 0)]
    lanes = zip_longest(core_lanes(first), core_lanes(second), fillvalue=nothing)
    for core, (ours, theirs) in enumerate(lanes):
        for tick, our, their in side_by_side(ours, theirs, min(first.cycle, second.cycle)):
            for vcpu in noticing(subject(first, our), subject(second, their)):
                notice = Notice(tick, core, vcpu, our, their)
                found[vcpu] = min(notice, found.get(vcpu, notice))
    return sorted(found.values())


def side_by_side(ours, theirs, cycle):
    """Each tick below the cycle at which an entry of either lane begins, and both lanes' entries there."""
    our_starts, their_starts = ({entry.tick: entry for entry in lane} for lane in (ours, theirs))
    our = their = None
    for tick in sorted({*our_starts, *their_starts}):
        our, their = our_starts.get(tick, our), their_starts.get(tick, their)
        if tick < cycle:
            yield tick, our, their


def noticing(ours, theirs):
    """The VCPUs that notice where a core shows these two."""
    return {shown.vcpu for shown in (ours, theirs) if shown} if ours != theirs else set()
