"""Gate lists for the switches: which queues of a link are open from when on and for how long, as its lane's entries have it."""
from itertools import groupby
from typing import NamedTuple

from .lanes import SENDING
from .listing import part
from .troubles import BadValue

QUEUES = 8


class Gate(NamedTuple):
    """From a tick on, for so many ticks, the queues of an octet's bits are open, for these frames."""

    tick: int
    interval: int
    octet: int
    frames: tuple


def gate_list(plan, entries):
    """The gates of a link from the entries of its lane: a queue is open while a frame in it is sent. Neighbouring octets differ, so frames of
    one queue that touch share an interval."""
    runs = [(octet, list(run)) for octet, run in groupby(entries, lambda entry: octet_of(plan, entry))]
    ends = [*(run[0].tick for _, run in runs[1:]), plan.cycle]
    return [Gate(run[0].tick, end - run[0].tick, octet, frames_of(run)) for (octet, run), end in zip(runs, ends)]


def octet_of(plan, entry):
    """The open queues while an entry is shown, queue 0 as the lowest bit."""
    return 1 << plan.rows["stream"][plan.rows["frame"][entry.row].stream].queue if entry.kind == SENDING else 0


def frames_of(run):
    return tuple(entry.row for entry in run if entry.kind == SENDING)


def gate_lanes(plan, lanes):
    """The gate list of each link, by row; the lanes of links come after those of the cores."""
    cores, links = (len(plan.rows[kind]) for kind in ("core", "link"))
    if len(lanes) != cores + links:
        raise BadValue(f"prints {len(lanes)} lanes, not {cores + links}")
    return [gate_list(plan, lane) for lane in lanes[cores:]]


def gate_words(file, link, gates):
    """A link's gate list as a table."""
    header = ["from", "interval", "gates", "queues", "frames"]
    return part(link_title(file, link), header, [_gate_line(file.plan, gate) for gate in gates])


def link_title(file, link):
    row = file.rows("link")[link]
    return f"{file.title('link', link)}, node {row.from_node} → node {row.to_node}"


def _gate_line(plan, gate):
    queues = " ".join(str(queue) for queue in range(QUEUES) if gate.octet >> queue & 1)
    frames = " ".join(plan.name("frame", frame) for frame in gate.frames)
    return [gate.tick, gate.interval, f"{gate.octet:0{QUEUES}b}", queues or "-", frames]
