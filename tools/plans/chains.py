"""Chains: the path of messages that joins two tasks.

A path goes from a task to the messages it sends or writes, and from a message to the task that reads it.
"""
from collections import deque
from dataclasses import dataclass


@dataclass(frozen=True)
class Leg:
    """A message as a step of a path: a stream or buffer row, from the task that sends or writes to the one that reads."""

    kind: str
    row: int
    source: int
    target: int


def legs(plan):
    """Every message, streams before buffers."""
    for row, stream in enumerate(plan.rows["stream"]):
        yield Leg("stream", row, stream.sender, stream.receiver)
    for row, buffer in enumerate(plan.rows["buffer"]):
        yield Leg("buffer", row, buffer.writer, buffer.reader)


def path(plan, chain):
    """The legs from a chain's first task to its last, as few as can be, or None where no path joins them."""
    row, known = plan.rows["chain"][chain], list(legs(plan))
    reached, ways = {row.first}, deque([(row.first, [])])
    while ways:
        task, way = ways.popleft()
        for leg in known:
            if leg.source == task and leg.target not in reached:
                reached.add(leg.target)
                ways.append((leg.target, [*way, leg]))
                if leg.target == row.last:
                    return ways[-1][1]
    return None


def trouble_of(plan, chain):
    """What questions 29 and 30 would have against a chain, in words, or nothing."""
    row = plan.rows["chain"][chain]
    missing = [task for task in (row.first, row.last) if not plan.row("task", task)]
    if missing:
        return f"no task {missing[0]}"
    if row.first == row.last:
        return "first and last are one task"
    return "" if path(plan, chain) else "no path"
