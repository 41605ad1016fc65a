#!/usr/bin/env python3
"""images.py SHAPE [SIZE]: writes a plan image that is hard for a checker, or one of a size, to standard output."""
import sys
from collections import defaultdict
from pathlib import Path

sys.path.insert(0, str(Path(__file__).resolve().parent.parent / "tools"))

from plans.image import encode
from plans.model import Plan
from plans.ordering import in_order
from plans.schema import BY_KIND, KINDS, SETTINGS

# What a word is where a shape does not say. The schema says it of all other words: a column's default, else 0.
UNSAID = {
    "task": {"cores": 1, "budget": 1},
    "window": {"length": 1},
    "piece": {"length": 1},
    "link": {"delay": 1, "rate": 352, "lowest": 1},
    "stream": {"hops": 1, "payload": 46},
}

# A core without switches, and its VCPU.
ONE_CORE = {"core": [{}], "vcpu": [{}]}


def row(kind, words):
    """A row by the names of its words."""
    return BY_KIND[kind].row(**{**UNSAID.get(kind, {}), **words})


def encoded(cycle, **tables):
    """The image of tables given by name, put in order; those not named are empty. P is 0."""
    tables = {**dict.fromkeys(KINDS, ()), **tables}
    rows = {kind: [row(kind, words) for words in given] for kind, given in tables.items()}
    return encode(in_order(Plan(SETTINGS.row(cycle=cycle), rows)))


def task(period, **words):
    """A task that may take its whole period."""
    return {"period": period, "deadline": period, **words}


def many_jobs():
    """H = 1,000,000 and T = 1 for 256 tasks of one core. Task 0 has a piece in each of its first 2,048 jobs, so that question 13 looks
    at as many jobs as it ever can before it says no: 13 3 0."""
    pieces = [dict(job=k, start=k) for k in range(2048)]
    return encoded(1_000_000, **ONE_CORE, task=[task(1)] * 256, window=[dict(length=1_000_000)], piece=pieces)


def windows():
    """1,024 windows of one core and nothing else."""
    return encoded(1024, **ONE_CORE, window=[dict(start=start) for start in range(1024)])


def one_job():
    """2,048 pieces of one job of one task in one window."""
    pieces = [dict(start=start) for start in range(2048)]
    return encoded(2048, **ONE_CORE, task=[task(2048, budget=2048)], window=[dict(length=2048)], piece=pieces)


def unit_jobs():
    """2,048 jobs of one tick of one task, in one window."""
    pieces = [dict(job=k, start=k) for k in range(2048)]
    return encoded(2048, **ONE_CORE, task=[task(1)], window=[dict(length=2048)], piece=pieces)


def last_window():
    """2,048 pieces of 256 tasks, all in the last of 1,024 windows of one core."""
    windows = [dict(start=start) for start in range(0, 2046, 2)] + [dict(start=2048, length=2048)]
    pieces = [dict(task=start % 256, start=start) for start in range(2048, 4096)]
    return encoded(4096, **ONE_CORE, task=[task(4096, budget=8)] * 256, window=windows, piece=pieces)


def long_buffers():
    """64 buffers between the same two tasks of 1,024 jobs each."""
    pieces = [dict(task=end, job=k, start=2 * k + end) for k in range(1024) for end in (0, 1)]
    buffers = [dict(number=number, writer=0, reader=1) for number in range(64)]
    return encoded(2048, **ONE_CORE, task=[task(2)] * 2, window=[dict(length=2048)], piece=pieces, buffer=buffers)


def overlapping():
    """1,024 windows of one VCPU, each but the first begun before the one before it ends, none where another ends: each looks at all others
    for its charge. 8 4 1."""
    return encoded(4096, **ONE_CORE, window=[dict(start=start, length=2048) for start in range(1, 1025)])


def empty():
    """1,024 windows of no ticks, which look at all others too. 7 4 0."""
    return encoded(1025, **ONE_CORE, window=[dict(start=start, length=0) for start in range(1, 1025)])


def one_buffer():
    """64 rows of one buffer number between tasks of 16 jobs each, so that question 24 walks along all pairs of rows."""
    pieces = [dict(task=turn, job=k, start=128 * k + turn) for k in range(16) for turn in range(128)]
    buffers = [dict(writer=turn, reader=turn + 1) for turn in range(0, 128, 2)]
    return encoded(2048, **ONE_CORE, task=[task(128)] * 128, window=[dict(length=2048)], piece=pieces, buffer=buffers)


def slots(count, lead=0):
    """H and the rows, without windows, of so many transactions of eight jobs. Each has four tasks, two on either of two nodes, a stream of
    one hop from the first to the third and a buffer from the first to the second: 32 pieces in all. In every period each has 16 ticks
    of its own, after so many that nobody has."""
    period = lead + 16 * count
    rows = defaultdict(list, core=[dict(node=node, d=1, v=1) for node in (0, 1)], vcpu=[dict(core=core) for core in (0, 1)])
    rows["link"] = [dict(from_node=0, to_node=1)]
    for number in range(count):
        first = 4 * number
        rows["task"] += [task(period, vcpu=vcpu, cores=3, budget=2) for vcpu in (0, 0, 1, 1)]
        rows["stream"].append(dict(sender=first, receiver=first + 2))
        rows["buffer"].append(dict(number=number, writer=first, reader=first + 1))
        for k in range(8):
            start = k * period + lead + 16 * number
            rows["piece"] += [dict(task=first + turn, job=k, start=start + at, length=3) for turn, at in enumerate((1, 4, 8, 11))]
            rows["frame"].append(dict(stream=number, job=k, start=start + 4))
    return 8 * period, rows


def transactions(count):
    """The slots with a window for every two pieces."""
    cycle, rows = slots(count)
    rows["window"] = [dict(vcpu=vcpu, start=start + 7 * vcpu, length=8) for vcpu in (0, 1) for start in range(0, cycle, 16)]
    return encoded(cycle, **rows)


def pieces(count):
    """Transactions by their number of pieces."""
    return transactions(count // 32)


def one_core(count):
    """So many pieces on one core, one for each of eight jobs of its tasks, and a window for every two."""
    return cores(count, 1)


def eight_cores(count):
    """The same on eight cores of two nodes: where a piece of one begins, one of each begins."""
    return cores(count, 8)


def cores(count, most):
    """So many pieces, in eight jobs of tasks that take turns on so many cores."""
    tasks = count // 8
    rounds = -(-tasks // most)
    period = 8 * -(-rounds // 2)
    rows = defaultdict(list)
    for core in range(most):
        rows["core"].append(dict(node=core % 2, d=1, v=1))
        rows["vcpu"].append(dict(core=core))
    rows["task"] = [task(period, vcpu=number % most, cores=1 << number % most, budget=2) for number in range(tasks)]
    for k in range(8):
        for number in range(tasks):
            turn = number // most
            start = k * period + 8 * (turn // 2)
            rows["piece"].append(dict(task=number, job=k, start=start + 1 + 3 * (turn % 2), length=3))
            if turn % 2 == 0:
                rows["window"].append(dict(vcpu=number % most, start=start, length=8))
    return encoded(8 * period, **rows)


def hard_rows():
    """64 transactions whose windows come last, after 1,022 of a third core, and whose buffers have one number."""
    cycle, rows = slots(64, 1024)
    rows["core"].append(dict(node=2))
    rows["vcpu"].append(dict(core=2))
    rows["window"] = [dict(vcpu=2, start=start) for start in range(1022)]
    rows["window"] += [dict(vcpu=vcpu, start=1022, length=cycle - 1022) for vcpu in (0, 1)]
    rows["buffer"] = [{**buffer, "number": 0} for buffer in rows["buffer"]]
    return cycle, rows


def one_number():
    """The hard rows, accepted."""
    cycle, rows = hard_rows()
    return encoded(cycle, **rows)


def refused_late():
    """The hard rows, and the last buffer row repeats the one before it: 24 9 63."""
    cycle, rows = hard_rows()
    rows["buffer"][63] = rows["buffer"][62]
    return encoded(cycle, **rows)


def two_nodes(period):
    """A core with one window on each of two nodes, and a link each way."""
    return {
        "core": [dict(node=node) for node in (0, 1)],
        "vcpu": [dict(core=core) for core in (0, 1)],
        "window": [dict(vcpu=vcpu, length=period) for vcpu in (0, 1)],
        "link": [dict(from_node=node, to_node=1 - node) for node in (0, 1)],
    }


def row_of_tasks(count, across, period):
    """Tasks of one tick, one after another: so many take turns on two nodes, and all others are on the first."""
    tasks = [task(period, vcpu=number % 2 if number < across else 0, cores=3) for number in range(count)]
    return {"task": tasks, "piece": [dict(task=number, start=16 * number) for number in range(count)]}


def diamond():
    """Two messages between neighbours along a row of 64 tasks, streams between two nodes and then buffers on one: 2^63 paths. Each of 32
    chains goes to one more task, which only the last message of the first task leads to, so that a walk looks at all others before. The
    two streams of neighbours have a queue each, since both wait from their sender's end on."""
    period = 16 * 66
    pairs = [(number, number + 1) for number in range(63) for _ in range(2)]
    frames = [dict(stream=number, link=first % 2, start=16 * first + 4 + 4 * (number % 2)) for number, (first, _) in enumerate(pairs[:64])]
    buffers = pairs[64:] + [(0, 64)] * 2
    return encoded(
        period,
        **two_nodes(period),
        **row_of_tasks(65, 33, period),
        stream=[dict(sender=first, receiver=last, queue=number % 2) for number, (first, last) in enumerate(pairs[:64])],
        frame=frames,
        buffer=[dict(number=number, writer=first, reader=last) for number, (first, last) in enumerate(buffers)],
        chain=[dict(first=0, last=64)] * 32,
    )


def long_chain():
    """One path of 127 messages, streams between two nodes and then buffers on one, and 32 chains from its first task to one that only the
    last message leads to: a walk looks at every message from every task."""
    period = 16 * 129
    buffers = [dict(number=number, writer=64 + number, reader=65 + number) for number in range(63)]
    return encoded(
        period,
        **two_nodes(period),
        **row_of_tasks(129, 65, period),
        stream=[dict(sender=number, receiver=number + 1) for number in range(64)],
        frame=[dict(stream=number, link=number % 2, start=16 * number + 4) for number in range(64)],
        buffer=[*buffers, dict(number=63, writer=0, reader=128)],
        chain=[dict(first=0, last=128)] * 32,
    )


def routes():
    """64 streams of seven hops to and fro between two nodes, one after another, all in one queue: 448 frames, whose stays but the first of
    each stream hang on the hop before. On each link they do not overlap, and few ticks lie between."""
    slot, hops = 32, 7
    cycle = 64 * slot
    ends = [dict(task=2 * number + end, start=slot * number + 30 * end) for number in range(64) for end in (0, 1)]
    frames = [dict(stream=number, hop=hop, link=hop % 2, start=slot * number + 2 + 4 * hop) for number in range(64) for hop in range(hops)]
    return encoded(
        cycle,
        **two_nodes(cycle),
        task=[task(cycle, vcpu=number % 2, cores=3) for number in range(128)],
        piece=ends,
        stream=[dict(sender=2 * number, receiver=2 * number + 1, hops=hops) for number in range(64)],
        frame=frames,
    )


def turns(parity):
    """One task of 1,024 jobs of one tick, in the even or the odd ticks of one window."""
    pieces = [dict(job=k, start=2 * k + parity) for k in range(1024)]
    return encoded(2048, **ONE_CORE, task=[task(2)], window=[dict(length=2048)], piece=pieces)


def even_ticks():
    return turns(0)


def odd_ticks():
    return turns(1)


def at_once(order):
    """64 streams in an order, each on a link of its own, whose frames of one job all start in one tick: 512 frames, 8 jobs."""
    period, cycle = 200, 1600
    nodes = two_nodes(cycle)
    nodes["link"] = [dict(from_node=0, to_node=1)] * 64
    sent = [dict(task=stream, job=k, start=k * period + stream) for k in range(8) for stream in range(64)]
    got = [dict(task=64 + stream, job=k, start=k * period + 67 + stream) for k in range(8) for stream in range(64)]
    return encoded(
        cycle,
        **nodes,
        task=[task(period, vcpu=number // 64, cores=3) for number in range(128)],
        piece=sent + got,
        stream=[dict(sender=number, receiver=64 + number) for number in order],
        frame=[dict(stream=row, job=k, link=number, start=k * period + 64) for k in range(8) for row, number in enumerate(order)],
    )


def at_once_rising():
    return at_once(range(64))


def at_once_falling():
    return at_once(range(63, -1, -1))


SIZED = [pieces, one_core, eight_cores]
HARD = [many_jobs, windows, overlapping, empty, one_job, unit_jobs, last_window, long_buffers, one_buffer, one_number, refused_late]
PAIRED = [even_ticks, odd_ticks, at_once_rising, at_once_falling]
SHAPES = [*HARD, diamond, long_chain, routes, *PAIRED, *SIZED]


NAMES = [make.__name__ for make in SHAPES]


def image(shape, *size):
    return next(make for make in SHAPES if make.__name__ == shape)(*size)


if __name__ == "__main__":
    sys.stdout.buffer.write(image(sys.argv[1], *map(int, sys.argv[2:])))
