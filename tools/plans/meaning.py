"""What rows mean: jobs, charges, frame lengths, arrivals and stays, messages and holds, by the plan paper's words.

Any readable plan can be asked, also one that breaks questions: what a missing row would tell is None, and jobs without
a piece have no first start and last end.
"""
from collections import defaultdict
from dataclasses import dataclass
from typing import NamedTuple

AROUND_PAYLOAD = 42  # bytes of a tagged Ethernet frame besides its payload: header, check, preamble and gap
BITS_OF_BYTE = 8


class Arrival(NamedTuple):
    """The first and the last tick at which a frame may arrive, as read on the sending node's clock."""

    earliest: int
    latest: int

    def __str__(self):
        return f"{self.earliest}..{self.latest}"


@dataclass(frozen=True)
class Job:
    """A job of a task; pieces are row numbers by start."""

    task: int
    number: int
    release: int
    due: int
    pieces: tuple
    first: int
    last: int
    ticks: int
    owed: int


@dataclass(frozen=True)
class Step:
    """A hop of a message: its frame row, when it may start, when it does, its arrival, and from when on all clocks see it arrived."""

    hop: int
    frame: int
    ready: int
    start: int
    end: int
    arrival: Arrival
    seen: int


@dataclass(frozen=True)
class Message:
    """A stream's job; sender and receiver are jobs or None."""

    stream: int
    job: int
    sender: Job
    receiver: Job
    steps: tuple
    ready: int
    latency: int


@dataclass(frozen=True)
class Hold:
    """The ticks in which a buffer row has the buffer, a number on one node; when its write ends and its read starts."""

    row: int
    number: int
    node: int
    job: int
    start: int
    end: int
    written: int
    read: int


@dataclass(frozen=True)
class Stay:
    """The ticks in which a frame may be in a queue of its link: it waits until its start, is sent until its end. Since when hangs on the
    sender's job (hop 0) or on the frame of the hop before; None where that is not there."""

    frame: int
    link: int
    queue: int
    since: int
    start: int
    end: int
    before: int

    @property
    def begin(self):
        """Where the stay begins: never later than the frame, which an accepted plan's does anyway."""
        return self.start if self.since is None else min(self.since, self.start)

    @property
    def waits(self):
        return self.start - self.begin

    def clash(self, other):
        """From which tick to which two frames are in one queue of a link, or None."""
        first, end = max(self.begin, other.begin), min(self.end, other.end)
        return (first, end) if (self.link, self.queue) == (other.link, other.queue) and first < end else None


class Meaning:
    """The plan's rows read together."""

    def __init__(self, plan):
        self.plan = plan
        self.pieces = self._group("piece", lambda piece: (piece.task, piece.job), lambda piece: piece.start)
        self.windows_by_end = self._group("window", lambda row: (row.vcpu, row.start + row.length), lambda row: row.start)
        self.frames = self._group("frame", lambda frame: (frame.stream, frame.job), lambda frame: (frame.hop, frame.start))
        self.jobs_with_pieces = _second_by_first(self.pieces)
        self.jobs_with_frames = _second_by_first(self.frames)

    def _group(self, kind, key, order):
        rows, groups = self.plan.rows[kind], defaultdict(list)
        for number in sorted(range(len(rows)), key=lambda number: order(rows[number])):
            groups[key(rows[number])].append(number)
        return groups

    def core_of_vcpu(self, vcpu):
        row = self.plan.row("vcpu", vcpu)
        return row.core if row and self.plan.row("core", row.core) else None

    def core_of_task(self, task):
        row = self.plan.row("task", task)
        return self.core_of_vcpu(row.vcpu) if row else None

    def node_of_task(self, task):
        core = self.core_of_task(task)
        return None if core is None else self.plan.rows["core"][core].node

    def core_of_window(self, window):
        return self.core_of_vcpu(self.plan.rows["window"][window].vcpu)

    def core_of_piece(self, piece):
        return self.core_of_task(self.plan.rows["piece"][piece].task)

    def link_of_frame(self, frame):
        link = self.plan.rows["frame"][frame].link
        return link if self.plan.row("link", link) else None

    def window_charge(self, window):
        """The VCPU switch ticks at a window's start; none where the VCPU keeps its core."""
        core = self.core_of_window(window)
        return 0 if core is None or self.keeps_core(window) else self.plan.rows["core"][core].v

    def keeps_core(self, window):
        """Whether another window of the same VCPU ends at the tick where this one begins; never so at tick 0."""
        row = self.plan.rows["window"][window]
        before = self.windows_by_end.get((row.vcpu, row.start), ())
        return row.start > 0 and any(other != window for other in before)

    def piece_charge(self, task):
        """The task switch ticks at the start of each of the task's pieces."""
        core = self.core_of_task(task)
        return 0 if core is None else self.plan.rows["core"][core].d

    def frame_ticks(self, frame):
        """The ticks a frame takes on its own link, a part of a tick counted whole; 0 where stream, link or rate is none."""
        row = self.plan.rows["frame"][frame]
        stream, link = self.plan.row("stream", row.stream), self.plan.row("link", row.link)
        if not stream or not link or not link.rate:
            return 0
        bits = BITS_OF_BYTE * (stream.payload + AROUND_PAYLOAD)
        return -(-bits // link.rate)

    def frame_end(self, frame):
        return self.plan.rows["frame"][frame].start + self.frame_ticks(frame)

    def arrival(self, frame):
        """A frame's end plus the lowest delay of its link, and plus the highest; None where there is no such link."""
        link, end = self.plan.row("link", self.plan.rows["frame"][frame].link), self.frame_end(frame)
        return Arrival(end + link.lowest, end + link.delay) if link else None

    def seen(self, frame):
        """From when on every clock sees a frame arrived: P after its latest arrival."""
        arrival = self.arrival(frame)
        return (arrival.latest if arrival else self.frame_end(frame)) + self.plan.precision

    def stay(self, frame):
        """A frame's stay in the queue of its stream; None where stream or link is none."""
        row = self.plan.rows["frame"][frame]
        stream, link = self.plan.row("stream", row.stream), self.plan.row("link", row.link)
        if not stream or not link:
            return None
        before = self.hop_before(frame)
        return Stay(frame, row.link, stream.queue, self._since(stream, row, before), row.start, self.frame_end(frame), before)

    def hop_before(self, frame):
        """The frame of the hop before, of the same message, or None."""
        rows = self.plan.rows["frame"]
        hop, message = rows[frame].hop, self.frames[rows[frame].stream, rows[frame].job]
        return next((other for other in message if rows[other].hop == hop - 1), None)

    def _since(self, stream, row, before):
        """The sender job's last end for hop 0; else P before the earliest tick at which the hop before can begin to arrive, never below 0."""
        if row.hop == 0:
            sender = self.job(stream.sender, row.job)
            return sender and sender.last
        link = None if before is None else self.plan.row("link", self.plan.rows["frame"][before].link)
        return max(self.plan.rows["frame"][before].start + link.lowest - self.plan.precision, 0) if link else None

    def stays(self):
        """All stays, by link, queue and begin."""
        found = filter(None, map(self.stay, range(len(self.plan.rows["frame"]))))
        return sorted(found, key=lambda stay: (stay.link, stay.queue, stay.begin, stay.frame))

    def job_count(self, task):
        """H/T, rounded down; 0 for a task that is not there."""
        row = self.plan.row("task", task)
        return self.plan.cycle // row.period if row and row.period else 0

    def job(self, task, number):
        """The job, or None if its task does not exist."""
        row = self.plan.row("task", task)
        if row is None:
            return None
        rows = self.pieces.get((task, number), ())
        pieces = [self.plan.rows["piece"][piece] for piece in rows]
        release = number * row.period
        return Job(
            task,
            number,
            release,
            release + row.deadline,
            tuple(rows),
            min((piece.start for piece in pieces), default=None),
            max((piece.start + piece.length for piece in pieces), default=None),
            sum(piece.length for piece in pieces),
            row.budget + len(pieces) * self.piece_charge(task),
        )

    def jobs(self, task):
        """The task's jobs that have pieces, by number."""
        return [self.job(task, number) for number in sorted(self.jobs_with_pieces[task])]

    def elapsed(self, first, last):
        """The ticks from one job's first start to another's last end, P counted; None where one of them has no piece."""
        if not (first and last and first.pieces and last.pieces):
            return None
        return last.last - first.first + self.plan.precision

    def missing_jobs(self, task):
        """How many of the task's jobs have no piece, and the first of them."""
        count, present = self.job_count(task), self.jobs_with_pieces[task]
        missing = count - sum(number < count for number in present)
        first = next(number for number in range(count) if number not in present) if missing else None
        return missing, first

    def messages(self, stream):
        """The stream's messages: each job that has a frame, or pieces of sender and receiver."""
        row = self.plan.rows["stream"][stream]
        jobs = self.jobs_with_frames[stream] | (self.jobs_with_pieces[row.sender] & self.jobs_with_pieces[row.receiver])
        return [self._message(stream, row, number) for number in sorted(jobs)]

    def _message(self, stream, row, number):
        sender, receiver = self.job(row.sender, number), self.job(row.receiver, number)
        steps = self.steps(stream, number, sender.last if sender else None)
        ready = steps[-1].seen if steps else sender and sender.last
        return Message(stream, number, sender, receiver, tuple(steps), ready, self.elapsed(sender, receiver))

    def steps(self, stream, number, ready=None):
        """The hops of a stream's job by number; the first may start at ready."""
        steps = []
        for frame in self.frames.get((stream, number), ()):
            steps.append(self._step(frame, steps[-1].seen if steps else ready))
        return steps

    def _step(self, number, ready):
        frame = self.plan.rows["frame"][number]
        return Step(frame.hop, number, ready, frame.start, self.frame_end(number), self.arrival(number), self.seen(number))

    def holds(self):
        """All holds, by buffer and start."""
        found = []
        for number, row in enumerate(self.plan.rows["buffer"]):
            node = self.node_of_task(row.writer)
            for job in self.jobs_with_pieces[row.writer] & self.jobs_with_pieces[row.reader]:
                writer, reader = self.job(row.writer, job), self.job(row.reader, job)
                if node is not None and reader:
                    found.append(Hold(number, row.number, node, job, writer.first, reader.last, writer.last, reader.first))
        return sorted(found, key=lambda hold: (hold.node, hold.number, hold.start, hold.row))


def _second_by_first(keys):
    seconds = defaultdict(set)
    for first, second in keys:
        seconds[first].add(second)
    return seconds
