"""Limits: how many ticks may pass from the start of a first task's job to the end of a last task's, P counted.

Streams and chains have one: a stream's first task is its sender, its last the receiver, and its limit the latency. A limit of 0 stands for
the last task's deadline; in plans from before request 8 it stood for the first task's period.
"""
from dataclasses import dataclass
from typing import NamedTuple

from .meaning import Job


class Keys(NamedTuple):
    """What the rows of a kind call their first task, their last task and their limit."""

    first: str
    last: str
    limit: str


KEYS = {"stream": Keys("sender", "receiver", "latency"), "chain": Keys("first", "last", "limit")}


@dataclass(frozen=True)
class Limit:
    """A row's limit: its word, and the ticks it stands for (None for a 0 where there is no last task)."""

    kind: str
    row: int
    first: int
    last: int
    word: int
    ticks: int

    @property
    def key(self):
        return KEYS[self.kind].limit

    @property
    def default(self):
        return self.word == 0


@dataclass(frozen=True)
class Stretch:
    """A job of a stream or chain: the first and the last task's job, and the ticks from start to end with P (None without pieces)."""

    limit: Limit
    job: int
    first: Job
    last: Job
    ticks: int


def limit_of(plan, kind, row):
    """The limit of a stream or a chain."""
    first, last, word = (getattr(plan.rows[kind][row], key) for key in KEYS[kind])
    task = plan.row("task", last)
    return Limit(kind, row, first, last, word, word or (task.deadline if task else None))


def defaults(plan):
    """The limits of 0, streams before chains."""
    limits = (limit_of(plan, kind, row) for kind in KEYS for row in range(len(plan.rows[kind])))
    return [limit for limit in limits if limit.default]


def former_default(plan, limit):
    """What a 0 stood for before request 8: the first task's period, or None where there is no such task."""
    task = plan.row("task", limit.first)
    return task.period if task else None


def stretches(meaning, limit):
    """The jobs of a stream or chain: those in which its first or its last task has pieces."""
    numbers = meaning.jobs_with_pieces[limit.first] | meaning.jobs_with_pieces[limit.last]
    return [_stretch(meaning, limit, number) for number in sorted(numbers)]


def _stretch(meaning, limit, number):
    first, last = meaning.job(limit.first, number), meaning.job(limit.last, number)
    return Stretch(limit, number, first, last, meaning.elapsed(first, last))


def longest(meaning, limit):
    """The first of the jobs that take most ticks, or None where no job has pieces of both tasks."""
    known = [job for job in stretches(meaning, limit) if job.ticks is not None]
    return max(known, key=lambda job: job.ticks, default=None)
