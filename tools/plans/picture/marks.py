"""The rows to mark for an answer: the row it names and what belongs to it."""
from collections import defaultdict

from ..answers import STAYS


class Marks:
    """Marked row numbers, kind by kind."""

    def __init__(self, plan, meaning, answer):
        self.rows = defaultdict(set)
        self.answer = answer
        if answer and answer.kind:
            self.rows[answer.kind].add(answer.row)
            BELONGING.get(answer.kind, lambda *_: None)(self, plan, meaning, answer.row)
            if answer.number == STAYS:
                self.rows["stay"].add(answer.row)

    def has(self, kind, row):
        return row in self.rows[kind]

    def records(self, plan, kind):
        return [record for number, record in enumerate(plan.rows[kind]) if self.has(kind, number)]

    def where(self, plan, kind, test):
        """Marks the rows of a kind that pass a test of number and record."""
        self.rows[kind] |= {number for number, record in enumerate(plan.rows[kind]) if test(number, record)}


def _of_core(marks, plan, meaning, core):
    marks.where(plan, "window", lambda number, record: meaning.core_of_window(number) == core)
    marks.where(plan, "piece", lambda number, record: meaning.core_of_piece(number) == core)


def _of_vcpu(marks, plan, meaning, vcpu):
    marks.where(plan, "window", lambda number, record: record.vcpu == vcpu)


def _of_task(marks, plan, meaning, task):
    marks.where(plan, "piece", lambda number, record: record.task == task)


def _of_link(marks, plan, meaning, link):
    marks.where(plan, "frame", lambda number, record: record.link == link)


def _of_stream(marks, plan, meaning, stream):
    marks.where(plan, "frame", lambda number, record: record.stream == stream)


def _of_chain(marks, plan, meaning, chain):
    row = plan.row("chain", chain)
    marks.where(plan, "piece", lambda number, record: row and record.task in (row.first, row.last))


BELONGING = {
    "core": _of_core,
    "vcpu": _of_vcpu,
    "task": _of_task,
    "link": _of_link,
    "stream": _of_stream,
    "chain": _of_chain,
}
