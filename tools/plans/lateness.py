"""Limits in words: how long a row takes that its limit refuses, what a limit of 0 stands for, and what it stood for before request 8."""
from .limits import defaults, former_default, limit_of, longest
from .meaning import Meaning

MANY = 8  # lines; of more limits of 0 the last are only counted


def late(plan, kind, row):
    """For a stream or chain that is refused: its job that takes longest, its limit, and for a 0 whether what it stood for before would do."""
    limit = limit_of(plan, kind, row)
    job = longest(Meaning(plan), limit)
    limited = _stands_for(plan, limit) if limit.default else f"{limit.key} is {limit.ticks}"
    lines = [f"{_taken(plan, job)}Its {limited}.", _former(plan, limit, job)]
    return "\n".join(line for line in lines if line)


def assumed(plan):
    """What the plan's limits of 0 stand for, a line for each; the last of many are only counted."""
    found = defaults(plan)
    told = found if len(found) <= MANY else found[:MANY - 1]
    lines = [f"{plan.title(limit.kind, limit.row)}: {_stands_for(plan, limit)}." for limit in told]
    if len(told) < len(found):
        lines.append(f"{len(found) - len(told)} more streams and chains have a 0: tools/plan list tells what each stands for.")
    return lines


def _taken(plan, job):
    if job is None:
        return ""
    name = plan.name(job.limit.kind, job.limit.row)
    return f"{name} takes up to {job.ticks} ticks: in job {job.job}, {job.last.last} - {job.first.first} + {plan.precision} (P). "


def _stands_for(plan, limit):
    """What a limit of 0 stands for, and where that comes from."""
    if limit.ticks is None:
        return f"{limit.key} of 0 stands for the deadline of task {limit.last}, which is not there"
    return f"{limit.key} of 0 stands for {limit.ticks}, the deadline of {plan.name('task', limit.last)}"


def _former(plan, limit, job):
    """What a limit of 0 stood for before, and how to keep that, or that it would not do either; nothing where no job tells."""
    if not limit.default or job is None:
        return ""
    period = former_default(plan, limit)
    keeping = f"write {limit.key}={period} to keep the old meaning" if job.ticks <= period else "even that would not do"
    return f"In plans from before request 8 it stood for {period}, the period of {plan.name('task', limit.first)}: {keeping}."
