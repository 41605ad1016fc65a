"""Loads: each job's piece total against its task's budget, and each core's against the cycle.

The totals are those of a draft: the lengths of a job's pieces, task switch counted, and those of all pieces on a core. They are for
plans from which a draft can be made, which the checker refuses by none of ASKED; then every piece has a core, and its job is one of its
task's.
"""
from collections import Counter
from dataclasses import dataclass

from .listing import flagged, part
from .meaning import Meaning
from .model import Plan

ASKED = {*range(1, 11), 32}  # the questions asked when a draft is made
QUEUES = 40  # the check asks this one among them, a draft does not
BAR_MARKS = 40


@dataclass(frozen=True)
class Load:
    """What a job's pieces take: how many they are, their ticks, and the task switch ticks in them."""

    pieces: int = 0
    total: int = 0
    switch: int = 0

    @property
    def work(self):
        return self.total - self.switch


@dataclass(frozen=True)
class Run:
    """Jobs first to last of a task, each with the same load."""

    first: int
    last: int
    load: Load

    def count(self):
        return self.last - self.first + 1

    def title(self):
        return str(self.first) if self.first == self.last else f"{self.first} to {self.last}"


def hinders(answer):
    """Whether an answer says no to a question that is asked when a draft is made."""
    return answer.number in ASKED


def hides(answer):
    """Whether an answer leaves open what is asked when a draft is made."""
    return answer.number == QUEUES


def without_queues(plan):
    """The plan with every stream in queue 0: what the check then answers is hidden by no queue."""
    streams = [stream._replace(queue=0) for stream in plan.rows["stream"]]
    return Plan(plan.settings, {**plan.rows, "stream": streams}, plan.names.given, plan.places, plan.raw)


def loads(plan):
    """The loads of jobs and cores as text."""
    meaning = Meaning(plan)
    runs = {task: runs_of(meaning, task) for task in range(len(plan.rows["task"]))}
    parts = [f"cycle {plan.cycle}; {_counted(plan, runs)}"]
    for title, header, lines in (_jobs(plan, meaning, runs), _cores(plan, meaning)):
        if lines:
            parts.append(part(title, header, lines))
    return "\n\n".join(parts) + "\n"


def runs_of(meaning, task):
    """All jobs of a task in order, neighbours with equal loads as one run: as many runs as pieces ask for, however many jobs."""
    runs, following, charge = [], 0, meaning.piece_charge(task)
    for job in meaning.jobs(task):
        _take(runs, following, job.number - 1, Load())
        _take(runs, job.number, job.number, Load(len(job.pieces), job.ticks, charge * len(job.pieces)))
        following = job.number + 1
    _take(runs, following, meaning.job_count(task) - 1, Load())
    return runs


def _take(runs, first, last, load):
    """Adds jobs first to last, if any, to the last run where its load is theirs."""
    if first > last:
        return
    if runs and runs[-1].load == load:
        first = runs.pop().first
    runs.append(Run(first, last, load))


def core_totals(plan, meaning):
    """The pieces of each core and their ticks together, by row."""
    pieces, totals = Counter(), Counter()
    for number, piece in enumerate(plan.rows["piece"]):
        core = meaning.core_of_piece(number)
        pieces[core] += 1
        totals[core] += piece.length
    return [(pieces[core], totals[core]) for core in range(len(plan.rows["core"]))]


def _counted(plan, runs):
    """How many jobs there are, and how many have less or more work than their budget."""
    count = Counter()
    for task, found in runs.items():
        budget = plan.rows["task"][task].budget
        for run in found:
            count["jobs"] += run.count()
            count["short"] += run.count() * (run.load.work < budget)
            count["over"] += run.count() * (run.load.work > budget)
    return f"jobs: {count['jobs']}, short of their budget: {count['short']}, over it: {count['over']}"


def _jobs(plan, meaning, runs):
    header = ["task", "job", "core", "pieces", "total", "switch", "work", "budget", ""]
    lines = []
    for task, found in runs.items():
        core, budget = plan.name("core", meaning.core_of_task(task)), plan.rows["task"][task].budget
        for run in found:
            load = run.load
            work = flagged(load.work, load.work != budget)
            words = [load.pieces, load.total, load.switch, work, budget, against(load, budget)]
            lines.append([plan.name("task", task), run.title(), core, *words])
    return "jobs (total: ticks of a job's pieces; switch: task switch ticks in them; work: the rest, to be the budget)", header, lines


def against(load, budget):
    """What is wrong with a load, in words, or nothing."""
    if not load.pieces:
        return "no piece"
    if load.work < budget:
        return f"{budget - load.work} short"
    return f"{load.work - budget} over" if load.work > budget else ""


def _cores(plan, meaning):
    lines = []
    for core, (pieces, total) in enumerate(core_totals(plan, meaning)):
        words = [pieces, flagged(total, total > plan.cycle), plan.cycle, 100 * total // plan.cycle, bar(total, plan.cycle)]
        lines.append([plan.name("core", core), *words])
    return "cores (total: ticks of the core's pieces)", ["core", "pieces", "total", "cycle", "%", ""], lines


def bar(total, cycle):
    """A bar as long as the cycle, filled as far as the total goes: with a mark at least where there is a tick, and whole only where
    the total is the cycle; '>' behind it where the total is more."""
    marks = min(BAR_MARKS, max(BAR_MARKS * total // cycle, total > 0))
    return "|" + "#" * marks + "." * (BAR_MARKS - marks) + "|" + ">" * (total > cycle)
