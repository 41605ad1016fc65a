"""Listings: every table by name with what follows from the rows, then jobs, messages, stays, holds and chains. Windows,
pieces and frames are listed in the order of question 32, whatever order they have in the plan.

A '!' stands behind what cannot be so in an accepted plan; the checker has the last word.
"""
from .aligned import aligned
from .chains import path, trouble_of
from .limits import limit_of, stretches
from .meaning import Meaning
from .ordering import below, order_of
from .schema import TABLES
from .writing import shown_values


def listing(plan):
    meaning = Meaning(plan)
    counts = ", ".join(f"{len(plan.rows[table.kind])} {table.kind}" for table in TABLES)
    parts = [f"cycle {plan.cycle}, precision {plan.precision}; rows: {counts}"]
    parts += [table_part(plan, meaning, table) for table in TABLES if plan.rows[table.kind]]
    for describe in (jobs, messages, stays, holds, chains):
        title, header, lines = describe(plan, meaning)
        if lines:
            parts.append(part(title, header, lines))
    return "\n\n".join(parts) + "\n"


def part(title, header, lines):
    """A titled table; columns of numbers stand flush right."""
    right = {number for number, column in enumerate(zip(*lines)) if all(_numeric(value) for value in column)}
    return "\n".join([title, *("  " + line for line in aligned([header, *lines], right))])


def _numeric(value):
    return str(value).rstrip(" !").lstrip("-").isdigit() or value in ("", "-")


def flagged(value, wrong):
    return f"{value} !" if wrong else str(value)


def shown(value):
    return "-" if value is None else value


def span(start, end):
    return f"{start}..{end}"


def slack(later, earlier):
    """later less earlier, flagged below 0; '-' where one of them is not known."""
    if later is None or earlier is None:
        return "-"
    return flagged(later - earlier, later < earlier)


def table_part(plan, meaning, table):
    """A table's rows, those with a start in order, with their row numbers; one below its predecessor in the plan is flagged."""
    extra = EXTRAS.get(table.kind, {})
    lines = []
    for number in order_of(plan, table.kind):
        record, row = plan.rows[table.kind][number], flagged(number, below(plan, table.kind, number))
        derived = [shown(derive(plan, meaning, number)) for derive in extra.values()]
        lines.append([row, plan.name(table.kind, number), *shown_values(table, record, plan.names), *derived])
    return part(f"table {TABLES.index(table) + 1}: {table.kind}", ["row", "name", *table.keys, *extra], lines)


def _core_name(plan, core):
    return None if core is None else plan.name("core", core)


def _usable(plan, meaning, number):
    window = plan.rows["window"][number]
    return span(window.start + meaning.window_charge(number), window.start + window.length)


def _work(plan, meaning, number):
    piece = plan.rows["piece"][number]
    return span(piece.start + meaning.piece_charge(piece.task), piece.start + piece.length)


def _delays(plan, meaning, number):
    link = plan.rows["link"][number]
    return flagged(span(link.lowest, link.delay), link.lowest > link.delay)


def path_words(plan, number):
    """A chain's tasks and messages by name, in the order of its path, or what is wrong with it."""
    wrong = trouble_of(plan, number)
    if wrong:
        return f"{wrong} !"
    names = [plan.name("task", plan.rows["chain"][number].first)]
    for leg in path(plan, number):
        names += [plan.name(leg.kind, leg.row), plan.name("task", leg.target)]
    return " → ".join(names)


def _at_most(kind):
    """How a column tells the ticks that a limit allows; for a 0 also whose deadline they are."""
    def derive(plan, meaning, number):
        limit = limit_of(plan, kind, number)
        if limit.ticks is None:
            return f"no task {limit.last} !"
        return f"{limit.ticks} (default: {plan.name('task', limit.last)}'s deadline)" if limit.default else limit.ticks

    return derive


# What a listing adds to a table's columns: header and how it follows from plan, meaning and row number.
EXTRAS = {
    "task": {
        "core": lambda plan, meaning, number: _core_name(plan, meaning.core_of_task(number)),
        "jobs": lambda plan, meaning, number: meaning.job_count(number),
    },
    "window": {
        "core": lambda plan, meaning, number: _core_name(plan, meaning.core_of_window(number)),
        "after switch": _usable,
    },
    "piece": {
        "core": lambda plan, meaning, number: _core_name(plan, meaning.core_of_piece(number)),
        "work": _work,
    },
    "link": {
        "delays": _delays,
    },
    "frame": {
        "ticks": lambda plan, meaning, number: meaning.frame_ticks(number),
        "end": lambda plan, meaning, number: meaning.frame_end(number),
        "arrives": lambda plan, meaning, number: meaning.arrival(number),
    },
    "stream": {
        "at most": _at_most("stream"),
    },
    "chain": {
        "at most": _at_most("chain"),
        "path": lambda plan, meaning, number: path_words(plan, number),
    },
}


def jobs(plan, meaning):
    """Each job with its pieces: ticks against C + n×d, and slack to the due tick."""
    header = ["task", "job", "release..due", "ticks", "C+n×d", "slack", "pieces"]
    lines = []
    for task in range(len(plan.rows["task"])):
        for job in meaning.jobs(task):
            lines.append([plan.name("task", task), *_job_words(plan, job)])
        missing, first = meaning.missing_jobs(task)
        if missing:
            lines.append([plan.name("task", task), first, "", "0 !", "", "", f"no piece in {missing} jobs, first job {first}"])
    return "jobs", header, lines


def _job_words(plan, job):
    pieces = [plan.rows["piece"][piece] for piece in job.pieces]
    spans = " ".join(span(piece.start, piece.start + piece.length) for piece in pieces)
    ticks = flagged(job.ticks, job.ticks != job.owed)
    return [job.number, span(job.release, job.due), ticks, job.owed, slack(job.due, job.last), spans]


def messages(plan, meaning):
    """Each message step by step: from when it may start, when it does, the slack between, and when a hop arrives."""
    header = ["stream", "job", "step", "ready", "start", "end", "slack", "arrives"]
    lines = []
    for stream in range(len(plan.rows["stream"])):
        name, limit = plan.name("stream", stream), limit_of(plan, "stream", stream)
        for message in meaning.messages(stream):
            lines += [[name, message.job, *line] for line in _message_lines(plan, message, limit.ticks)]
    ready = "the step before has ended or arrived, highest delay and P counted"
    return f"messages (ready: {ready}; arrives: by the sending node's clock)", header, lines


def _message_lines(plan, message, limit):
    yield _end_line(plan, "sender", message.sender, message.sender and message.sender.release)
    for step in message.steps:
        link = plan.name("link", plan.rows["frame"][step.frame].link)
        title = f"hop {step.hop} {plan.name('frame', step.frame)} on {link}"
        yield [title, shown(step.ready), step.start, step.end, slack(step.start, step.ready), shown(step.arrival)]
    yield _end_line(plan, "receiver", message.receiver, message.ready)
    yield [f"latency {shown(message.latency)} of {shown(limit)}", "", "", "", slack(limit, message.latency), ""]


def _end_line(plan, role, job, ready):
    if job is None or not job.pieces:
        return [f"{role} has no piece", "", "", "", "-", ""]
    return [f"{role} {plan.name('task', job.task)}", shown(ready), job.first, job.last, slack(job.first, ready), ""]


def stays(plan, meaning):
    """Each queue's stays by begin: the ticks it was free before, and those in which the frame waits for its start."""
    header = ["link", "queue", "frame", "stream", "job", "hop", "stay", "free before", "waits"]
    lines, ends = [], {}
    for stay in meaning.stays():
        row, queue = plan.rows["frame"][stay.frame], (stay.link, stay.queue)
        names = [plan.name("link", stay.link), stay.queue, plan.name("frame", stay.frame), plan.name("stream", row.stream)]
        lines.append([*names, row.job, row.hop, span(stay.begin, stay.end), slack(stay.begin, ends.get(queue, 0)), stay.waits])
        ends[queue] = max(ends.get(queue, 0), stay.end)
    begin = "the sender's end, then the start of the hop before + lowest delay - P"
    return f"stays in queues (from {begin}, to the frame's end)", header, lines


def holds(plan, meaning):
    """Each buffer's holds by start: the ticks it was free before, and those from the write's end to the read."""
    header = ["buffer", "node", "row", "job", "writer", "reader", "hold", "free before", "read after write"]
    lines, ends = [], {}
    for hold in meaning.holds():
        row, buffer = plan.rows["buffer"][hold.row], (hold.node, hold.number)
        tasks = [plan.name("task", row.writer), plan.name("task", row.reader)]
        gaps = [slack(hold.start, ends.get(buffer, 0)), slack(hold.read, hold.written)]
        lines.append([hold.number, hold.node, plan.name("buffer", hold.row), hold.job, *tasks, span(hold.start, hold.end), *gaps])
        ends[buffer] = max(ends.get(buffer, 0), hold.end)
    return "holds", header, lines


def chains(plan, meaning):
    """Each chain's jobs: from the first task's start to the last task's end, with P, and the slack to the limit."""
    header = ["chain", "job", "start", "end", "ticks", "limit", "slack"]
    lines = []
    for number in range(len(plan.rows["chain"])):
        name, limit = plan.name("chain", number), limit_of(plan, "chain", number)
        for job in stretches(meaning, limit):
            ends = [shown(job.first and job.first.first), shown(job.last and job.last.last)]
            lines.append([name, job.job, *ends, shown(job.ticks), shown(limit.ticks), slack(limit.ticks, job.ticks)])
    return "chains (ticks: the last task's end less the first task's start, P counted)", header, lines
