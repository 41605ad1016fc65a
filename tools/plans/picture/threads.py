"""Chains as lines: through the first task's job, each message of the path and its reader's job, to the last task's end."""
from ..chains import path
from ..limits import limit_of, stretches
from .arrows import in_view, point
from .style import SMALL, fitting

MANY = 120  # lines; more are drawn faint and without labels
INSET = 4  # pixels from a block's lower edge, so that its label stays free
APART = 2  # pixels between the lines of chains that share a message
SIDES = 4  # chains that stand apart


def draw_chains(scene):
    """Marked chains last."""
    lines = [line for chain in range(len(scene.plan.rows["chain"])) for line in chain_lines(scene, chain)]
    for marked, job, stops in sorted(lines, key=lambda line: line[0]):
        _draw_line(scene, marked, job, stops, len(lines) > MANY)


def chain_lines(scene, chain):
    """(marked, job, stops) for each job of a chain whose path is there, stops as (first tick, last tick, y)."""
    way = path(scene.plan, chain)
    for job in stretches(scene.meaning, limit_of(scene.plan, "chain", chain)) if way else ():
        if job.ticks is not None:
            yield scene.marks.has("chain", chain), job, list(_stops(scene, way, job))


def _stops(scene, way, job):
    """First task's job, then for each message its own stops and the job that reads it."""
    yield from _job_stop(scene, job, job.first)
    for leg in way:
        yield from (_stream_stops if leg.kind == "stream" else _buffer_stops)(scene, leg, job)
        yield from _job_stop(scene, job, scene.meaning.job(leg.target, job.job))


def _job_stop(scene, job, task_job):
    lane = _core_lane(scene, task_job)
    if lane:
        yield task_job.first, task_job.last, _height(lane, job)


def _core_lane(scene, task_job):
    """The lane of a job with pieces, or None where it is not drawn."""
    if task_job and task_job.pieces:
        return scene.lanes.get("core", scene.meaning.core_of_task(task_job.task))
    return None


def _stream_stops(scene, leg, job):
    """From each frame's start to where it has arrived at the latest, by every clock."""
    for step in scene.meaning.steps(leg.row, job.job):
        lane = scene.lanes.get("link", scene.meaning.link_of_frame(step.frame))
        if lane:
            yield step.start, step.seen, _height(lane, job)


def _buffer_stops(scene, leg, job):
    """In the hold, from the write's end to the read's start."""
    hold = scene.hold_by_job.get((leg.row, job.job))
    lane = hold and scene.lanes.get("buffer", (hold.node, hold.number))
    if lane:
        yield hold.written, hold.read, _height(lane, job, scene.hold_tracks[hold])


def _height(lane, job, track=0):
    return lane.block(track) + lane.block_height - INSET - APART * (job.limit.row % SIDES)


def _draw_line(scene, marked, job, stops, faint):
    """All parts in view as one shape, and a label behind the last task's end."""
    points = [place for first, last, y in stops for place in ((first, y), (last, y))]
    parts = [ends for ends in zip(points, points[1:]) if in_view(scene.scale, ends)]
    if not parts:
        return
    name, limit = f"{scene.plan.name('chain', job.limit.row)}.{job.job}", job.limit.ticks
    ticks = (f"{name}: {job.ticks} of {limit} ticks", f"{name}: {job.ticks}/{limit}", name)
    steps = "".join(_step(scene.scale, ends) for ends in parts)
    scene.svg.path("c am" if marked else "c faint" if faint else "c", steps, f"chain {ticks[0]}")
    scene.marks_drawn += marked
    if marked or not faint:
        _draw_label(scene, job, stops[-1], ticks, marked)


def _step(scale, ends):
    (x1, y1), (x2, y2) = (point(scale, ends, end) for end in ends)
    return f"M{x1:.1f} {y1:.1f}L{x2:.1f} {y2:.1f}"


def _draw_label(scene, job, stop, labels, marked):
    """The first label that fits between the last task's end and the next piece of its core."""
    _, end, y = stop
    if not _core_lane(scene, job.last) or not scene.scale.first <= end < scene.scale.last:
        return
    core, pieces = scene.meaning.core_of_task(job.last.task), scene.plan.rows["piece"]
    later = [row.start for number, row in enumerate(pieces) if row.start >= end and scene.meaning.core_of_piece(number) == core]
    x = scene.scale.x(end) + 4
    label = fitting(scene.scale.x(min(later, default=scene.scale.last)) - x, *labels, size=SMALL)
    if label:
        scene.svg.text("small ml" if marked else "small chain", x, y + SMALL / 2.8, label)
