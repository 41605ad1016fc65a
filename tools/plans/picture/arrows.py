"""Messages as arrows: sender's last end, each hop's frame, receiver's first start."""
from .style import fitting

MANY = 250  # arrows; more are drawn faint and without heads


def draw_arrows(scene):
    """Marked arrows last."""
    lines = [line for stream in range(len(scene.plan.rows["stream"])) for line in stream_lines(scene, stream)]
    lines = [line for line in lines if in_view(scene.scale, line[1])]
    for marked, ends, title in sorted(lines, key=lambda line: line[0]):
        _draw_arrow(scene, marked, ends, title, len(lines) > MANY)


def in_view(scale, ends):
    (one, _), (other, _) = ends
    return min(one, other) <= scale.last and max(one, other) >= scale.first


def _draw_arrow(scene, marked, ends, title, faint):
    """A line, cut at the edges of the view, with a head where its end is in view."""
    look = "am" if marked else "a faint" if faint else "a"
    head = "amh" if marked else "ah"
    inside = scene.scale.first <= ends[1][0] <= scene.scale.last
    more = {"marker_end": f"url(#{head})"} if inside and (marked or not faint) else {}
    (x1, y1), (x2, y2) = (point(scene.scale, ends, end) for end in ends)
    scene.svg.line(look, x1, y1, x2, y2, title, **more)
    scene.marks_drawn += marked


def point(scale, ends, end):
    """Where a line between two (tick, y) is at one of them, or at the edge of the view before that."""
    (tick, y), ((left, y1), (right, y2)) = end, sorted(ends)
    seen = min(max(tick, scale.first), scale.last)
    return scale.x(seen), y if seen == tick else y1 + (y2 - y1) * (seen - left) / (right - left)


def stream_lines(scene, stream):
    """Arrows as (marked, ((tick, y), (tick, y)), title)."""
    marked, name = scene.marks.has("stream", stream), scene.plan.name("stream", stream)
    for message in scene.meaning.messages(stream):
        title = f"{name} job {message.job}"
        stops = [stop for stop in _stops(scene, message) if stop]
        for (_, leaves, lane, way), (arrives, _, other, _) in zip(stops, stops[1:]):
            yield marked, _ends(leaves, lane, way, arrives, other), title


def _ends(leaves, lane, way, arrives, other):
    """From the near edge of one lane's block, or a frame's way, to the near edge of the other's."""
    down = lane.top <= other.top
    start = lane.way(way) if lane.kind == "link" else (lane.block() + lane.block_height if down else lane.block())
    end = other.block() if down else other.block() + other.block_height
    return (leaves, start), (arrives, end)


def _stops(scene, message):
    """(first tick, tick from which the next may start, lane, way) of sender, hops and receiver."""
    yield _job_stop(scene, message.sender)
    for step in message.steps:
        lane = scene.lanes.get("link", scene.meaning.link_of_frame(step.frame))
        yield lane and (step.start, step.seen, lane, scene.way(step.frame))
    yield _job_stop(scene, message.receiver)


def _job_stop(scene, job):
    lane = scene.lanes.get("core", scene.meaning.core_of_task(job.task)) if job and job.pieces else None
    return lane and (job.first, job.last, lane, None)


def draw_travels(scene):
    """Behind each frame, on its way: its link's delay, a bar from earliest to latest arrival, and P dotted."""
    for number in range(len(scene.plan.rows["frame"])):
        lane, arrival = scene.lanes.get("link", scene.meaning.link_of_frame(number)), scene.meaning.arrival(number)
        end, seen = scene.meaning.frame_end(number), scene.meaning.seen(number)
        if lane and arrival and scene.scale.shows(end, seen):
            y = lane.way(scene.way(number))
            _draw_way(scene, "delay", end, arrival.latest, y)
            _draw_way(scene, "p-wait", arrival.latest, seen, y)
            _draw_arrival(scene, number, arrival, y, lane.way_height - 1)


def _draw_way(scene, look, start, end, y):
    scene.svg.line(look, scene.scale.x(start), y, scene.scale.x(end), y)


def _draw_arrival(scene, frame, arrival, y, height):
    """A bar over the delay; its outline alone, a tick mark, where the two ticks are one."""
    if scene.scale.shows(*arrival):
        left, right = map(scene.scale.x, arrival)
        title = f"{scene.plan.name('frame', frame)} arrives {arrival} by the sending node's clock"
        scene.svg.rect("arrival", left, y - height / 2, right - left, height, title)


def draw_marked_jobs(scene):
    """Release to due tick of the marked jobs, below their core's lane."""
    for task, number in sorted(scene.marked_jobs()):
        lane, job = scene.lanes.get("core", scene.meaning.core_of_task(task)), scene.meaning.job(task, number)
        if lane and job and scene.scale.shows(job.release, job.due):
            _draw_job(scene, lane, job)


def _draw_job(scene, lane, job):
    left, right, y = scene.scale.x(job.release), scene.scale.x(job.due), lane.top + lane.track_height + 4
    scene.svg.path("job", f"M{left:.1f} {y - 3}v6m0 -3H{right:.1f}m0 -3v6")
    name = f"{scene.plan.name('task', job.task)}.{job.number}"
    ticks = f"{name}: {job.ticks} of {job.owed} ticks"
    long = f"{name}: release {job.release}, due {job.due}, {job.ticks} of {job.owed} ticks"
    label = fitting(right - left, long, ticks, name, str(job.number))
    if label:
        scene.svg.text("small", left + 4, y + 11, label)
    scene.marks_drawn += 1
