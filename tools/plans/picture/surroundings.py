"""Title, axis, lane labels and legend."""
from .style import FONT, SMALL, text_width

LINES = ("delay", "p-wait", "a", "c")
TITLE_LINE = 18


def wrapped(text, width, size):
    """The text in lines that fit."""
    lines = [""]
    for word in text.split():
        longer = f"{lines[-1]} {word}".strip()
        if lines[-1] and text_width(longer, size) > width:
            lines.append(word)
        else:
            lines[-1] = longer
    return lines


def draw_title(scene, title, verdict, accepted):
    """The title and the verdict; says so where nothing of the refused row is drawn."""
    unseen = verdict and not accepted and scene.marks.answer.kind and not scene.marks_drawn
    scene.svg.text("head", 12, 24, title + (" (nothing of the refused row lies in this picture)" if unseen else ""))
    for number, line in enumerate(verdict):
        scene.svg.text("yes" if accepted else "no", 12, 24 + TITLE_LINE * (number + 1), line)


def draw_axis(scene):
    """Grid lines with their ticks above and below, the cycle's end, and what lies behind it."""
    svg, scale, lanes, cycle = scene.svg, scene.scale, scene.lanes, scene.plan.cycle
    top, bottom = lanes.all[0].top - 6 if lanes.all else 60, lanes.bottom + 6
    for lane in lanes.all:
        svg.rect("lane queue" if lane.kind == "queue" else "lane", scale.left, lane.top, scale.width, lane.height)
    for tick in scale.steps():
        svg.line("grid", scale.x(tick), top, scale.x(tick), bottom)
        svg.text("small mid", scale.x(tick), top - 4, str(tick))
        svg.text("small mid", scale.x(tick), bottom + SMALL + 3, str(tick))
    svg.line("axis", scale.left, top, scale.right, top)
    svg.line("axis", scale.left, bottom, scale.right, bottom)
    if scale.first <= cycle < scale.last:
        svg.rect("past", scale.x(cycle), top, scale.right - scale.x(cycle), bottom - top)
    if scale.first <= cycle <= scale.last:
        svg.line("cycle", scale.x(cycle), top, scale.x(cycle), bottom)


def draw_labels(scene):
    for lane in scene.lanes.all:
        x, y = scene.scale.left - 6, lane.middle() + 4
        marked = lane.kind != "buffer" and scene.marks.has(lane.kind, lane.key)
        detail = lane.detail and not lane.low
        scene.svg.text("ml end" if marked else "end", x, y - (5 if detail else 0), lane.label)
        scene.marks_drawn += marked
        if detail:
            scene.svg.text("small end", x, y + 7, lane.detail)


def legend(scene):
    """Looks with their meaning, those that the plan has use for."""
    yield from (("w w0", "window"), ("v", "VCPU switch (v)"), ("d", "task switch (d)"))
    if scene.plan.rows["frame"]:
        yield "p t0", "work, or a frame in its sender's colour"
        yield from (("delay", "link delay"), ("arrival", "arrival, earliest to latest"), ("p-wait", "P"), ("a", "message"))
        yield "wait", "a frame that waits in its queue"
    else:
        yield "p t0", "work"
    if scene.holds:
        yield "h", "hold of a buffer"
    if scene.plan.rows["chain"]:
        yield "c", "chain"
    if scene.marks.answer and not scene.marks.answer.accepted:
        yield "m", "the row refused, or what belongs to it"
    if scene.scale.last > scene.plan.cycle:
        yield "past", "past the cycle"


def draw_legend(scene):
    """The legend under the lanes; gives the picture's height."""
    x, y = 12, scene.lanes.bottom + 40
    for classes, text in legend(scene):
        width = 24 + text_width(text) + 10
        if x + width > scene.width and x > 12:
            x, y = 12, y + 20
        if classes in LINES:
            more = {"marker_end": "url(#ah)"} if classes == "a" else {}
            scene.svg.line(classes, x, y - 4, x + 18, y - 4, **more)
        else:
            scene.svg.rect(classes, x, y - 10, 18, 12)
        scene.svg.text("", x + 24, y, text)
        x += width
    return y + FONT + 6
