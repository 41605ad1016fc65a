"""Windows, pieces, frames, stays and holds as blocks in their lanes."""
from dataclasses import dataclass

from .lanes import tracks_of
from .style import FONT, SMALL, TINTS, WINDOW_TINTS, fitting, text_width

THIN = 3  # pixels; narrower blocks have no outline
SHIFT = 5  # pixels by which a block that meets another one stands lower
LEAST_SWITCH = 0.6  # pixels; shorter switches are not drawn


@dataclass
class Block:
    """A row's ticks in a lane: what it is called, which ticks its switch takes, how it looks."""

    kind: str
    row: int
    lane: object
    start: int
    end: int
    charge: int
    title: str
    labels: tuple
    look: str


def tint(task):
    return f"t{task % len(TINTS)}"


def draw_blocks(scene):
    """Kind by kind; marked blocks last, so that nothing hides them."""
    for describe, draw in ((windows, draw_window), (pieces, draw_piece), (frames, draw_piece)):
        described = [block for block in describe(scene) if block.lane]
        blocks = [block for block in described if scene.scale.shows(block.start, block.end)]
        tracks = tracks_of([(id(block.lane), block.start, block.end, block.row) for block in blocks])
        for block in sorted(blocks, key=lambda block: (scene.marks.has(block.kind, block.row), tracks[block.row])):
            draw(scene, block, SHIFT * min(tracks[block.row], 2))
        for block in described:
            if scene.marks.has(block.kind, block.row) and not scene.scale.shows(block.start, block.end):
                _point_out_of_view(scene, block)
    for stay in sorted(scene.stays, key=lambda stay: scene.marks.has("stay", stay.frame)):
        draw_stay(scene, stay, scene.stay_tracks[stay])
    for hold in scene.holds:
        draw_hold(scene, hold, scene.hold_tracks[hold])


def windows(scene):
    plan, meaning = scene.plan, scene.meaning
    for number, row in enumerate(plan.rows["window"]):
        lane, end = scene.lanes.get("core", meaning.core_of_window(number)), row.start + row.length
        vcpu, charge = plan.name("vcpu", row.vcpu), min(meaning.window_charge(number), row.length)
        switch = "keeps its core, no VCPU switch" if meaning.keeps_core(number) else f"VCPU switch {charge}"
        title = f"{plan.name('window', number)} of {vcpu}: {row.start}..{end}, {switch}"
        look = f"w w{row.vcpu % len(WINDOW_TINTS)}"
        yield Block("window", number, lane, row.start, end, charge, title, (vcpu,), look)


def pieces(scene):
    plan, meaning = scene.plan, scene.meaning
    for number, row in enumerate(plan.rows["piece"]):
        lane, end = scene.lanes.get("core", meaning.core_of_piece(number)), row.start + row.length
        task, charge = plan.name("task", row.task), min(meaning.piece_charge(row.task), row.length)
        title = f"{plan.name('piece', number)}: {task} job {row.job}, {row.start}..{end}, task switch {charge}"
        yield Block("piece", number, lane, row.start, end, charge, title, (f"{task}.{row.job}", task), f"p {tint(row.task)}")


def frames(scene):
    plan, meaning = scene.plan, scene.meaning
    for number, row in enumerate(plan.rows["frame"]):
        lane, end = scene.lanes.get("link", meaning.link_of_frame(number)), meaning.frame_end(number)
        stream, name, arrival = plan.row("stream", row.stream), plan.name("stream", row.stream), meaning.arrival(number)
        arrives = f", arrives {arrival}" if arrival else ""
        title = f"{plan.name('frame', number)}: {name} job {row.job} hop {row.hop}, {row.start}..{end}{arrives}"
        labels = (f"{name}.{row.job} hop {row.hop}", f"{name}.{row.job}", name, f"h{row.hop}")
        yield Block("frame", number, lane, row.start, end, 0, title, labels, f"p {tint(stream.sender if stream else 0)}")


def draw_window(scene, block, shift):
    """The whole height of the lane; the VCPU's name stands in a strip above the pieces."""
    lane, y = block.lane, block.lane.top + 1 + shift
    marked = scene.marks.has("window", block.row)
    x, width = _rect(scene, block, y, lane.track_height - 2 - shift, marked)
    if not marked:
        _switch(scene, block, y, lane.track_height - 2 - shift, "v")
    label = "" if lane.low else fitting(width, *block.labels, size=SMALL)
    if label:
        scene.svg.rect("hs", x + 2, y + 2, text_width(label, SMALL) + 2, SMALL + 2)
        scene.svg.text("small", x + 3, y + SMALL + 2, label)
    if marked:
        _pointer(scene, x + min(width / 2, 14), lane.top + 4)


def draw_piece(scene, block, shift):
    """A piece or a frame: a switch if it has one, then its label."""
    lane, marked = block.lane, scene.marks.has(block.kind, block.row)
    y, height = lane.block() + shift, lane.block_height - shift
    x, width = _rect(scene, block, y, height, marked)
    head = _switch(scene, block, y, height, "d")
    _label(scene, x + head, width - head, y, height, block.labels, marked)
    if marked:
        _pointer(scene, x + width / 2, y)


def draw_stay(scene, stay, track):
    """A frame in its queue: while it waits, then while it is sent, in its sender's colour."""
    lane, row = scene.lanes.get("queue", (stay.link, stay.queue)), scene.plan.rows["frame"][stay.frame]
    if not lane:
        return
    marked, y, name = scene.marks.has("stay", stay.frame), lane.block(track), scene.plan.name("stream", row.stream)
    queue = f"queue {stay.queue} of {scene.plan.name('link', stay.link)}"
    title = f"{scene.plan.name('frame', stay.frame)} in {queue}: {name} job {row.job} hop {row.hop}, {stay.begin}..{stay.end}, waits {stay.waits}"
    labels, sending = (f"{name}.{row.job}", name), f"p {tint(scene.plan.rows['stream'][row.stream].sender)}"
    for start, end, look in ((stay.begin, stay.start, "wait"), (stay.start, stay.end, sending)):
        if start < end and scene.scale.shows(start, end):
            block = Block("stay", stay.frame, lane, start, end, 0, title, labels, look)
            _rect(scene, block, y, lane.block_height, marked)
    x = scene.scale.x(stay.begin)
    _label(scene, x, scene.scale.x(stay.end) - x, y, lane.block_height, labels, marked)
    if marked:
        _pointer(scene, x + 12, y + 3)


def draw_hold(scene, hold, track):
    lane = scene.lanes.get("buffer", (hold.node, hold.number))
    if not lane or not scene.scale.shows(hold.start, hold.end):
        return
    row, name = scene.plan.rows["buffer"][hold.row], scene.plan.name("buffer", hold.row)
    tasks = f"{scene.plan.name('task', row.writer)} → {scene.plan.name('task', row.reader)}"
    title = f"{name} (buffer {hold.number}, node {hold.node}), job {hold.job}: {tasks}, {hold.start}..{hold.end}"
    labels = (f"{name}.{hold.job}: {tasks}", f"{name}.{hold.job}", str(hold.number))
    block = Block("buffer", hold.row, lane, hold.start, hold.end, 0, title, labels, "h")
    marked = scene.marks.has("buffer", hold.row)
    x, width = _rect(scene, block, lane.block(track), lane.block_height, marked)
    _label(scene, x, width, lane.block(track), lane.block_height, labels, marked)
    if marked:
        _pointer(scene, x + 12, lane.block(track) + 3)


def _rect(scene, block, y, height, marked):
    """The block itself; gives its left edge and width."""
    x = scene.scale.x(block.start)
    width = scene.scale.x(block.end) - x
    thin = " thin" if width < THIN else ""
    scene.svg.rect(("m" if marked else block.look) + thin, x, y, width, height, block.title)
    scene.marks_drawn += marked
    return x, width


def _switch(scene, block, y, height, classes):
    """The switch ticks at a block's start; gives their width."""
    left, right = scene.scale.x(block.start), scene.scale.x(block.start + block.charge)
    if right - left < LEAST_SWITCH:
        return 0
    scene.svg.rect(classes, left, y, right - left, height)
    return right - left


def _label(scene, x, width, y, height, labels, marked):
    """The first label that fits, in letters as large as fit."""
    for size, classes in ((FONT, "mid"), (SMALL, "mid less")):
        label = fitting(width, *labels, size=size) if size <= height else ""
        if label:
            scene.svg.text(classes + " halo" if marked else classes, x + width / 2, y + height / 2 + size / 2.8, label)
            return


def _point_out_of_view(scene, block):
    """A mark at the edge of the view behind which a marked block lies, with its ticks."""
    lane, y, later = block.lane, block.lane.middle(), block.start >= scene.scale.last
    edge, back = (scene.scale.right, -10) if later else (scene.scale.left, 10)
    scene.svg.path("mt", f"M{edge:.1f} {y:.1f}l{back} -6v12z", block.title)
    scene.svg.text("small end" if later else "small", edge + back * 1.3, y + 3, f"{block.start}..{block.end}")
    scene.marks_drawn += 1


def _pointer(scene, x, y):
    """A mark over a block, which can be seen where the block itself is narrow."""
    scene.svg.path("mt", f"M{x - 6:.1f} {y - 11:.1f}h12l-6 10z")
