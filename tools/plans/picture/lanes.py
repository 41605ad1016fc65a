"""Lanes from top to bottom: cores, links, each with its queues under it, then a lane for each shared buffer."""
from dataclasses import dataclass

MANY = 20  # lanes; more are drawn low
MOST_WAYS = 4  # under the frames of a link; the last takes all frames that are left


@dataclass
class Lane:
    """A band of the picture; blocks stand from block to block + block_height, in tracks below each other.

    A link's frames have ways under them, on which they are drawn until they have arrived.
    """

    kind: str
    key: object
    label: str
    detail: str
    top: float = 0
    tracks: int = 1
    ways: int = 0
    low: bool = False
    jobs: bool = False

    HEIGHTS = {"core": (50, 22), "link": (28, 13), "queue": (18, 11), "buffer": (22, 13)}
    MARGINS = {"core": (16, 2), "link": (6, 2), "queue": (2, 1), "buffer": (3, 2)}
    BELOW = {"core": (4, 2), "link": (0, 0), "queue": (2, 1), "buffer": (4, 2)}
    WAY = (6, 3)

    @property
    def group(self):
        """Lanes of one group stand close: a link's queues belong to it."""
        return "link" if self.kind == "queue" else self.kind

    @property
    def track_height(self):
        return self.HEIGHTS[self.kind][self.low]

    @property
    def height(self):
        return self.track_height * self.tracks + self.way_height * self.ways + (18 if self.jobs else 0)

    @property
    def bottom(self):
        return self.top + self.height

    def block(self, track=0):
        return self.top + self.track_height * track + self.MARGINS[self.kind][self.low]

    @property
    def block_height(self):
        return self.track_height - self.MARGINS[self.kind][self.low] - self.BELOW[self.kind][self.low]

    @property
    def way_height(self):
        return self.WAY[self.low]

    def way(self, number):
        """The middle of a way, which is under the frames, so that it crosses none of them."""
        return self.block() + self.block_height + self.way_height * (number + 0.5)

    def middle(self, track=0):
        return self.block(track) + self.block_height / 2


class Lanes:
    """All lanes to draw, placed from a top on."""

    GAP = 10

    def __init__(self, lanes, top):
        self.all = lanes
        self.by_key = {(lane.kind, lane.key): lane for lane in lanes}
        for before, lane in zip([None, *lanes], lanes):
            lane.low = len(lanes) > MANY
            between = self.GAP if before and before.group != lane.group else 2
            lane.top = before.bottom + between if before else top
        self.bottom = lanes[-1].bottom if lanes else top

    def get(self, kind, key):
        """The lane, or None where it is not drawn."""
        return self.by_key.get((kind, key))


def core_lanes(plan):
    """A lane for each core, by row."""
    for number, core in enumerate(plan.rows["core"]):
        yield Lane("core", number, f"{plan.name('core', number)} · node {core.node}", f"d {core.d}, v {core.v}")


def link_lanes(plan, ways, stays):
    """A lane for each link, by row, with as many ways as its frames need, and under it one for each queue that a frame stays in."""
    for number, link in enumerate(plan.rows["link"]):
        label, delays = f"{plan.name('link', number)} · {link.from_node}→{link.to_node}", f"{link.lowest}..{link.delay}"
        deepest = max((way for frame, way in ways.items() if plan.rows["frame"][frame].link == number), default=0)
        yield Lane("link", number, label, f"delay {delays}, rate {link.rate}", ways=deepest + 1)
        yield from queue_lanes([stay for stay in stays if stay.link == number])


def queue_lanes(stays):
    """A lane for each queue that has a stay, by number; stays that overlap stand in tracks of their own."""
    tracks = stay_tracks(stays)
    for link, queue in sorted({(stay.link, stay.queue) for stay in stays}):
        deepest = max(track for stay, track in tracks.items() if stay.queue == queue)
        yield Lane("queue", (link, queue), f"queue {queue}", "", tracks=deepest + 1)


def stay_tracks(stays):
    return tracks_of([((stay.link, stay.queue), stay.begin, stay.end, stay) for stay in stays])


def stray_lanes(plan, meaning):
    """Lanes for windows, pieces and frames that name rows which do not exist."""
    windows, pieces, frames = (range(len(plan.rows[kind])) for kind in ("window", "piece", "frame"))
    cores = {*map(meaning.core_of_window, windows), *map(meaning.core_of_piece, pieces)}
    if None in cores:
        yield Lane("core", None, "on no core", "")
    if None in map(meaning.link_of_frame, frames):
        yield Lane("link", None, "on no link", "", ways=1)


def buffer_lanes(holds):
    """A lane for each buffer that has a hold; holds that overlap stand in tracks of their own."""
    tracks = hold_tracks(holds)
    for node, number in sorted({(hold.node, hold.number) for hold in holds}):
        deepest = max(track for hold, track in tracks.items() if (hold.node, hold.number) == (node, number))
        yield Lane("buffer", (node, number), f"buffer {number} · node {node}", "", tracks=deepest + 1)


def hold_tracks(holds):
    return tracks_of([((hold.node, hold.number), hold.start, hold.end, hold) for hold in holds])


def ways_of(plan, meaning, first, last):
    """The way of each frame that is under way in these ticks; those of one link at once have different ones, as far as ways go."""
    frames = range(len(plan.rows["frame"]))
    spans = [(meaning.link_of_frame(frame), meaning.frame_end(frame), meaning.seen(frame), frame) for frame in frames]
    tracks = tracks_of([span for span in spans if span[1] < last and span[2] >= first])
    return {frame: min(track, MOST_WAYS - 1) for frame, track in tracks.items()}


def tracks_of(spans):
    """A track for each (place, start, end, item), so that items of one place in one track never overlap."""
    ends, tracks = {}, {}
    for place, start, end, item in sorted(spans, key=lambda span: span[1]):
        free = ends.setdefault(place, [])
        track = next((number for number, last in enumerate(free) if last <= start), len(free))
        free[track:track + 1] = [end]
        tracks[item] = track
    return tracks
