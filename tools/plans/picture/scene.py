"""What all parts of a picture share: plan, meaning, marks, scale, lanes and the SVG they draw on."""
from ..meaning import Meaning
from .lanes import Lanes, buffer_lanes, core_lanes, hold_tracks, link_lanes, stay_tracks, stray_lanes, ways_of
from .marks import Marks
from .scale import Scale, view_of, width_of
from .style import FONT, SMALL, cut, text_width
from .svg import Svg

LEFT, RIGHT = 12, 24
LONGEST_LABEL = 30


class Scene:
    """Measures a plan for a view of it; parts then draw themselves."""

    def __init__(self, plan, answer, options, top):
        self.plan = plan
        self.meaning = Meaning(plan)
        self.marks = Marks(plan, self.meaning, answer)
        self.svg = Svg()
        self.marks_drawn = 0
        first, last = self._ticks(options)
        self.holds = [hold for hold in self.meaning.holds() if hold.start < last and hold.end > first]
        self.hold_by_job = {(hold.row, hold.job): hold for hold in self.holds}
        self.stays = [stay for stay in self.meaning.stays() if stay.begin < last and stay.end > first]
        self.ways = ways_of(plan, self.meaning, first, last)
        lanes = self._chosen(options.lanes)
        with_jobs = {("core", self.meaning.core_of_task(task)) for task, _ in self.marked_jobs()}
        for lane in lanes:
            lane.label = cut(lane.label, LONGEST_LABEL)
            lane.jobs = (lane.kind, lane.key) in with_jobs
        self.scale = Scale(first, last, self._left(lanes), options.width or self._width(first, last))
        self.lanes = Lanes(lanes, top)
        self.hold_tracks = hold_tracks(self.holds)
        self.stay_tracks = stay_tracks(self.stays)

    def way(self, frame):
        """The way under the frames of its link that a frame has."""
        return self.ways.get(frame, 0)

    def _chosen(self, names):
        """Cores and links with their queues by name, all if none is named, and the buffers whose writer or reader is on such a core."""
        lanes = [*core_lanes(self.plan), *link_lanes(self.plan, self.ways, self.stays)]
        if not names:
            lanes += stray_lanes(self.plan, self.meaning)
        else:
            lanes = [lane for lane in lanes if self._name(lane) in names]
        cores = {lane.key for lane in lanes if lane.kind == "core"}
        return [*lanes, *buffer_lanes([hold for hold in self.holds if cores & self._cores_of(hold)])]

    def _name(self, lane):
        """What a core's or a link's lane is chosen by; a queue's goes with its link's."""
        return self.plan.name("link", lane.key[0]) if lane.kind == "queue" else self.plan.name(lane.kind, lane.key)

    def _cores_of(self, hold):
        row = self.plan.rows["buffer"][hold.row]
        return {self.meaning.core_of_task(row.writer), self.meaning.core_of_task(row.reader)}

    def marked_jobs(self):
        """The (task, job) pairs whose release and due ticks are drawn: those of a marked task or piece."""
        answer = self.marks.answer
        if not answer or answer.kind not in ("task", "piece"):
            return set()
        if answer.kind == "piece":
            piece = self.plan.row("piece", answer.row)
            return {(piece.task, piece.job)} if piece else set()
        jobs = {(answer.row, job.number) for job in self.meaning.jobs(answer.row)}
        missing, first = self.meaning.missing_jobs(answer.row)
        return jobs | {(answer.row, first)} if missing else jobs

    def _ticks(self, options):
        spans = [row for kind in ("window", "piece") for row in self.plan.rows[kind]]
        ends = [row.start + row.length for row in spans]
        ends += [self.meaning.frame_end(number) for number in range(len(self.plan.rows["frame"]))]
        return view_of(self.plan.cycle, ends, options.first, options.last)

    def _width(self, first, last):
        lengths = [row.length for row in self.plan.rows["piece"]]
        lengths += [self.meaning.frame_ticks(number) for number in range(len(self.plan.rows["frame"]))]
        return width_of(first, last, lengths)

    @staticmethod
    def _left(lanes):
        labels = [text_width(lane.label, FONT) for lane in lanes] + [text_width(lane.detail, SMALL) for lane in lanes]
        return LEFT + max(labels, default=0) + 10

    @property
    def width(self):
        return self.scale.right + RIGHT
