"""A plan's picture, put together."""
from ..answers import explained, reason
from ..meaning import Meaning
from .arrows import draw_arrows, draw_marked_jobs, draw_travels
from .blocks import draw_blocks
from .marks import Marks
from .scene import Scene
from .style import DEFINITIONS, STYLE
from .surroundings import TITLE_LINE, draw_axis, draw_labels, draw_legend, draw_title, wrapped
from .threads import draw_chains

TITLE_WIDTH = 980


def near(plan, answer, ticks):
    """First and last tick of what an answer marks, with so many ticks around; None where it marks nothing."""
    meaning = Meaning(plan)
    marks = Marks(plan, meaning, answer)
    spans = [(row.start, row.start + row.length) for kind in ("window", "piece") for row in marks.records(plan, kind)]
    spans += [(row.start, row.start) for row in marks.records(plan, "frame")]
    spans += [(stay.begin, stay.end) for stay in meaning.stays() if marks.has("stay", stay.frame)]
    spans += [(hold.start, hold.end) for hold in meaning.holds() if marks.has("buffer", hold.row)]
    if not spans:
        return None
    return max(min(start for start, _ in spans) - ticks, 0), max(end for _, end in spans) + ticks


class View:
    """What of a plan to draw: ticks, names of cores and links, width; None for all of it."""

    def __init__(self, first=None, last=None, lanes=None, width=None):
        self.first = first
        self.last = last
        self.lanes = lanes
        self.width = width


def picture(plan, name, answer=None, view=None):
    """SVG text; an answer colours the row it names and stands in the title."""
    words = [explained(plan, answer), reason(plan, answer)] if answer else []
    verdict = [line for text in words if text for line in wrapped(text, TITLE_WIDTH, 13)]
    scene = Scene(plan, answer, view or View(), top=62 + TITLE_LINE * len(verdict))
    scene.svg.rect("page", 0, 0, 0, 0)
    draw_axis(scene)
    draw_blocks(scene)
    draw_travels(scene)
    draw_chains(scene)
    draw_arrows(scene)
    draw_marked_jobs(scene)
    draw_labels(scene)
    draw_title(scene, f"{name}: cycle {plan.cycle}, precision {plan.precision}", verdict, answer and answer.accepted)
    height = draw_legend(scene)
    scene.svg.parts[0] = f'<rect class="page" width="{scene.width:.0f}" height="{height:.0f}"/>'
    return scene.svg.document(scene.width, height, STYLE, DEFINITIONS)
