"""Ticks to pixels."""
from statistics import median

LEAST_WIDTH, MOST_WIDTH = 900, 3000
PIXELS_OF_MIDDLE = 7  # of a row of middle length, where the width allows
LABEL_GAP = 44


class Scale:
    """The ticks from first to last over a width that starts at left."""

    def __init__(self, first, last, left, width):
        self.first = first
        self.last = max(last, first + 1)
        self.left = left
        self.width = width

    @property
    def right(self):
        return self.left + self.width

    def x(self, tick):
        tick = min(max(tick, self.first), self.last)
        return self.left + self.width * (tick - self.first) / (self.last - self.first)

    def shows(self, start, end):
        """Whether ticks of start to end are in view; an empty span counts at its place."""
        return start < self.last and (end > self.first or start == end >= self.first)

    def steps(self):
        """Ticks for the axis: a round step, labels far enough apart."""
        step, least = 1, LABEL_GAP * (self.last - self.first) / self.width
        while step < least:
            step = step * 5 // 2 if str(step)[0] == "2" else step * 2
        return range(-(-self.first // step) * step, self.last + 1, step)


def view_of(cycle, ends, first, last):
    """The ticks to draw: as asked, else the cycle and a part behind it where rows end later."""
    latest = max(ends, default=0)
    least = max(cycle, 1)
    whole = min(max(least, latest), least + max(least // 5, 1)) if cycle else max(latest, 1)
    return (0 if first is None else first), (whole if last is None else last)


def width_of(first, last, lengths):
    """A width at which rows of middle length can be seen."""
    lengths = [length for length in lengths if 0 < length <= last - first]
    wanted = PIXELS_OF_MIDDLE * (last - first) / median(lengths) if lengths else 0
    return min(max(wanted, LEAST_WIDTH), MOST_WIDTH)
