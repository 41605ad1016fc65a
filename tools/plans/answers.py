"""Answers of the checker: number, table, row; asked of a program or given by hand."""
import subprocess
from dataclasses import dataclass

from .lanes import Entry
from .lateness import late
from .limits import KEYS
from .ordering import fall
from .questions import QUESTIONS, RANGES, phrase
from .queues import crowded, frame_met
from .schema import BY_KIND, kind_of
from .troubles import trouble

ORDER = 32  # the question of the rows' order
LIMITS = (21, 31)  # the questions of a stream's and a chain's limit
STAYS = 41  # the question of the stays in queues


@dataclass(frozen=True)
class Answer:
    number: int
    table: int
    row: int

    @property
    def accepted(self):
        return self.number == 0

    @property
    def kind(self):
        return kind_of(self.table)

    def __str__(self):
        return f"{self.number} {self.table} {self.row}"


def parse(text):
    """An answer from its line; raises ValueError for another text."""
    number, table, row = (int(part) for part in text.split())
    return Answer(number, table, row)


def ask(program, image):
    """What the checker at this path answers to an image."""
    return _asked(program, image, lambda lines: parse(lines[0]))


def ask_lanes(program, image):
    """What the checker answers, and what it prints of an accepted plan's lanes: their entries, lane by lane."""
    return _asked(program, image, lambda lines: (parse(lines[0]), lanes_in(lines[2:])))


def lanes_in(lines):
    """The entries of lanes from lines of lane, first tick, kind and row, lanes rising."""
    lanes = []
    for lane, *entry in (map(int, line.split()) for line in lines):
        if lane == len(lanes):
            lanes.append([])
        elif lane != len(lanes) - 1:
            raise ValueError(f"lane {lane} after {len(lanes)} lanes")
        lanes[lane].append(Entry(*entry))
    return lanes


def _asked(program, image, read):
    """What is read from the lines that the checker prints."""
    try:
        ran = subprocess.run([program], input=image, capture_output=True, check=True)
        return read(ran.stdout.decode().splitlines())
    except (OSError, subprocess.CalledProcessError, ValueError, IndexError, TypeError) as error:
        raise trouble(program, f"gives no answer: {error}") from None


def explained(plan, answer):
    """The answer in words, with the row by name."""
    if answer.accepted:
        return f"{phrase(answer.number)} ({answer})"
    return f"refused ({answer}){row_title(plan, answer)}: {phrase(answer.number)}"


def question(answer):
    """What was asked, of a question of the check; else nothing."""
    asked = QUESTIONS.get(answer.number)
    return f"No to question {answer.number}: {asked}" if asked else ""


def fall_of(plan, answer):
    """How the row that question 32 names is below its predecessor; None for other answers."""
    return fall(plan, answer.kind, answer.row) if answer.number == ORDER else None


def reason(plan, answer):
    """For questions 6 and 40 the ranges of the row's values, for 21 and 31 the ticks it takes and its limit, for 32 the words that decide and
    where the row belongs, for 41 the two stays; nothing for other answers."""
    ranges = RANGES.get(answer.number, {})
    if answer.kind in ranges:
        return f"In a {answer.kind}: {ranges[answer.kind]}."
    if answer.number in LIMITS and answer.kind in KEYS and plan.row(answer.kind, answer.row):
        return late(plan, answer.kind, answer.row)
    return crowded(plan, answer.row) if _of_stays(plan, answer) else _out_of_order(plan, answer)


def _of_stays(plan, answer):
    return answer.number == STAYS and answer.kind == "frame" and plan.row("frame", answer.row) is not None


def _out_of_order(plan, answer):
    found = fall_of(plan, answer)
    if not found:
        return ""
    row, last, before = (plan.name(answer.kind, number) for number in (answer.row, answer.row - 1, found.before))
    equal = ", ".join(f"{field} {_word(plan, answer.kind, field, answer.row)}" for field in found.equal)
    less, more = (_word(plan, answer.kind, found.decides, number) for number in (answer.row, answer.row - 1))
    words = f"equal {equal}; " if equal else ""
    return f"{row} is below {last}: {words}{found.decides} {less} is below {more}. It belongs before {before}."


def _word(plan, kind, field, row):
    """A word of a row as a number, since numbers are compared, with the name that stands for it in texts."""
    (column,) = [column for column in BY_KIND[kind].columns if field in column.fields]
    number, table = getattr(plan.rows[kind][row], field), column.names_rows_of
    given = plan.names.given[table] if table else []
    return f"{number} ({given[number]})" if number < len(given) and given[number] else str(number)


def row_title(plan, answer):
    """The row that an answer names, or nothing."""
    return f" at {plan.title(answer.kind, answer.row)}" if answer.kind else ""


def lines_of(plan, answer):
    """The lines of text that the row which an answer names comes from."""
    return plan.lines(answer.kind, answer.row) if answer.kind else []


def lines_met(plan, answer):
    """The lines of the frame that a frame which question 41 names meets in its queue."""
    other = frame_met(plan, answer.row) if _of_stays(plan, answer) else None
    return [] if other is None else plan.lines("frame", other)


def line_before(plan, answer):
    """The line before which the line of a row out of order belongs, or None."""
    found = fall_of(plan, answer)
    return next(iter(plan.lines(answer.kind, found.before)), None) if found else None
