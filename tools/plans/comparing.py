"""Two plans compared (request 11), in words: which VCPUs differ, whether the premises are met, where another VCPU notices, and which do not all the same."""
from dataclasses import dataclass

from .compares import alone, changes, notices, the_one
from .lanes import IDLE, TASK_SWITCH, VCPU_SWITCH, WINDOW, subject
from .pairs import MANY, PlanFile, missing_rows, other_rows, other_settings, told, unpaired
from .schema import KINDS
from .troubles import Place, trouble

FREE = tuple(kind for kind in KINDS if kind not in ("core", "vcpu", "task", "window", "piece"))  # kinds that the premises leave free
LABELS = {"vcpu": "VCPU"}


@dataclass(frozen=True)
class Comparison:
    """What was found of two plans: the VCPUs that differ, the rows that break the premises as (place, words), where others notice, and those whose own rows are equal."""

    first: PlanFile
    second: PlanFile
    changes: list
    broken: list
    notices: list
    alone: list

    @property
    def met(self):
        return not self.broken

    @property
    def impossible(self):
        """The VCPUs that notice though it is proved that they do not."""
        return [notice.vcpu for notice in self.notices if self.met or notice.vcpu in self.alone]

    @property
    def upheld(self):
        """Whether the premises are met and no other VCPU notices."""
        return self.met and not self.notices


def compare(first, second):
    """The comparison of two accepted plans."""
    for plan in (first, second):
        if plan.plan.raw:
            raise trouble(plan.file, "has raw lines, so its rows need not be those of its image; compare the image")
    found = changes(first.plan, second.plan)
    others = [notice for notice in notices(first.plan, second.plan) if notice.vcpu != the_one(found)]
    return Comparison(first, second, found, list(breaking(first, second, len(found))), others, alone(first.plan, second.plan))


def breaking(first, second, differ):
    """What breaks the premises; where more VCPUs than one differ, also all their tasks and pieces that do."""
    yield from other_settings(first, second)
    yield from other_rows(first, second, "core")
    yield from other_rows(first, second, "vcpu")
    yield from missing_rows(first, second, "window")
    if differ > 1:
        yield from guests_rows(first, second)


def guests_rows(first, second):
    """The tasks and pieces that differ."""
    yield from other_rows(first, second, "task")
    yield from missing_rows(first, second, "piece")


def report(found):
    """The comparison, line by line."""
    yield from (change_words(found, change) for change in found.changes)
    if not found.changes:
        yield "No VCPU has other tasks or pieces."
    if len(found.changes) == 1:
        yield from rows_told(found, guests_rows(found.first, found.second))
    yield from free_words(found)
    yield from verdict(found)


def rows_told(found, pairs):
    """A line for each (place, words) pair; of many the last are counted."""
    for place, words in told(list(pairs), Place(found.second.file)):
        yield f"  {place}: {words}"


def change_words(found, change):
    """A VCPU that differs, and what of it, counted."""
    counts = (
        counted(change.tasks_changed, "task", "changed"), counted(change.tasks_gone, "task", "gone"),
        counted(change.tasks_added, "task", "added"), counted(change.pieces_gone, "piece", "gone"),
        counted(change.pieces_added, "piece", "added"),
    )
    return f"{title('vcpu', change.vcpu, found.first, found.second)} has other tasks or pieces: {', '.join(filter(None, counts))}"


def counted(number, kind, what):
    """So many rows of a kind, or nothing."""
    return f"{number} {kind}{'s' * (number > 1)} {what}" if number else ""


def free_words(found):
    """A line about the rows that are free to differ, where some do."""
    counts = []
    for kind in FREE:
        ours, theirs = found.first.rows(kind), found.second.rows(kind)
        counts += [counted(len(list(unpaired(ours, theirs))), kind, "gone"), counted(len(list(unpaired(theirs, ours))), kind, "added")]
    if any(counts):
        yield f"Free to differ: {', '.join(filter(None, counts))}"


def verdict(found):
    """Whether the premises are met, what breaks them, and who notices."""
    if found.met:
        which = f": only {title('vcpu', found.changes[0].vcpu, found.first, found.second)} has other tasks or pieces" if found.changes else ""
        yield f"The premises are met{which}."
    else:
        several = f" ({len(found.changes)} VCPUs have other tasks or pieces, only one may)" if len(found.changes) > 1 else ""
        yield f"The premises are not met{several}:"
        yield from rows_told(found, found.broken)
    yield from notice_words(found)


def notice_words(found):
    """Where the first other VCPU notices, and what is shown there; then where others do. Or that none does."""
    other = " other" if len(found.changes) == 1 else ""
    cycles = [plan.plan.cycle for plan in (found.first, found.second)]
    part = cycles[0] != cycles[1]
    if not found.notices:
        yield nobody_words(found, other, min(cycles), part)
    else:
        if found.impossible:
            vcpu = title("vcpu", found.impossible[0], found.first, found.second)
            yield f"Yet {vcpu} shows something else, which cannot be: the checker or this tool is wrong about one of the plans."
        yield from first_notice(found, other)
        yield from later_notices(found)
    if part:
        yield f"From tick {min(cycles)} on the cycles part; what is shown there is not compared."
    else:
        yield from alone_words(found)


def nobody_words(found, other, ticks, part):
    """That no VCPU shows anything else; of cycles that part only the ticks compared."""
    if part:
        return f"In the first {ticks} ticks no{other} VCPU shows anything else."
    return f"{'No' if found.met else 'But no'}{other} VCPU notices: in {ticks} ticks none shows anything else."


def alone_words(found):
    """Where the premises are broken, the VCPUs that are proved not to notice all the same."""
    if found.alone and not found.met:
        names = ", ".join(title("vcpu", vcpu, found.first, found.second) for vcpu in found.alone)
        yield f"Proved not to notice all the same, since {'its' if len(found.alone) == 1 else 'their'} own rows are equal: {names}"


def first_notice(found, other):
    notice = found.notices[0]
    yield f"The first{other} VCPU to notice is {notice_place(found, notice)}:"
    for plan, entry in ((found.first, notice.ours), (found.second, notice.theirs)):
        yield f"  {plan.file} shows {shown_words(plan, notice.core, entry)}"


def later_notices(found):
    """A line for each VCPU that notices after the first; of many the last are counted."""
    later = found.notices[1:]
    for notice in later if len(later) <= MANY else later[:MANY - 1]:
        yield f"Then {notice_place(found, notice)}"
    if len(later) > MANY:
        yield f"Then {len(later) - MANY + 1} more VCPUs"


def notice_place(found, notice):
    vcpu, core = (title(kind, row, found.first, found.second) for kind, row in (("vcpu", notice.vcpu), ("core", notice.core)))
    return f"{vcpu}, at tick {notice.tick} of the cycle on {core}"


def shown_words(plan, core, entry):
    """What a core shows in a plan, kind and rows by name."""
    if entry.kind == IDLE:
        return "idle" if core < len(plan.rows("core")) else "no such core"
    about = subject(plan.plan, entry)
    vcpu = title("vcpu", about.vcpu, plan)
    if entry.kind == VCPU_SWITCH:
        return f"the VCPU switch of {plan.title('window', entry.row)} of {vcpu}"
    if entry.kind == WINDOW:
        return f"{plan.title('window', entry.row)} of {vcpu}, outside pieces"
    what = "task switch" if entry.kind == TASK_SWITCH else "work"
    return f"{what} of {plan.title('task', about.task)}, job {about.job}, of {vcpu}"


def title(kind, row, *plans):
    """Kind and number of a row with its name, or names where plans call it by several."""
    given = [plan.plan.names.given[kind][row] for plan in plans if row < len(plan.rows(kind))]
    names = ", ".join(filter(None, dict.fromkeys(given)))
    return f"{LABELS.get(kind, kind)} {row}" + (f" ({names})" if names else "")
