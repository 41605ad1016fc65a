"""Queues in words: which two frames stay in one queue of a link at once (question 41), and from when to when each of them does."""
from .meaning import Meaning


def met(plan, frame):
    """The stay of a frame, and that of the lowest row before it which stays in the same queue of a link at once; None where there is none."""
    meaning = Meaning(plan)
    stay = meaning.stay(frame)
    others = filter(None, map(meaning.stay, range(frame))) if stay else ()
    other = next((other for other in others if stay.clash(other)), None)
    return (stay, other) if other else None


def frame_met(plan, frame):
    """The row of the frame that a frame meets in its queue, or None."""
    found = met(plan, frame)
    return found[1].frame if found else None


def crowded(plan, frame):
    """For a frame that 41 refuses: the frame it meets, from when to when both are in their queue, and the stays of the two."""
    found = met(plan, frame)
    if not found:
        return ""
    stay, other = found
    first, end = stay.clash(other)
    names = " and ".join(plan.name("frame", row) for row in (frame, other.frame))
    both = f"{names} are both in queue {stay.queue} of {plan.name('link', stay.link)} from {first} to {end}."
    return "\n".join([both, *(_stay_words(plan, each) for each in found)])


def _stay_words(plan, stay):
    row = plan.rows["frame"][stay.frame]
    message = f"{plan.name('stream', row.stream)} job {row.job} hop {row.hop}"
    return f"{plan.name('frame', stay.frame)} ({message}) stays {stay.begin}..{stay.end}: {_begin_words(plan, stay, row)}."


def _begin_words(plan, stay, row):
    """Why a stay begins where it does."""
    if stay.since is None:
        return "from its start, since what comes before it is not there"
    if row.hop == 0:
        return f"from the end of {plan.name('task', plan.rows['stream'][row.stream].sender)}"
    before = plan.rows["frame"][stay.before]
    lowest, below = plan.rows["link"][before.link].lowest, ", which is below 0"
    words = f"from {before.start} (start of {plan.name('frame', stay.before)}) + {lowest} (lowest delay) - {plan.precision} (P)"
    return words + (below if before.start + lowest < plan.precision else "")
