"""What the words of rt must-fail on an edit come to."""
import re
from dataclasses import dataclass

REFUSED, NOT_REFUSED, SHAPE_ONLY, LIMIT_ONLY = "refused", "NOT REFUSED", "REFUSED ONLY FOR ITS SHAPE", "REFUSED ONLY BY A LIMIT"
BAD, NOT_TRIED = "BAD EDIT", "NOT TRIED"

HEAD = re.compile(r"rt: must-fail (\S+?)\.edit: (.*)")
AS_IT_MUST = "refused, as it must be"
# what rt says of a refusal that says little of the contract, before its reason
SMALL = {"only because a proof file names what the edit took away": SHAPE_ONLY, "only by a limit of the prover": LIMIT_ONLY}

WIDTH = 200


@dataclass(frozen=True)
class Verdict:
    kind: str
    reason: str


def verdicts(said):
    """The verdict on each edit, CRATE/LABEL, of which rt must-fail tells. Lines after an edit's own go on with what rt says of it."""
    found, name = {}, None
    for line in said.splitlines():
        head = HEAD.match(line)
        if head:
            name, words = head.groups()
            found[name] = words
        elif line.startswith("rt: "):
            name = None
        elif name:
            found[name] += " " + line
    return {name: verdict(words) for name, words in found.items()}


def verdict(words):
    """The verdict by what rt says of one edit."""
    for kind in (NOT_REFUSED, BAD, NOT_TRIED):
        if words.startswith(kind):
            return Verdict(kind, in_one_line(words.removeprefix(kind).lstrip(": ")))
    if not words.startswith(AS_IT_MUST):
        return Verdict(NOT_TRIED, in_one_line(words))
    rest = words.removeprefix(AS_IT_MUST)
    small = re.match(r" \(([^()]*)\)", rest)
    kind = next((kind for start, kind in SMALL.items() if small and small[1].startswith(start)), REFUSED)
    reason = rest[small.end():] if kind != REFUSED else rest
    return Verdict(kind, in_one_line(reason.lstrip(": ")) or "no reason told")


def in_one_line(words):
    words = " ".join(words.split())
    return words if len(words) <= WIDTH else words[:WIDTH] + " .."
