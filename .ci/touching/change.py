"""What has changed: the crates to prove again and the edits to try again."""
import subprocess
from dataclasses import dataclass, field

from .crates import lines_of


class NoChange(Exception):
    """git could not tell what has changed."""


@dataclass
class Change:
    edited: set = field(default_factory=set)   # crates whose code, definitions, proofs or line changed
    run: set = field(default_factory=set)      # programs of which only what they are run on changed
    labels: set = field(default_factory=set)   # edits that are new or changed, as CRATE/LABEL


def since(root, revision):
    """What differs from a revision, with the files that git does not know yet."""
    differ = _git(root, "diff", "--name-only", "--no-renames", "-z", revision, "--")
    unknown = _git(root, "ls-files", "--others", "--exclude-standard", "-z")
    paths = [path for path in (differ + unknown).split("\0") if path]
    change = of_paths(paths)
    if "crates.txt" in paths:
        before = list(lines_of(_git(root, "show", f"{revision}:crates.txt")))
        change.edited |= {line[0] for line in lines_of((root / "crates.txt").read_text()) if line not in before}
    return change


def of_paths(paths):
    change = Change()
    for path in paths:
        match path.split("/"):
            case ["crates", crate, "src" | "specs" | "proofs", *_]:
                change.edited.add(crate)
            case ["crates", crate, "stdin" | "stdout" | "args" | "status" | "data", *_]:
                change.run.add(crate)
            case ["crates", crate, "must-fail", file] if file.endswith(".edit"):
                change.labels.add(f"{crate}/{file.removesuffix('.edit')}")
    return change


def _git(root, *words):
    ended = subprocess.run(["git", "-C", root, *words], capture_output=True, text=True)
    if ended.returncode:
        raise NoChange(ended.stderr.strip())
    return ended.stdout
