"""The command .ci/touched."""
import argparse
import signal
import sys
import time
from collections import Counter
from pathlib import Path

from .change import Change, NoChange, since
from .crates import graph_of, in_order, with_above
from .edits import BadEdit, all_edits, applied
from .proving import laid_out, proved, tried
from .verdicts import NOT_TRIED, REFUSED, Verdict, verdicts

ROOT = Path(__file__).resolve().parents[2]

ABOUT = """Proves what a change touches and tries its must-fail edits, so that nobody runs the whole gate to find a broken edit.

1. Every edit of every crate: its file is there and holds each old text exactly once. And the layout of rt fmt, of every crate.
2. rt check in the crates that changed and in those above them, lowest first; rt run of programs, which must write what they have to.
3. rt must-fail on the crates whose src/, specs/, proofs/ or line in crates.txt changed, and on those of which an edit is new or
   changed. What was tried before and stands on nothing that changed is told again, and not tried again."""

NOT_THE_VERDICT = "a working result: proofs and edits begin with what earlier checks kept. The gate (.ci/run) is the verdict."


class Stop(Exception):
    """Why the command ends early."""

    def __init__(self, line, status=1):
        super().__init__(line)
        self.status = status


def main(arguments):
    options = parser().parse_args(arguments)
    signal.signal(signal.SIGTERM, lambda *_: sys.exit(143))
    try:
        return run(options)
    except Stop as why:
        say(why)
        return why.status
    except NoChange as why:
        say(f"git: {why}")
        return 2
    except KeyboardInterrupt:
        say("stopped")
        return 130


def parser():
    as_written = argparse.RawDescriptionHelpFormatter
    end = f"It gives {NOT_THE_VERDICT}"
    top = argparse.ArgumentParser(prog=".ci/touched", description=ABOUT, epilog=end, formatter_class=as_written)
    top.add_argument("revision", nargs="?", default="HEAD", help="the change since then, untracked files included (default HEAD)")
    top.add_argument("--crates", nargs="+", metavar="NAME", help="as if these crates had changed, whatever git says")
    top.add_argument("--no-above", action="store_true", help="do not prove the crates above")
    return top


def run(options):
    graph, edits = graph_of((ROOT / "crates.txt").read_text()), all_edits(ROOT)
    change = Change(edited=set(options.crates)) if options.crates else since(ROOT, options.revision)
    unlisted = [name for name in options.crates or () if name not in graph]
    if unlisted:
        raise Stop(f"crates.txt does not list {', '.join(unlisted)}", 2)
    trying = to_try(change, edits)
    names = in_order(graph, to_prove(graph, change, trying, options.no_above))
    crates = ", ".join(in_order(graph, change.edited | change.run)) or "no crate"
    say(f"changed: {crates}; {counted(len(change.labels), 'edit')}")
    say(f"to prove, with what they name: {', '.join(names) or 'nothing'}")
    say(f"to try: {counted(len(trying), 'edit')}{listed(trying)}")

    clock = Clock()
    look_at_texts(graph, edits)
    clock.lap("texts")
    prove(names)
    clock.lap("proofs")
    failed = try_edits(in_order(graph, {edit.crate for edit in trying}), trying)
    clock.lap("edits")

    say(f"{len(trying) - len(failed)} of {counted(len(trying), 'edit')} refused for what it says{''.join(failed)}")
    say(f"seconds: {clock}")
    say(NOT_THE_VERDICT)
    return 1 if failed else 0


# ---- what to do

def to_try(change, edits):
    """All edits of a crate that changed, and all of one with an edit that is new or changed: rt does not try again what it knows."""
    crates = change.edited | {label.split("/")[0] for label in change.labels}
    return [edit for edit in edits if edit.crate in crates]


def to_prove(graph, change, trying, no_above):
    """The changed crates, those above them, and those whose edits are tried: what these show rests on a proved crate."""
    changed = change.edited | change.run
    return (changed if no_above else with_above(graph, changed)) | {edit.crate for edit in trying}


# ---- the steps

def look_at_texts(graph, edits):
    bad = []
    for edit in edits:
        try:
            if edit.crate not in graph:
                raise BadEdit("crates.txt does not list its crate")
            applied(ROOT, edit)
        except BadEdit as why:
            bad.append(f"{edit.name}: BAD EDIT: {why}")
    layout = laid_out(ROOT, graph)
    for line in bad:
        print(line)
    if bad:
        raise Stop(f"{counted(len(bad), 'edit')} of {len(edits)} cannot be applied")
    if not layout.well:
        print(layout.said, end="")
        raise Stop("not every file is in the layout of rt fmt")
    say(f"all {len(edits)} edits can be applied, and every file is in the layout of rt fmt")


def prove(names):
    """Says of each crate that it is proved, and shows all that rt says of the first that is not."""
    for name in names:
        run = proved(ROOT / "crates" / name)
        if not run.well:
            print(run.said, end="")
            raise Stop(f"{name} is not proved, or not run as it must be, so no edit was tried")
        print(f"{name} proved, {run.seconds:.0f} s", flush=True)


def try_edits(names, edits):
    """Tries the edits of some crates and tells of each. Returns a line for each that was not refused for what it says."""
    failed = []
    for name in names:
        run = tried(ROOT, name)
        told = verdicts(run.said)
        print(f"{name}: its edits tried, {run.seconds:.0f} s", flush=True)
        for edit in [edit for edit in edits if edit.crate == name]:
            found = told.get(edit.name) or Verdict(NOT_TRIED, "rt must-fail says nothing of it")
            line = f"{edit.name}: {found.kind}, {found.reason}"
            print(line if found.kind == REFUSED else f"*** {line}", flush=True)
            if found.kind != REFUSED:
                failed.append(f"\n  {edit.name}: {found.kind}")
        if not run.well and not any(f" {name}/" in line for line in failed):
            print(run.said, end="")
            failed.append(f"\n  {name}/: rt must-fail failed")
    return failed


# ---- words

def say(line):
    print(f"touched: {line}", flush=True)


def counted(number, name):
    return f"{number} {name}" if number == 1 else f"{number} {name}s"


def listed(edits):
    counts = Counter(edit.crate for edit in edits)
    return f" ({', '.join(f'{crate} {count}' for crate, count in counts.items())})" if counts else ""


class Clock:
    """The seconds of each step."""

    def __init__(self):
        self.last, self.laps = time.monotonic(), []

    def lap(self, name):
        now = time.monotonic()
        self.laps.append(f"{name} {now - self.last:.1f}")
        self.last = now

    def __str__(self):
        return ", ".join(self.laps)
