"""What the tests share: the tools on the path, images from the independent generator, small plans as text and by chance, calls of the command."""
import io
import os
import subprocess
import sys
import tempfile
import unittest
from collections import namedtuple
from contextlib import redirect_stderr, redirect_stdout
from functools import lru_cache
from pathlib import Path

TOOLS = Path(__file__).resolve().parent.parent
ROOT = TOOLS.parent
EXAMPLES = ROOT / "examples" / "plans"
PEER = ROOT / "peer"
sys.path[:0] = [str(TOOLS), str(ROOT / ".ci")]

from plans.commands import main
from plans.model import Plan
from plans.schema import BY_KIND, KINDS

SHAPES = ("bare", "units", "small", "medium", "rich", "large", "busy", "full")


@lru_cache(maxsize=None)
def generator():
    """The generator's path: $GENERATE, else the independent checker's, built first, since it follows the image's layout."""
    if os.environ.get("GENERATE"):
        return os.environ["GENERATE"]
    command = ["cargo", "build", "--quiet", "--release", "--offline", "--manifest-path", PEER / "Cargo.toml"]
    subprocess.run(command, check=True)
    return str(PEER / "target" / "release" / "generate")


@lru_cache(maxsize=None)
def generated(shape, seed=1):
    """An image of a shape and seed."""
    return subprocess.run([generator(), shape, str(seed)], capture_output=True, check=True).stdout


CASE_A = """plan cycle=10 precision=0
core scanner node=0 d=1 v=2
vcpu guest core=scanner
task decode vcpu=guest cores=scanner period=10 budget=3 deadline=8
window vcpu=guest at=0..10
piece task=decode job=0 at=2..6
"""


def case_a_with(line, text):
    """Case A with one line (from 1) replaced, or added where it has no such line."""
    lines = CASE_A.splitlines()
    lines[line - 1:line] = [text]
    return "\n".join(lines) + "\n"


def any_run(chance, cycle=24):
    """A plan of windows that do not overlap on their core, and pieces in them behind their switch; rows in any order. Nothing else is right."""
    rows = {kind: [] for kind in KINDS}
    for _ in range(chance.randrange(1, 4)):
        rows["core"].append(BY_KIND["core"].row(d=chance.randrange(3), v=chance.randrange(3)))
    for vcpu in range(chance.randrange(1, 6)):
        rows["vcpu"].append(BY_KIND["vcpu"].row(core=chance.randrange(len(rows["core"]))))
        rows["task"] += [BY_KIND["task"].row(vcpu=vcpu)] * chance.randrange(1, 3)
    for core in range(len(rows["core"])):
        any_windows(chance, rows, core, cycle)
    for kind in ("window", "piece"):
        chance.shuffle(rows[kind])
    return Plan((cycle, 0), rows)


def any_windows(chance, rows, core, cycle):
    """Windows of a core's VCPUs, and pieces in each of them."""
    vcpus, tick = [number for number, row in enumerate(rows["vcpu"]) if row.core == core], chance.randrange(4)
    while vcpus and tick < cycle:
        vcpu, end = chance.choice(vcpus), min(cycle, tick + chance.randrange(4, 12))
        rows["window"].append(BY_KIND["window"].row(vcpu=vcpu, start=tick, length=end - tick))
        any_pieces(chance, rows, vcpu, range(tick + rows["core"][core].v, end))
        tick = end + chance.choice((0, 0, 3))


def any_pieces(chance, rows, vcpu, ticks):
    """Pieces of a VCPU's tasks in these ticks, each longer than its switch."""
    tasks, start = [number for number, row in enumerate(rows["task"]) if row.vcpu == vcpu], ticks.start + chance.randrange(3)
    while start < ticks.stop and chance.random() < 0.8:
        length = rows["core"][rows["vcpu"][vcpu].core].d + chance.randrange(1, 4)
        if start + length <= ticks.stop:
            rows["piece"].append(BY_KIND["piece"].row(task=chance.choice(tasks), job=chance.randrange(2), start=start, length=length))
        start += length + chance.randrange(2)


def shown_at(plan, core, tick):
    """Kind and row that a core's lane shows at a tick, by the plan paper's words, from all rows."""
    rows, hardware = plan.rows, plan.rows["core"][core]
    for number, piece in enumerate(rows["piece"]):
        if rows["vcpu"][rows["task"][piece.task].vcpu].core == core and piece.start <= tick < piece.start + piece.length:
            return (3 if tick - piece.start < hardware.d else 4), number
    for number, window in enumerate(rows["window"]):
        if rows["vcpu"][window.vcpu].core == core and window.start <= tick < window.start + window.length:
            kept = any(other.vcpu == window.vcpu and other.start + other.length == window.start for other in rows["window"])
            charge = 0 if kept else hardware.v
            return (1 if tick - window.start < charge else 2), number
    return 0, 0


Ran = namedtuple("Ran", "returncode stdout stderr")


def run(*arguments):
    """What a call of the command gives, without a process of its own."""
    out, err = io.StringIO(), io.StringIO()
    with redirect_stdout(out), redirect_stderr(err):
        try:
            status = main([str(argument) for argument in arguments])
        except SystemExit as left:
            status = left.code
    return Ran(status, out.getvalue(), err.getvalue())


class InFolder(unittest.TestCase):
    """Tests with files of their own, and checkers that say what they are told to."""

    def setUp(self):
        folder = tempfile.TemporaryDirectory()
        self.addCleanup(folder.cleanup)
        self.folder = Path(folder.name)

    def put(self, name, content):
        path = self.folder / name
        path.write_bytes(content if isinstance(content, bytes) else content.encode())
        return path

    def files(self):
        return sorted(path.name for path in self.folder.iterdir())

    def program(self, line):
        """A checker that always prints this line."""
        return self.recording(line, "/dev/null")

    def printing(self, lines):
        """A checker that always prints what a file has."""
        path = self.put("checker", f"#!/bin/sh\ncat > /dev/null\ncat '{lines}'\n")
        os.chmod(path, 0o755)
        return path

    def recording(self, line, asked):
        """A checker that always prints this line and keeps what it was asked in a file."""
        path = self.put("checker", f"#!/bin/sh\ncat > '{asked}'\necho {line}\n")
        os.chmod(path, 0o755)
        return path
