"""The commands of rt that prove a crate, run a program and try edits, in the checkout itself, over what is kept in the crates' out/."""
import os
import subprocess
import time
from dataclasses import dataclass
from pathlib import Path
from shutil import which


@dataclass
class Run:
    well: bool
    said: str
    seconds: float


def proved(folder):
    """Proves a crate; a program is run too, and has to write what its file stdout has."""
    if not (folder / "src/main.rt").is_file():
        return ran(["rt", "check"], folder)
    given, wanted = [(folder / name).read_bytes() if (folder / name).is_file() else b"" for name in ("stdin", "stdout")]
    began = time.monotonic()
    # (rt's own words go to standard error)
    ended = subprocess.run(["rt", "run"], cwd=folder, input=given, capture_output=True)
    said = ended.stderr.decode(errors="replace")
    if ended.stdout != wanted:
        said += f"{folder.name} does not write what its file stdout has\n"
    return Run(ended.returncode == 0 and ended.stdout == wanted, said, time.monotonic() - began)


def tried(root, crate):
    """Tries a crate's must-fail edits; rt must-fail begins with what rt check kept, and tells again of what has not changed since it was tried."""
    return ran(["rt", "must-fail", crate], root)


def laid_out(root, names):
    """What rt ci would say of the layout of the crates' files, by the toolchain's own formatter (rt fmt lays out, and has no look alone)."""
    rattle = Path(os.path.realpath(which("rt") or "rt")).parent / "rattle"
    files = [file for name in names for part in ("src", "specs", "proofs") for file in sorted((root / "crates" / name / part).rglob("*"))]
    files = [file for file in files if file.suffix in (".rt", ".antt")]
    return ran([rattle, "fmt", "--check", *files], root) if files else Run(True, "", 0)


def ran(command, folder):
    began = time.monotonic()
    ended = subprocess.run(command, cwd=folder, stdin=subprocess.DEVNULL, stdout=subprocess.PIPE, stderr=subprocess.STDOUT)
    return Run(ended.returncode == 0, ended.stdout.decode(errors="replace"), time.monotonic() - began)
