"""Reading plans from files of either form, and writing whole files or nothing."""
import os
import sys
import tempfile
from pathlib import Path

from .image import decode
from .reading import read_text
from .troubles import BadValue, trouble


def read_bytes(path):
    try:
        return Path(path).read_bytes()
    except OSError as error:
        raise trouble(path, f"cannot be read: {error.strerror}") from None


def load(path):
    """The plan of a file."""
    return plan_in(path, read_bytes(path))


def plan_in(path, data):
    """The plan in a file's bytes: text where they are only characters, else an image."""
    return read_text(path, as_text(path, data)) if is_text(data) else load_image(path, data)


def is_text(data):
    return data != b"" and b"\0" not in data


def as_text(path, data):
    try:
        return data.decode("utf-8-sig")
    except UnicodeDecodeError as error:
        line = data[:error.start].count(b"\n") + 1
        raise trouble(path, f"line {line} is not UTF-8 text") from None


def load_image(path, data):
    try:
        return decode(data)
    except BadValue as bad:
        raise trouble(path, str(bad)) from None


def write_whole(path, data):
    """Puts the data in place in one step: a temporary file beside it, then a rename. '-' is standard output."""
    if path == "-":
        sys.stdout.buffer.write(data)
        return
    path = Path(path)
    try:
        with tempfile.NamedTemporaryFile(dir=path.parent, prefix=f".{path.name}.", delete=False) as beside:
            beside.write(data)
        _put_in_place(beside.name, path)
    except OSError as error:
        raise trouble(path, f"cannot be written: {error.strerror}") from None


def _put_in_place(beside, path):
    try:
        os.chmod(beside, 0o644)
        os.replace(beside, path)
    except OSError:
        os.unlink(beside)
        raise
