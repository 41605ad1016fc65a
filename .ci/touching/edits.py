"""Must-fail edits, read and applied as rt does it, so that a bad one is found before anything is proved."""
from dataclasses import dataclass


class BadEdit(Exception):
    """Why an edit cannot be tried."""


@dataclass(frozen=True)
class Edit:
    crate: str
    label: str

    @property
    def name(self):
        return f"{self.crate}/{self.label}"


def all_edits(root):
    """Every edit of a repository, by name."""
    return [Edit(path.parents[1].name, path.stem) for path in sorted(root.glob("crates/*/must-fail/*.edit"))]


def applied(root, edit):
    """The files of its crate that an edit changes, with their texts after it."""
    folder = root / "crates" / edit.crate
    return changed(folder, whole(folder / "must-fail" / f"{edit.label}.edit"))


def whole(path):
    """A file's text with its line ends as they are, since an old text has to be there to the character."""
    return path.read_bytes().decode()


def changed(folder, text):
    """What an edit's text makes of the files in a crate's folder. A later pair sees what an earlier one changed."""
    texts = {}
    for file, old, new in replacements(text):
        if file not in texts:
            texts[file] = text_of(folder, file)
        texts[file] = replaced(file, texts[file], old, new)
    return texts


def replacements(text):
    """The (file, old, new) of an edit, in turn. A 'file:' line holds for the pairs after it, and rt passes over any other line."""
    file, old, found = "", None, []
    for line in text.split("\n"):
        if line.startswith("file: "):
            file = line.removeprefix("file: ")
        elif line.startswith("old: "):
            if old is not None:
                raise BadEdit("an 'old:' line has no 'new:' line after it")
            old = line.removeprefix("old: ")
        elif line.startswith("new:"):
            found.append((file, old or "", line.removeprefix("new:").removeprefix(" ")))
            old = None
    if old is not None:
        raise BadEdit("an 'old:' line has no 'new:' line after it")
    if not found:
        raise BadEdit("it has no 'old:' and 'new:' pair")
    return found


def text_of(folder, file):
    parts = file.split("/")
    if parts[0] not in ("src", "specs", "proofs") or ".." in parts:
        raise BadEdit(f"a 'file:' line names no file below src/, specs/ or proofs/: {file or 'there is none'}")
    path = folder / file
    if path.is_symlink() or not path.is_file():
        raise BadEdit(f"there is no file {file}")
    return whole(path)


def replaced(file, text, old, new):
    if not old:
        raise BadEdit(f"a 'new:' line for {file} has no old text")
    if old == new:
        raise BadEdit(f"the new text is the old one: {old.strip()}")
    count = text.count(old)
    if count == 0:
        raise BadEdit(f"the old text is not in {file}: {old.strip()}")
    if count > 1:
        raise BadEdit(f"the old text is in {file} {count} times: {old.strip()}")
    return text.replace(old, new)
