"""What is wrong with an input, with the place where it stands."""
from dataclasses import dataclass
from difflib import get_close_matches


@dataclass(frozen=True)
class Place:
    """A line of a text file, or a whole file where line is 0."""

    file: str
    line: int = 0

    def __str__(self):
        return f"{self.file}:{self.line}" if self.line else self.file


class BadValue(Exception):
    """A value that cannot be read; the reader adds the place."""


class Trouble(Exception):
    """One or more (place, message) pairs that keep a command from its work."""

    def __init__(self, pairs):
        super().__init__(pairs)
        self.pairs = pairs

    def __str__(self):
        return "\n".join(f"{place}: {message}" for place, message in self.pairs)


def trouble(file, message):
    """A trouble with a whole file."""
    return Trouble([(Place(str(file)), message)])


def meant(word, known):
    """A hint at the known word that an unknown one resembles, or nothing."""
    near = get_close_matches(word, known, n=1)
    return f" (did you mean {near[0]}?)" if near else ""
