"""Lists of words as lines with the words under each other."""
from itertools import zip_longest


def aligned(rows, right=()):
    """One line a row; columns as wide as their widest word, those in right flush right."""
    rows = [[str(word) for word in row] for row in rows]
    widths = [max(map(len, column)) for column in zip_longest(*rows, fillvalue="")]
    return ["  ".join(_filled(row, widths, right)).rstrip() for row in rows]


def _filled(row, widths, right):
    for number, (word, width) in enumerate(zip(row, widths)):
        yield word.rjust(width) if number in right else word.ljust(width)
