"""The kinds of column: how a value stands in text and in an image's words.

A column has a key (in text), fields (one for each word), and reads and shows values. Row numbers are read and shown by
names where the row exists.
"""
from .troubles import BadValue

WORD_BYTES = 4
HIGHEST = 2 ** (8 * WORD_BYTES) - 1


def word(text):
    """A whole number that fits a word."""
    if not (text.isascii() and text.isdigit()):
        raise BadValue(f"'{text}' is not a whole number (decimal digits only)")
    number = int(text)
    if number > HIGHEST:
        raise BadValue(f"{text} is past {HIGHEST}, the highest number of a word")
    return number


class Number:
    """A plain number."""

    names_rows_of = None

    def __init__(self, key, field=None, default=None):
        self.key = key
        self.fields = (field or key,)
        self.default = default

    def unsaid(self):
        """The words where nobody says them."""
        return (word(self.default or "0"),)

    def read(self, text, names):
        return (word(text),)

    def show(self, words, names):
        return str(words[0])


class RowOf(Number):
    """The number of a row of a table (by default the table of the same name)."""

    def __init__(self, key, table=None):
        super().__init__(key)
        self.names_rows_of = table or key

    def read(self, text, names):
        return (names.number(self.names_rows_of, text),)

    def show(self, words, names):
        return names.name(self.names_rows_of, words[0])


class Mask(Number):
    """A set of rows of a table as bits: rows joined by commas, 'none' or 'any' (all bits)."""

    BITS = 8 * WORD_BYTES

    def __init__(self, key, table):
        super().__init__(key)
        self.names_rows_of = table

    def read(self, text, names):
        special = {"none": 0, "any": HIGHEST}
        return (special[text] if text in special else self._bits(text.split(","), names),)

    def _bits(self, parts, names):
        mask = 0
        for part in parts:
            row = names.number(self.names_rows_of, part)
            if row >= self.BITS:
                raise BadValue(f"{part} is past {self.BITS - 1}, the highest bit of a mask")
            if mask >> row & 1:
                raise BadValue(f"{part} stands twice in the mask")
            mask |= 1 << row
        return mask

    def show(self, words, names):
        mask = words[0]
        if mask == HIGHEST:
            return "any"
        bits = [bit for bit in range(self.BITS) if mask >> bit & 1]
        return ",".join(names.name(self.names_rows_of, bit) for bit in bits) or "none"


class Span:
    """Two words, start and length, as START..END or START+LENGTH."""

    names_rows_of = None
    default = None
    fields = ("start", "length")

    def __init__(self, key):
        self.key = key

    def unsaid(self):
        return (0, 0)

    def read(self, text, names):
        if "+" in text:
            start, length = text.split("+", 1)
            return word(start), word(length)
        if ".." not in text:
            raise BadValue(f"'{text}' is not a span; write START..END or START+LENGTH")
        return self._from_end(*text.split("..", 1))

    def _from_end(self, start_text, end_text):
        start = word(start_text)
        if not (end_text.isascii() and end_text.isdigit()):
            raise BadValue(f"'{end_text}' is not a whole number (decimal digits only)")
        length = int(end_text) - start
        if length < 0:
            raise BadValue(f"{start_text}..{end_text} ends before it starts")
        if length > HIGHEST:
            raise BadValue(f"{start_text}..{end_text} is longer than {HIGHEST}")
        return start, length

    def show(self, words, names):
        start, length = words
        return f"{start}..{start + length}"
