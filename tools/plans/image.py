"""Plan images: bytes to rows and back, and broken images on purpose (raw)."""
import struct

from .columns import HIGHEST, WORD_BYTES
from .model import Plan
from .schema import KINDS, LONGEST, SETTINGS, TABLES, TRAILER_BYTES, TRAILER_WORDS
from .troubles import BadValue

LONGEST_RAW = 2 ** 20  # bytes of an image made on purpose


def pack(words):
    return struct.pack(f"<{len(words)}I", *words)


def unpack(data):
    return struct.unpack(f"<{len(data) // WORD_BYTES}I", data)


def encode(plan):
    """The image of a plan, with its raw changes."""
    body, places, cuts = b"", [], dict(plan.raw)
    for table in TABLES:
        rows, words = plan.rows[table.kind], cuts.get(f"{table.kind}.words", table.row_words)
        places += [len(body), len(rows)]
        body += b"".join(pack(row[:words]) for row in rows)
    image = body + pack([*plan.settings, *places, len(body)])
    return apply_raw(image, len(body), plan.raw)


def raw_limits():
    """All that raw changes name, each with the highest value it may get."""
    limits = dict.fromkeys(raw_words(), HIGHEST)
    limits.update({f"{table.kind}.words": table.row_words for table in TABLES})
    return {**limits, "length": LONGEST_RAW}


def raw_words():
    """The trailer's words that raw changes name, with their places in the trailer."""
    first = len(SETTINGS.columns)
    words = {"last-word": TRAILER_WORDS - 1}
    for number, kind in enumerate(KINDS):
        words[f"{kind}.offset"] = first + 2 * number
        words[f"{kind}.rows"] = first + 2 * number + 1
    return words


def apply_raw(image, trailer, changes):
    """The image with trailer words put in and its length cut, or filled up with zero bytes."""
    data, words = bytearray(image), raw_words()
    for key, value in changes:
        if key == "length":
            data = data[:value].ljust(value, b"\0")
        elif key in words:
            at = trailer + WORD_BYTES * words[key]
            data[at:at + WORD_BYTES] = pack([value])
    return bytes(data)


def decode(image):
    """The plan in an image in which questions 1 to 3 are answered yes."""
    if not TRAILER_BYTES <= len(image) <= LONGEST:
        raise unreadable(1, f"{len(image)} bytes, not {TRAILER_BYTES} to {LONGEST}")
    trailer = len(image) - TRAILER_BYTES
    (last,) = unpack(image[-WORD_BYTES:])
    if last != trailer:
        raise unreadable(2, f"the last word is {last}, not {trailer}")
    words = unpack(image[trailer:])
    settings, places = words[:len(SETTINGS.columns)], words[len(SETTINGS.columns):-1]
    return Plan(settings, _tables(image, trailer, places))


def unreadable(question, message):
    return BadValue(f"no readable image (question {question}): {message}")


def _tables(image, trailer, places):
    rows, at = {}, 0
    for table, offset, count in zip(TABLES, places[::2], places[1::2]):
        if not table.least <= count <= table.most:
            raise unreadable(3, f"{count} {table.kind} rows, not {table.least} to {table.most}")
        if offset != at:
            raise unreadable(3, f"table {table.kind} at byte {offset}, not {at}")
        end = at + count * table.row_bytes
        if end > trailer:
            raise unreadable(3, f"table {table.kind} ends at byte {end}, past the trailer at {trailer}")
        words = unpack(image[at:end])
        rows[table.kind] = [table.record(*row) for row in zip(*[iter(words)] * table.row_words)]
        at = end
    if at != trailer:
        raise unreadable(3, f"the tables end at byte {at}, the trailer starts at {trailer}")
    return rows
