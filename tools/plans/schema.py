"""The tables of an image and their columns: the one place that knows them.

A new column or table is one line here; the sizes of rows, trailer and image follow.
"""
from collections import namedtuple

from .columns import WORD_BYTES, Mask, Number, RowOf, Span


class Table:
    """A kind of row: its least and highest count and its columns."""

    def __init__(self, kind, least, most, *columns):
        self.kind = kind
        self.least = least
        self.most = most
        self.columns = columns
        self.keys = [column.key for column in columns]
        fields = [field for column in columns for field in column.fields]
        self.record = namedtuple(kind, fields)
        self.row_words = len(fields)
        self.row_bytes = WORD_BYTES * self.row_words

    def row(self, **words):
        """A row by the names of its words; a word that is left out is its column's default, else 0."""
        unsaid = [word for column in self.columns for word in column.unsaid()]
        return self.record(*unsaid)._replace(**words)


TABLES = (
    Table("core", 1, 32, Number("node"), Number("d"), Number("v")),
    Table("vcpu", 0, 64, RowOf("core")),
    Table("task", 0, 256, RowOf("vcpu"), Mask("cores", "core"), Number("period"), Number("budget"), Number("deadline")),
    Table("window", 0, 1024, RowOf("vcpu"), Span("at")),
    Table("piece", 0, 2048, RowOf("task"), Number("job"), Span("at")),
    Table(
        "link", 0, 64, Number("from", "from_node"), Number("to", "to_node"), Number("delay"), Number("rate"), Number("lowest", default="0"),
    ),
    Table(
        "stream", 0, 64, RowOf("sender", "task"), RowOf("receiver", "task"), Number("latency"), Number("hops"), Number("payload"),
        Number("queue", default="0"),
    ),
    Table("frame", 0, 512, RowOf("stream"), Number("job"), Number("hop"), RowOf("link"), Number("at", "start")),
    Table("buffer", 0, 64, Number("number"), RowOf("writer", "task"), RowOf("reader", "task")),
    Table("chain", 0, 32, RowOf("first", "task"), RowOf("last", "task"), Number("limit")),
)

# The words that open the trailer, written as one row of the kind 'plan'.
SETTINGS = Table("plan", 1, 1, Number("cycle"), Number("precision", default="0"))

BY_KIND = {table.kind: table for table in TABLES}
KINDS = tuple(BY_KIND)

# Kinds whose rows other rows name: their rows are written with names.
NAMED = {column.names_rows_of for table in TABLES for column in table.columns if column.names_rows_of}

# Kinds whose rows start at a tick: in an accepted plan they rise by start (question 32). No row names one of them, so putting them in
# order changes nothing else.
ORDERED = tuple(table.kind for table in TABLES if "start" in table.record._fields)

# The trailer: the settings, an offset and a count for each table, the last word.
TRAILER_WORDS = len(SETTINGS.columns) + 2 * len(TABLES) + 1
TRAILER_BYTES = WORD_BYTES * TRAILER_WORDS
LONGEST = TRAILER_BYTES + sum(table.most * table.row_bytes for table in TABLES)


def kind_of(number):
    """The kind of a table by its number in an answer (from 1), or None."""
    return KINDS[number - 1] if 1 <= number <= len(KINDS) else None
