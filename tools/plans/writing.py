"""Plans to texts."""
from .aligned import aligned
from .schema import NAMED, SETTINGS, TABLES

HEADER = "# Written from rows: an image holds no names and no comments."


def write_text(plan, header=HEADER):
    """A text whose image is the plan's rows; rows that others may name have names."""
    parts = [header + "\n" + " ".join([SETTINGS.kind, *values(SETTINGS, plan.settings, plan.names)])]
    for table in TABLES:
        if plan.rows[table.kind]:
            parts.append("\n".join(aligned(row_words(plan, table))))
    parts += [f"raw {key}={value}" for key, value in plan.raw]
    return "\n\n".join(parts) + "\n"


def row_words(plan, table):
    """The words of each row's line."""
    names = (plan.names.all if table.kind in NAMED else plan.names.given)[table.kind]
    named = any(names)
    for name, record in zip(names, plan.rows[table.kind]):
        yield [table.kind, *([name] if named else []), *values(table, record, plan.names)]


def values(table, record, names):
    """The key=value words of a row."""
    return [f"{column.key}={shown}" for column, shown in zip(table.columns, shown_values(table, record, names))]


def shown_values(table, record, names):
    """The values of a row as they stand in text, column by column."""
    words = iter(record)
    return [column.show([next(words) for _ in column.fields], names) for column in table.columns]
