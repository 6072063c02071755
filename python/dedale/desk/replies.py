"""Replies as the desk shows them."""
from typing import Iterator, Sequence

from dedale.desk.cells import cells_of, span_text
from dedale.desk.tables import table_lines
from dedale.desk.texts import shown
from dedale.replies import Answer, Apart, Dump, Plan, Reply, Spans, Stored
from dedale.tuples import GeneralizedTuple, Heading

TIES = "tied by"
"""The title above constraints that tie columns to each other."""

NUMBERS = "tuple"
"""The title above the numbers of tuples."""


def reply_lines(reply: Reply, rows: int) -> Iterator[str]:
    """The lines that show a reply, other than a refusal: at most so many rows of a table, or lines of another list."""
    match reply:
        case Answer():
            yield from _table(reply.columns, reply.tuples[:rows], None)
            yield _count("tuple", len(reply.tuples), rows)
        case Stored():
            numbers = list(reply.tuples)[:rows]
            yield from _table(reply.columns, [reply.tuples[number] for number in numbers], numbers)
            yield _count("tuple", len(reply.tuples), rows)
        case Spans():
            yield from _spans(reply)
        case Plan() | Apart() | Dump():
            yield from _list(reply, rows)
        case _:
            yield reply.printed().rstrip("\n")


def _table(columns: Heading, tuples: Sequence[GeneralizedTuple], numbers: Sequence[int] | None) -> Iterator[str]:
    """The tuples, each behind its number where there are numbers."""
    heading = [column.name for column in columns]
    found = [cells_of(one) for one in tuples]
    rows = [list(one.columns) for one in found]
    if any(one.ties for one in found):
        heading.append(TIES)
        for row, one in zip(rows, found):
            row.append(", ".join(one.ties))
    if numbers is not None:
        heading.insert(0, NUMBERS)
        for row, number in zip(rows, numbers):
            row.insert(0, str(number))
    yield from table_lines(heading, rows)


def _spans(reply: Spans) -> Iterator[str]:
    """The bounds of columns, as intervals."""
    if reply.spans:
        yield from (span_text(name, span) for name, span in reply.spans.items())
    else:
        yield reply.printed().rstrip("\n")


def _list(reply: Plan | Apart | Dump, rows: int) -> Iterator[str]:
    """The lines of a reply that the program writes between a count and `end`. Those of a script are all shown."""
    head, *lines, _ = reply.printed().rstrip("\n").split("\n")
    wanted = len(lines) if isinstance(reply, Dump) else rows
    if isinstance(reply, Apart):
        yield head
    yield from map(shown, lines[:wanted])
    if len(lines) > wanted:
        yield _count("line", len(lines), wanted)


def _count(what: str, count: int, rows: int) -> str:
    """How many there are, and how many of them are shown where that isn't all."""
    told = f"{count} {what}" if count == 1 else f"{count} {what}s"
    return told if count <= rows else f"{rows} of {told}, and {count - rows} more: \\rows {count} shows all"
