"""Rows of cells as aligned lines."""
from typing import Iterator, Sequence

from dedale.desk.texts import width

WIDEST_COLUMN = 40
"""How wide a column is made at most; a wider cell moves what stands behind it."""

GAP = "  "


def table_lines(heading: Sequence[str], rows: Sequence[Sequence[str]]) -> Iterator[str]:
    """The heading, a line below it and the rows, each of them with a cell for each title of the heading. A column is as wide as
    its widest cell, up to a limit."""
    widths = [_width_of_column([title, *(row[at] for row in rows)]) for at, title in enumerate(heading)]
    yield _line(heading, widths)
    yield _line(["-" * one for one in widths], widths)
    yield from (_line(row, widths) for row in rows)


def _width_of_column(cells: Sequence[str]) -> int:
    return max([width(cells[0]), *(one for one in map(width, cells) if one <= WIDEST_COLUMN)])


def _line(cells: Sequence[str], widths: Sequence[int]) -> str:
    padded = [cell + " " * (wanted - width(cell)) for cell, wanted in zip(cells, widths, strict=True)]
    return GAP.join(padded).rstrip()
