"""Linear constraints between rational numbers, and what follows from several of them."""
from dataclasses import dataclass
from enum import Enum
from fractions import Fraction
from typing import Iterable, Mapping

from dedale.simplex import Demand, LinearProgram


class Sign(Enum):
    """How the sum of a row compares with 0."""

    LESS = "<"
    AT_MOST = "<="
    EQUAL = "="


# how a sign is written where both sides are negated
_TURNED = {Sign.LESS: ">", Sign.AT_MOST: ">=", Sign.EQUAL: "="}


@dataclass(frozen=True)
class Row:
    """A linear constraint: the sum of the terms and the constant compares by the sign with 0.

    `terms` has a column and its coefficient, which isn't 0, for each column that the row names, in the order in which
    they are written."""

    terms: tuple[tuple[str, int], ...]
    sign: Sign
    constant: int

    def coefficient(self, column: str) -> int:
        """The coefficient of the column, 0 where the row doesn't name it."""
        return next((number for name, number in self.terms if name == column), 0)

    def sum_at(self, point: Mapping[str, Fraction]) -> Fraction:
        """The sum of terms and constant at a point, which has a value for each column that the row names."""
        return sum((number * point[name] for name, number in self.terms), Fraction(self.constant))

    def holds_at(self, point: Mapping[str, Fraction]) -> bool:
        """Whether the point, which has a value for each column that the row names, satisfies the row."""
        total = self.sum_at(point)
        return total == 0 if self.sign is Sign.EQUAL else total < 0 or total == 0 and self.sign is Sign.AT_MOST

    def printed(self) -> str:
        """The row as the program writes it: terms on the left, the first one positive, and a number on the right."""
        if not self.terms:
            return f"0 {self.sign.value} {-self.constant}"
        turned = self.terms[0][1] < 0
        factor = -1 if turned else 1
        left = _term(*self.terms[0])
        for name, number in self.terms[1:]:
            left += (" - " if number * factor < 0 else " + ") + _term(name, number)
        return f"{left} {_TURNED[self.sign] if turned else self.sign.value} {-self.constant * factor}"


def _term(name: str, number: int) -> str:
    """A column with the magnitude of its coefficient."""
    return name if abs(number) == 1 else f"{abs(number)}*{name}"


@dataclass(frozen=True)
class Bound:
    """An end of an interval. `is_open` tells that the value itself is not in it."""

    value: Fraction
    is_open: bool


@dataclass(frozen=True)
class Span:
    """An interval that isn't empty. An end that is none is infinite."""

    low: Bound | None
    high: Bound | None

    @property
    def value(self) -> Fraction | None:
        """The one value in it, or none where it has several."""
        if self.low and self.high and self.low.value == self.high.value:
            return self.low.value
        return None

    def printed(self) -> str:
        """The interval as the program writes it."""
        low = f"{'(' if self.low.is_open else '['}{self.low.value}" if self.low else "(-inf"
        high = f"{self.high.value}{')' if self.high.is_open else ']'}" if self.high else "inf)"
        return f"{low}, {high}"

    def __str__(self) -> str:
        return self.printed()


Corner = tuple[Fraction, Fraction]


def holds_somewhere(rows: Iterable[Row]) -> bool:
    """Whether some point satisfies all rows."""
    return _program(rows).is_feasible


def span(rows: Iterable[Row], column: str) -> Span | None:
    """The least interval that has the values of the column at all points that satisfy the rows, or none where there is
    no such point."""
    program = _program(rows)
    if not program.is_feasible:
        return None
    low, high = program.maximum({column: -1}), program.maximum({column: 1})
    return Span(
        None if low is None else Bound(-low[0], low[1] != 0),
        None if high is None else Bound(high[0], high[1] != 0),
    )


def corners(rows: Iterable[Row], x: str, y: str) -> tuple[Corner, ...]:
    """The corners of the closure of the points (x, y) for which some point satisfies the rows: each once, and
    counterclockwise, from the least one on. Where these points are unbounded, the first corner is that behind the part
    without an end. Raises `ValueError` where both columns are the same."""
    if x == y:
        raise ValueError(f"two different columns are needed, and not {x} twice")
    rows = tuple(rows)
    if not holds_somewhere(rows):
        return ()
    # the closure as seen from far away: constants are tiny, and what has no end is cut off at a distance of 1
    closure = [Demand(dict(row.terms), 0, row.constant, row.sign is Sign.EQUAL) for row in rows]
    window = [Demand({name: sign}, -1) for name in (x, y) for sign in (-1, 1)]
    outline = LinearProgram(closure + window).outline(x, y)
    found = [None if a[0] or b[0] else (a[1], b[1]) for a, b in outline]
    if None in found:
        cut = len(found) - found[::-1].index(None)
    else:
        cut = found.index(min(point for point in found if point))
    return tuple(point for point in found[cut:] + found[:cut] if point)


def _program(rows: Iterable[Row]) -> LinearProgram:
    """The rows as demands."""
    return LinearProgram(
        Demand(dict(row.terms), row.constant, int(row.sign is Sign.LESS), row.sign is Sign.EQUAL) for row in rows
    )
