"""Exact numbers as text."""
from decimal import Context, Decimal, ROUND_HALF_EVEN
from fractions import Fraction

from dedale.polyhedra import Span

CELL_DIGITS = 9
"""The most digits behind the point of a number that is written as a decimal in a table."""

COORDINATE_DIGITS = 17
"""The most digits in all that a coordinate is written with: as many as tell all doubles apart."""

_COORDINATES = Context(prec=COORDINATE_DIGITS, rounding=ROUND_HALF_EVEN)


def exact(value: Fraction) -> str:
    """The number as a decimal where that has at most 9 digits behind the point, and else as a fraction: `2.5`, `1/3`."""
    scaled = value * 10**CELL_DIGITS
    if scaled.denominator != 1:
        return str(value)
    whole, part = divmod(abs(scaled.numerator), 10**CELL_DIGITS)
    sign = "-" if value < 0 else ""
    return f"{sign}{whole}.{part:0{CELL_DIGITS}}".rstrip("0").rstrip(".")


def decimal(value: Fraction) -> str:
    """The number as a decimal: exact where it has at most 17 digits in all, else rounded to so many."""
    return format(_COORDINATES.divide(Decimal(value.numerator), Decimal(value.denominator)), "f")


def interval(span: Span) -> str:
    """The one value of a span, or its bounds: `[480, 540)`, `(-inf, 2.5]`."""
    if span.value is not None:
        return exact(span.value)
    low = ("(" if span.low.is_open else "[") + exact(span.low.value) if span.low else "(-inf"
    high = exact(span.high.value) + (")" if span.high.is_open else "]") if span.high else "inf)"
    return f"{low}, {high}"
