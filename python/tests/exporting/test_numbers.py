"""Numbers as they are written."""
from fractions import Fraction

import pytest
from hypothesis import given
from hypothesis import strategies as st

from dedale.exporting.numbers import decimal, exact, interval
from dedale.polyhedra import Bound, Span


@pytest.mark.parametrize(
    ("value", "written"),
    [(0, "0"), (100, "100"), ("-5/2", "-2.5"), ("1/3", "1/3"), ("-1/3", "-1/3"), ("63/5", "12.6"), ("1/1000000000", "0.000000001"),
     ("1/10000000000", "1/10000000000"), ("-1/4", "-0.25"), (10**30, "1" + 30 * "0")],
)
def test_exact(value: int | str, written: str) -> None:
    assert exact(Fraction(value)) == written


@given(st.fractions())
def test_exact_reads_back(value: Fraction) -> None:
    assert Fraction(exact(value)) == value


@pytest.mark.parametrize(
    ("value", "written"),
    [(0, "0"), (100, "100"), ("-5/2", "-2.5"), ("1/3", "0.33333333333333333"), ("200000/3", "66666.666666666667"),
     ("1/3000000000", "0.00000000033333333333333333"), (10**17 + 1, "100000000000000000"), (123456789, "123456789")],
)
def test_decimal(value: int | str, written: str) -> None:
    assert decimal(Fraction(value)) == written


@given(st.fractions())
def test_decimal_is_the_nearest_of_its_digits(value: Fraction) -> None:
    error = abs(Fraction(decimal(value)) - value)
    assert error <= abs(value) * Fraction(1, 2 * 10**16)


@given(st.floats(allow_nan=False, allow_infinity=False))
def test_decimal_tells_doubles_apart(value: float) -> None:
    assert float(decimal(Fraction(value))) == value


@pytest.mark.parametrize(
    ("low", "high", "written"),
    [((480, False), (540, True), "[480, 540)"), (None, ("5/2", False), "(-inf, 2.5]"), ((0, True), None, "(0, inf)"),
     (None, None, "(-inf, inf)"), (("1/3", False), ("1/3", False), "1/3"), (("1/3", False), (1, True), "[1/3, 1)")],
)
def test_interval(low: tuple[int | str, bool] | None, high: tuple[int | str, bool] | None, written: str) -> None:
    bounds = [bound and Bound(Fraction(bound[0]), bound[1]) for bound in (low, high)]
    assert interval(Span(bounds[0], bounds[1])) == written
