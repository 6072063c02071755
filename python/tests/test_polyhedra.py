"""Spans and corners are those that the program tells, by `box` and by projections."""
from fractions import Fraction
from itertools import combinations
from typing import Iterator

import pytest
from hypothesis import given, settings
from hypothesis import strategies as st

from dedale.client import Dedale
from dedale.polyhedra import Bound, Corner, Row, Sign, Span, corners, holds_somewhere, span
from dedale.replies import Answer, Done, Number, Spans
from dedale.tuples import Column, GeneralizedTuple
from tests.tuples import HEADING, NUMBERS, relation, rows, tuples

ROWS = st.lists(rows(NUMBERS, 5), max_size=7)


@pytest.fixture(scope="module")
def db() -> Iterator[Dedale]:
    """A database of the program."""
    with Dedale() as found:
        yield found


@settings(max_examples=150)
@given(one=tuples(6))
def test_spans_are_those_of_box(db: Dedale, one: GeneralizedTuple) -> None:
    made, inserted, box, dropped = db.run(f"{relation('T')} insert T {one.printed()}; box T; drop T;")
    assert isinstance(made, Done) and isinstance(inserted, Number) and isinstance(dropped, Done)
    assert isinstance(box, Spans)
    assert one.holds_somewhere() == (box.spans is not None)
    for column in HEADING:
        if not column.is_text:
            assert one.span(column.name) == (box.spans and box.spans[column.name])


@settings(max_examples=150)
@given(found=ROWS)
def test_corners_are_those_of_the_projection(db: Dedale, found: list[Row]) -> None:
    heading = tuple(Column(name) for name in NUMBERS)
    whole = GeneralizedTuple(heading, tuple(found))
    replies = db.run(
        f"{relation('T', heading)} insert T {whole.printed()}; query (x, y) : exists z exists u (T(x, y, z, u)); drop T;"
    )
    answer = replies[2]
    assert isinstance(answer, Answer)
    assert len(answer.tuples) <= 1
    expected = {corner for shadow in answer.tuples for corner in vertices(shadow.rows)}
    result = whole.corners("x", "y")
    assert len(result) == len(set(result))
    assert set(result) == expected
    assert_counterclockwise(result)


def vertices(found: tuple[Row, ...]) -> Iterator[Corner]:
    """The points of the closure on the lines of two rows that aren't parallel."""
    for one, other in combinations(found, 2):
        (a, b, c), (d, e, f) = ((row.coefficient("x"), row.coefficient("y"), row.constant) for row in (one, other))
        determinant = a * e - b * d
        if determinant:
            x, y = Fraction(b * f - c * e, determinant), Fraction(c * d - a * f, determinant)
            if all(_is_in_closure(row, x, y) for row in found):
                yield x, y


def _is_in_closure(row: Row, x: Fraction, y: Fraction) -> bool:
    total = row.sum_at({"x": x, "y": y})
    return total == 0 if row.sign is Sign.EQUAL else total <= 0


def assert_counterclockwise(found: tuple[Corner, ...]) -> None:
    """Each corner is on the left of each side but its own two, or on none."""
    for number, (start, end) in enumerate(zip(found, found[1:])):
        for other in found[:number] + found[number + 2 :]:
            assert (end[0] - start[0]) * (other[1] - start[1]) > (end[1] - start[1]) * (other[0] - start[0])


def points(*found: tuple[int | Fraction, int | Fraction]) -> tuple[Corner, ...]:
    """Corners at these coordinates."""
    return tuple((Fraction(x), Fraction(y)) for x, y in found)


def row(sign: Sign, constant: int, **terms: int) -> Row:
    """A row with these coefficients."""
    return Row(tuple(terms.items()), sign, constant)


def test_a_region_without_an_end_begins_behind_it() -> None:
    half_strip = [row(Sign.AT_MOST, 0, x=-1), row(Sign.LESS, 0, y=-1), row(Sign.AT_MOST, -1, y=1)]
    assert corners(half_strip, "x", "y") == points((0, 1), (0, 0))
    assert corners(half_strip, "y", "x") == points((0, 0), (1, 0))
    downwards = [row(Sign.AT_MOST, 0, x=1, y=1), row(Sign.AT_MOST, 0, x=-1, y=1), row(Sign.AT_MOST, 1, y=1)]
    assert corners(downwards, "x", "y") == points((1, -1), (-1, -1))


def test_regions_without_corners() -> None:
    assert corners([], "x", "y") == ()
    assert corners([row(Sign.AT_MOST, 0, x=1)], "x", "y") == ()
    assert corners([row(Sign.EQUAL, 0, x=1)], "x", "y") == ()
    assert corners([row(Sign.AT_MOST, 0, x=1), row(Sign.AT_MOST, -1, x=-1)], "x", "y") == ()
    assert corners([row(Sign.LESS, 0, x=1), row(Sign.LESS, 0, x=-1), row(Sign.EQUAL, 0, y=1)], "x", "y") == ()
    assert corners([Row((), Sign.LESS, 0), row(Sign.EQUAL, 0, x=1), row(Sign.EQUAL, 0, y=1)], "x", "y") == ()


def test_a_point_and_a_segment() -> None:
    assert corners([row(Sign.EQUAL, -7, x=2), row(Sign.EQUAL, 1, x=2, y=3)], "x", "y") == points((Fraction(7, 2), Fraction(-8, 3)))
    segment = [row(Sign.EQUAL, 0, x=1, y=-1), row(Sign.LESS, 0, x=-1), row(Sign.LESS, -3, y=1)]
    assert corners(segment, "x", "y") == points((0, 0), (3, 3))


def test_the_same_column_twice() -> None:
    with pytest.raises(ValueError):
        corners([], "x", "x")


def test_columns_may_have_any_name() -> None:
    found = [row(Sign.AT_MOST, 0, d=-1), row(Sign.LESS, -2, d=1), row(Sign.EQUAL, 0, d=1, _1=-1)]
    assert span(found, "_1") == Span(Bound(Fraction(0), False), Bound(Fraction(2), True))
    assert corners(found, "d", "_1") == points((0, 0), (2, 2))


def test_long_numbers() -> None:
    long = 2**100
    found = [row(Sign.AT_MOST, -long, x=3), row(Sign.LESS, long + 1, x=-3)]
    assert not holds_somewhere(found)
    assert span(found[:1], "x") == Span(None, Bound(Fraction(long, 3), False))


def test_many_columns_take_little_time() -> None:
    names = [f"c{number}" for number in range(16)]
    numbers = [[(7 * k + 3 * i * i * k + i) % 19 - 9 for i in range(16)] for k in range(40)]
    found = [row(Sign.AT_MOST, -1 - k, **dict(zip(names, numbers[k]))) for k in range(40)]
    whole = GeneralizedTuple(tuple(Column(name) for name in names), tuple(found))
    assert whole.span("c0") is not None
    assert_counterclockwise(whole.corners("c0", "c1"))
