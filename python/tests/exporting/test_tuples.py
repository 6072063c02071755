"""What a tuple has: one text in each column, and a bounded piece of the plane."""
from fractions import Fraction

import pytest
from hypothesis import given, settings
from hypothesis import strategies as st

from dedale.exporting.points import Point, point_at
from dedale.exporting.problems import Unwritable
from dedale.exporting.regions import piece_in
from dedale.exporting.texts import texts_of
from dedale.reading import read_tuple
from dedale.tuples import Column, GeneralizedTuple
from tests.exporting.planar import at

_PLANE = (Column("n", True), Column("m", True), Column("x"), Column("y"), Column("z"))


def _tuple(text: str) -> GeneralizedTuple:
    return read_tuple(text, _PLANE)


@pytest.mark.parametrize(
    "constraints",
    ["n = 'a', m = 'b'", "n = 'a', m = 'b', n != m", "n = 'a', m = 'b', n != 'c'", "n = 'a', m = 'b', m != n"],
)
def test_texts(constraints: str) -> None:
    assert texts_of(_tuple(f"{{ {constraints} }}")) == (("n", "a"), ("m", "b"))


@pytest.mark.parametrize("constraints", ["n = m, m = 'a'", "n = 'a', n = m", "m = 'a', m = n, n != 'b'"])
def test_texts_told_by_another_column(constraints: str) -> None:
    assert texts_of(_tuple(f"{{ {constraints} }}")) == (("n", "a"), ("m", "a"))


@pytest.mark.parametrize(
    ("constraints", "column"),
    [("m = 'a'", "n"), ("n = 'a'", "m"), ("n = m", "n"), ("n != 'a', m = 'b'", "n"), ("n = 'a', n != m", "m"), ("n != m", "n")],
)
def test_several_texts(constraints: str, column: str) -> None:
    with pytest.raises(Unwritable, match=f"^{column} isn't one text$"):
        texts_of(_tuple(f"{{ {constraints} }}"))


@pytest.mark.parametrize(
    "constraints",
    ["n = 'a', n = 'b'", "n = m, n != m", "n = 'a', n = m, m != 'a'", "n = 'a', m = 'a', n != m", "n = 'a', n = m, m = 'b'"],
)
def test_texts_that_no_point_has(constraints: str) -> None:
    with pytest.raises(Unwritable, match="holds nowhere"):
        texts_of(_tuple(f"{{ {constraints} }}"))


@pytest.mark.parametrize(
    ("constraints", "corners"),
    [
        ("x >= 0, y >= 0, x + y <= 2", [at(0, 0), at(2, 0), at(0, 2)]),
        ("x > 0, y > 0, x + y < 2", [at(0, 0), at(2, 0), at(0, 2)]),
        ("x >= 0, x <= 3, y = 1", [at(0, 1), at(3, 1)]),
        ("5*x = 63, 5*y = 18", [at(Fraction(63, 5), Fraction(18, 5))]),
        ("x >= 0, x <= 2, y >= 0, y - z <= 0, z <= 1", [at(0, 0), at(2, 0), at(2, 1), at(0, 1)]),
        ("x = 1, y - z = 0, z >= 0, z < 5", [at(1, 0), at(1, 5)]),
    ],
)
def test_pieces(constraints: str, corners: list[Point]) -> None:
    assert list(piece_in(_tuple(f"{{ {constraints} }}"), "x", "y").corners) == corners


@pytest.mark.parametrize(
    "constraints",
    ["", "x >= 0", "x = 1", "x >= 0, y >= 0", "x >= 0, x <= 1", "x >= 0, x <= 1, y >= 0", "x - y = 0", "x - y = 0, x > 1",
     "x >= 0, x <= 1, y - z <= 0, y >= 0", "x - z = 0, y - z = 0", "z = 1", "x - y >= 0, x - y <= 4", "x >= 0, x + y <= 2"],
)
def test_unbounded(constraints: str) -> None:
    with pytest.raises(Unwritable, match="no bound in x and y"):
        piece_in(_tuple(f"{{ {constraints} }}" if constraints else "{ }"), "x", "y")


@pytest.mark.parametrize("constraints", ["0 < 0", "x >= 5, x <= 3", "x > 0, x < 0, y = 1", "x >= 0, x <= 1, y = 0, z < 0, z > 0"])
def test_nowhere(constraints: str) -> None:
    with pytest.raises(Unwritable, match="holds nowhere"):
        piece_in(_tuple(f"{{ {constraints} }}"), "x", "y")


_ROWS = st.lists(
    st.tuples(st.integers(1, 3), st.integers(-3, 3), st.sampled_from(["<", "<=", "=", ">=", ">"]), st.integers(-4, 4)), max_size=6
)
_BOUNDS = "x > -6, x <= 7, y >= -7, y < 6"


def _rows(rows: list[tuple[int, int, str, int]]) -> list[str]:
    """Rows as the program writes them."""
    written = [f"{a}*x {'-' if b < 0 else '+'} {abs(b)}*y {sign} {c}" if b else f"{a}*x {sign} {c}" for a, b, sign, c in rows]
    return [text.replace(" 1*", " ").removeprefix("1*") for text in written]


@settings(max_examples=300)
@given(_ROWS, st.booleans())
def test_pieces_are_as_spans_and_corners_say(rows: list[tuple[int, int, str, int]], is_bounded: bool) -> None:
    one = _tuple("{ " + ", ".join([*_rows(rows), *([_BOUNDS] if is_bounded else ["y >= 0"])]) + " }")
    spans = [one.span("x"), one.span("y")]
    ends = [end for span in spans if span is not None for end in (span.low, span.high)]
    try:
        found = list(piece_in(one, "x", "y").corners)
        assert None not in ends
        assert found == [point_at(*corner) for corner in one.corners("x", "y")]
    except Unwritable as error:
        assert ("nowhere" in str(error)) == (not ends)
        assert (None in ends) or not ends
