"""Tables are aligned, and their cells are as documented."""
import pytest

from dedale.desk.cells import cells_of
from dedale.desk.replies import reply_lines
from dedale.desk.tables import table_lines
from dedale.desk.texts import shown, width
from dedale.polyhedra import Bound, Span
from dedale.reading import read_tuple
from dedale.replies import Answer, Apart, Certificate, Done, Dump, Meet, Number, Plan, Spans, Stored, Truth
from dedale.tuples import Column

X, Y, N, M = Column("x"), Column("y"), Column("n", True), Column("m", True)

# columns, a tuple, its cells and its ties
CELLS = [
    ((X,), "{ 5*x = 63 }", ("12.6",), ()),
    ((X,), "{ 3*x = 1 }", ("1/3",), ()),
    ((X,), "{ x >= 4, x <= 4 }", ("4",), ()),
    ((X,), "{ x >= 480, x < 540 }", ("x in [480, 540)",), ()),
    ((X,), "{ x <= 3 }", ("x in (-inf, 3]",), ()),
    ((X,), "{ }", ("x in (-inf, inf)",), ()),
    ((N,), "{ n = 'it''s' }", ("'it''s'",), ()),
    ((N,), "{ n = '' }", ("''",), ()),
    ((N,), "{ n != 'a', n != 'b' }", ("n != 'a', n != 'b'",), ()),
    ((N,), "{ }", ("n any",), ()),
    ((N, M), "{ n = m }", ("n any", "m any"), ("n = m",)),
    ((N, M), "{ n = 'a', n = m }", ("'a'", "'a'"), ()),
    ((N, M), "{ n = 'a', n != m }", ("'a'", "m any"), ("n != m",)),
    ((N, X), "{ x > 0, x < 0 }", ("n nowhere", "x nowhere"), ()),
    ((X, Y), "{ x >= 0, y = 3, x + y <= 9 }", ("x in [0, 6]", "3"), ()),
    ((X, Y), "{ x >= 0, y >= 0, x + 2*y <= 9 }", ("x in [0, 9]", "y in [0, 4.5]"), ("x + 2*y <= 9",)),
    ((X, Y), "{ 5*x >= 63, x - y <= 9, 2*x + 3*y <= 36 }", ("12.6", "3.6"), ()),
    ((X, Y), "{ x = 5, x - y <= 9 }", ("5", "y in [-4, inf)"), ()),
]


@pytest.mark.parametrize("columns, text, cells, ties", CELLS)
def test_cells(columns: tuple[Column, ...], text: str, cells: tuple[str, ...], ties: tuple[str, ...]) -> None:
    found = cells_of(read_tuple(text, columns))
    assert (found.columns, found.ties) == (cells, ties)


def test_columns_are_as_wide_as_their_cells() -> None:
    rows = [["a", "水水", "z"], ["b" * 50, "e\u0301", ""], ["c" * 40, "", "z"]]
    assert list(table_lines(["n", "m", "o"], rows)) == [
        f"n{' ' * 41}m     o",
        f"{'-' * 40}  ----  -",
        f"a{' ' * 41}水水  z",
        f"{'b' * 50}  e\u0301",
        f"{'c' * 40}        z",
    ]


def test_an_answer_is_a_table() -> None:
    tuples = tuple(read_tuple(text, (N, X, Y)) for text in ("{ n = 'a', x = 1, y >= 2 }", "{ n = 'bc', x - y <= 0 }"))
    answer = Answer((N, X, Y), tuples)
    assert list(reply_lines(answer, 50)) == [
        "n     x                 y                 tied by",
        "----  ----------------  ----------------  ----------",
        "'a'   1                 y in [2, inf)",
        "'bc'  x in (-inf, inf)  y in (-inf, inf)  x - y <= 0",
        "2 tuples",
    ]
    assert list(reply_lines(answer, 1))[-2:] == ["'a'  1  y in [2, inf)", "1 of 2 tuples, and 1 more: \\rows 2 shows all"]


def test_stored_tuples_have_their_numbers() -> None:
    stored = Stored((X,), {3: read_tuple("{ x = 1 }", (X,)), 12: read_tuple("{ x = 2 }", (X,))})
    assert list(reply_lines(stored, 50)) == ["tuple  x", "-----  -", "3      1", "12     2", "2 tuples"]
    assert list(reply_lines(Stored((X,), {}), 50)) == ["tuple  x", "-----  -", "0 tuples"]


def test_other_replies() -> None:
    assert list(reply_lines(Done(), 50)) == ["ok"]
    assert list(reply_lines(Number(3), 50)) == ["tuple 3"]
    assert list(reply_lines(Truth(True), 50)) == ["yes"]
    assert list(reply_lines(Meet(1, 2), 50)) == ["meet 1 2"]
    apart = Apart((Certificate(1, 2, (1, 1)), Certificate(1, 3, None)))
    assert list(reply_lines(apart, 50)) == ["apart 2", "1 2 : 1 1", "1 3 text"]
    assert list(reply_lines(Apart(()), 50)) == ["apart 0"]
    plan = Plan(("union 2", "  scan T(v0)", "  scan U(v0)"))
    assert list(reply_lines(plan, 3)) == list(plan.nodes)
    assert list(reply_lines(plan, 2)) == [*plan.nodes[:2], "2 of 3 lines, and 1 more: \\rows 3 shows all"]
    assert list(reply_lines(Dump(("dedale 2;", "relation T(x);")), 1)) == ["dedale 2;", "relation T(x);"]


def test_boxes_are_intervals() -> None:
    value = read_tuple("{ 5*x = 63 }", (X,)).value("x")
    assert value is not None
    spans = {"x": Span(None, Bound(value, True)), "y": Span(Bound(value, False), Bound(value, False))}
    assert list(reply_lines(Spans(spans), 50)) == ["x in (-inf, 12.6)", "y in [12.6, 12.6]"]
    assert list(reply_lines(Spans(None), 50)) == ["empty"]
    assert list(reply_lines(Spans({}), 50)) == ["no rational column"]


def test_what_is_shown_can_be_printed() -> None:
    assert shown("it's 水") == "it's 水"
    assert shown("a\x1b[2J\x9b\u202e\udcff\\") == "a\\x1b[2J\\x9b\\u202e\\xff\\"
    assert [width(text) for text in ("abc", "水", "e\u0301", "")] == [3, 2, 1, 0]
