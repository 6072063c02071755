"""Tables as files have them: separators, marks, ends of lines, quotes; and WKT that is written in other ways."""
import pytest

from dedale.importing.table_files import read_table
from dedale.importing.wkt import read_wkt
from tests.importing.running import imported


def rows(content: bytes) -> list[tuple[int, dict[str, object]]]:
    """The rows of a table, each with its line."""
    return [(row.line, dict(row.fields)) for row in read_table(content).rows]


@pytest.mark.parametrize("separator", [",", ";", "\t"])
@pytest.mark.parametrize("end", ["\n", "\r\n", "\r"])
@pytest.mark.parametrize("mark", ["", "\ufeff"])
def test_separators_marks_and_ends_of_lines(separator: str, end: str, mark: str) -> None:
    lines: list[list[str]] = [["n", "m"], ["a", '"b,;\t""c"""'], [], ['"d' + end + 'e"', "f"], ["g", ""]]
    content = (mark + end.join(separator.join(line) for line in lines)).encode()
    assert rows(content) == [
        (2, {"n": "a", "m": 'b,;\t"c"'}), (4, {"n": "d" + end + "e", "m": "f"}), (6, {"n": "g", "m": ""}),
    ]


def test_the_separator_is_that_of_the_first_row() -> None:
    assert rows(b'"a,b";c\n1,2,3;4\n') == [(2, {"a,b": "1,2,3", "c": "4"})]
    assert rows(b"a\n1;2\n") == [(2, {"a": "1;2"})]


def test_lines_are_those_of_the_file() -> None:
    outcome = imported('name,wkt\r\n"a","POINT\r\n(1 1)"\r\n\r\nb,POINT (2)\r\n', "P", "name", "wkt")
    assert outcome.errors.splitlines()[0] == "<stdin>:5: 'b': wkt: a number is wanted (character 9 of the WKT)"


def test_a_table_without_rows_is_a_relation_without_tuples() -> None:
    outcome = imported("name,wkt\n", "P", "name", "wkt")
    assert (outcome.status, outcome.script) == (0, "-- scale 10000\nrelation P(name text, x, y);\n")


@pytest.mark.parametrize("text", [
    "polygon((0 0,1 0,1 1,0 0))", "  POLYGON\t( ( 0.0 0e3 , 1 0\n, 1 1, 0 -0 ) )  ", "Polygon((+0 0.,1 .0,1 1,0 0))",
    "MULTIPOLYGON(((0 0,1 0,1 1,0 0)))",
])
def test_wkt_is_read_however_it_is_spaced(text: str) -> None:
    assert read_wkt(text) == read_wkt("POLYGON ((0 0, 1 0, 1 1, 0 0))")
