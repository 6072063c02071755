"""What is said of files that are bad, with the line and the feature."""
import pytest

from tests.importing.running import Outcome, imported

HEIGHT = "a position has a height or a measure (a third coordinate), and two coordinates are wanted"
GOOD = '"POLYGON ((0 0, 1 0, 1 1, 0 0))"'

BAD_WKT = {
    "POLYGON ((0 0, 1 0, 1 1))": "the ring isn't closed: it begins at 0 0 and ends at 1 1",
    "POLYGON ((0 0, 1 0, 0 0))": "the ring has no area: it has 3 positions, and a closed ring has at least 4",
    "MULTIPOLYGON (((0 0, 1 0, 1 1, 0 0)), ((5 5, 6 5, 6 6)))": "the ring of part 2 isn't closed: it begins at 5 5 and ends at 6 6",
    "POLYGON ((0 0, 9 0, 9 9, 0 0), (5 1, 6 1, 6 2, 5 2))": "hole 1 isn't closed: it begins at 5 1 and ends at 5 2",
    "POLYGON ((0 0, 1 1, 1 0, 0 1, 0 0))": "the ring crosses itself, near 0.5 0.5",
    "POLYGON ((0 0, 1 0, 1 1, 0.5 0, 0 0))": "the ring runs along itself, near 0 0",
    "POLYGON ((0 0, 1 0, 1 1, 0.5 0.00001, 0 1, 0 0))":
        "the ring touches itself only after rounding to 4 digits, near 0.5 0",
    "POLYGON ((0 0, 0.00001 0, 0.00001 0.00001, 0 0))": "the ring has no area only after rounding to 4 digits, near 0 0",
    "POLYGON ((0 0, 1 0, 2 0, 0 0))": "the ring has no area, near 0 0",
    "POLYGON ((0 0, 9 0, 9 9, 0 9, 0 0), (20 20, 21 20, 21 21, 20 20))": "hole 1 isn't inside of its polygon, near 21 21",
    "POLYGON ((0 0, 9 0, 9 9, 0 9, 0 0), (5 5, 12 5, 5 12, 5 5))": "the ring and hole 1 cross each other, near 5 9",
    "POLYGON ((0 0, 9 0, 9 9, 0 9, 0 0), (1 1, 5 1, 5 5, 1 1), (2 1.5, 6 1.5, 6 6, 2 1.5))":
        "hole 1 and hole 2 cross each other, near 5 1.5",
    "POLYGON ((0 0, 1 0, nan 1, 0 0))": "'nan' is no number (character 21 of the WKT)",
    "POLYGON ((0 0, 1 0, 1 inf, 0 0))": "'inf' is no number (character 23 of the WKT)",
    "POLYGON ((0 0, 1 0, 1 1e, 0 0))": "'1e' is no number (character 23 of the WKT)",
    "POLYGON ((0 0, 1 0, 1 1e9999, 0 0))": "'1e9999' is out of the range of numbers (character 23 of the WKT)",
    "POLYGON ((0 0, 1 0, 1, 0 0))": "a number is wanted (character 22 of the WKT)",
    "POLYGON ((0 0 0, 1 0 0, 1 1 0, 0 0 0))": f"{HEIGHT} (character 16 of the WKT)",
    "POLYGON Z ((0 0 0, 1 0 0, 1 1 0, 0 0 0))": HEIGHT,
    "POINTZ (0 0 0)": HEIGHT,
    "POLYGON EMPTY": "the geometry is empty",
    "POLYGON ((0 0, 1 0, 1 1, 0 0)": "the WKT ends too early",
    "POLYGON ((0 0, 1 0, 1 1, 0 0)))": "the end is wanted, not ')' (character 31 of the WKT)",
    "POLYGON (0 0, 1 0, 1 1, 0 0)": "'(' is wanted, not '0' (character 10 of the WKT)",
    "GEOMETRYCOLLECTION (POINT (0 0))": "a GEOMETRYCOLLECTION isn't read: points, lines and polygons are",
    "SRID=4326;POINT (0 0)": "'SRID=4326;POINT (0 0)' is no WKT of a point, a line or a polygon",
    "": "'' is no WKT of a point, a line or a polygon",
    "LINESTRING (0 0)": "the line has one position alone",
    "LINESTRING (1 1, 1 1)": "a line has no length, near 1 1",
    "LINESTRING (1 1, 1 1.00001)": "a line has no length only after rounding to 4 digits, near 1 1",
}


def map_of(wkt: str) -> Outcome:
    """The import of a map with a good feature, a bad one and a good one."""
    return imported(f'name,wkt\na,{GOOD}\nb,"{wkt}"\nc,{GOOD}\n', "Land", "name", "wkt")


@pytest.mark.parametrize("wkt", BAD_WKT)
def test_bad_geometries_are_named_and_nothing_is_written(wkt: str) -> None:
    outcome = map_of(wkt)
    assert (outcome.status, outcome.script) == (1, "")
    assert outcome.errors.splitlines() == [
        f"<stdin>:3: 'b': {'' if 'near' in BAD_WKT[wkt] else 'wkt: '}{BAD_WKT[wkt]}",
        "<stdin>: 1 bad, so nothing is written; with --skip the others are",
    ]


def test_with_skip_the_good_ones_are_written_and_all_bad_ones_named() -> None:
    content = f"name,wkt\na,{GOOD}\nb,POINT (x 1)\nc,{GOOD}\nd,POINT\n"
    outcome = imported(content, "Land", "name", "wkt", "--skip")
    assert outcome.status == 1
    assert [line.split(",")[0] for line in outcome.inserts()] == ["insert Land { name = 'a'", "insert Land { name = 'c'"]
    assert outcome.errors.splitlines() == [
        "<stdin>:3: 'b': wkt: 'x' is no number (character 8 of the WKT)", "<stdin>:5: 'd': wkt: the WKT ends too early",
    ]
    without = imported(content, "Land", "name", "wkt")
    assert (without.status, without.script) == (1, "")
    assert [line.split(":")[1] for line in without.errors.splitlines()[:-1]] == ["3", "5"]


BAD_ROWS = {
    b"name,wkt\na,POINT (1 1),x\n": "<stdin>:2: 'a': the row has 3 fields, and 2 are wanted",
    b"name,wkt\na\n": "<stdin>:2: 'a': the row has 1 field, and 2 are wanted",
    b"name,wkt\na\x01b,POINT (1 1)\n": r"<stdin>:2: 'a\x01b': name: 'a\x01b' has a control character, U+0001",
    b'name,wkt\n"a\nb",POINT (1 1)\n': r"<stdin>:2: 'a\nb': name: 'a\nb' has a control character, U+000A",
    b"name,wkt\nM\xfcnchen,POINT (1 1)\n": r"<stdin>:2: 'M\xfcnchen': the row isn't UTF-8: save the file in this encoding",
    b'name,wkt\na,"POINT (1 1)\nb,POINT (2 2)\n': "<stdin>:2: a quote that opens in this row is never closed, up to the end of the file",
    b'name,wkt\na,"POINT (1 1)\nb,"POINT (2 2)"\n':
        "<stdin>:3: a quote stands within a field that is in quotes; is one missing in the row that begins on line 2?",
    b"": "<stdin>:1: the file is empty: a first row with the names of the columns is wanted",
    b"\n \n"[:1]: "<stdin>:1: the file is empty: a first row with the names of the columns is wanted",
    b"name,geom\na,POINT (1 1)\n": "<stdin>:1: there is no column 'wkt', but 'name', 'geom'",
    b"name,wkt,name\n": "<stdin>:1: the column 'name' stands twice in the first row",
    b"n\xe4me,wkt\n": "<stdin>:1: the first row isn't UTF-8: save the file in this encoding",
    "name,wkt\n".encode("utf-16"): "<stdin>:1: the file is UTF-16 and isn't UTF-8: save the file in this encoding",
}


@pytest.mark.parametrize("content", BAD_ROWS)
def test_bad_files_are_told_with_the_line(content: bytes) -> None:
    outcome = imported(content, "Land", "name", "wkt")
    assert (outcome.status, outcome.script) == (1, "")
    assert outcome.errors.splitlines()[0] == BAD_ROWS[content]


BAD_WORDS = {
    (): "the following arguments are required: RELATION, COLUMN",
    ("Land", "--no"): "unrecognized arguments: --no",
    ("box", "name", "wkt"): "the relation 'box' is a reserved word in Dedale: box_ would do",
    ("my land", "name", "wkt"): "the relation 'my land' is no name in Dedale: my_land would do",
    ("Land", "from", "to", "view", "wkt"): "the column 'view' is reserved in Dedale: give it another one, such as --rename view=view_",
    ("Land", "Größe", "wkt"): "the column 'Größe' is no name in Dedale: give it another one, such as --rename Größe=Gro_e",
    ("Land", "the name", "wkt"): "the column 'the name' is no name in Dedale: give it another one, such as --rename 'the name=the_name'",
    ("Land", "2nd:number", "wkt"): "the column '2nd' is no name in Dedale: give it another one, such as --rename 2nd=_2nd",
    ("Land", "name", "wkt", "--rename", "name=a b"): "--rename 'name=a b': OLD=NEW is wanted, NEW a name in Dedale: 'a_b' would do",
    ("Land", "name", "wkt", "--rename", "nam=a"): "--rename: there is no column 'nam' among those that are imported",
    ("Land", "x", "wkt"): "the column 'x' would have the name of a coordinate: give it another one, such as --rename x=x_",
    ("Land", "name", "name", "wkt"): "the relation would have two columns 'name'",
    ("Land", "name:int", "wkt"): "'name:int': 'int' is none of text, number, time, date, instant, wkt",
    ("Land", "a:wkt", "b:wkt"): "2 columns are :wkt, and a relation has one geometry",
    ("Land", "a:wkt", "--geojson"): "with --geojson the geometry is that of the feature, and no column is :wkt",
    ("Land", "name", "wkt", "--digits", "19"): "--digits 19: 0 to 18 are possible",
    ("Land", "name", "wkt", "--digits", "-1"): "--digits -1: 0 to 18 are possible",
    ("Land", "name", "wkt", "--check"): "--check wants --edges, the name of a relation for the edges to check against",
    ("Land", "name", "wkt", "--edges", "Land"): "--edges Land: the edges want a relation of their own",
    ("Land", "name", "wkt", "--edges", "view"): "the relation of the edges 'view' is a reserved word in Dedale: view_ would do",
    ("Land", "a:text", "--digits", "3"): "--digits is for maps, and no column is the geometry (as in: wkt, or geometry:wkt)",
    ("Land", *"abcdefghijklmno", "wkt"): "the relation would have 17 columns, and 1 to 16 are possible",
    ("Land",): "no column is given: name those to import, and last that with the geometry as WKT, if there is one",
}


@pytest.mark.parametrize("words", BAD_WORDS)
def test_bad_words_are_told_with_status_2(words: tuple[str, ...]) -> None:
    outcome = imported("name,wkt\n", *words)
    assert (outcome.status, outcome.script) == (2, "")
    assert outcome.errors.splitlines()[-1] in (
        f"dedale-tools import: {BAD_WORDS[words]}", f"dedale-tools import: error: {BAD_WORDS[words]}",
    )


def test_a_file_that_is_not_there_is_told() -> None:
    outcome = imported("", "Land", "name", "wkt", "--file", "/nowhere/map.csv")
    assert (outcome.status, outcome.script) == (1, "")
    assert outcome.errors.startswith("/nowhere/map.csv: it can't be read: ")


def test_help_is_no_error() -> None:
    outcome = imported("", "--help")
    assert outcome.status == 0 and "COLUMN" in outcome.script
    assert "PATTERN" in imported("", "rows", "--help").script
