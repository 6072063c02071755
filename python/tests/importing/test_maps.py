"""Maps as scripts: what is written for each kind of geometry, how it is scaled, and what is too long."""
import json

import pytest
from hypothesis import example, given
from hypothesis import strategies

from dedale.importing import scripts
from tests.importing.running import imported, replies, truths

SHAPES = {
    "POINT (1 -2.5)": ["x = 10000, y = -25000"],
    "point(1e1 .5)": ["x = 100000, y = 5000"],
    "MULTIPOINT (1 2, 3 4)": ["x = 10000, y = 20000", "x = 30000, y = 40000"],
    "MULTIPOINT ((1 2), (3 4))": ["x = 10000, y = 20000", "x = 30000, y = 40000"],
    "LINESTRING (0 0, 2 1, 2 1, 2 0)": ["x - 2*y = 0, x >= 0, x <= 20000", "x = 20000, y >= 0, y <= 10000"],
    "MULTILINESTRING ((0 0, 1 0), (0 1, 0 2))": ["y = 0, x >= 0, x <= 10000", "x = 0, y >= 10000, y <= 20000"],
    "POLYGON ((0 0, 0 1, 1 0, 0 0))": ["y >= 0, x + y <= 10000, x >= 0"],
    "POLYGON\n((0 0, 0.00004 0, 1 0, 1 0.00005,1 0.00015, 0 0))": ["y >= 0, x <= 10000, x - 5000*y >= 0"],
    "MULTIPOLYGON (((0 0, 0 1, 1 0, 0 0)), ((2 0, 3 0, 2 1, 2 0)))":
        ["y >= 0, x + y <= 10000, x >= 0", "y >= 0, x + y <= 30000, x >= 20000"],
}


@pytest.mark.parametrize("wkt", SHAPES)
def test_geometries_become_tuples(wkt: str) -> None:
    outcome = imported(f'n,w\n"it\'s ü",  "{wkt}"\n'.replace(",  ", ","), "Land", "n", "w")
    assert (outcome.status, outcome.errors) == (0, "")
    assert sorted(map(_constraints, outcome.inserts())) == sorted(sorted(body.split(", ")) for body in SHAPES[wkt])
    assert all(line.startswith("insert Land { n = 'it''s ü', ") for line in outcome.inserts())


def _constraints(insert: str) -> list[str]:
    return sorted(insert.removesuffix(" };").split(", ")[1:])


def test_the_head_tells_the_scale_on_a_line_of_its_own() -> None:
    assert imported("w\nPOINT (1 1)\n", "Land", "w").script.splitlines() == [
        "-- scale 10000", "relation Land(x, y);", "insert Land { x = 10000, y = 10000 };",
    ]
    assert imported("w\nPOINT (1 1)\n", "Land", "w", "--digits", "0", "--edges", "E").script.splitlines() == [
        "-- scale 1", "relation Land(x, y);", "relation E(x, y);", "insert Land { x = 1, y = 1 };",
    ]
    assert imported("w\nPOINT (1.25 -1.10004)\n", "Land", "w", "--decimals").script.splitlines() == [
        "dedale 2;", "-- scale 1", "relation Land(x, y);", "insert Land { x = 1.25, y = -1.1 };",
    ]


def test_halves_are_rounded_to_even_numbers() -> None:
    outcome = imported("w\nPOINT (0.5 1.5)\nPOINT (-0.5 -1.5)\n", "P", "w", "--digits", "0")
    assert outcome.inserts() == ["insert P { x = 0, y = 2 };", "insert P { x = 0, y = -2 };"]


def test_other_columns_stand_before_the_coordinates() -> None:
    content = "name,pop,founded,wkt\na,1.5,1970-01-11,POINT (1 1)\nb,-3,1969-12-31,POINT (2 2)\n"
    outcome = imported(content, "City", "name", "pop:number", "founded:date", "wkt", "--digits", "0")
    assert outcome.script.splitlines() == [
        "dedale 2;", "-- scale 1", "relation City(name text, pop, founded, x, y);",
        "insert City { name = 'a', pop = 1.5, founded = 10, x = 1, y = 1 };",
        "insert City { name = 'b', pop = -3, founded = -1, x = 2, y = 2 };",
    ]


def test_the_geometry_may_stand_anywhere() -> None:
    outcome = imported("name,wkt\na,POINT (1 1)\n", "City", "wkt:wkt", "name")
    assert outcome.inserts() == ["insert City { name = 'a', x = 10000, y = 10000 };"]


def test_words_stand_in_any_order() -> None:
    table = "n,w\na,POINT (1 2)\nb,POINT (1 x)\n"
    expected = imported(table, "Land", "n", "w", "--digits", "2", "--skip")
    assert len(expected.inserts()) == 1
    assert imported(table, "--digits", "2", "Land", "--skip", "n", "w") == expected


def test_columns_are_renamed() -> None:
    outcome = imported("the name,x,wkt\na,b,POINT (1 1)\n", "C", "the name", "x", "wkt", "--rename", "the name=n", "--rename", "x=east")
    assert outcome.script.splitlines()[1:] == [
        "relation C(n text, east text, x, y);", "insert C { n = 'a', east = 'b', x = 10000, y = 10000 };",
    ]


def test_edges_and_checks(program: str) -> None:
    content = "n,k,w\na,-1.5,\"POLYGON ((0 0, 1 0, 0 1, 0 0))\"\nb,2,POINT (5 5)\na,1,\"POLYGON ((0 0, 1 0, 0 1, 0 0))\"\n"
    words = ("Land", "n", "k:number", "w", "--digits", "0", "--edges", "Land_piece_1", "--check")
    outcome = imported(content, *words)
    assert outcome.script.splitlines()[3:] == [
        "relation Land_piece_1(n text, k, x, y);",
        "insert Land { n = 'a', k = -1.5, y >= 0, x + y <= 1, x >= 0 };",
        "insert Land_piece_1 { n = 'a', k = -1.5, y = 0, x >= 0, x <= 1 };",
        "insert Land_piece_1 { n = 'a', k = -1.5, x + y = 1, x >= 0, x <= 1 };",
        "insert Land_piece_1 { n = 'a', k = -1.5, x = 0, y >= 0, y <= 1 };",
        "insert Land { n = 'b', k = 2, x = 5, y = 5 };",
        "insert Land { n = 'a', k = 1, y >= 0, x + y <= 1, x >= 0 };",
        "insert Land_piece_1 { n = 'a', k = 1, y = 0, x >= 0, x <= 1 };",
        "insert Land_piece_1 { n = 'a', k = 1, x + y = 1, x >= 0, x <= 1 };",
        "insert Land_piece_1 { n = 'a', k = 1, x = 0, y >= 0, y <= 1 };",
        "-- line 2, 'a'",
        "view Land_piece_1_(x, y) := Land('a', -1.5, x, y);",
        "view Land_border_1(x, y) := closure(Land_piece_1_)(x, y) and not interior(Land_piece_1_)(x, y);",
        "ask forall x forall y (Land_border_1(x, y) implies Land_piece_1('a', -1.5, x, y));",
        "ask forall x forall y (Land_piece_1('a', -1.5, x, y) implies Land_border_1(x, y));",
        "drop Land_border_1;",
        "drop Land_piece_1_;",
        "-- line 4, 'a'",
        "view Land_piece_2(x, y) := Land('a', 1, x, y);",
        "view Land_border_2(x, y) := closure(Land_piece_2)(x, y) and not interior(Land_piece_2)(x, y);",
        "ask forall x forall y (Land_border_2(x, y) implies Land_piece_1('a', 1, x, y));",
        "ask forall x forall y (Land_piece_1('a', 1, x, y) implies Land_border_2(x, y));",
        "drop Land_border_2;",
        "drop Land_piece_2;",
    ]
    assert truths(program, outcome.script) == ["yes"] * 4


def test_features_that_a_check_cannot_tell_apart_are_bad() -> None:
    content = "n,w\na,POINT (1 1)\na,POINT (2 2)\n"
    assert imported(content, "P", "n", "w", "--edges", "E").status == 0
    outcome = imported(content, "P", "n", "w", "--edges", "E", "--check")
    assert outcome.errors.splitlines()[0] == (
        "<stdin>:3: 'a': its columns have the same values as those of row 1 on line 2, and --check tells features apart by them"
    )


LONG = "n,w\na,\"POLYGON ((179.1234567891 89.1234567891, -179.98765432109 88.1, -170.0123456789 -89.98765432109, 179.1234567891 89.1234567891))\"\n"


@pytest.mark.parametrize("words", [(), ("--decimals",)])
def test_numbers_that_are_too_long_are_told_with_the_digits_that_would_do(program: str, words: tuple[str, ...]) -> None:
    outcome = imported(LONG, "Land", "n", "w", "--digits", "10", *words)
    assert (outcome.status, outcome.script) == (1, "")
    assert outcome.errors.splitlines()[:2] == [
        "<stdin>:2: 'a': a number of a constraint would be 2^63 or more with --digits 10; --digits 7 would do",
        "<stdin>: no number would be too long with --digits 7",
    ]
    assert "refused" not in " ".join(replies(program, imported(LONG, "Land", "n", "w", "--digits", "7", *words).script))
    assert imported(LONG, "Land", "n", "w", "--digits", "8", *words).status == 1


def test_numbers_that_no_digits_make_short() -> None:
    outcome = imported('n,w\na,"POLYGON ((1e19 0, 2e19 0, 1e19 1e18, 1e19 0))"\n', "Land", "n", "w")
    assert outcome.errors.splitlines()[0] == "<stdin>:2: 'a': a number of a constraint would be 2^63 or more with --digits 4"


NUMBER = strategies.decimals(-1000, 1000, places=18).map(str)


@given(strategies.lists(strategies.tuples(NUMBER, NUMBER), min_size=3, max_size=3), strategies.integers(0, 18), strategies.booleans())
@example([("9223372036854775807", "0"), ("0", "1"), ("0", "2")], 0, False)
@example([("922337203685.4775807", "0"), ("0", "1"), ("0", "2")], 7, True)
@example([("0.922337203685477580", "0"), ("0", "1"), ("0", "2")], 18, True)
def test_the_program_takes_what_is_written(
    program: str, corners: list[tuple[str, str]], digits: int, as_decimals: bool
) -> None:
    ring = ", ".join(f"{x} {y}" for x, y in (*corners, corners[0]))
    words = ["Land", "w", "--digits", str(digits), "--edges", "E", *["--decimals"] * as_decimals]
    outcome = imported(f'w\n"POLYGON (({ring}))"\n', *words)
    if outcome.status == 0:
        assert not [line for line in replies(program, outcome.script) if line.startswith("refused")]


def test_texts_that_differ_in_normal_form_alone_are_told() -> None:
    outcome = imported("n,w\ncafe\u0301,POINT (1 1)\ncaf\u00e9,POINT (2 2)\ncafe\u0301,POINT (3 3)\n", "P", "n", "w")
    assert outcome.status == 0 and len(outcome.inserts()) == 3
    assert outcome.errors.splitlines() == [
        "<stdin>:3: warning: 'n' 'caf\u00e9' and that of line 2 differ in Unicode normal form alone: Dedale takes them for two texts"
    ]


def test_many_tuples_want_a_limit(monkeypatch: pytest.MonkeyPatch) -> None:
    monkeypatch.setattr(scripts, "USUAL_LIMIT", 3)
    monkeypatch.setattr(scripts, "GREATEST_LIMIT", 5)
    warnings = {
        3: "",
        4: "<stdin>: warning: 4 tuples of a relation are written: run them with --limit 4\n",
        6: "<stdin>: warning: 6 tuples of a relation are written, and a program holds at most 5\n",
    }
    for count, warning in warnings.items():
        outcome = imported("w\n" + "POINT (1 1)\n" * count, "P", "w")
        assert (outcome.status, outcome.errors) == (0, warning)


def test_long_texts_are_told(program: str) -> None:
    for length, status in ((64_900, 0), (65_000, 1)):
        outcome = imported(f"n,w\n{'a' * length},\"POLYGON ((0 0, 1 0, 1 1, 0 0))\"\n", "P", "n", "w", "--edges", "E", "--check")
        assert outcome.status == status
        assert truths(program, outcome.script) == ["yes", "yes"] * (status == 0)


def test_geojson_and_csv_give_the_same() -> None:
    wkt = imported('n,k,w\na,7,"POLYGON ((0 0, 3 0, 0 3, 0 0), (1 0.5, 1 1, 0.5 0.5, 1 0.5))"\n', "L", "n", "k:number", "w")
    rings = [[[0, 0], [3, 0], [0, 3], [0, 0]], [[1, 0.5], [1, 1], [0.5, 0.5], [1, 0.5]]]
    feature = {"type": "Feature", "properties": {"n": "a", "k": 7}, "geometry": {"type": "Polygon", "coordinates": rings}}
    for content in (feature, {"type": "FeatureCollection", "features": [feature]}):
        assert imported(json.dumps(content), "L", "n", "k:number", "--geojson") == wkt
