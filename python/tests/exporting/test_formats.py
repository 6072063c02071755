"""Features and tuples in the formats: the cases that a reader could take for something else."""
import csv
import io
import json
from fractions import Fraction

import pytest

from dedale.exporting import areas, geojson, rows_csv, wkt
from dedale.exporting.features import Feature, Features, features_of
from dedale.exporting.pieces import Piece
from dedale.exporting.results import BadScript, Result, scale_of
from dedale.exporting.rows_csv import Style
from dedale.exporting.shapes import union
from dedale.exporting.texts import Texts
from dedale.reading import read_tuple
from dedale.tuples import Column, Heading
from tests.exporting.planar import at, box, segment, single

_MAP = (Column("n", True), Column("x"), Column("y"))


def _feature(*pieces: Piece, texts: Texts = (("n", "a"),)) -> Feature:
    return Feature(1, texts, union(pieces))


def _features(*features: Feature) -> Features:
    """Features with the columns of texts that they have."""
    return Features(list(features), list(dict.fromkeys(column for one in features for column, _ in one.texts)), [])


def _result(*tuples: str, columns: Heading = _MAP) -> Result:
    return Result(7, columns, tuple(read_tuple(one, columns) for one in tuples))


def _csv(result: Result, style: Style) -> list[list[str]]:
    text, problems = rows_csv.csv_of([result], style)
    assert not problems
    return list(csv.reader(io.StringIO(text)))


def _geojson(*features: Feature, scale: int = 1) -> list[dict[str, object]]:
    text, problems = geojson.collection(_features(*features), scale)
    assert not problems
    value = json.loads(text)
    assert value["type"] == "FeatureCollection"
    assert all(feature["type"] == "Feature" for feature in value["features"])
    return [feature["geometry"] for feature in value["features"]]


@pytest.mark.parametrize(
    ("pieces", "text", "kind", "coordinates"),
    [
        ([box(0, 0, 4, 2)], "POLYGON ((0 0, 0.4 0, 0.4 0.2, 0 0.2, 0 0))", "Polygon",
         [[[0, 0], [0.4, 0], [0.4, 0.2], [0, 0.2], [0, 0]]]),
        ([segment(1, 2, 3, 4)], "LINESTRING (0.1 0.2, 0.3 0.4)", "LineString", [[0.1, 0.2], [0.3, 0.4]]),
        ([single(10, -5)], "POINT (1 -0.5)", "Point", [1, -0.5]),
        ([single(1, 2), single(3, 4)], "MULTIPOINT ((0.1 0.2), (0.3 0.4))", "MultiPoint", [[0.1, 0.2], [0.3, 0.4]]),
        ([segment(1, 2, 3, 4), segment(5, 5, 6, 5)], "MULTILINESTRING ((0.1 0.2, 0.3 0.4), (0.5 0.5, 0.6 0.5))", "MultiLineString",
         [[[0.1, 0.2], [0.3, 0.4]], [[0.5, 0.5], [0.6, 0.5]]]),
    ],
)
def test_kinds(pieces: list[Piece], text: str, kind: str, coordinates: object) -> None:
    feature = _feature(*pieces)
    assert wkt.wkt(feature.shape, 10) == text
    assert _geojson(feature, scale=10) == [{"type": kind, "coordinates": coordinates}]


def test_several_kinds() -> None:
    feature = _feature(box(0, 0, 1, 1), single(5, 5), box(2, 2, 1, 1))
    (geometry,) = _geojson(feature)
    assert geometry["type"] == "GeometryCollection"
    assert isinstance(geometry["geometries"], list)
    assert [one["type"] for one in geometry["geometries"]] == ["MultiPolygon", "Point"]
    assert wkt.wkt(feature.shape, 1).startswith("GEOMETRYCOLLECTION (MULTIPOLYGON (((0 0, ")


def test_geojson_numbers_are_whole_or_the_nearest_doubles() -> None:
    third = Feature(1, (), union([Piece((at(Fraction(1, 3), 2**60 + 1),), ())]))
    assert _geojson(third) == [{"type": "Point", "coordinates": [1 / 3, 2**60 + 1]}]


def test_geojson_texts() -> None:
    texts = (("n", 'it\'s "so"; </b>\\'), ("m", "né"))
    text, _ = geojson.collection(_features(_feature(single(0, 0), texts=texts)), 1)
    assert json.loads(text)["features"][0]["properties"] == dict(texts)
    assert "né" in text


def test_geojson_of_nothing() -> None:
    assert _geojson() == []


def test_geojson_refuses_bytes_that_are_no_utf8_and_numbers_beyond_doubles() -> None:
    text, problems = geojson.collection(_features(_feature(single(0, 0), texts=(("n", "\udcff"),)), _feature(single(1, 1))), 1)
    assert len(json.loads(text)["features"]) == 1
    assert [problem.printed("a.dedale") for problem in problems] == ["a.dedale:1: a text isn't UTF-8: n = '\udcff'"]
    half = Feature(3, (("n", "b"),), union([Piece((at(10**400 + Fraction(1, 2), 0),), ())]))
    _, problems = geojson.collection(_features(half), 1)
    assert [problem.words for problem in problems] == ["a number is beyond the range of doubles: n = 'b'"]


def test_wkt_is_a_table_of_texts_and_geometries() -> None:
    features = _features(_feature(single(1, 2)), _feature(single(3, 4), texts=(("m", "b, 'c'"),)), _feature(single(5, 6), texts=()))
    lines = list(csv.reader(io.StringIO(wkt.csv_of(features, 1))))
    assert lines == [["n", "m", "wkt"], ["a", "", "POINT (1 2)"], ["", "b, 'c'", "POINT (3 4)"], ["", "", "POINT (5 6)"]]


def test_areas_are_exact() -> None:
    features = _features(_feature(box(0, 0, 4, 4), box(2, 2, 4, 4)), _feature(segment(0, 0, 5, 5), texts=(("n", "b"),)))
    assert areas.csv_of(features, 10) == "n,area\na,0.28\nb,0\n"
    assert areas.csv_of(features, 3) == "n,area\na,28/9\nb,0\n"


def test_csv_cells() -> None:
    result = _result("{ n = 'a', x >= 480, x < 540, 3*y = 1 }", "{ n = '-5', 2*x = -5 }", "{ n = '', x - y <= 3, y <= 4, x >= 0 }")
    assert _csv(result, Style(1, None, False)) == [
        ["n", "x", "y", "tied by"],
        ["a", "[480, 540)", "1/3", ""],
        ["-5", "-2.5", "(-inf, inf)", ""],
        ["", "[0, 7]", "[-3, 4]", "x - y <= 3"],
    ]


def test_csv_divides_coordinates_and_what_ties_them() -> None:
    result = _result("{ n = 'a', x - y <= 30, y <= 40, x >= 0 }", "{ n = 'b', 2*x + 4*y = 30, x >= 1, x <= 5 }")
    assert _csv(result, Style(10, None, False))[1:] == [
        ["a", "[0, 7]", "[-3, 4]", "x - y <= 3"], ["b", "[0.1, 0.5]", "[0.5, 0.7]", "2*x + 4*y = 3"]
    ]
    assert _csv(result, Style(10, ("y",), False))[1][:3] == ["a", "[0, 70]", "[-3, 4]"]
    assert _csv(result, Style(10, ("z",), False))[1][:3] == ["a", "[0, 70]", "[-30, 40]"]


def test_csv_for_spreadsheets() -> None:
    texts = ["=1+1", "+1", "-1", "@a", "a=1", ""]
    result = _result(*(f"{{ n = '{text}', x = -5, 3*y = -1 }}" for text in texts))
    lines = _csv(result, Style(1, None, True))[1:]
    assert [line[0] for line in lines] == ["'=1+1", "'+1", "'-1", "'@a", "a=1", ""]
    assert {tuple(line[1:]) for line in lines} == {("-5", "-0.33333333333333333")}


def test_csv_of_an_answer_without_tuples_has_its_heading() -> None:
    assert _csv(_result(), Style(1, None, False)) == [["n", "x", "y"]]


def test_csv_of_different_headings() -> None:
    answers = [_result("{ n = 'a', x = 1, y = 2 }"), _result("{ k = 3, x = 4 }", columns=(Column("k"), Column("x")))]
    text, _ = rows_csv.csv_of(answers, Style(1, None, False))
    assert text == "n,x,y,k\na,1,2,\n,4,,3\n"


def test_csv_problems() -> None:
    tuples = ("{ n != 'a', x = 1 }", "{ n = 'b', x > 1, x < 1 }", "{ n = 'c', 0 < 0 }")
    text, problems = rows_csv.csv_of([_result(*tuples)], Style(1, None, False))
    assert text == "n,x,y\n"
    assert [problem.printed("a.dedale") for problem in problems] == [
        "a.dedale:7: n isn't one text: { n != 'a', x = 1 }",
        "a.dedale:7: it holds nowhere: { n = 'b', x > 1, x < 1 }",
        "a.dedale:7: it holds nowhere: { n = 'c', 0 < 0 }",
    ]


def test_tuples_with_the_same_texts_are_one_feature() -> None:
    square = "x >= 0, x <= 1, y >= 0, y <= 1"
    result = _result(f"{{ n = 'a', {square} }}", f"{{ n = 'b', {square} }}", "{ n = 'a', x >= 1, x < 2, y > 0, y <= 1 }")
    features = features_of([result], None, None)
    assert not features.problems
    assert [(one.texts, wkt.wkt(one.shape, 1)) for one in features.found] == [
        ((("n", "a"),), "POLYGON ((0 0, 2 0, 2 1, 0 1, 0 0))"), ((("n", "b"),), "POLYGON ((0 0, 1 0, 1 1, 0 1, 0 0))")
    ]


def test_an_answer_without_tuples() -> None:
    plane = (Column("x"), Column("y"))
    for columns, wkt_text, area_text in ((plane, "wkt\n", "area\n0\n"), (_MAP, "n,wkt\n", "n,area\n")):
        features = features_of([_result(columns=columns)], None, None)
        assert (wkt.csv_of(features, 1), areas.csv_of(features, 1)) == (wkt_text, area_text)
        assert json.loads(geojson.collection(features, 1)[0])["features"] == []


def test_features_of_other_columns() -> None:
    columns = (Column("k"), Column("x"), Column("y"))
    result = _result("{ k = 1, x = 2, y = 3 }", "{ k = 4, x = 5, y = 6 }", columns=columns)
    shapes = [features_of([result], plane, None).found[0].shape.points for plane in (None, ("y", "x"))]
    assert shapes == [(at(1, 2), at(4, 5)), (at(3, 2), at(6, 5))]


def test_feature_problems() -> None:
    results = [
        _result("{ n = 'a', x = 1, y = 2 }", columns=(Column("n", True), Column("x"))),
        _result("{ n = 'a', x = 1 }", "{ x = 1, y = 1 }", "{ n = 'b', x = 1, y = 1 }"),
        _result(columns=(Column("wkt", True), Column("x"), Column("y"))),
    ]
    features = features_of(results, None, "wkt")
    assert [one.texts for one in features.found] == [(("n", "b"),)]
    assert [problem.words for problem in features.problems] == [
        "no shape, as there aren't two rational columns: (n text, x)",
        "it has no bound in x and y: { n = 'a', x = 1 }",
        "n isn't one text: { x = 1, y = 1 }",
        "a column of texts has the name wkt, which the format needs; ask for it under another name",
    ]
    words = features_of(results[1:2], ("x", "n"), None).problems[0].words
    assert words == "no shape, as there aren't the rational columns x and n: (n text, x, y)"


def test_scale() -> None:
    assert scale_of(b"relation T(x);\n") == 1
    assert scale_of(b"-- scale 10000\nrelation T(x);\n-- scale 10000\r\n") == 10000
    assert scale_of(b" -- scale 10\n-- scale 010\n-- scale 7 or so\n--scale 3\n") == 1
    with pytest.raises(BadScript, match="10, 1000"):
        scale_of(b"-- scale 1000\n-- scale 10")
