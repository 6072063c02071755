"""GeoJSON: which geometries and properties are read, and what is said of bad ones."""
import json

import pytest

from tests.importing.running import imported

HEIGHT = "a position has a height or a measure (a third coordinate), and two coordinates are wanted"


def collection(*features: str) -> str:
    """A FeatureCollection with each feature on a line of its own, the first on line 2."""
    return '{"type": "FeatureCollection", "features": [\n' + ",\n".join(features) + "\n]}\n"


def feature(geometry: str, properties: str = '{"n": "b"}') -> str:
    """A Feature."""
    return f'{{"type": "Feature", "properties": {properties}, "geometry": {geometry}}}'


GEOMETRIES = {
    '{"type": "Point", "coordinates": [1, -2.5e0]}': ["x = 10, y = -25"],
    '{"type": "MultiPoint", "coordinates": [[1, 2], [3, 4]]}': ["x = 10, y = 20", "x = 30, y = 40"],
    '{"type": "LineString", "coordinates": [[0, 0], [1, 1]]}': ["x - y = 0, x >= 0, x <= 10"],
    '{"type": "MultiLineString", "coordinates": [[[0, 0], [1, 0]], [[0, 1], [0, 2]]]}':
        ["y = 0, x >= 0, x <= 10", "x = 0, y >= 10, y <= 20"],
    '{"type": "Polygon", "coordinates": [[[0, 0], [1, 0], [0, 1], [0, 0.0]]]}': ["y >= 0, x + y <= 10, x >= 0"],
    '{"type": "MultiPolygon", "coordinates": [[[[0, 0], [1, 0], [0, 1], [0, 0]]]]}': ["y >= 0, x + y <= 10, x >= 0"],
}


@pytest.mark.parametrize("geometry", GEOMETRIES)
def test_geometries_become_tuples(geometry: str) -> None:
    outcome = imported(collection(feature(geometry)), "P", "n", "--geojson", "--digits", "1")
    assert (outcome.status, outcome.errors) == (0, "")
    assert outcome.inserts() == [f"insert P {{ n = 'b', {body} }};" for body in GEOMETRIES[geometry]]


BAD = {
    feature("null"): "feature 2, 'b': it has no geometry",
    feature("7"): "feature 2, 'b': its geometry is no object",
    feature('{"type": "Point"}'): "feature 2, 'b': a list is wanted in the coordinates, not null",
    feature('{"type": "Point", "coordinates": [1]}'): "feature 2, 'b': a position has fewer than two numbers",
    feature('{"type": "Point", "coordinates": []}'): "feature 2, 'b': a position has fewer than two numbers",
    feature('{"type": "Point", "coordinates": [1, 2, 3]}'): f"feature 2, 'b': {HEIGHT}",
    feature('{"type": "Point", "coordinates": [1, "2"]}'): "feature 2, 'b': a number is wanted in the coordinates, not the text '2'",
    feature('{"type": "Point", "coordinates": [1, NaN]}'): "feature 2, 'b': a number is wanted in the coordinates, not NaN",
    feature('{"type": "Point", "coordinates": [1, -Infinity]}'): "feature 2, 'b': a number is wanted in the coordinates, not -Infinity",
    feature('{"type": "Point", "coordinates": [1, true]}'): "feature 2, 'b': a number is wanted in the coordinates, not a truth value",
    feature('{"type": "Point", "coordinates": [1, 1e999]}'): "feature 2, 'b': '1e999' is out of the range of numbers",
    feature('{"type": "Polygon", "coordinates": [1, 2]}'): "feature 2, 'b': a list is wanted in the coordinates, not the number 1",
    feature('{"type": "Polygon", "coordinates": []}'): "feature 2, 'b': the geometry is empty",
    feature('{"type": "Polygon", "coordinates": [[]]}'): "feature 2, 'b': the geometry is empty",
    feature('{"type": "Polygon", "coordinates": [[[0, 0], [1, 0], [0, 1]]]}'):
        "feature 2, 'b': the ring isn't closed: it begins at 0 0 and ends at 0 1",
    feature('{"type": "Polygon", "coordinates": [[[0, 0], [1, 1], [1, 0], [0, 1], [0, 0]]]}'):
        "feature 2, 'b': the ring crosses itself, near 0.5 0.5",
    feature('{"type": "GeometryCollection", "geometries": []}'):
        "feature 2, 'b': a geometry of the type 'GeometryCollection' isn't read: points, lines and polygons are",
    feature('{"type": "Point", "coordinates": [1, 2]}', "{}"): "feature 2: it has no 'n', but nothing",
    feature('{"type": "Point", "coordinates": [1, 2]}', "null"): "feature 2: it has no 'n', but nothing",
    feature('{"type": "Point", "coordinates": [1, 2]}', '{"a": 1, "b": 2, "c": 3, "d": 4, "e": 5, "f": 6}'):
        "feature 2: it has no 'n', but 'a', 'b', 'c', 'd', 'e', ..",
    feature('{"type": "Point", "coordinates": [1, 2]}', "[]"): "feature 2: its properties are no object",
    feature('{"type": "Point", "coordinates": [1, 2]}', '{"n": null}'): "feature 2: 'n' is null",
    feature('{"type": "Point", "coordinates": [1, 2]}', '{"n": [1]}'): "feature 2: 'n' is no text and no number",
    feature('{"type": "Point", "coordinates": [1, 2]}', r'{"n": "a\nb"}'): r"feature 2, 'a\nb': n: 'a\nb' has a control character, U+000A",
    feature('{"type": "Point", "coordinates": [1, 2]}', r'{"n": "\ud800"}'): r"feature 2, '\ud800': n: '\ud800' isn't UTF-8",
    "7": "feature 2: it is no Feature",
    '{"type": "Point", "coordinates": [1, 2]}': "feature 2: it is no Feature",
}


@pytest.mark.parametrize("bad", BAD)
def test_bad_features_are_named_and_nothing_is_written(bad: str) -> None:
    good = feature('{"type": "Point", "coordinates": [1, 2]}', '{"n": "a"}')
    content = collection(good, bad, good)
    outcome = imported(content, "P", "n", "--geojson")
    assert (outcome.status, outcome.script) == (1, "")
    assert outcome.errors.splitlines()[0] == f"<stdin>:3: {BAD[bad]}"
    skipped = imported(content, "P", "n", "--geojson", "--skip")
    assert (skipped.status, len(skipped.inserts())) == (1, 2)


def test_a_feature_of_another_encoding_is_named() -> None:
    good = feature('{"type": "Point", "coordinates": [1, 2]}', '{"n": "a"}')
    content = collection(good, good.replace('"a"', '"ä"')).encode("latin-1")
    outcome = imported(content, "P", "n", "--geojson", "--skip")
    assert outcome.errors == "<stdin>:3: feature 2, '\\xe4': the feature isn't UTF-8: save the file in this encoding\n"
    assert len(outcome.inserts()) == 1


BAD_FILES = {
    "": "<stdin>:1: no GeoJSON: a FeatureCollection or a Feature is wanted",
    "[]": "<stdin>:1: no GeoJSON: a FeatureCollection or a Feature is wanted",
    "name,wkt\n": "<stdin>:1: no GeoJSON: a FeatureCollection or a Feature is wanted",
    '\n{"type": "Point", "coordinates": [1, 2]}': "<stdin>:2: no GeoJSON: a FeatureCollection or a Feature is wanted",
    '{"type": "FeatureCollection", "features": null}': "<stdin>:1: no GeoJSON: a FeatureCollection or a Feature is wanted",
    '{"type": "Topology", "features": []}': "<stdin>:1: no GeoJSON: a FeatureCollection or a Feature is wanted",
    '{"type": "FeatureCollection",\n"features": [\n7': "<stdin>:3: no JSON: ',' or ']' is wanted, and the file ends",
    '{"type": "FeatureCollection",\n"features": [\n7\n}': "<stdin>:4: no JSON: ',' or ']' is wanted, not '}'",
    '{"type": "FeatureCollection",\n"features": [\n{"a" 7}]}': "<stdin>:3: no JSON: Expecting ':' delimiter",
    '{"type": "FeatureCollection",\n"features": [],}': "<stdin>:2: no JSON: '\"' is wanted, not '}'",
    '{"type": "FeatureCollection", "features": []}\n7': "<stdin>:2: no JSON: something stands behind the end of the first object",
    '{"type": "FeatureCollection",\n"features": [{"a": 1, "a": 2}]}': "<stdin>:2: no JSON: 'a' stands twice in an object",
    '{"type": "FeatureCollection", "features": [],\n"features": []}': "<stdin>:2: 'features' stands twice in an object",
    '{"type": "FeatureCollection",\n"type": "FeatureCollection"}': "<stdin>:2: 'type' stands twice in an object",
    "{" + '"a": ' + "[" * 100_000: "<stdin>:1: the JSON is nested too deeply",
}


@pytest.mark.parametrize("content", BAD_FILES, ids=range(len(BAD_FILES)))
def test_bad_files_are_told_with_the_line(content: str) -> None:
    for words in ((), ("--skip",)):
        outcome = imported(content, "P", "--geojson", *words)
        assert (outcome.status, outcome.script) == (1, "")
        assert BAD_FILES[content] in outcome.errors.splitlines()


def test_properties_are_texts_or_numbers() -> None:
    point = '{"type": "Point", "coordinates": [0, 0]}'
    content = collection(feature(point, '{"n": 17, "b": true, "k": 1.50e1, "t": "10:30"}'))
    outcome = imported(content, "P", "n", "b", "k:number", "t:time", "--geojson")
    assert outcome.inserts() == ["insert P { n = '17', b = 'true', k = 15, t = 630, x = 0, y = 0 };"]


def test_a_byte_order_mark_and_other_members_are_read() -> None:
    point = {"type": "Feature", "id": 3, "properties": None, "geometry": {"type": "Point", "coordinates": [0, 0]}}
    for content in ({"features": [point], "name": "a", "type": "FeatureCollection"}, point):
        for text in (json.dumps(content), "\ufeff\r\n" + json.dumps(content, indent=4)):
            assert imported(text, "P", "--geojson").inserts() == ["insert P { x = 0, y = 0 };"]
    assert imported('{"type": "FeatureCollection", "features": []}', "P", "--geojson").inserts() == []
