"""A map that is imported and exported again is the map that was rounded."""
import csv
import io
import json
import math
import random
from decimal import Decimal
from typing import Any, Sequence

import pytest

from tests.exporting.planar import read_wkt
from tests.exporting.tools import run_tools

DIGITS = 4
Position = tuple[Decimal, Decimal]
Ring = list[list[float]]
Feature = tuple[str, str, Any]


def _star(rnd: random.Random, center: tuple[float, float], radii: tuple[float, float], corners: int) -> Ring:
    """A closed ring round a center, whose corners are between the two distances from it."""
    angles = sorted(rnd.uniform(0, 2 * math.pi) for _ in range(corners))
    steps = [2 * math.pi * (number + angle / 7) / corners for number, angle in enumerate(angles)]
    places = [(rnd.uniform(*radii), step) for step in steps]
    ring = [[center[0] + radius * math.cos(step), center[1] + radius * math.sin(step)] for radius, step in places]
    return [*ring, ring[0]]


def _polygon(rnd: random.Random, center: tuple[float, float]) -> list[Ring]:
    """A star with up to three holes in its middle, half of them clockwise."""
    holes = [_star(rnd, (center[0] + 2 * place - 2, center[1]), (0.3, 0.9), 5) for place in rnd.sample(range(3), rnd.randint(0, 3))]
    rings = [_star(rnd, center, (3.5, 9), rnd.randint(8, 20)), *holes]
    return [ring[::-1] if rnd.random() < 0.5 else ring for ring in rings]


def _made_map() -> list[Feature]:
    rnd = random.Random(48)
    features: list[Feature] = [(f"star {number}", "Polygon", _polygon(rnd, (rnd.uniform(-50, 50), 7))) for number in range(30)]
    for number in range(5):
        features.append((f"stars {number}", "MultiPolygon", [_polygon(rnd, (20 * part, -3)) for part in range(3)]))
    return features


STRAIGHT: list[Feature] = [
    ("a 'square'", "Polygon", [[[0, 0], [2, 0], [4, 0], [4, 4], [0, 4], [0, 1], [0, 0]], [[1, 1], [1, 2], [2, 2], [2, 1], [1, 1]]]),
    ("é", "MultiPolygon", [[[[10, 0], [12, 0], [12, 2], [10, 2], [10, 0]]], [[[12, 2], [13, 2], [13, 3], [12, 3], [12, 2]]]]),
    ("street, long", "LineString", [[0, 9], [3.12344, 9.5], [3.2, 12], [-1, 13]]),
    ("well", "Point", [1 / 3, -2 / 3]),
]


def _tidy(path: Sequence[Sequence[float]], is_ring: bool) -> list[Position]:
    """The rounded corners in one of their orders: without those in the middle of straight lines, from the least one on."""
    step = Decimal(1).scaleb(-DIGITS)
    points = [(Decimal(x).quantize(step), Decimal(y).quantize(step)) for x, y in path]
    if not is_ring:
        return min(points, points[::-1])
    ring = points[:-1]
    corners = [b for a, b, c in zip(ring[-1:] + ring, ring, ring[1:] + ring) if _turn(a, b, c)]
    least = corners.index(min(corners))
    turned = corners[least:] + corners[:least]
    return min(turned, turned[:1] + turned[:0:-1])


def _turn(a: Position, b: Position, c: Position) -> Decimal:
    return (b[0] - a[0]) * (c[1] - b[1]) - (b[1] - a[1]) * (c[0] - b[0])


def _tidied(kind: str, coordinates: Any) -> tuple[str, list[Any]]:
    """A geometry in one of the forms that mean the same."""
    match kind:
        case "Polygon":
            return kind, [_tidy(coordinates[0], True), sorted(_tidy(ring, True) for ring in coordinates[1:])]
        case "MultiPolygon":
            return kind, sorted(_tidied("Polygon", part)[1] for part in coordinates)
        case "LineString":
            return kind, _tidy(coordinates, False)
        case _:
            return kind, _tidy([coordinates], False)


def _collection(features: list[Feature]) -> str:
    return json.dumps({"type": "FeatureCollection", "features": [
        {"type": "Feature", "properties": {"name": name}, "geometry": {"type": kind, "coordinates": coordinates}}
        for name, kind, coordinates in features
    ]})


def _imported(program: str, features: list[Feature], *words: str) -> str:
    run = run_tools(program, "import", "Land", "name", "--geojson", "--digits", str(DIGITS), *words, script=_collection(features))
    assert (run.status, run.err) == (0, "")
    return run.out


@pytest.mark.parametrize(
    ("words", "question"), [((), "show Land;"), (("--decimals",), "query (name text, x, y) : Land(name, x, y);")], ids=["show", "query"]
)
@pytest.mark.parametrize("features", [STRAIGHT, _made_map()], ids=["straight", "made"])
def test_geojson(program: str, features: list[Feature], words: tuple[str, ...], question: str) -> None:
    script = _imported(program, features, *words) + question
    run = run_tools(program, "export", "--format", "geojson", script=script)
    assert (run.status, run.err) == (0, "")
    found = {one["properties"]["name"]: one["geometry"] for one in json.loads(run.out)["features"]}
    assert {name: _tidied(one["type"], one["coordinates"]) for name, one in found.items()} == {
        name: _tidied(kind, coordinates) for name, kind, coordinates in features
    }


def test_wkt_has_the_same_areas(program: str) -> None:
    features = _made_map()
    script = _imported(program, features) + "show Land;"
    run = run_tools(program, "export", "--format", "wkt", script=script)
    shapes = {name: read_wkt(text) for name, text in list(csv.reader(io.StringIO(run.out)))[1:]}
    areas = dict(csv.reader(io.StringIO(run_tools(program, "area", script=script).out)))
    assert all(shape.is_valid for shape in shapes.values())
    assert len(shapes) == len(features)
    expected = {name: shape.area for name, shape in shapes.items()}
    assert {name: float(areas[name]) for name in shapes} == pytest.approx(expected, rel=1e-9)


def test_what_was_exported_is_imported_again(program: str) -> None:
    script = _imported(program, _made_map()) + "show Land;"
    first = run_tools(program, "export", "--format", "wkt", script=script).out
    again = run_tools(program, "import", "Land", "name", "wkt", "--digits", str(DIGITS), script=first)
    assert (again.status, again.err) == (0, "")
    assert run_tools(program, "export", "--format", "wkt", script=again.out + "show Land;").out == first
