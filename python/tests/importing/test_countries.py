"""The countries of `examples/data`: imported, confirmed by the program, and compared with Shapely."""
import csv
from pathlib import Path

import pytest

from dedale.importing.regions import convex_pieces
from dedale.importing.rings import oriented_rings, twice_area
from dedale.importing.wkt import read_wkt
from tests.importing.polygons import Polygon, shapely_of
from tests.importing.running import Outcome, imported, replies, truths

COUNTRIES = Path(__file__).resolve().parents[3] / "examples" / "data" / "countries.csv"
DIGITS = 4


@pytest.fixture(scope="module")
def shapes() -> dict[str, list[Polygon]]:
    """The rounded polygons of each country."""
    with COUNTRIES.open(encoding="utf-8", newline="") as file:
        csv.field_size_limit(10**9)
        return {row["name"]: read_wkt(row["wkt"]).scaled(DIGITS) for row in csv.DictReader(file)}


@pytest.fixture(scope="module")
def countries() -> Outcome:
    """Their import, with checks."""
    words = ("--digits", str(DIGITS), "--edges", "Edge", "--check")
    return imported(COUNTRIES.read_bytes(), "Land", "name", "wkt", *words)


def test_the_program_confirms_each_country(program: str, countries: Outcome) -> None:
    assert (countries.status, countries.errors) == (0, "")
    assert truths(program, countries.script) == ["yes"] * 104


def test_areas_are_those_of_shapely(shapes: dict[str, list[Polygon]]) -> None:
    for polygons in shapes.values():
        area = sum(map(twice_area, convex_pieces(oriented_rings(polygons)))) / 2
        assert area == pytest.approx(shapely_of(polygons).area, rel=1e-9)


def test_neighbours_are_those_of_shapely(program: str, countries: Outcome, shapes: dict[str, list[Polygon]]) -> None:
    script = countries.script.split("\n-- line")[0] + "\n"
    question = "query (n text, m text) : n != m and exists x exists y (Land(n, x, y) and Land(m, x, y));\n"
    answer = replies(program, script + question)
    found = {line for line in answer if line.startswith("{ n = ")}
    polygons = {name: shapely_of(parts) for name, parts in shapes.items()}
    wanted = {
        f"{{ n = '{first}', m = '{second}' }}"
        for first, one in polygons.items() for second, other in polygons.items()
        if first != second and one.intersects(other)
    }
    assert len(wanted) == 208 and found == wanted
