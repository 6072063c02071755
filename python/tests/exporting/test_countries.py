"""The countries of the examples, imported and exported again, are the published ones with rounded corners."""
import csv
import io
import re
from decimal import ROUND_HALF_EVEN, Decimal
from typing import Any

import pytest

from tests.exporting.planar import read_wkt
from tests.exporting.tools import run_tools
from tests.scripts import ROOT

COUNTRIES = ROOT / "examples" / "data" / "countries.csv"


def _rounded(number: re.Match[str]) -> str:
    return str(Decimal(number[0]).quantize(Decimal("0.0001"), ROUND_HALF_EVEN))


def _column(text: str, heading: str) -> dict[str, str]:
    return {line["name"]: line[heading] for line in csv.DictReader(io.StringIO(text))}


@pytest.fixture(scope="module")
def script(program: str) -> str:
    """A script of the countries, which asks for all of them."""
    run = run_tools(program, "import", "Land", "name", "wkt", "--digits", "4", script=COUNTRIES.read_bytes())
    assert (run.status, run.err) == (0, "")
    return run.out + "query (name text, x, y) : Land(name, x, y);"


@pytest.fixture(scope="module")
def published() -> dict[str, Any]:
    """The countries as Shapely reads them, with corners of four digits."""
    texts = _column(COUNTRIES.read_text(encoding="utf-8"), "wkt")
    return {name: read_wkt(re.sub(r"-?\d+\.\d+", _rounded, text)) for name, text in texts.items()}


def test_shapes(program: str, script: str, published: dict[str, Any]) -> None:
    run = run_tools(program, "export", "--format", "wkt", script=script)
    assert (run.status, run.err) == (0, "")
    shapes = {name: read_wkt(text) for name, text in _column(run.out, "wkt").items()}
    assert len(shapes) == len(published) == 52
    for name, shape in shapes.items():
        assert shape.is_valid
        assert (name, shape.geom_type, shape.equals(published[name])) == (name, published[name].geom_type, True)


def test_areas(program: str, script: str, published: dict[str, Any]) -> None:
    areas = _column(run_tools(program, "area", script=script).out, "area")
    assert {name: float(area) for name, area in areas.items()} == pytest.approx(
        {name: shape.area for name, shape in published.items()}, rel=1e-9
    )
