"""Shapes as WKT, the text of the Simple Features standard, in a table with the texts of each."""
from dedale.exporting.features import Features
from dedale.exporting.numbers import decimal
from dedale.exporting.shapes import Geometry, Kind, Path, Shape
from dedale.exporting.tables import Table

GEOMETRY = "wkt"
"""The heading of the geometries."""


def csv_of(features: Features, scale: int) -> str:
    """A table as CSV with a line for each feature that has a point: its texts, and the geometry divided by the scale."""
    table = Table([*features.columns, GEOMETRY])
    for feature in features.found:
        if not feature.shape.is_empty:
            table.add({**dict(feature.texts), GEOMETRY: wkt(feature.shape, scale)})
    return table.csv()


def wkt(shape: Shape, scale: int) -> str:
    """The shape, which has a point, as WKT, its coordinates divided by the scale and written as decimals of at most 17 digits."""
    geometries = [_geometry(geometry) for geometry in shape.geometries(scale)]
    return geometries[0] if len(geometries) == 1 else f"GEOMETRYCOLLECTION ({', '.join(geometries)})"


def _geometry(geometry: Geometry) -> str:
    parts = [_part(part, geometry.kind) for part in geometry.parts]
    return f"{geometry.name.upper()} {parts[0] if len(parts) == 1 else _list(parts)}"


def _part(part: list[Path], kind: Kind) -> str:
    paths = [_list([f"{decimal(x)} {decimal(y)}" for x, y in path]) for path in part]
    return _list(paths) if kind is Kind.POLYGON else paths[0]


def _list(texts: list[str]) -> str:
    return f"({', '.join(texts)})"
