"""Features as GeoJSON (RFC 7946)."""
import json
from fractions import Fraction
from typing import Any

from dedale.exporting.features import Feature, Features
from dedale.exporting.problems import Problem, Unwritable
from dedale.exporting.shapes import Geometry, Kind, Path, Shape
from dedale.exporting.texts import printed


def collection(features: Features, scale: int) -> tuple[str, list[Problem]]:
    """A `FeatureCollection`, a line for each feature that has a point, with texts as properties and coordinates divided by the
    scale; and the features that have no place in it, behind the problems that there were.

    A whole number is written as it is, any other one as the nearest double in its shortest form, which is exact for decimals
    of at most 15 digits. A feature with a text that isn't UTF-8, or with a number beyond all doubles, is a problem."""
    lines, problems = [], list(features.problems)
    for feature in features.found:
        try:
            lines += [] if feature.shape.is_empty else [_line(feature, scale)]
        except Unwritable as error:
            problems.append(Problem(feature.line, f"{error}: {printed(feature.texts)}"))
    body = "".join(",\n" * (number > 0) + line for number, line in enumerate(lines))
    return f'{{"type": "FeatureCollection", "features": [\n{body}\n]}}\n', problems


def _line(feature: Feature, scale: int) -> str:
    """A feature as one line. Raises `Unwritable`."""
    value = {"type": "Feature", "properties": dict(feature.texts), "geometry": _shape(feature.shape, scale)}
    line = json.dumps(value, ensure_ascii=False, allow_nan=False)
    try:
        line.encode("utf-8")
    except UnicodeEncodeError as error:
        raise Unwritable("a text isn't UTF-8") from error
    return line


def _shape(shape: Shape, scale: int) -> dict[str, Any]:
    geometries = [_geometry(geometry) for geometry in shape.geometries(scale)]
    return geometries[0] if len(geometries) == 1 else {"type": "GeometryCollection", "geometries": geometries}


def _geometry(geometry: Geometry) -> dict[str, Any]:
    parts = [_part(part, geometry.kind) for part in geometry.parts]
    return {"type": geometry.name, "coordinates": parts[0] if len(parts) == 1 else parts}


def _part(part: list[Path], kind: Kind) -> list[Any]:
    """The coordinates of a part, as deep as its kind has them."""
    paths = [[[_number(x), _number(y)] for x, y in path] for path in part]
    match kind:
        case Kind.POLYGON:
            return paths
        case Kind.LINE:
            return paths[0]
        case Kind.POINT:
            return paths[0][0]


def _number(value: Fraction) -> int | float:
    """The whole number, or the nearest double. Raises `Unwritable` where it is beyond all doubles."""
    try:
        return int(value) if value.denominator == 1 else float(value)
    except OverflowError as error:
        raise Unwritable("a number is beyond the range of doubles") from error
