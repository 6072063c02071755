"""Unions of pieces as shapes, and these as the geometries that map formats have."""
from dataclasses import dataclass
from enum import Enum
from fractions import Fraction
from typing import Sequence

from dedale.exporting.borders import border
from dedale.exporting.pieces import Piece
from dedale.exporting.points import Point
from dedale.exporting.rings import Polygon, polygons_within
from dedale.exporting.segments import LineString, lines_outside, points_outside

Position = tuple[Fraction, Fraction]
Path = list[Position]


class Kind(Enum):
    """What the parts of a geometry are, by the names of the Simple Features standard."""

    POLYGON = "Polygon"
    LINE = "LineString"
    POINT = "Point"


@dataclass(frozen=True)
class Geometry:
    """Polygons, lines or points. Each part is a list of paths: the shell of a polygon counterclockwise and its holes clockwise,
    all closed; the one path of a line; or one path of a single position."""

    kind: Kind
    parts: list[list[Path]]

    @property
    def name(self) -> str:
        """The name of the kind, or that of several: `Polygon`, `MultiPolygon`."""
        return self.kind.value if len(self.parts) == 1 else f"Multi{self.kind.value}"


@dataclass(frozen=True)
class Shape:
    """A closed bounded set of points: polygons, lines outside of them, and points outside of both."""

    polygons: tuple[Polygon, ...]
    lines: tuple[LineString, ...]
    points: tuple[Point, ...]

    @property
    def is_empty(self) -> bool:
        """Whether it has no point."""
        return not (self.polygons or self.lines or self.points)

    def area(self) -> Fraction:
        """The area of the polygons, which have at most borders in common."""
        return sum((polygon.area() for polygon in self.polygons), Fraction(0))

    def geometries(self, scale: int) -> list[Geometry]:
        """One geometry for each of polygons, lines and points that there are, all coordinates divided by the scale."""
        rings = [[(*ring, ring[0]) for ring in (polygon.shell, *polygon.holes)] for polygon in self.polygons]
        parts = {
            Kind.POLYGON: [[_scaled(ring, scale) for ring in polygon] for polygon in rings],
            Kind.LINE: [[_scaled(line, scale)] for line in self.lines],
            Kind.POINT: [[_scaled((point,), scale)] for point in self.points],
        }
        return [Geometry(kind, of_kind) for kind, of_kind in parts.items() if of_kind]


def union(pieces: Sequence[Piece]) -> Shape:
    """The points that are in one of the pieces: no edge is left where polygons touch, what several pieces hold is there once."""
    polygons = [piece for piece in pieces if len(piece.corners) > 2]
    segments = [(piece.corners[0], piece.corners[1]) for piece in pieces if len(piece.corners) == 2]
    points = [piece.corners[0] for piece in pieces if len(piece.corners) == 1]
    lines = lines_outside(segments, polygons)
    return Shape(tuple(polygons_within(border(polygons))), tuple(lines), tuple(points_outside(points, lines, polygons)))


def _scaled(points: Sequence[Point], scale: int) -> Path:
    return [(x / scale, y / scale) for x, y in map(Point.position, points)]
