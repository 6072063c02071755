"""Polygons with holes and of several parts for tests, in whole numbers."""
import math
from collections.abc import Sequence

import shapely.geometry  # type: ignore[import]
import shapely.ops  # type: ignore[import]
from hypothesis import strategies

from dedale.importing.sweep import Corner

Polygon = list[list[Corner]]

CELL = 100


def closed(corners: Sequence[Corner]) -> list[Corner]:
    """A ring with its first corner again at its end."""
    return [*corners, corners[0]]


def square(x: int, y: int, size: int) -> list[Corner]:
    """A closed square with its least corner at (x, y)."""
    return closed([(x, y), (x + size, y), (x + size, y + size), (x, y + size)])


def wkt_of(polygons: Sequence[Polygon]) -> str:
    """Polygons as WKT."""
    parts = [[", ".join(f"{x} {y}" for x, y in ring) for ring in polygon] for polygon in polygons]
    return "MULTIPOLYGON (" + ", ".join("(" + ", ".join(f"({ring})" for ring in part) + ")" for part in parts) + ")"


def shapely_of(polygons: Sequence[Polygon]) -> shapely.geometry.MultiPolygon:
    """Polygons as Shapely has them."""
    return shapely.geometry.MultiPolygon([(polygon[0], polygon[1:]) for polygon in polygons])


@strategies.composite
def carved(draw: strategies.DrawFn) -> list[Polygon]:
    """The union of squares of a grid, its corners moved a little, or sheared: with holes, and with rings that touch in corners,
    with corners of the same x and with level and upright sides."""
    size = draw(strategies.integers(2, 6))
    cells = draw(strategies.sets(strategies.tuples(*[strategies.integers(0, size - 1)] * 2), min_size=1, max_size=size * size))
    union = shapely.ops.unary_union([shapely.geometry.box(x, y, x + 1, y + 1) for x, y in cells])
    parts = union.geoms if isinstance(union, shapely.geometry.MultiPolygon) else [union]
    reach = draw(strategies.sampled_from([0, 0, 5, 30]))
    moves = draw(strategies.lists(strategies.tuples(*[strategies.integers(-reach, reach)] * 2), min_size=49, max_size=49))
    a, b = draw(strategies.tuples(*[strategies.integers(-2, 2)] * 2))

    def place(x: float, y: float) -> Corner:
        move = moves[7 * round(x) + round(y)]
        u, v = CELL * round(x) + move[0], CELL * round(y) + move[1]
        return u + a * v, v + b * (u + a * v)

    return [[[place(x, y) for x, y in ring.coords] for ring in (part.exterior, *part.interiors)] for part in parts]


@strategies.composite
def starry(draw: strategies.DrawFn) -> list[Polygon]:
    """A ring round its middle with any radii, with rings of the same kind as holes."""
    whole = draw(_star(0, 0, 2000, 4000))
    places = draw(strategies.sets(strategies.tuples(*[strategies.integers(-1, 1)] * 2), max_size=9))
    return [[whole, *(draw(_star(600 * x, 600 * y, 40, 290)) for x, y in sorted(places))]]


@strategies.composite
def _star(draw: strategies.DrawFn, x: int, y: int, least: int, most: int) -> list[Corner]:
    radii = draw(strategies.lists(strategies.integers(least, most), min_size=4, max_size=24))
    angles = [2 * math.pi * number / len(radii) for number in range(len(radii))]
    corners = [(x + round(r * math.cos(angle)), y + round(r * math.sin(angle))) for r, angle in zip(radii, angles)]
    return closed(corners if draw(strategies.booleans()) else corners[::-1])


@strategies.composite
def touching(draw: strategies.DrawFn) -> list[Polygon]:
    """A square of cells with a triangle as a hole in some of them. Its corners stand on three sides of the cell: so holes touch
    the ring, and corner to corner each other."""
    size = draw(strategies.integers(1, 3))
    steepness = draw(strategies.integers(-2, 2))
    cells = draw(strategies.sets(strategies.tuples(*[strategies.integers(0, size - 1)] * 2), max_size=size * size))
    rings = [square(0, 0, 4 * size)]
    for x, y in sorted(cells):
        places = draw(strategies.lists(strategies.integers(1, 3), min_size=4, max_size=4))
        corners = [(places[0], 0), (4, places[1]), (places[2], 4), (0, places[3])]
        del corners[draw(strategies.integers(0, 3))]
        rings.append(closed([(4 * x + u, 4 * y + v) for u, v in corners]))
    return [[[(x + steepness * y, y) for x, y in ring] for ring in rings]]


def polygons() -> strategies.SearchStrategy[list[Polygon]]:
    """Any of these kinds."""
    return carved() | starry() | touching()
