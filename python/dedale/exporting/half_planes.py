"""Intersections of half planes, quickly: by whole numbers alone, and each pair of borders in turn.

`GeneralizedTuple.corners` gives the same for any rows. This is for the many tuples of a map, which have a few rows over the
two columns of the plane."""
from itertools import combinations
from math import gcd
from typing import NamedTuple, Sequence

from dedale.exporting.points import Line, Point, turn
from dedale.polyhedra import Row, Sign


class HalfPlane(NamedTuple):
    """The points on the left of a line: those on it too but where the sign is `LESS`, and they alone where it is `EQUAL`."""

    border: Line
    sign: Sign

    def closure_holds(self, point: Point) -> bool:
        """Whether the point is in the half plane or on its border."""
        side = self.border.side(point)
        return side == 0 or side > 0 and self.sign is not Sign.EQUAL


def half_planes(rows: Sequence[Row], x: str, y: str) -> list[HalfPlane]:
    """The half planes of rows over the two columns. Rows without a column are left out."""
    return [HalfPlane(Line(-row.coefficient(x), -row.coefficient(y), -row.constant), row.sign) for row in rows if row.terms]


def is_endless(planes: Sequence[HalfPlane]) -> bool:
    """Whether there is a direction in which no border is ever crossed from the left to the right; it is then along a border."""
    ways = [way for (a, b, _), _ in planes for way in ((b, -a), (-b, a))]
    return not planes or any(all(_stays(plane, *way) for plane in planes) for way in ways)


def corners(planes: Sequence[HalfPlane]) -> list[Point]:
    """The corners of the intersection's closure, counterclockwise, where it isn't endless: none where it is empty."""
    crossings = {point for one, other in combinations(planes, 2) for point in _crossing(one.border, other.border)}
    found = [point for point in crossings if all(plane.closure_holds(point) for plane in planes)]
    if any(plane.sign is Sign.LESS and not any(plane.border.side(point) for point in found) for plane in planes):
        return []
    return _counterclockwise(found)


def _stays(plane: HalfPlane, to_x: int, to_y: int) -> bool:
    inwards = plane.border.x_part * to_x + plane.border.y_part * to_y
    return inwards == 0 or inwards > 0 and plane.sign is not Sign.EQUAL


def _crossing(one: Line, other: Line) -> list[Point]:
    """The point on both lines, where they aren't parallel."""
    weight = one.x_part * other.y_part - one.y_part * other.x_part
    if weight == 0:
        return []
    x = one.y_part * other.constant - one.constant * other.y_part
    y = one.constant * other.x_part - one.x_part * other.constant
    divisor = gcd(x, y, weight) * (1 if weight > 0 else -1)
    return [Point(x // divisor, y // divisor, weight // divisor)]


def _counterclockwise(points: list[Point]) -> list[Point]:
    """Corners of a convex polygon, from the leftmost one on along the lower side and back along the upper one."""
    ordered = sorted(points, key=Point.position)
    if len(ordered) < 3:
        return ordered
    first, last = ordered[0], ordered[-1]
    below = [point for point in ordered if turn(first, last, point) < 0]
    above = [point for point in ordered if turn(first, last, point) > 0]
    return [first, *below, last, *reversed(above)]
