"""Points and directed lines of the plane in whole numbers, so that every test of a side is exact and quick."""
from fractions import Fraction
from math import gcd, lcm
from typing import NamedTuple


class Point(NamedTuple):
    """The point (x / weight, y / weight): homogeneous coordinates in lowest terms with a weight above 0.

    Two points are the same exactly where their three numbers are, so points can be keys of a dictionary."""

    x: int
    y: int
    weight: int

    def position(self) -> tuple[Fraction, Fraction]:
        """The two coordinates."""
        return Fraction(self.x, self.weight), Fraction(self.y, self.weight)


class Line(NamedTuple):
    """The line x_part * x + y_part * y + constant = 0, directed so that the sum is above 0 to its left."""

    x_part: int
    y_part: int
    constant: int

    def side(self, point: Point) -> int:
        """Above 0 to the left of the line, 0 on it, below 0 to the right: the sum at the point times its weight."""
        return self.x_part * point.x + self.y_part * point.y + self.constant * point.weight

    def runs_with(self, other: "Line") -> bool:
        """Whether two lines that are parallel have the same direction."""
        return self.x_part * other.x_part + self.y_part * other.y_part > 0


def point_at(x: Fraction, y: Fraction) -> Point:
    """The point with these coordinates."""
    weight = lcm(x.denominator, y.denominator)
    return Point(x.numerator * (weight // x.denominator), y.numerator * (weight // y.denominator), weight)


def line_through(start: Point, stop: Point) -> Line:
    """The line from one point to another one, in lowest terms: one line for each direction, whichever points of it are given."""
    x_part = start.y * stop.weight - start.weight * stop.y
    y_part = start.weight * stop.x - start.x * stop.weight
    constant = start.x * stop.y - start.y * stop.x
    divisor = gcd(x_part, y_part, constant) or 1
    return Line(x_part // divisor, y_part // divisor, constant // divisor)


def point_between(start: Point, stop: Point, part: Fraction) -> Point:
    """The point that is the part of the way from one point to another one: 0 is the first, 1 the second one."""
    if part == 0:
        return start
    if part == 1:
        return stop
    (x, y), (to_x, to_y) = start.position(), stop.position()
    return point_at(x + part * (to_x - x), y + part * (to_y - y))


def turn(before: Point, middle: Point, behind: Point) -> int:
    """Above 0 where the way from the first over the second to the third point turns to the left, 0 where it is straight."""
    return line_through(before, middle).side(behind)


def doubled_area(ring: list[Point]) -> Fraction:
    """Twice the area within a ring of points: above 0 where it runs counterclockwise (the shoelace formula)."""
    total = Fraction(0)
    for start, stop in zip(ring, ring[1:] + ring[:1]):
        total += Fraction(start.x * stop.y - stop.x * start.y, start.weight * stop.weight)
    return total
