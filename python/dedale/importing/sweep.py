"""A line swept over the sides of rings, from left to right, that finds where sides cross or run along each other.

After M. I. Shamos and D. Hoey, "Geometric intersection problems", FOCS 1976, and M. de Berg et al., "Computational
Geometry", 3rd edition, section 2.1. Corners are pairs of whole numbers and every decision is by the sign of a determinant of
them, so nothing is rounded. Corners are met in the order of x, then of y, as if the plane were sheared a little: so upright
sides need no rules of their own. n corners take O(n log n) steps."""
from bisect import bisect_left, bisect_right
from collections.abc import Callable, Iterator, Sequence
from dataclasses import dataclass
from fractions import Fraction
from functools import cmp_to_key

Corner = tuple[int, int]
Ring = Sequence[Corner]
"""The corners of a closed curve, each once, at least three, none of them equal to the one before it."""


def turn(a: Corner, b: Corner, c: Corner) -> int:
    """Twice the area of the triangle a, b, c: above 0 where it runs counterclockwise, 0 where the three are on one line."""
    return (b[0] - a[0]) * (c[1] - a[1]) - (b[1] - a[1]) * (c[0] - a[0])


@dataclass(eq=False, slots=True)
class Side:
    """A side of a ring, or the rest of one behind a corner that stands on it.

    It leads from its lesser end `left` to its greater one `right`; `forward` says that the ring runs the same way."""

    left: Corner
    right: Corner
    ring: int
    forward: bool


@dataclass(frozen=True, slots=True)
class Meeting:
    """What happens at a corner: `arriving` are the sides that end there or pass through it, on the left of the sweep line,
    and `leaving` those that begin there or go on, on its right; both from the lowest to the highest. `below` is the side next
    under the corner, or None."""

    corner: Corner
    below: Side | None
    arriving: Sequence[Side]
    leaving: Sequence[Side]


class Clash(Exception):
    """Two sides cross between their ends, or run along each other.

    `first` and `second` are the numbers of their rings, `place` a point that they share."""

    def __init__(self, first: Side, second: Side, place: tuple[Fraction, Fraction], along: bool) -> None:
        super().__init__()
        self.first = first.ring
        self.second = second.ring
        self.place = place
        self.along = along


def _by_slope(first: Side, second: Side) -> int:
    """For sides with the same left end: below 0 where the first one is lower."""
    return turn(first.left, second.right, first.right)


def _height_over(corner: Corner) -> Callable[[Side], int]:
    """A function of a side that is above 0 where the side is above the corner, and 0 where it goes through it."""
    x, y = corner

    def height(side: Side) -> int:
        (a, b), (c, d) = side.left, side.right
        return (d - b) * (x - a) - (c - a) * (y - b)

    return height


def _crossing(first: Side, second: Side) -> tuple[Fraction, Fraction] | None:
    """The point at which two sides cross, where it is an end of neither."""
    start, end = turn(first.left, first.right, second.left), turn(first.left, first.right, second.right)
    if start * end >= 0 or turn(second.left, second.right, first.left) * turn(second.left, second.right, first.right) >= 0:
        return None
    part = Fraction(start, start - end)
    (x, y), (u, v) = second.left, second.right
    return x + part * (u - x), y + part * (v - y)


def _must_not_cross(lower: Side | None, upper: Side | None) -> None:
    if lower is not None and upper is not None:
        place = _crossing(lower, upper)
        if place is not None:
            raise Clash(lower, upper, place, along=False)


def _beginnings(rings: Sequence[Ring]) -> dict[Corner, list[Side]]:
    """For each corner the sides of which it is the left end."""
    found: dict[Corner, list[Side]] = {corner: [] for ring in rings for corner in ring}
    for number, ring in enumerate(rings):
        before = ring[-1]
        for corner in ring:
            forward = before < corner
            left, right = (before, corner) if forward else (corner, before)
            found[left].append(Side(left, right, number, forward))
            before = corner
    return found


def sweep(rings: Sequence[Ring]) -> Iterator[Meeting]:
    """The meetings at all corners of the rings, from left to right. A side that passes through a corner arrives there as it
    is and leaves as a new `Side`. Raises `Clash` where sides cross between their ends or run along each other."""
    beginnings = _beginnings(rings)
    crossed: list[Side] = []  # the sides under the sweep line, from the lowest to the highest
    for corner in sorted(beginnings):
        height = _height_over(corner)
        low = bisect_left(crossed, 0, key=height)
        high = bisect_right(crossed, 0, low, key=height)
        arriving = crossed[low:high]
        leaving = beginnings[corner]
        leaving += [Side(corner, s.right, s.ring, s.forward) for s in arriving if s.right != corner]
        if len(leaving) > 1:
            leaving.sort(key=cmp_to_key(_by_slope))
            for lower, upper in zip(leaving, leaving[1:]):
                if _by_slope(lower, upper) == 0:
                    raise Clash(lower, upper, (Fraction(corner[0]), Fraction(corner[1])), along=True)
        crossed[low:high] = leaving
        below = crossed[low - 1] if low else None
        behind = low + len(leaving)
        above = crossed[behind] if behind < len(crossed) else None
        if leaving:
            _must_not_cross(below, leaving[0])
            _must_not_cross(leaving[-1], above)
        else:
            _must_not_cross(below, above)
        yield Meeting(corner, below, arriving, leaving)
