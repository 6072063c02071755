"""Convex pieces: polygons, segments and single points, as their corners."""
from dataclasses import dataclass
from fractions import Fraction
from typing import Iterator, Sequence

from dedale.exporting.points import Line, Point, line_through


@dataclass(frozen=True)
class Shared:
    """What a segment shares with a convex polygon: all from `first` to `last`, parts of the way between 0 and 1.

    `along` is the side of the polygon that the segment runs along, if any."""

    first: Fraction
    last: Fraction
    along: Line | None


@dataclass(frozen=True)
class Piece:
    """A closed convex piece: one point, the two ends of a segment, or the corners of a polygon counterclockwise.

    `sides` are the lines from each corner of a polygon to the next, with the polygon to their left; other pieces have none."""

    corners: tuple[Point, ...]
    sides: tuple[Line, ...]

    def edges(self) -> Iterator[tuple[Point, Point]]:
        """The edges of a polygon, counterclockwise."""
        return zip(self.corners, self.corners[1:] + self.corners[:1])

    def holds(self, point: Point) -> bool:
        """Whether the point is in the polygon or on its border."""
        return all(side.side(point) >= 0 for side in self.sides)

    def shared(self, start: Point, stop: Point) -> Shared | None:
        """What the segment between two points shares with the polygon, None where that is nothing.

        The segment is cut by one side after the other (Cyrus and Beck, 1978)."""
        places = [(side, side.side(start), side.side(stop)) for side in self.sides]
        if any(from_start < 0 and from_stop < 0 for _, from_start, from_stop in places):
            return None
        first, last, along = Fraction(0), Fraction(1), None
        for side, from_start, from_stop in places:
            if from_start == 0 and from_stop == 0:
                along = side
            elif from_start < 0 or from_stop < 0:
                crossing = Fraction(from_start * stop.weight, from_start * stop.weight - from_stop * start.weight)
                if from_start < 0:
                    first = max(first, crossing)
                else:
                    last = min(last, crossing)
        return Shared(first, last, along) if first <= last else None


def piece_of(corners: Sequence[Point]) -> Piece:
    """The piece with these corners, counterclockwise where they are three or more."""
    is_polygon = len(corners) > 2
    sides = tuple(line_through(a, b) for a, b in zip(corners, (*corners[1:], corners[0]))) if is_polygon else ()
    return Piece(tuple(corners), sides)
