"""Rings of stretches, and the polygons with holes that they go round."""
from collections import defaultdict
from dataclasses import dataclass
from fractions import Fraction
from functools import cmp_to_key
from typing import Iterable, Iterator, Mapping

from dedale.exporting.borders import Stretch
from dedale.exporting.points import Point, doubled_area, turn

Ring = tuple[Point, ...]
Direction = tuple[int, int]


@dataclass(frozen=True)
class Polygon:
    """A polygon with a connected interior. Rings aren't closed: their last corner isn't the first one again.

    The shell runs counterclockwise and the holes clockwise; no corner is in the middle of a straight line, no ring has a
    point twice, and two rings have at most single points in common."""

    shell: Ring
    holes: tuple[Ring, ...]

    def area(self) -> Fraction:
        """The area without the holes."""
        return sum((doubled_area(list(ring)) for ring in (self.shell, *self.holes)), Fraction(0)) / 2


def polygons_within(border: Iterable[Stretch]) -> list[Polygon]:
    """The polygons that the stretches go round, which have them to their left, ordered by the first corners of their shells."""
    shells: dict[int, Ring] = {}
    holes: defaultdict[int, list[Ring]] = defaultdict(list)
    for walk in _walks(list(border)):
        for ring in _simple_rings([stretch.start for stretch in walk]):
            part = walk[0].part
            if doubled_area(ring) > 0:
                shells[part] = _tidy(ring)
            else:
                holes[part].append(_tidy(ring))
    found = [Polygon(shell, tuple(sorted(holes[part], key=_start))) for part, shell in shells.items()]
    return sorted(found, key=lambda polygon: _start(polygon.shell))


def _walks(border: list[Stretch]) -> Iterator[list[Stretch]]:
    """The stretches as closed walks, each round one connected part of the interior."""
    leaving: defaultdict[Point, list[Stretch]] = defaultdict(list)
    for stretch in border:
        leaving[stretch.start].append(stretch)
    walked: set[Stretch] = set()
    for first in border:
        if first in walked:
            continue
        walk = [first]
        while (behind := _behind(walk[-1], leaving)) != first:
            walk.append(behind)
        walked.update(walk)
        yield walk


def _behind(stretch: Stretch, leaving: Mapping[Point, list[Stretch]]) -> Stretch:
    """The stretch that goes on round the same part of the interior: where several leave, the one furthest to the left."""
    ways = leaving[stretch.stop]
    if len(ways) == 1:
        return ways[0]
    back = _direction(stretch.stop, stretch.start)

    def by_turn(one: Stretch, other: Stretch) -> int:
        return _clockwise_order(back, _direction(one.start, one.stop), _direction(other.start, other.stop))

    return min(ways, key=cmp_to_key(by_turn))


def _direction(start: Point, stop: Point) -> Direction:
    return (stop.x * start.weight - start.x * stop.weight, stop.y * start.weight - start.y * stop.weight)


def _cross(one: Direction, other: Direction) -> int:
    return one[0] * other[1] - one[1] * other[0]


def _clockwise_order(back: Direction, one: Direction, other: Direction) -> int:
    """Below 0 where the first direction comes before the second one, clockwise from the way back; none is the way back."""
    one_is_late, other_is_late = _cross(back, one) > 0, _cross(back, other) > 0
    if one_is_late != other_is_late:
        return 1 if one_is_late else -1
    return _cross(one, other)


def _simple_rings(walk: list[Point]) -> Iterator[list[Point]]:
    """A closed walk cut where it comes to a point again, so that no ring has a point twice."""
    trail: list[Point] = []
    places: dict[Point, int] = {}
    for point in walk:
        place = places.get(point)
        if place is None:
            places[point] = len(trail)
            trail.append(point)
            continue
        yield trail[place:]
        for passed in trail[place + 1:]:
            del places[passed]
        del trail[place + 1:]
    yield trail


def _tidy(ring: list[Point]) -> Ring:
    """The ring without corners in the middle of straight lines, from its least corner on."""
    corners = [b for a, b, c in zip(ring[-1:] + ring[:-1], ring, ring[1:] + ring[:1]) if turn(a, b, c) != 0]
    least = min(range(len(corners)), key=lambda place: corners[place].position())
    return (*corners[least:], *corners[:least])


def _start(ring: Ring) -> tuple[Fraction, Fraction]:
    return ring[0].position()
