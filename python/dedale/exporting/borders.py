"""The border of a union of convex polygons, which may touch and overlap, as stretches of their edges.

A part of an edge is on the border of the union where no other polygon covers its outer side. Edges that two polygons share
from end to end are found by a dictionary; all others are compared with the polygons near them."""
from bisect import bisect_left, bisect_right
from fractions import Fraction
from itertools import pairwise
from typing import Iterable, Iterator, NamedTuple, Sequence

from dedale.exporting.boxes import BoxIndex, box_of
from dedale.exporting.pieces import Piece
from dedale.exporting.points import Line, Point, line_through, point_between

Span = tuple[Fraction, Fraction]


class Stretch(NamedTuple):
    """A part of the border with the union to its left.

    Stretches meet at their ends alone. `part` is the same number exactly for those that go round one connected interior."""

    start: Point
    stop: Point
    part: int


class _Edge(NamedTuple):
    start: Point
    stop: Point
    owner: int


class _Parts:
    """Which numbered polygons have connected interiors: sets that are united step by step (a disjoint-set forest)."""

    def __init__(self, count: int) -> None:
        self._above = list(range(count))

    def part(self, number: int) -> int:
        """The number that stands for all that are united with the given one."""
        while self._above[number] != number:
            self._above[number] = self._above[self._above[number]]
            number = self._above[number]
        return number

    def unite(self, one: int, other: int) -> None:
        """From now on both belong together."""
        self._above[self.part(one)] = self.part(other)


def border(polygons: Sequence[Piece]) -> list[Stretch]:
    """The border of the union of the polygons: closed chains of stretches, also where the polygons overlap."""
    parts = _Parts(len(polygons))
    index = BoxIndex([box_of(polygon.corners) for polygon in polygons])
    found = []
    for edge in _unmatched_edges(polygons, parts):
        for first, last in _open_spans(edge, polygons, index, parts):
            found.append(_Edge(*_ends(edge, first, last), edge.owner))
    return [Stretch(edge.start, edge.stop, parts.part(edge.owner)) for edge in found]


def _unmatched_edges(polygons: Sequence[Piece], parts: _Parts) -> list[_Edge]:
    """Each edge once, but for those that another polygon has the other way round."""
    owners: dict[tuple[Point, Point], int] = {}
    for number, polygon in enumerate(polygons):
        for edge in polygon.edges():
            parts.unite(number, owners.setdefault(edge, number))
    unmatched = []
    for (start, stop), owner in owners.items():
        opposite = owners.get((stop, start))
        if opposite is None:
            unmatched.append(_Edge(start, stop, owner))
        else:
            parts.unite(owner, opposite)
    return unmatched


def _open_spans(edge: _Edge, polygons: Sequence[Piece], index: BoxIndex, parts: _Parts) -> list[Span]:
    """The parts of the edge that are on the border of the union, cut where other polygons touch them."""
    covered: list[Span] = []
    cuts: list[Fraction] = []
    line = line_through(edge.start, edge.stop)
    for other in index.meeting(box_of((edge.start, edge.stop))):
        shared = polygons[other].shared(edge.start, edge.stop) if other != edge.owner else None
        if shared is None:
            continue
        cuts += (shared.first, shared.last)
        if shared.first < shared.last:
            parts.unite(edge.owner, other)
            if _covers(shared.along, line, other, edge.owner):
                if shared.last - shared.first == 1:
                    return []
                covered.append((shared.first, shared.last))
    return list(cut_at(uncovered(covered), cuts))


def _covers(along: Line | None, line: Line, other: int, owner: int) -> bool:
    """Whether a polygon that shares a stretch with an edge takes it off the border: the stretch is within the polygon, or
    the polygon is on its outer side, or it has the stretch as a part of its own edge and comes first."""
    return along is None or not along.runs_with(line) or other < owner


def uncovered(covered: Iterable[Span]) -> list[Span]:
    """The spans of 0 to 1 that are in none of the covered ones, in order."""
    left, reach = [], Fraction(0)
    for first, last in sorted(covered):
        if first > reach:
            left.append((reach, first))
        reach = max(reach, last)
    if reach < 1:
        left.append((reach, Fraction(1)))
    return left


def cut_at(spans: Iterable[Span], cuts: Iterable[Fraction]) -> Iterator[Span]:
    """The spans, cut at all of the places that are within them."""
    left = list(spans)
    places = sorted(set(cuts)) if left else []
    for first, last in left:
        inner = places[bisect_right(places, first):bisect_left(places, last)]
        yield from pairwise((first, *inner, last))


def _ends(edge: _Edge, first: Fraction, last: Fraction) -> tuple[Point, Point]:
    return point_between(edge.start, edge.stop, first), point_between(edge.start, edge.stop, last)
