"""An index of boxes: which of many may meet a given one."""
from dataclasses import dataclass
from math import ceil, inf, nextafter, sqrt
from typing import Iterable, Iterator, NamedTuple, Sequence

from dedale.exporting.points import Point

_FANOUT = 8


class Box(NamedTuple):
    """All points between two bounds in each column; a little wider than what it is made for, never narrower."""

    low_x: float
    low_y: float
    high_x: float
    high_y: float

    def meets(self, other: "Box") -> bool:
        """Whether the boxes have a common point, be it on their border."""
        return (self.low_x <= other.high_x and other.low_x <= self.high_x
                and self.low_y <= other.high_y and other.low_y <= self.high_y)


def box_of(points: Iterable[Point]) -> Box:
    """A box with all of the points, of which there is at least one."""
    places = list(points)
    xs = [_quotient(p.x, p.weight) for p in places]
    ys = [_quotient(p.y, p.weight) for p in places]
    return Box(nextafter(min(xs), -inf), nextafter(min(ys), -inf), nextafter(max(xs), inf), nextafter(max(ys), inf))


def _quotient(number: int, weight: int) -> float:
    """The nearest double, or an infinite one past their range."""
    try:
        return number / weight
    except OverflowError:
        return inf if number > 0 else -inf


@dataclass(frozen=True)
class _Node:
    box: Box
    parts: tuple["_Node", ...]
    number: int


class BoxIndex:
    """Numbered boxes in an R-tree, packed by sorting and tiling (Leutenegger, Lopez and Edgington, 1997)."""

    def __init__(self, boxes: Sequence[Box]) -> None:
        nodes = [_Node(box, (), number) for number, box in enumerate(boxes)]
        while len(nodes) > _FANOUT:
            nodes = [_parent(tile) for tile in _tiles(nodes)]
        self._root = _parent(nodes) if nodes else None

    def meeting(self, box: Box) -> Iterator[int]:
        """The numbers of the boxes that meet the given one."""
        waiting = [self._root] if self._root is not None else []
        while waiting:
            node = waiting.pop()
            if not node.box.meets(box):
                continue
            if node.parts:
                waiting.extend(node.parts)
            else:
                yield node.number


def _parent(nodes: Sequence[_Node]) -> _Node:
    low_xs, low_ys, high_xs, high_ys = zip(*(node.box for node in nodes))
    return _Node(Box(min(low_xs), min(low_ys), max(high_xs), max(high_ys)), tuple(nodes), -1)


def _tiles(nodes: list[_Node]) -> Iterator[list[_Node]]:
    """The nodes in groups of near ones: columns of about as many groups as there are columns."""
    columns = ceil(sqrt(ceil(len(nodes) / _FANOUT)))
    by_x = sorted(nodes, key=lambda node: node.box.low_x + node.box.high_x)
    for column in _runs(by_x, ceil(len(nodes) / columns)):
        yield from _runs(sorted(column, key=lambda node: node.box.low_y + node.box.high_y), _FANOUT)


def _runs(nodes: list[_Node], length: int) -> Iterator[list[_Node]]:
    return (nodes[start:start + length] for start in range(0, len(nodes), length))
