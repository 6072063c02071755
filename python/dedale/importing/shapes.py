"""Geometries as files have them, before anything is rounded."""
from collections.abc import Callable, Iterator, Sequence
from dataclasses import dataclass
from decimal import Decimal
from enum import Enum

from dedale.importing.decimals import digits_behind_point, scaled
from dedale.importing.faults import Fault
from dedale.importing.sweep import Corner

Position = tuple[Decimal, Decimal]


HEIGHT = "a position has a height or a measure (a third coordinate), and two coordinates are wanted"


class Kind(Enum):
    """What the parts of a shape are. A part is a list of curves, and a curve a list of positions: that of a point has one
    position, a line one curve, a polygon its outer ring and its holes."""

    POINT = "point"
    LINE = "line"
    POLYGON = "polygon"


@dataclass(frozen=True, slots=True)
class Shape:
    """A geometry of one or several parts of one kind."""

    kind: Kind
    parts: Sequence[Sequence[Sequence[Position]]]

    def positions(self) -> Iterator[Position]:
        """All positions, one after the other."""
        return (position for part in self.parts for curve in part for position in curve)

    def digits(self) -> int:
        """How many digits behind the point the coordinates have at most."""
        return max((digits_behind_point(number) for position in self.positions() for number in position), default=0)

    def scaled(self, digits: int) -> list[list[list[Corner]]]:
        """The parts with coordinates times ten to the power of `digits`, rounded to whole numbers, halves to even ones. Equal
        coordinates become equal ones, so what two shapes share they share afterwards."""
        return [[[(scaled(x, digits), scaled(y, digits)) for x, y in curve] for curve in part] for part in self.parts]


def checked(shape: Shape) -> Shape:
    """The shape, where it has parts, lines have two positions, and rings are closed and have four. Else raises `Fault`."""
    if not shape.parts or not all(part and all(part) for part in shape.parts):
        raise Fault("the geometry is empty")
    test = {Kind.LINE: _check_line, Kind.POLYGON: _check_ring}.get(shape.kind)
    if test:
        _check_curves(shape, test)
    return shape


def _check_curves(shape: Shape, test: Callable[[Sequence[Position]], str]) -> None:
    for number, part in enumerate(shape.parts, 1):
        for hole, curve in enumerate(part):
            fault = test(curve)
            if fault:
                of_part = f" of part {number}" if len(shape.parts) > 1 else ""
                raise Fault((f"hole {hole}{of_part}" if hole else f"the {_NOUNS[shape.kind]}{of_part}") + f" {fault}")


_NOUNS = {Kind.LINE: "line", Kind.POLYGON: "ring"}


def _check_line(line: Sequence[Position]) -> str:
    return "has one position alone" if len(line) < 2 else ""


def _check_ring(ring: Sequence[Position]) -> str:
    if ring[0] != ring[-1]:
        return f"isn't closed: it begins at {_words(ring[0])} and ends at {_words(ring[-1])}"
    if len(ring) < 4:
        return f"has no area: it has {len(ring)} positions, and a closed ring has at least 4"
    return ""


def _words(position: Position) -> str:
    return f"{position[0]} {position[1]}"
