"""Shapes as lists of constraints: points, segments and the convex pieces and edges of polygons."""
from collections.abc import Sequence
from dataclasses import dataclass, field

from dedale.importing.constraints import Constraint, Scale, half_planes, in_statements, point, segment
from dedale.importing.cutting import triangles_of
from dedale.importing.decimals import nearly
from dedale.importing.faults import Fault
from dedale.importing.joining import joined
from dedale.importing.mesh import Mesh, shorten
from dedale.importing.rings import RingFault, oriented_rings, twice_area
from dedale.importing.shapes import Kind, Position, Shape
from dedale.importing.sweep import Corner, Ring, turn


@dataclass(frozen=True, slots=True)
class Region:
    """A shape as constraints: those of each tuple, and those of each edge of its rings, where these are wanted."""

    tuples: Sequence[Sequence[Constraint]]
    edges: Sequence[Sequence[Constraint]] = field(default_factory=tuple)

    def fits(self, scale: Scale) -> bool:
        """Whether the program takes all of it."""
        return all(scale.fits(one) for rows in (self.tuples, self.edges) for row in rows for one in row)


class TooLong(Fault):
    """A number of a shape would be too long; `digits` is how many digits would do, or None."""

    def __init__(self, reason: str, digits: int | None) -> None:
        super().__init__(reason)
        self.digits = digits


def region_of(shape: Shape, scale: Scale, has_edges: bool) -> Region:
    """The region of a shape, its coordinates rounded to the digits of `scale`, with edges or without.

    Raises `Fault` where a line has no length or a ring breaks a rule of `rings`, as the file has it or only after rounding,
    and `TooLong` where the program wouldn't take a number."""
    region = _region(shape, scale.digits, has_edges)
    if region.fits(scale):
        return region
    digits = _digits_that_do(shape, scale, has_edges)
    advice = "" if digits is None else f"; --digits {digits} would do"
    raise TooLong(f"a number of a constraint would be 2^63 or more with --digits {scale.digits}{advice}", digits)


def _digits_that_do(shape: Shape, scale: Scale, has_edges: bool) -> int | None:
    for digits in range(scale.digits - 1, -1, -1):
        try:
            if _region(shape, digits, has_edges).fits(Scale(digits, scale.as_decimals)):
                return digits
        except Fault:
            return None
    return None


def _region(shape: Shape, digits: int, has_edges: bool) -> Region:
    if shape.kind is Kind.POLYGON:
        rings = _rings(shape, digits)
        pieces = [part for piece in convex_pieces(rings) for part in in_statements(piece)]
        sides = [(a, b) for ring in rings for a, b in zip(ring, (*ring[1:], ring[0]))] if has_edges else []
        return Region([half_planes(piece) for piece in pieces], [segment(a, b) for a, b in sides])
    if shape.kind is Kind.POINT:
        return Region([point(position) for part in shape.scaled(digits) for curve in part for position in curve])
    lines = zip(shape.parts, shape.scaled(digits))
    return Region([row for part, rounded in lines for pair in zip(part, rounded) for row in _segments(*pair, digits)])


def convex_pieces(rings: Sequence[Ring]) -> list[list[Corner]]:
    """Convex pieces with disjoint insides, counterclockwise, whose union is what is on the left of the sides of the rings,
    which are those of `rings.oriented_rings`. That they are convex and add up to the area of the rings is asserted."""
    mesh = Mesh(triangles_of(rings))
    shorten(mesh)
    pieces = joined(mesh)
    assert sum(map(twice_area, pieces)) == sum(map(twice_area, rings)), "the pieces don't add up to the polygon"
    for piece in pieces:
        assert all(turn(a, b, c) > 0 for a, b, c in zip(piece, piece[1:] + piece[:1], piece[2:] + piece[:2])), "not convex"
    return pieces


def _rings(shape: Shape, digits: int) -> list[Ring]:
    """The rings after rounding, once they are right as they are in the file too."""
    exact = shape.digits()
    if exact > digits:
        _oriented(shape, exact, "")
        return _oriented(shape, digits, f" only after rounding to {digits} digits")
    return _oriented(shape, digits, "")


def _oriented(shape: Shape, digits: int, when: str) -> list[Ring]:
    try:
        return oriented_rings(shape.scaled(digits))
    except RingFault as fault:
        place = " ".join(nearly(value, digits) for value in fault.place)
        raise Fault(f"{fault}{when}, near {place}") from None


def _segments(line: Sequence[Position], rounded: Sequence[Corner], digits: int) -> list[list[Constraint]]:
    found = [segment(a, b) for a, b in zip(rounded, rounded[1:]) if a != b]
    if not found:
        when = f" only after rounding to {digits} digits" if len(set(line)) > 1 else ""
        raise Fault(f"a line has no length{when}, near {' '.join(nearly(value, digits) for value in rounded[0])}")
    return found
