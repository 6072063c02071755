"""The closed convex piece of the plane that a tuple is in two of its columns."""
from typing import Sequence

from dedale.exporting.half_planes import corners, half_planes, is_endless
from dedale.exporting.pieces import Piece, piece_of
from dedale.exporting.points import Point, point_at
from dedale.exporting.problems import Unwritable
from dedale.tuples import GeneralizedTuple


def piece_in(one: GeneralizedTuple, x: str, y: str) -> Piece:
    """The closure of the tuple's projection to two rational columns.
    Raises `Unwritable` where the tuple holds nowhere, or where this is unbounded."""
    found = _corners(one, x, y)
    if not found:
        raise Unwritable("it holds nowhere")
    return piece_of(found)


def _corners(one: GeneralizedTuple, x: str, y: str) -> Sequence[Point]:
    """The corners of the projection's closure, counterclockwise: none where the tuple holds nowhere. Raises `Unwritable` where
    it is unbounded."""
    planes = half_planes(one.rows, x, y)
    if all({name for name, _ in row.terms} <= {x, y} and row.terms for row in one.rows) and not is_endless(planes):
        return corners(planes)
    spans = (one.span(x), one.span(y))
    if any(span is not None and (span.low is None or span.high is None) for span in spans):
        raise Unwritable(f"it has no bound in {x} and {y}")
    return [point_at(*corner) for corner in one.corners(x, y)]
