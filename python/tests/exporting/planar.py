"""Pieces to test with, and the same in Shapely, which computes in doubles."""
from fractions import Fraction
from typing import Any, Sequence

import shapely.geometry  # type: ignore[import]
import shapely.ops  # type: ignore[import]
import shapely.wkt  # type: ignore[import]
from hypothesis import strategies as st

from dedale.exporting.pieces import Piece, piece_of
from dedale.exporting.points import Point, point_at, turn
from dedale.exporting.shapes import Shape
from dedale.exporting.wkt import wkt


def at(x: int | Fraction, y: int | Fraction) -> Point:
    """The point with these coordinates."""
    return point_at(Fraction(x), Fraction(y))


def box(x: int, y: int, width: int, height: int) -> Piece:
    """A rectangle by its lower left corner and its size."""
    return polygon((x, y), (x + width, y), (x + width, y + height), (x, y + height))


def polygon(*corners: tuple[int, int]) -> Piece:
    """A convex polygon by its corners, in either direction."""
    points = [at(x, y) for x, y in corners]
    return piece_of(points if turn(*points[:3]) > 0 else points[::-1])


def segment(x: int, y: int, to_x: int, to_y: int) -> Piece:
    """A segment by its ends."""
    return piece_of((at(x, y), at(to_x, to_y)))


def single(x: int, y: int) -> Piece:
    """A point."""
    return piece_of((at(x, y),))


def shapely_of(shape: Shape) -> Any:
    """The shape, by way of its text."""
    return read_wkt(wkt(shape, 1))


def read_wkt(text: str) -> Any:
    """The geometry that the text spells."""
    return shapely.wkt.loads(text)


def shapely_union(pieces: Sequence[Piece]) -> Any:
    """The union of the pieces as Shapely makes it."""
    return shapely.ops.unary_union([_shapely_piece(piece) for piece in pieces])


def _shapely_piece(piece: Piece) -> Any:
    places = [tuple(map(float, corner.position())) for corner in piece.corners]
    kinds = (shapely.geometry.Point, shapely.geometry.LineString, shapely.geometry.Polygon)
    return kinds[min(len(places), 3) - 1](places[0] if len(places) == 1 else places)


_SMALL = st.integers(0, 6)
_SIZE = st.integers(1, 4)

boxes = st.lists(st.builds(box, _SMALL, _SMALL, _SIZE, _SIZE), min_size=1, max_size=12)
"""Rectangles on a small grid: they touch, overlap and are the same in all ways."""

_corners = st.tuples(_SMALL, _SMALL)
_turns = st.tuples(_corners, _corners, _corners).filter(lambda three: turn(*(at(x, y) for x, y in three)) != 0)
triangles = st.lists(_turns.map(lambda three: polygon(*three)), min_size=1, max_size=10)
"""Triangles on a small grid, whose sides cross anywhere."""

_segments = st.tuples(_SMALL, _SMALL, _SMALL, _SMALL).filter(lambda four: four[:2] != four[2:])
flat_pieces = st.lists(_segments.map(lambda four: segment(*four)) | st.builds(single, _SMALL, _SMALL), min_size=1, max_size=10)
"""Segments and points on a small grid."""
