"""Pieces are joined to polygons with holes, lines and points: beside Shapely's union of the same pieces."""
import time
from fractions import Fraction
from itertools import permutations

import pytest
from hypothesis import given

from dedale.exporting.pieces import Piece
from dedale.exporting.points import Point, turn
from dedale.exporting.shapes import Shape, union
from dedale.exporting.wkt import wkt
from tests.exporting.planar import (
    at, box, boxes, flat_pieces, polygon, segment, shapely_of, shapely_union, single, triangles
)


@given(boxes)
def test_boxes(pieces: list[Piece]) -> None:
    shape = union(pieces)
    expected = shapely_union(pieces)
    found = shapely_of(shape)
    assert found.is_valid
    assert found.equals(expected)
    assert float(shape.area()) == expected.area
    assert _ring_counts(shape) == sorted(len(one.interiors) for one in getattr(expected, "geoms", [expected]))


@given(triangles)
def test_triangles(pieces: list[Piece]) -> None:
    shape = union(pieces)
    expected = shapely_union(pieces)
    assert float(shape.area()) == pytest.approx(expected.area, rel=1e-9)
    found = shapely_of(shape)
    # crossings are rounded to doubles, so that rings that touch may cross a little
    assert not found.is_valid or found.symmetric_difference(expected).area < 1e-9


@given(triangles)
def test_rings_have_corners_alone_and_none_twice(pieces: list[Piece]) -> None:
    for one in union(pieces).polygons:
        for ring in (one.shell, *one.holes):
            assert len(set(ring)) == len(ring) > 2
            assert all(turn(a, b, c) for a, b, c in zip(ring[-1:] + ring, ring, ring[1:] + ring))


@given(boxes, flat_pieces)
def test_segments_and_points_beside_polygons(polygons: list[Piece], flat: list[Piece]) -> None:
    shape = union(polygons + flat)
    expected = shapely_union(polygons + flat)
    assert shapely_of(shape).symmetric_difference(expected).buffer(0).area < 1e-9
    assert _length(shape) == pytest.approx(_length_outside(polygons, flat), abs=1e-9)
    assert all(expected.distance(shapely_of(Shape((), (), (point,)))) < 1e-9 for point in shape.points)


@given(flat_pieces)
def test_points_are_told_where_no_segment_is(flat: list[Piece]) -> None:
    lines = [piece for piece in flat if len(piece.corners) == 2]
    alone = {piece.corners[0] for piece in flat if len(piece.corners) == 1 and not _is_on_one(piece.corners[0], lines)}
    assert set(union(flat).points) == alone


@given(triangles)
def test_the_order_of_pieces_does_not_matter(pieces: list[Piece]) -> None:
    assert union(pieces) == union(pieces[::-1])


def test_a_hole() -> None:
    frame = [box(0, 0, 3, 1), box(2, 1, 1, 2), box(0, 2, 2, 1), box(0, 1, 1, 1)]
    expected = "POLYGON ((0 0, 3 0, 3 3, 0 3, 0 0), (1 1, 1 2, 2 2, 2 1, 1 1))"
    assert {wkt(union(order), 1) for order in permutations(frame)} == {expected}


def test_polygons_that_touch_in_a_corner_are_two() -> None:
    shape = union([box(0, 0, 1, 1), box(1, 1, 1, 1)])
    assert wkt(shape, 1) == "MULTIPOLYGON (((0 0, 1 0, 1 1, 0 1, 0 0)), ((1 1, 2 1, 2 2, 1 2, 1 1)))"


def test_a_hole_that_touches_its_shell_is_a_ring_of_its_own() -> None:
    pieces = [polygon((0, 0), (6, 0), (3, 1)), polygon((6, 0), (6, 6), (3, 5), (3, 1)), polygon((6, 6), (0, 6), (3, 5))]
    shape = union([*pieces, polygon((0, 0), (3, 1), (0, 3)), polygon((0, 3), (3, 5), (0, 6))])
    (one,) = shape.polygons
    assert one.shell == (at(0, 0), at(6, 0), at(6, 6), at(0, 6))
    assert one.holes == ((at(0, 3), at(3, 5), at(3, 1)),)
    assert shapely_of(shape).is_valid


def test_an_edge_that_several_pieces_share_in_parts() -> None:
    pieces = [box(0, 0, 6, 1), box(0, 1, 2, 1), box(2, 1, 3, 1), box(5, 1, 1, 1)]
    assert wkt(union(pieces), 1) == "POLYGON ((0 0, 6 0, 6 2, 0 2, 0 0))"


def test_pieces_within_others_leave_nothing() -> None:
    pieces = [box(0, 0, 9, 9), box(0, 0, 9, 9), box(1, 1, 2, 2), box(0, 3, 4, 1), segment(1, 1, 9, 9), single(5, 0)]
    assert wkt(union(pieces), 1) == "POLYGON ((0 0, 9 0, 9 9, 0 9, 0 0))"


def test_crossings_are_exact() -> None:
    shape = union([polygon((0, 0), (3, 1), (0, 1)), polygon((0, 0), (1, 0), (1, 2))])
    assert at(1, Fraction(1, 3)) in shape.polygons[0].shell


def test_segments_go_on_in_each_other() -> None:
    pieces = [segment(4, 0, 2, 0), segment(0, 0, 3, 0), segment(4, 0, 4, 4), segment(9, 9, 8, 8), single(1, 0), single(7, 7)]
    expected = "GEOMETRYCOLLECTION (MULTILINESTRING ((0 0, 4 0, 4 4), (8 8, 9 9)), POINT (7 7))"
    assert wkt(union(pieces), 1) == expected


def test_a_ring_of_segments_is_one_line() -> None:
    pieces = [segment(0, 0, 4, 0), segment(4, 0, 4, 4), segment(4, 4, 0, 0)]
    assert wkt(union(pieces), 1) == "LINESTRING (0 0, 4 0, 4 4, 0 0)"


def test_three_segments_that_meet_are_three_lines() -> None:
    shape = union([segment(0, 0, 2, 2), segment(2, 2, 4, 0), segment(2, 2, 2, 5)])
    assert len(shape.lines) == 3


def test_a_segment_is_cut_where_polygons_are() -> None:
    pieces = [segment(0, 1, 9, 1), box(2, 0, 2, 2), box(6, 1, 1, 1)]
    assert wkt(union(pieces), 1).endswith("MULTILINESTRING ((0 1, 2 1), (4 1, 6 1), (7 1, 9 1)))")


def test_corners_with_several_ways_on() -> None:
    """Boxes like the fields of a chessboard: each corner within has four ways, and no two fields are connected."""
    board = [box(x, y, 1, 1) for x in range(6) for y in range(6) if (x + y) % 2]
    shape = union(board)
    assert len(shape.polygons) == len(board)
    assert not any(one.holes for one in shape.polygons)


def test_no_pieces() -> None:
    assert union([]) == Shape((), (), ())


def _ring_counts(shape: Shape) -> list[int]:
    return sorted(len(one.holes) for one in shape.polygons)


def _length(shape: Shape) -> float:
    lines = Shape((), shape.lines, ())
    return float(shapely_of(lines).length) if shape.lines else 0.0


def _length_outside(polygons: list[Piece], flat: list[Piece]) -> float:
    lines = [piece for piece in flat if len(piece.corners) == 2]
    return float(shapely_union(lines).difference(shapely_union(polygons)).length)


def _is_on_one(point: Point, segments: list[Piece]) -> bool:
    return any(turn(a, b, point) == 0 and _is_within(point, a, b) for a, b in (piece.corners for piece in segments))


def _is_within(point: Point, start: Point, stop: Point) -> bool:
    return all(min(a, b) <= p <= max(a, b) for p, a, b in zip(point.position(), start.position(), stop.position()))


def test_thousands_of_pieces_take_seconds() -> None:
    """Bricks, whose edges meet in the middle of others, and as many boxes that overlap."""
    bricks = [box(10 * column + row % 2 * 5, 10 * row, 10, 10) for row in range(50) for column in range(50)]
    scattered = [box(1000 + 37 * number % 1009, 53 * number % 2003, 20, 30) for number in range(2500)]
    start = time.process_time()
    shape = union(bricks + scattered)
    assert time.process_time() - start < 10
    assert shape.area() == pytest.approx(shapely_union(bricks + scattered).area)
