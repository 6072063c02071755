"""Polygons cut into convex pieces."""
from collections.abc import Sequence
from itertools import combinations

import pytest
from hypothesis import example, given, settings

from dedale.importing.cutting import triangles_of
from dedale.importing.mesh import Mesh, length, shorten
from dedale.importing.regions import convex_pieces
from dedale.importing.rings import oriented_rings, twice_area
from dedale.importing.sweep import Corner, turn
from tests.importing.polygons import Polygon, closed, polygons, shapely_of, square, wkt_of
from tests.importing.running import imported, truths

TOUCHING = [[square(0, 0, 10), closed([(0, 0), (4, 2), (4, 4), (2, 4)]), closed([(4, 4), (10, 5), (6, 9)])]]
ISLAND = [[square(0, 0, 10), square(2, 2, 6)], [square(3, 3, 4)], [square(10, 10, 4)]]
LEVEL = [[square(0, 0, 12), *(square(x, y, 2) for x in (1, 5, 9) for y in (1, 5, 9))]]


def are_apart(first: Sequence[Corner], second: Sequence[Corner]) -> bool:
    """Whether the insides of two convex pieces are disjoint: exactly where a side of one has the other on its right."""
    return any(
        all(turn(a, b, corner) <= 0 for corner in other)
        for one, other in ((first, second), (second, first))
        for a, b in zip(one, (*one[1:], one[0]))
    )


@given(polygons())
@example(TOUCHING)
@example(ISLAND)
@example(LEVEL)
def test_pieces_are_convex_and_disjoint_and_add_up(shape: list[Polygon]) -> None:
    rings = oriented_rings(shape)
    pieces = convex_pieces(rings)
    corners = {corner for ring in rings for corner in ring}
    for piece in pieces:
        assert len(piece) > 2 and corners.issuperset(piece)
        assert all(turn(a, b, c) > 0 for a, b, c in zip(piece, piece[1:] + piece[:1], piece[2:] + piece[:2]))
    assert all(are_apart(first, second) for first, second in combinations(pieces, 2))
    assert sum(map(twice_area, pieces)) == sum(map(twice_area, rings))
    assert sum(map(twice_area, rings)) / 2 == pytest.approx(shapely_of(shape).area, rel=1e-9)


@given(polygons())
@example(TOUCHING)
def test_shorter_sides_cover_the_same(shape: list[Polygon]) -> None:
    rings = oriented_rings(shape)
    triangles = triangles_of(rings)
    assert all(turn(*triangle) > 0 for triangle in triangles)
    mesh = Mesh(triangles)
    before = sum(length(mesh.start[side], mesh.end(side)) for side in range(len(mesh.start)))
    shorten(mesh)
    after = [tuple(mesh.start[one] for one in (side, mesh.next[side], mesh.previous[side])) for side in range(len(mesh.start))]
    assert sum(length(mesh.start[side], mesh.end(side)) for side in range(len(mesh.start))) <= before
    assert all(turn(*corners) > 0 for corners in after)
    assert sum(turn(*corners) for corners in after) == 3 * sum(map(twice_area, rings))


@given(polygons())
@example(TOUCHING)
@example(ISLAND)
@example(LEVEL)
@settings(max_examples=60)
def test_the_program_confirms_what_is_imported(program: str, shape: list[Polygon]) -> None:
    outcome = imported(f"n;w\na;{wkt_of(shape)}\n", "Land", "n", "w", "--digits", "0", "--edges", "Edge", "--check")
    assert (outcome.status, outcome.errors) == (0, "")
    assert truths(program, outcome.script) == ["yes", "yes"]


def test_the_program_denies_where_a_piece_or_an_edge_is_lost(program: str) -> None:
    outcome = imported(f"n;w\na;{wkt_of(LEVEL)}\n", "Land", "n", "w", "--digits", "0", "--edges", "Edge", "--check")
    piece = next(line for line in outcome.inserts() if line.startswith("insert Land"))
    edge = next(line for line in outcome.inserts() if line.startswith("insert Edge"))
    assert truths(program, outcome.script.replace(piece + "\n", "")) == ["no", "no"]
    assert truths(program, outcome.script.replace(edge + "\n", "")) == ["no", "yes"]
    assert truths(program, outcome.script) == ["yes", "yes"]


def test_long_pieces_are_cut_into_statements_that_are_read(program: str) -> None:
    side = [(number, number * number) for number in range(1500)]
    corners = ", ".join(f"{x} {y}" for x, y in closed(side))
    outcome = imported(f"n;w\na;POLYGON (({corners}))\n", "Land", "n", "w", "--edges", "Edge", "--check", "--digits", "0")
    assert [len(line) < 65_000 for line in outcome.inserts()].count(False) == 0
    assert sum(line.startswith("insert Land") for line in outcome.inserts()) == 4
    assert truths(program, outcome.script.split("\nview")[0]) == []
