"""Unions are what the program says they are: their borders and their areas."""
from fractions import Fraction
from typing import Iterator

from hypothesis import given, settings

from dedale.client import Dedale
from dedale.exporting.pieces import Piece
from dedale.exporting.points import Point, doubled_area, line_through
from dedale.exporting.regions import piece_in
from dedale.exporting.rings import Polygon
from dedale.exporting.shapes import union
from tests.exporting.planar import boxes, triangles

BORDER = "closure(A)(x, y) and not interior(A)(x, y)"


@settings(max_examples=25)
@given(boxes)
def test_boxes(program: str, pieces: list[Piece]) -> None:
    _check(program, pieces)


@settings(max_examples=25)
@given(triangles)
def test_triangles(program: str, pieces: list[Piece]) -> None:
    _check(program, pieces)


def _check(program: str, pieces: list[Piece]) -> None:
    """The border of the union is exactly the edges of its rings, and its area is the sum of the areas of the disjoint pieces
    into which the program cuts it, where it is asked for the complement of its complement."""
    shape = union(pieces)
    edges = [edge for polygon in shape.polygons for edge in _edges(polygon)]
    with Dedale(program) as db:
        db.run("relation A(x, y); relation Edge(x, y); view Out(x, y) := not A(x, y);")
        db.run("".join(f"insert A {{ {_inside(piece)} }};" for piece in pieces))
        db.run("".join(f"insert Edge {{ {_on(*edge)} }};" for edge in edges))
        assert db.ask(f"forall x forall y ({BORDER} implies Edge(x, y))")
        assert db.ask(f"forall x forall y (Edge(x, y) implies {BORDER})")
        disjoint = [piece_in(one, "x", "y") for one in db.query("(x, y)", "not Out(x, y)").tuples]
    assert shape.area() == sum((_area(piece) for piece in disjoint), Fraction(0))


def _edges(polygon: Polygon) -> Iterator[tuple[Point, Point]]:
    return (edge for ring in (polygon.shell, *polygon.holes) for edge in zip(ring, ring[1:] + ring[:1]))


def _inside(piece: Piece) -> str:
    rows = [f"{side.x_part}*x + {side.y_part}*y >= {-side.constant}" for side in piece.sides]
    return ", ".join(rows).replace("+ -", "- ")


def _on(start: Point, stop: Point) -> str:
    """The constraints of the segment between two points."""
    line = line_through(start, stop)
    rows = [f"{line.x_part}*x + {line.y_part}*y = {-line.constant}"]
    for column, places in (("x", sorted((Fraction(p.x, p.weight) for p in (start, stop)))),
                           ("y", sorted((Fraction(p.y, p.weight) for p in (start, stop))))):
        low, high = places
        rows += [f"{low.denominator}*{column} >= {low.numerator}", f"{high.denominator}*{column} <= {high.numerator}"]
    return ", ".join(rows).replace("+ -", "- ")


def _area(piece: Piece) -> Fraction:
    return doubled_area(list(piece.corners)) / 2 if len(piece.corners) > 2 else Fraction(0)
