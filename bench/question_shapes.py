"""Convex polygons with whole corners, maps of them, and their texts for the programs that bench/questions measures."""

import math
import random
from collections.abc import Iterable, Iterator
from typing import NamedTuple

from question_texts import whole

Point = tuple[int, int]
Side = tuple[int, int, int]                   # (a, b, c) is a*x + b*y <= c
CELL = 100                                    # the side of a cell of a map before its corners are moved
MOVED = 20                                    # how far a corner is moved at most, so that cells stay convex


class Shape(NamedTuple):
    """A polygon by its corners, counterclockwise."""

    name: str
    corners: list[Point]


def sides(shape: Shape) -> Iterator[Side]:
    """The half planes whose common part is the polygon."""
    for (x, y), (u, v) in zip(shape.corners, shape.corners[1:] + shape.corners[:1]):
        a, b = v - y, x - u
        common = math.gcd(a, b)
        a, b = a // common, b // common
        yield a, b, a * x + b * y


# ---- Shapes --------------------------------------------------------------------------------------------------------

def rectangle(name: str, left: int, right: int, low: int, high: int) -> Shape:
    return Shape(name, [(left, low), (right, low), (right, high), (left, high)])


def gon(name: str, corners: int, radius: int, middle: Point = (0, 0), turn: float = 0.0) -> Shape:
    """A nearly regular polygon; its radius is so large that rounding leaves it convex."""
    angles = (turn + 2 * math.pi * k / corners for k in range(corners))
    return Shape(name, [(middle[0] + round(radius * math.cos(angle)), middle[1] + round(radius * math.sin(angle))) for angle in angles])


def hexagons(n: int, size: int, least: int, greatest: int) -> list[Shape]:
    """n hexagons anywhere in a square, with a radius between two numbers."""
    chance = random.Random(n)
    return [gon(f'z{k}', 6, chance.randrange(least, greatest), (chance.randrange(size), chance.randrange(size)), chance.random())
            for k in range(n)]


def rows_and_columns(n: int) -> tuple[int, int]:
    """The grid of n cells that is most like a square."""
    rows = max(k for k in range(1, math.isqrt(n) + 1) if n % k == 0)
    return rows, n // rows


def cells(n: int, seed: int, shift: int = 0, together: int = 1) -> list[Shape]:
    """A map of n irregular cells that cover a rectangle, and share sides alone. So many of them, in a row, have one name."""
    chance = random.Random(seed)
    rows, columns = rows_and_columns(n)

    def moved(at: int, last: int) -> int:
        return CELL * at + shift + (chance.randint(-MOVED, MOVED) if 0 < at < last else 0)

    corners = [[(moved(i, columns), moved(j, rows)) for i in range(columns + 1)] for j in range(rows + 1)]
    return [Shape(f'r{(j * columns + i) // together}', [corners[j][i], corners[j][i + 1], corners[j + 1][i + 1], corners[j + 1][i]])
            for j in range(rows) for i in range(columns)]


def district(n: int) -> Shape:
    """The rectangle that a map of n cells covers."""
    rows, columns = rows_and_columns(n)
    return rectangle('d', 0, CELL * columns, 0, CELL * rows)


# ---- Texts ---------------------------------------------------------------------------------------------------------

def written(side: Side) -> str:
    """A side as Dedale reads it."""
    a, b, c = side
    terms = (f'{coef}*{name}' for coef, name in ((a, 'x'), (b, 'y')) if coef)
    return f'{" + ".join(terms).replace("+ -", "- ")} <= {c}'


def statements(relation: str, shapes: Iterable[Shape], named: bool = True) -> Iterator[str]:
    """A relation of the shapes in Dedale, with their names or without."""
    yield f'relation {relation}({"n text, " if named else ""}x, y);'
    for shape in shapes:
        name = [f"n = '{shape.name}'"] if named else []
        yield f'insert {relation} {{ {", ".join(name + [written(side) for side in sides(shape)])} }};'


def by_sides(relation: str, shapes: list[Shape]) -> Iterator[str]:
    """The shapes for question_peers.cc."""
    yield f'regions {relation} {len(shapes)}'
    for shape in shapes:
        rows = ' '.join(f'{a} {b} {-c} <=' for a, b, c in sides(shape))
        yield f'{shape.name} {len(shape.corners)} {rows}'


def by_corners(relation: str, shapes: list[Shape]) -> Iterator[str]:
    """The shapes for question_unions.cc."""
    yield f'shapes {relation} {len(shapes)}'
    for shape in shapes:
        yield f'{shape.name} {len(shape.corners)} {" ".join(f"{x} {y}" for x, y in shape.corners)}'


def smt(shape: Shape) -> str:
    """The shape as z3 reads it, over x and y."""
    rows = (f'(<= (+ (* {whole(a)} x) (* {whole(b)} y)) {whole(c)})' for a, b, c in sides(shape))
    return f'(and {" ".join(rows)})'
