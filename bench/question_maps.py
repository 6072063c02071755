"""The questions of bench/questions about maps, as scripts of Dedale and as data of its other programs."""

import random

from question_shapes import (CELL, Point, Shape, by_corners, by_sides, cells, district, gon, hexagons, rectangle, rows_and_columns, smt,
                             statements)
from question_texts import Problem, Series, text

Maps = dict[str, list[Shape]]
IN_A_REGION = 10                              # cells of one name
IN_A_COUNTRY = 50
SIZE = 10000                                  # the side of a square of zones
WINDOW = 5 * CELL


def asked(maps: Maps, question: list[str], peer: str, without_names: str = '') -> Problem:
    """The question of Dedale, and in one line of the programs over polyhedra and over polygons."""
    load = (line for name, shapes in maps.items() for line in statements(name, shapes, name != without_names))
    return {'Dedale': text(load, question),
            'PPL': text((line for name, shapes in maps.items() for line in by_sides(name, shapes)), [peer]),
            'GEOS': text((line for name, shapes in maps.items() for line in by_corners(name, shapes)), [peer])}


def without(problem: Problem, program: str) -> Problem:
    return {name: part for name, part in problem.items() if name != program}


# ---- Many regions --------------------------------------------------------------------------------------------------

def overlay(n: int) -> Problem:
    """The common pieces of two maps of n cells."""
    return asked({'Land': cells(n, 1), 'Soil': cells(n, 2, CELL // 2)},
                 ['query (n text, m text, x, y) : Land(n, x, y) and Soil(m, x, y);'], 'overlay Land Soil')


def constant_in_an_atom(n: int) -> Problem:
    """The neighbours of a country among n pieces."""
    name = f'r{n // IN_A_COUNTRY // 2}'
    return asked({'Land': cells(n, n, together=IN_A_COUNTRY)},
                 [f"query (n text) : exists x exists y (Land('{name}', x, y) and Land(n, x, y));"], f'neighbours Land {name}')


def constant_beside_the_atom(n: int) -> Problem:
    """The same question, with the name beside."""
    name = f'r{n // IN_A_COUNTRY // 2}'
    beside = f"query (n text) : exists m text exists x exists y (m = '{name}' and Land(m, x, y) and Land(n, x, y));"
    problem = constant_in_an_atom(n)
    return {**problem, 'Dedale': problem['Dedale']._replace(question=beside + '\n')}


def interior_of_one(n: int) -> Problem:
    """The interior of one region of n/10."""
    name = f'r{n // IN_A_REGION // 2}'
    return asked({'Land': cells(n, n, together=IN_A_REGION)}, [f"query (x, y) : interior(Land)('{name}', x, y);"], f'interior Land {name}')


def borders(n: int) -> Problem:
    """The border of each of n/10 regions."""
    return asked({'Land': cells(n, n, together=IN_A_REGION)},
                 ['query (n text, x, y) : closure(Land)(n, x, y) and not interior(Land)(n, x, y);'], 'borders Land')


def parcels(n: int) -> list[Shape]:
    """n rectangles in a grid, with room between them."""
    chance = random.Random(n)
    _, columns = rows_and_columns(n)
    corners = [(CELL * (k % columns), CELL * (k // columns)) for k in range(n)]
    return [rectangle(f'p{k}', x, x + chance.randrange(60, 99), y, y + chance.randrange(60, 99)) for k, (x, y) in enumerate(corners)]


def window(n: int, repeated: bool = False) -> Problem:
    """What is in none of n parcels within a window in the middle of them."""
    rows, columns = rows_and_columns(n)
    left, low = CELL * columns // 2 + 30, CELL * rows // 2 + 30
    bounds = f'x >= {left} and x <= {left + WINDOW} and y >= {low} and y <= {low + WINDOW}'
    inside = f' and {bounds}' if repeated else ''
    return asked({'Parcel': parcels(n)}, [f'query (x, y) : {bounds} and not exists n text (Parcel(n, x, y){inside});'],
                 f'window Parcel {left} {left + WINDOW} {low} {low + WINDOW}')


def window_repeated(n: int) -> Problem:
    return window(n, repeated=True)


def nearest(n: int) -> Problem:
    """The nearest of n zones for each of n points, by the greater of the two distances."""
    chance = random.Random(n + 1)
    points: list[Point] = [(chance.randrange(SIZE), chance.randrange(SIZE)) for _ in range(n)]
    zones = hexagons(n, SIZE, 30, 90)
    near = 'u - x <= d and x - u <= d and v - y <= d and y - v <= d'
    view = f'view Far(p text, n text, d) := exists x exists y exists u exists v (Point(p, x, y) and Zone(n, u, v) and {near});'
    load = [*statements('Zone', zones), 'relation Point(p text, x, y);',
            *(f"insert Point {{ p = 'p{k}', x = {x}, y = {y} }};" for k, (x, y) in enumerate(points))]
    query = 'query (p text, n text) : exists d (Far(p, n, d) and not exists m text exists e (Far(p, m, e) and e < d));'
    data = [*by_sides('Zone', zones), f'points {n}', *(f'p{k} {x} {y}' for k, (x, y) in enumerate(points))]
    return {'Dedale': text(load, [view, query]), 'PPL': text(data, ['nearest Zone'])}


# ---- Slanted sides -------------------------------------------------------------------------------------------------

def sum_of_two(n: int) -> Problem:
    """All sums of a point of one polygon and one of another, which have n corners each."""
    maps = {'A': [gon('a', n, 4000)], 'B': [gon('b', n, 3000, turn=0.01)]}
    load = [*statements('A', maps['A'], False), *statements('B', maps['B'], False)]
    return {'Dedale': text(load, ['query (x, y) : exists u exists v (A(u, v) and B(x - u, y - v));']),
            'PPL': text([*by_sides('A', maps['A']), *by_sides('B', maps['B'])], ['sum A B'])}


def gaps(n: int) -> Problem:
    """What is in none of n hexagons within a district, of which they cover the most."""
    size = int(SIZE * (n / 1000) ** 0.5)
    return asked({'Zone': hexagons(n, size, 100, 300), 'District': [rectangle('d', 0, size, 0, size)]},
                 ['query (x, y) : District(x, y) and not exists n text (Zone(n, x, y));'], 'gaps District Zone', 'District')


def coverage(n: int, missing: bool = False) -> Problem:
    """Is each point of a district in one of n cells? Where one of them is missing, it isn't."""
    zones = cells(n, n)
    if missing:
        del zones[n // 2]
    random.Random(n).shuffle(zones)
    whole = district(n)
    problem = asked({'Zone': zones, 'District': [whole]},
                    ['ask forall x forall y (District(x, y) implies exists n text (Zone(n, x, y)));'], 'covers District Zone', 'District')
    load = ['(set-logic QF_LRA)', '(declare-const x Real)', '(declare-const y Real)', *(f'(assert (not {smt(zone)}))' for zone in zones)]
    return {**problem, 'z3': text(load, [f'(assert {smt(whole)})', '(check-sat)'], 'unsat')}


def coverage_with_a_gap(n: int) -> Problem:
    return coverage(n, missing=True)


SERIES: list[Series] = [
    Series('a constant in an atom', constant_in_an_atom, (1250, 2500, 5000)),
    Series('the constant beside the atom', constant_beside_the_atom, (1250, 2500, 5000)),
    Series('interior of one region of many', interior_of_one, (250, 500, 1000), counted=False),
    Series('borders of all regions', borders, (250, 500, 1000), counted=False),
    Series('in none of n parcels in a window', window, (25000, 50000, 100000), counted=False),
    Series('the same, the window repeated', window_repeated, (25000, 50000, 100000), counted=False),
    Series('nearest zone of each point', nearest, (30, 100, 300)),
    Series('sums of two polygons', sum_of_two, (16, 32, 64)),
    Series('overlay of two maps', overlay, (1250, 2500, 5000)),
    Series('gaps of slanted polygons', gaps, (750, 1500, 3000), counted=False),
    Series('coverage by slanted polygons', coverage, (750, 1500, 3000)),
    Series('coverage with one missing', coverage_with_a_gap, (750, 1500, 3000)),
]
