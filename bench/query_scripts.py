"""The problems that bench/queries measures: each as a script of Dedale, as data for polyhedra.cc, and as SMT-LIB for z3.

A row is a list of whole coefficients, one per variable, then a constant and a sign: ([1, 2], -4, '<=') is x + 2*y - 4 <= 0.
A conjunction is a list of rows, and a region of the plane is a conjunction over x and y."""

import random
from collections import namedtuple
from math import isqrt

# `script` is for Dedale, `data` for polyhedra.cc, `smt` for z3, or None where a program has no such question. `yes` is what z3 says of
# a question that is answered yes.
Problem = namedtuple('Problem', 'script data smt yes')
DISTANCE = 5
WAIT = 10
LOOK_UPS = 1000
MANY_LOOK_UPS = 20000


# ---- Texts of rows -------------------------------------------------------------------------------------------------

def dedale_row(row, names):
    coefs, constant, sign = row
    parts = [{1: name, -1: f'-{name}'}.get(coef, f'{coef}*{name}') for coef, name in zip(coefs, names) if coef]
    return f'{" + ".join(parts).replace("+ -", "- ")} {sign} {-constant}'


def dedale_tuple(rows, names, text=None):
    constraints = [] if text is None else [f"{text[0]} = '{text[1]}'"]
    return '{ ' + ', '.join(constraints + [dedale_row(row, names) for row in rows]) + ' }'


def smt_row(row, names):
    coefs, constant, sign = row
    parts = [f'(* {smt_number(coef)} {name})' for coef, name in zip(coefs, names) if coef]
    return f'({sign} (+ {" ".join(parts)} 0) {smt_number(-constant)})'


def smt_number(number):
    return str(number) if number >= 0 else f'(- {-number})'


def smt_all(rows, names):
    return f'(and {" ".join(smt_row(row, names) for row in rows)} true)'


def smt_any(conjunctions, names):
    return f'(or {" ".join(smt_all(rows, names) for rows in conjunctions)} false)'


def data_list(conjunctions):
    """The count of conjunctions, then each as its count of rows and its rows."""
    lines = [str(len(conjunctions))]
    for rows in conjunctions:
        lines.append(str(len(rows)))
        lines += [f'{" ".join(map(str, coefs))} {constant} {sign}' for coefs, constant, sign in rows]
    return '\n'.join(lines) + '\n'


# ---- Regions -------------------------------------------------------------------------------------------------------

def rectangle(left, right, low, high):
    return [([-1, 0], left, '<='), ([1, 0], -right, '<='), ([0, -1], low, '<='), ([0, 1], -high, '<=')]


def cut_rectangle(left, low, width, height):
    """A rectangle without its upper right corner."""
    corner = left + width + 3 * (low + height)
    return rectangle(left, left + width, low, low + height) + [([1, 3], width // 2 - corner, '<=')]


def cells(n):
    """n places of a square grid."""
    side = isqrt(n - 1) + 1
    return [(i, j) for j in range(side) for i in range(side)][:n]


# ---- Problems ------------------------------------------------------------------------------------------------------

def near_roads(n):
    """n regions and n/4 roads: the parts of regions within a distance of a road."""
    chance = random.Random(n)
    land = [cut_rectangle(100 * i, 100 * j, 100, 100) for i, j in cells(n)]
    side = 100 * (isqrt(n - 1) + 1)
    roads = []
    for k in range(max(n // 4, 1)):
        x, y = chance.randrange(side), chance.randrange(side)
        line = ([0, 1], -y, '=') if k % 2 else ([-1, 3], x - 3 * y, '=')
        roads.append([line, ([-1, 0], x, '<='), ([1, 0], -x - 300, '<=')])
    script = ['relation Land(n text, x, y);', 'relation Road(x, y);']
    script += [f'insert Land {dedale_tuple(rows, "xy", ("n", f"r{k}"))};' for k, rows in enumerate(land)]
    script += [f'insert Road {dedale_tuple(rows, "xy")};' for rows in roads]
    near = ' and '.join(f'{a} - {b} <= {DISTANCE}' for a, b in ('xu', 'ux', 'yv', 'vy'))
    script.append(f'query (n text, x, y) : exists u exists v (Land(n, x, y) and Road(u, v) and {near});')
    return Problem('\n'.join(script), f'near {DISTANCE}\n' + data_list(land) + data_list(roads), None, None)


def many_look_ups(n):
    return look_ups(n, MANY_LOOK_UPS)


def look_ups(n, questions=LOOK_UPS):
    """n zones, and many questions whether a point is in one of them."""
    chance = random.Random(n)
    side = 100 * (isqrt(n - 1) + 1)
    zones = [cut_rectangle(chance.randrange(side), chance.randrange(side), chance.randrange(40, 120), chance.randrange(40, 120))
             for _ in range(n)]
    points = [(chance.randrange(side), chance.randrange(side)) for _ in range(questions)]
    script = ['relation Zone(n text, x, y);']
    script += [f'insert Zone {dedale_tuple(rows, "xy", ("n", f"z{k}"))};' for k, rows in enumerate(zones)]
    script += [f'ask exists n text (Zone(n, {x}, {y}));' for x, y in points]
    data = f'look_ups {len(points)}\n' + data_list(zones) + '\n'.join(f'{x} {y}' for x, y in points) + '\n'
    smt = ['(set-logic QF_LRA)', f'(define-fun zone ((x Real) (y Real)) Bool {smt_any(zones, "xy")})']
    smt += [f'(push)(assert (zone {x} {y}))(check-sat)(pop)' for x, y in points]
    return Problem('\n'.join(script), data, '\n'.join(smt), 'sat')


def changes(n):
    """n trains: who can change to whom, with some minutes to wait."""
    chance = random.Random(n)
    trains = []
    for _ in range(n):
        start, minutes, back = chance.randrange(12 * 60), chance.choice((50, 100, 200)), chance.random() < 0.5
        way, first = (-100, 100) if back else (100, 0)      # a line of 100 km, from one end or the other
        line = ([-way, minutes], way * start - minutes * first, '=')
        trains.append([line, ([-1, 0], start, '<='), ([1, 0], -start - minutes, '<=')])
    script = ['relation Train(n text, t, p);']
    script += [f'insert Train {dedale_tuple(rows, "tp", ("n", f"t{k}"))};' for k, rows in enumerate(trains)]
    script.append('query (a text, b text) : a != b and exists s exists t exists p '
                  f'(Train(a, s, p) and Train(b, t, p) and s <= t and t <= s + {WAIT});')
    return Problem('\n'.join(script), f'changes {WAIT}\n' + data_list(trains), None, None)


def coverage(n, missing=False):
    """n zones that overlap and cover a district, or all of it but a part of one zone; is each of its points in a zone?"""
    rows = 1 << (n.bit_length() - 1) // 2
    columns = n // rows
    district = rectangle(0, 100 * columns, 0, 100 * rows)
    zones = [rectangle(100 * i - 10, 100 * i + 110, 100 * j - 10, 100 * j + 110) for j in range(rows) for i in range(columns)]
    if missing:
        zones[n // 2 + columns // 2] = rectangle(0, 1, 0, 1)
    random.Random(n).shuffle(zones)
    script = ['relation District(x, y);', 'relation Zone(n text, x, y);', f'insert District {dedale_tuple(district, "xy")};']
    script += [f'insert Zone {dedale_tuple(zone, "xy", ("n", f"z{k}"))};' for k, zone in enumerate(zones)]
    script.append('ask forall x forall y (District(x, y) implies exists n text (Zone(n, x, y)));')
    smt = ['(set-logic QF_LRA)', '(declare-const x Real)', '(declare-const y Real)', f'(assert {smt_all(district, "xy")})']
    smt += [f'(assert (not {smt_all(zone, "xy")}))' for zone in zones] + ['(check-sat)']
    return Problem('\n'.join(script), 'coverage\n' + data_list([district]) + data_list(zones), '\n'.join(smt), 'unsat')


def gap(n):
    return coverage(n, missing=True)


def one_text(n):
    """Two relations of n tuples each, with n texts: the pairs that have one text."""
    chance = random.Random(n)
    script = ['relation Price(item text, x);', 'relation Stock(item text, y);']
    data = 'one_text\n'
    for name, column in (('Price', 'x'), ('Stock', 'y')):
        items = [f'i{chance.randrange(n)}' for _ in range(n)]
        script += [f"insert {name} {{ item = '{item}', {column} = {k} }};" for k, item in enumerate(items)]
        data += f'{n}\n' + ''.join(f'{item} {k}\n' for k, item in enumerate(items))
    script.append('query (item text, x, y) : Price(item, x) and Stock(item, y);')
    return Problem('\n'.join(script), data, None, None)


def outside(boxes):
    """What is in none of the boxes."""
    script = ['relation Box(x, y);'] + [f'insert Box {dedale_tuple(rectangle(*box), "xy")};' for box in boxes]
    data = 'outside\n' + data_list([rectangle(*box) for box in boxes])
    return Problem('\n'.join(script + ['query (x, y) : not Box(x, y);']), data, None, None)


def outside_a_diagonal(n):
    return outside([(2 * k, 2 * k + 1, 2 * k, 2 * k + 1) for k in range(n)])


def outside_at_random(n):
    chance = random.Random(n)
    side = 100 * isqrt(n)
    corners = [(chance.randrange(side), chance.randrange(side)) for _ in range(n)]
    return outside([(x, x + chance.randrange(20, 90), y, y + chance.randrange(20, 90)) for x, y in corners])


def kept_changes(n):
    """n regions that come, one of three of which goes again, under a kept view of those that a road crosses; asked after each."""
    chance = random.Random(n)
    side = 100 * (isqrt(n - 1) + 1)
    script = ['relation Land(n text, x, y);', 'relation Road(x, y);', 'view Crossed(n text) := exists x exists y (Land(n, x, y) and Road(x, y));']
    roads, land, changes_made = [], [], []
    for _ in range(max(n // 8, 1)):
        x, y = chance.randrange(side), chance.randrange(side)
        roads.append([([0, 1], -y, '='), ([-1, 0], x, '<='), ([1, 0], -x - 300, '<=')])
    script += [f'insert Road {dedale_tuple(road, "xy")};' for road in roads] + ['keep Crossed;']
    for k, (i, j) in enumerate(cells(n)):
        land.append(cut_rectangle(100 * i, 100 * j, 90, 90))
        script += [f'insert Land {dedale_tuple(land[k], "xy", ("n", f"r{k}"))};', f"ask Crossed('r{k}');"]
        changes_made += [f'insert {k}', f'ask {k}']
        if k % 3 == 2:
            script += [f'delete Land {k - 1};', f"ask Crossed('r{k - 2}');"]
            changes_made += [f'delete {k - 2}', f'ask {k - 2}']
    data = 'kept_changes\n' + data_list(roads) + data_list(land) + '\n'.join(changes_made) + '\n'
    return Problem('\n'.join(script), data, None, None)


def sums(depth):
    """Two players choose numbers of 0 to 10 by turns. Can the second one always bring the sum within 1 of the middle?"""
    names = [f'x{k}' for k in range(1, depth + 1)]
    total = [1] * depth
    near_middle = [(total, -5 * depth - 1, '<='), ([-1] * depth, 5 * depth - 1, '<=')]
    formula = ' and '.join(dedale_row(row, names) for row in near_middle)
    smt = smt_all(near_middle, names)
    for k, name in reversed(list(enumerate(names))):
        quantifier, glue, smt_glue = ('exists', 'and', 'and') if k % 2 else ('forall', 'implies', '=>')
        formula = f'{quantifier} {name} ({name} >= 0 and {name} <= 10 {glue} ({formula}))'
        smt = f'({quantifier} (({name} Real)) ({smt_glue} (and (>= {name} 0) (<= {name} 10)) {smt}))'
    domains = [[([-(k == at) for k in range(depth)], 0, '<='), ([int(k == at) for k in range(depth)], -10, '<=')]
               for at in range(depth)]
    return Problem(f'ask {formula};', f'game {depth}\n' + data_list(domains) + data_list([near_middle]),
                   f'(set-logic LRA)\n(assert {smt})\n(check-sat)', 'sat')


def ladder(depth):
    """Between two numbers there is always a third, again and again, `depth` quantifiers deep."""
    def less(a, b):
        return [int(k == a) - int(k == b) for k in range(depth)], 0, '<'

    def not_less(a, b):
        return [int(k == b) - int(k == a) for k in range(depth)], 0, '<='

    formula, smt, matrix = 'true', 'true', [[]]
    for k in range(depth - 2, -1, -2):
        between = [less(k, k + 1)] + ([less(k + 1, k - 1)] if k else [])
        matrix = [between + rows for rows in matrix] + ([[not_less(k - 2, k)], [not_less(k, k - 1)]] if k else [])
        inner = f'exists x{k + 1} (x{k} < x{k + 1}' + (f' and x{k + 1} < x{k - 1}' if k else '') + f' and ({formula}))'
        smt_inner = f'(exists ((x{k + 1} Real)) (and (< x{k} x{k + 1}) ' + (f'(< x{k + 1} x{k - 1}) ' if k else '') + f'{smt}))'
        formula = f'forall x{k} (' + (f'x{k - 2} < x{k} and x{k} < x{k - 1} implies ' if k else '') + f'{inner})'
        smt = f'(forall ((x{k} Real)) (=> (and ' + (f'(< x{k - 2} x{k}) (< x{k} x{k - 1}) ' if k else '') + f'true) {smt_inner}))'
    return Problem(f'ask {formula};', f'game {depth}\n' + data_list([[] for _ in range(depth)]) + data_list(matrix),
                   f'(set-logic LRA)\n(assert {smt})\n(check-sat)', 'sat')


# Long numbers of order rows: fractions a little less than 1, each one of its own.
def less_than_one(k):
    return 2 ** 63 - 2 - 2 * k, 2 ** 63 - 1 - 2 * k


def order_alternation(depth):
    """Between two numbers that aren't a fraction there is always a third that isn't the next one, `depth` quantifiers deep."""
    formula, smt = 'true', 'true'
    for k in range(depth - 2, -1, -2):
        top, bottom = less_than_one(k)
        inner = (f'exists x{k + 1} (x{k} < x{k + 1} and {bottom}*x{k + 1} != {top}' + (f' and x{k + 1} < x{k - 1}' if k else '')
                 + f' and ({formula}))')
        smt_inner = (f'(exists ((x{k + 1} Real)) (and (< x{k} x{k + 1}) (distinct (* {bottom} x{k + 1}) {top}) '
                     + (f'(< x{k + 1} x{k - 1}) ' if k else '') + f'{smt}))')
        formula = f'forall x{k} (' + (f'x{k - 2} < x{k} and x{k} < x{k - 1} implies ' if k else '') + f'{inner})'
        smt = f'(forall ((x{k} Real)) (=> (and ' + (f'(< x{k - 2} x{k}) (< x{k} x{k - 1}) ' if k else '') + f'true) {smt_inner}))'
    return Problem(f'ask {formula};', None, f'(set-logic LRA)\n(assert {smt})\n(check-sat)', 'sat')


def borders(n):
    """n regions: the border of all of them together."""
    land = [cut_rectangle(100 * i, 100 * j, 100, 100) for i, j in cells(n)]
    script = ['relation Land(x, y);']
    script += [f'insert Land {dedale_tuple(rows, "xy")};' for rows in land]
    script.append('query (x, y) : closure(Land)(x, y) and not interior(Land)(x, y);')
    return Problem('\n'.join(script), None, None, None)


SERIES = [
    ('parts of regions near a road', near_roads, (50, 100, 200, 400, 800)),
    ('look-ups of 1,000 points', look_ups, (30, 100, 300, 1000, 3000)),
    ('look-ups of 20,000 points', many_look_ups, (1000, 10000, 32000, 100000)),
    ('pairs with one text', one_text, (300, 1000, 3000)),
    ('outside a diagonal of boxes', outside_a_diagonal, (100, 400, 800, 3200)),
    ('outside boxes at random', outside_at_random, (100, 400, 800, 3200)),
    ('changes under a kept view', kept_changes, (25, 100, 400)),
    ('pairs of trains to change', changes, (18, 37, 75, 150)),
    ('coverage of a district', coverage, (8, 16, 32, 64, 128)),
    ('coverage with a gap', gap, (8, 16, 32, 64, 128)),
    ('alternation: sums', sums, (2, 4, 6, 10)),
    ('alternation: a ladder', ladder, (2, 4, 6, 10)),
    ('alternation: long order rows', order_alternation, (2, 4, 6, 10)),
    ('borders of regions', borders, (25, 100, 400)),
]
