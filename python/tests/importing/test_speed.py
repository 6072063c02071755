"""How long polygons of many corners take, in processor time."""
import math
import random
import time
from collections.abc import Callable

import pytest

from dedale.importing.sweep import Corner
from tests.importing.polygons import Polygon, closed, square, wkt_of
from tests.importing.running import imported

CORNERS = 5000
SECONDS = 5.0
GREATEST_GROWTH = 2**1.5
ROUNDS = 6


def grid(corners: int) -> Polygon:
    """Square holes in rows and columns of a square."""
    side = math.isqrt(corners // 4)
    holes = [square(3 * x + 1, 3 * y + 1, 1) for x in range(side) for y in range(side)]
    return [square(0, 0, 3 * side), *holes]


def row(corners: int) -> Polygon:
    """Holes of any four corners in one long row, 1,000 of them for 5,000 corners, and a ring of the other corners."""
    chance = random.Random(1)
    holes = corners // 5
    found = []
    for x in range(0, 100 * holes, 100):
        a, b, c, d = (chance.randint(10, 45) for _ in range(4))
        found.append(closed([(x + a, a), (x + 99 - b, b), (x + 99 - c, 99 - c), (x + d, 99 - d)]))
    top = [(x, 110 + chance.randint(0, 50)) for x in range(100 * holes, 0, -100)]
    return [closed([(0, 0), (100 * holes, 0), *top, (0, 110)]), *found]


def star(corners: int) -> Polygon:
    """A ring of any radii."""
    chance = random.Random(2)
    ring: list[Corner] = []
    for number in range(corners):
        radius, angle = chance.randint(500_000, 1_000_000), 2 * math.pi * number / corners
        ring.append((round(radius * math.cos(angle)), round(radius * math.sin(angle))))
    return [closed(ring)]


def comb(corners: int) -> Polygon:
    """Long narrow teeth, which are level."""
    teeth = [(x, y) for tooth in range(corners // 4)
             for x, y in ((1, 4 * tooth), (9999, 4 * tooth + 1), (9999, 4 * tooth + 2), (1, 4 * tooth + 3))]
    return [closed([(0, 0), *teeth, (0, corners)])]


def bow(corners: int) -> Polygon:
    """A strip between two parabolas."""
    half = corners // 4
    lower = [(x, x * x) for x in range(-half, half)]
    return [closed(lower + [(x, x * x + corners) for x in range(half - 1, -half - 1, -1)])]


def seconds(polygon: Polygon) -> float:
    """The processor time of an import."""
    content = f'w\n"{wkt_of([polygon])}"\n'
    start = time.process_time()
    outcome = imported(content, "Land", "w", "--digits", "1", "--edges", "Edge", "--check")
    assert outcome.status == 0
    return time.process_time() - start


@pytest.mark.parametrize("make", [grid, row, star, comb, bow])
def test_many_corners(make: Callable[[int], Polygon]) -> None:
    """In one of a few rounds, since others use the machine too: the times of a round are taken one right after the other."""
    for _ in range(ROUNDS):
        half, whole = seconds(make(CORNERS // 2)), seconds(make(CORNERS))
        if whole < SECONDS and whole / half < GREATEST_GROWTH:
            return
    pytest.fail(f"{CORNERS} corners took {whole:.2f} s, and half of them {half:.2f} s")
