"""Which rings are taken, and what is said of the others."""
import pytest
from hypothesis import assume, given, settings
from hypothesis import strategies

from dedale.importing.rings import RingFault, oriented_rings, twice_area
from dedale.importing.sweep import Corner
from tests.importing.polygons import Polygon, closed, shapely_of, square

SQUARE = square(0, 0, 10)

BAD = {
    "bow tie": ([[closed([(0, 0), (10, 10), (10, 0), (0, 10)])]], "the ring crosses itself", (5, 5)),
    "bow tie with a corner": (
        [[closed([(0, 0), (5, 5), (10, 10), (10, 0), (5, 5), (0, 10)])]], "the ring touches itself", (5, 5),
    ),
    "corner on a side": ([[closed([(0, 0), (10, 0), (10, 10), (5, 0), (0, 10)])]], "the ring touches itself", (5, 0)),
    "side over a corner": ([[closed([(5, 5), (0, 0), (0, 10), (10, 10), (0, 5), (5, 0)])]], "the ring crosses itself", None),
    "corner twice": (
        [[closed([(0, 0), (4, 0), (4, 4), (2, 2), (0, 4), (1, 2), (2, 2), (1, 1)])]], "the ring touches itself", (2, 2),
    ),
    "spike": ([[closed([(0, 0), (10, 0), (5, 0), (5, 5)])]], "the ring runs along itself", (5, 0)),
    "spike outwards": ([[closed([(0, 0), (4, 0), (4, 2), (9, 2), (4, 2), (4, 4)])]], "the ring runs along itself", (4, 2)),
    "line": ([[closed([(0, 0), (10, 0), (20, 0)])]], "the ring has no area", (0, 0)),
    "one point": ([[closed([(3, 4), (3, 4), (3, 4)])]], "the ring has no area", (3, 4)),
    "hole outside": ([[SQUARE, square(20, 20, 2)]], "hole 1 isn't inside of its polygon", None),
    "hole around": ([[square(3, 3, 2), SQUARE]], "hole 1 isn't inside of its polygon", None),
    "hole over the ring": ([[SQUARE, square(5, 5, 8)]], "the ring and hole 1 cross each other", None),
    "hole along the ring": ([[SQUARE, square(0, 5, 2)]], "the ring and hole 1 run along each other", (0, 5)),
    "hole like the ring": ([[SQUARE, SQUARE]], "the ring and hole 1 run along each other", None),
    "hole through a corner": (
        [[closed([(0, 0), (10, 0), (10, 3), (10, 7), (10, 10), (0, 10)]), closed([(5, 5), (10, 3), (15, 5), (10, 7)])]],
        "the ring and hole 1 cross each other", (10, 3),
    ),
    "holes that overlap": (
        [[SQUARE, square(2, 2, 3), square(4, 4, 3)]], "hole 1 and hole 2 cross each other", None,
    ),
    "hole in a hole": ([[SQUARE, square(2, 2, 6), square(3, 3, 2)]], "hole 2 is inside of hole 1", None),
    "holes side by side": ([[SQUARE, square(2, 2, 2), square(4, 2, 2)]], "hole 1 and hole 2 run along each other", None),
    "part in a part": (
        [[SQUARE], [square(3, 3, 2)]], "the ring of part 2 is inside of the ring of part 1", None,
    ),
    "parts that overlap": (
        [[SQUARE], [square(5, 5, 10)]], "the ring of part 1 and the ring of part 2 cross each other", None,
    ),
    "parts side by side": (
        [[SQUARE], [square(10, 0, 10)]], "the ring of part 1 and the ring of part 2 run along each other", None,
    ),
    "same part twice": ([[SQUARE], [SQUARE]], "the ring of part 1 and the ring of part 2 run along each other", None),
    "flat hole": ([[SQUARE, closed([(2, 2), (3, 3), (4, 4)])], [square(20, 20, 2)]], "hole 1 of part 1 has no area", (2, 2)),
}

GOOD = {
    "square": ([[SQUARE]], 200),
    "clockwise": ([[SQUARE[::-1]]], 200),
    "corner on a straight side": ([[closed([(0, 0), (5, 0), (10, 0), (10, 10), (0, 10)])]], 200),
    "corner twice in a row": ([[closed([(0, 0), (0, 0), (10, 0), (10, 10), (10, 10), (0, 10), (0, 0)])]], 200),
    "hole that touches the ring": ([[SQUARE, closed([(0, 5), (2, 4), (2, 6)])]], 196),
    "hole that touches two corners": ([[SQUARE, closed([(0, 0), (10, 10), (4, 5)])]], 190),
    "holes that touch": ([[SQUARE, square(2, 2, 2), square(4, 4, 2)]], 184),
    "parts that touch": ([[SQUARE], [square(10, 10, 10)]], 400),
    "part that touches a side": ([[SQUARE], [closed([(10, 5), (20, 0), (20, 10)])]], 300),
    "island in a hole": ([[SQUARE, square(2, 2, 6)], [square(3, 3, 2)]], 136),
    "island that touches": ([[SQUARE, square(2, 2, 6)], [closed([(2, 2), (4, 3), (3, 4)])]], 131),
}


@pytest.mark.parametrize("name", BAD)
def test_bad_rings_are_told(name: str) -> None:
    polygons, reason, place = BAD[name]
    with pytest.raises(RingFault) as found:
        oriented_rings(polygons)
    assert str(found.value) == reason
    assert place is None or found.value.place == place


@pytest.mark.parametrize("name", GOOD)
def test_good_rings_are_taken(name: str) -> None:
    polygons, area = GOOD[name]
    assert sum(map(twice_area, oriented_rings(polygons))) == area


def test_outer_rings_run_counterclockwise_and_holes_clockwise() -> None:
    for outer in (SQUARE, SQUARE[::-1]):
        for hole in (square(2, 2, 3), square(2, 2, 3)[::-1]):
            assert list(map(twice_area, oriented_rings([[outer, hole]]))) == [200, -18]


CORNER = strategies.tuples(*[strategies.integers(0, 6)] * 2)


@given(strategies.lists(CORNER, min_size=3, max_size=7))
@settings(max_examples=500)
def test_one_ring_is_taken_exactly_where_shapely_takes_it(corners: list[Corner]) -> None:
    """But for rings whose corner stands twice in a row, of which Shapely takes the rest too."""
    assert _is_taken([[closed(corners)]]) == shapely_of([[closed(corners)]]).is_valid


@given(strategies.lists(strategies.lists(CORNER, min_size=3, max_size=4), min_size=2, max_size=3), strategies.booleans())
@settings(max_examples=500)
def test_what_shapely_takes_is_taken(rings: list[list[Corner]], are_holes: bool) -> None:
    """Shapely also refuses an inside that falls apart."""
    curves = [closed(ring) for ring in rings]
    polygons = [[square(-1, -1, 8), *curves]] if are_holes else [[curve] for curve in curves]
    shape = shapely_of(polygons)
    if shape.is_valid:
        assert _is_taken(polygons)
    else:
        assume(are_holes is False or _is_connected(polygons))
        assert not _is_taken(polygons)


def _is_connected(polygons: list[Polygon]) -> bool:
    """Whether the inside, as far as Shapely can make it out, doesn't fall apart."""
    shape = shapely_of(polygons).buffer(0).buffer(-0.01)
    return str(shape.geom_type) == "Polygon"


def _is_taken(polygons: list[Polygon]) -> bool:
    try:
        oriented_rings(polygons)
    except RingFault:
        return False
    return True
