"""The index of boxes finds what a comparison with each of them does."""
from fractions import Fraction

from hypothesis import given
from hypothesis import strategies as st

from dedale.exporting.boxes import Box, BoxIndex, box_of
from dedale.exporting.points import point_at

_NUMBERS = st.integers(0, 20).map(float)
_BOXES = st.builds(lambda x, y, w, h: Box(x, y, x + w, y + h), _NUMBERS, _NUMBERS, _NUMBERS, _NUMBERS)


@given(st.lists(_BOXES, max_size=200), _BOXES)
def test_all_that_meet_are_found(boxes: list[Box], window: Box) -> None:
    found = sorted(BoxIndex(boxes).meeting(window))
    assert found == [number for number, box in enumerate(boxes) if box.meets(window)]


@given(st.lists(st.tuples(st.fractions(), st.fractions()), min_size=1))
def test_a_box_has_its_points_exactly(places: list[tuple[Fraction, Fraction]]) -> None:
    box = box_of([point_at(x, y) for x, y in places])
    assert all(box.low_x < x < box.high_x and box.low_y < y < box.high_y for x, y in places)


def test_points_beyond_all_doubles() -> None:
    far = Fraction(10) ** 400
    assert box_of([point_at(far, -far)]).meets(box_of([point_at(2 * far, -far)]))
