"""Whether the rings of polygons bound a region without doubt, and on which side of them it is.

What is asked of a feature is what the OGC asks of polygons ("Simple feature access, part 1", 6.1.11 and 6.1.14), but that
the inside of a polygon may fall apart:

- a ring has three corners or more that aren't all on one line;
- a ring neither crosses nor touches itself: it comes to no point twice;
- two rings, of one polygon or of two, don't cross and don't run along each other. They may touch in single points;
- a hole is inside of its polygon and of no other hole;
- a polygon is outside of all others, or in a hole of one.

A corner that stands twice, one time after the other, is one corner: rounding makes such corners, and they say nothing.
A corner on a straight line between its neighbours is allowed, a spike isn't: there the ring runs along itself."""
from collections import Counter
from collections.abc import Sequence
from dataclasses import dataclass
from fractions import Fraction

from dedale.importing.sweep import Clash, Corner, Meeting, Ring, Side, sweep, turn

Polygon = Sequence[Sequence[Corner]]
"""The outer ring and then the holes, each with its first corner again at its end."""


class RingFault(Exception):
    """A ring bounds nothing. `str` of it says which ring and what, `place` where, in the unit of the corners."""

    def __init__(self, reason: str, place: tuple[Fraction | int, Fraction | int]) -> None:
        super().__init__(reason)
        self.place = place


@dataclass(frozen=True, slots=True)
class _Role:
    """What a ring is: the outer one of a part (hole 0), or a hole of it; both are counted from 1."""

    part: int
    hole: int
    parts: int

    def __str__(self) -> str:
        part = f"part {self.part}" if self.parts > 1 else ""
        if not self.hole:
            return f"the ring of {part}" if part else "the ring"
        return f"hole {self.hole} of {part}" if part else f"hole {self.hole}"


def without_repeats(corners: Sequence[Corner]) -> list[Corner]:
    """The corners of a closed ring, each that is equal to the one before it left out, also at the end."""
    return [corner for before, corner in zip((corners[-2], *corners), corners[:-1]) if before != corner]


def twice_area(ring: Ring) -> int:
    """Twice the area inside of a ring that doesn't cross itself: above 0 where it runs counterclockwise (the formula of
    Gauss)."""
    return sum(a[0] * b[1] - b[0] * a[1] for a, b in zip((ring[-1], *ring), ring))


def _is_flat(ring: Sequence[Corner]) -> bool:
    return len(ring) < 3 or all(turn(ring[0], ring[1], corner) == 0 for corner in ring)


def oriented_rings(polygons: Sequence[Polygon]) -> list[Ring]:
    """The rings of all polygons of a feature, outer ones counterclockwise and holes clockwise: the region is on the left of
    each side. Raises `RingFault` where they break a rule of this module."""
    roles: list[_Role] = []
    rings: list[Ring] = []
    for part, polygon in enumerate(polygons, 1):
        for hole, closed in enumerate(polygon):
            role = _Role(part, hole, len(polygons))
            ring: Ring = without_repeats(closed)
            if _is_flat(ring):
                raise RingFault(f"{role} has no area", closed[0])
            roles.append(role)
            rings.append(ring if (twice_area(ring) > 0) == (hole == 0) else ring[::-1])
    try:
        parents = _parents(rings, roles)
    except Clash as clash:
        raise RingFault(_clash_words(clash, roles), clash.place) from None
    for role, parent, ring in zip(roles, parents, rings):
        _check_nesting(role, None if parent is None else roles[parent], ring[0])
    return rings


def _clash_words(clash: Clash, roles: Sequence[_Role]) -> str:
    what = "run along" if clash.along else "cross"
    if clash.first == clash.second:
        return f"{roles[clash.first]} {'runs along' if clash.along else 'crosses'} itself"
    first, second = sorted((clash.first, clash.second))
    return f"{roles[first]} and {roles[second]} {what} each other"


def _parents(rings: Sequence[Ring], roles: Sequence[_Role]) -> list[int | None]:
    """For each ring the number of the ring that it is directly inside of, or None.

    Where no rings cross, what is directly around a ring is known at its least corner, from the side next below: either the
    ring of that side, or what is around that ring. Raises `Clash` and `RingFault` where rings cross or touch themselves."""
    parents: dict[int, int | None] = {}
    for meeting in sweep(rings):
        _check_touching(meeting, roles)
        below = meeting.below
        for side in meeting.leaving:
            if side.ring not in parents:
                parents[side.ring] = None if below is None else _around(below, roles, parents)
            below = side
    return [parents[number] for number in range(len(rings))]


def _around(below: Side, roles: Sequence[_Role], parents: dict[int, int | None]) -> int | None:
    """The innermost ring around what is directly above a side. A hole has its inside on the right of its sides."""
    is_inside = below.forward == (roles[below.ring].hole == 0)
    return below.ring if is_inside else parents[below.ring]


def _check_touching(meeting: Meeting, roles: Sequence[_Role]) -> None:
    """Raises `RingFault` where a ring comes to a corner twice, or two rings change sides there.

    Round the corner each ring has two sides. No two rings change sides exactly where these pair off as parentheses do."""
    if len(meeting.arriving) + len(meeting.leaving) == 2:
        return
    around = [side.ring for side in meeting.leaving] + [side.ring for side in reversed(meeting.arriving)]
    number, count = Counter(around).most_common(1)[0]
    if count > 2:
        raise RingFault(f"{roles[number]} touches itself", meeting.corner)
    opened: list[int] = []
    for number in around:
        if opened and opened[-1] == number:
            opened.pop()
        else:
            opened.append(number)
    if opened:
        first, second = sorted(opened[:2])
        raise RingFault(f"{roles[first]} and {roles[second]} cross each other", meeting.corner)


def _check_nesting(role: _Role, around: _Role | None, place: Corner) -> None:
    """Raises `RingFault` where a ring is inside of one in which it mustn't be."""
    if role.hole:
        if around is not None and around.part == role.part and around.hole:
            raise RingFault(f"{role} is inside of {around}", place)
        if around is None or around.part != role.part:
            raise RingFault(f"{role} isn't inside of its polygon", place)
    elif around is not None and not around.hole:
        raise RingFault(f"{role} is inside of {around}", place)
