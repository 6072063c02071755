"""Polygons cut into triangles by a sweep.

After S. Hertel and K. Mehlhorn, "Fast triangulation of the plane with respect to simple polygons", Information and Control
64 (1985). Between two neighbouring sides under the sweep line that have the region between them, what isn't cut yet is
bounded on its left by a chain of corners that bulges to the right. A new corner is linked to all corners of the chain that
it sees, and becomes a part of it. Holes, and rings that touch in a corner, need no rules of their own, and no corner is
added. n corners take O(n log n) steps, since a corner goes into a chain and out of it once."""
from collections.abc import Sequence
from dataclasses import dataclass

from dedale.importing.sweep import Corner, Meeting, Ring, Side, sweep, turn

Triangle = tuple[Corner, Corner, Corner]
"""Three corners, counterclockwise and not on one line."""


@dataclass(slots=True)
class _Chain:
    """The left bounds of what isn't cut yet between two sides. `low` leads from the left end of the lower side to the
    greatest corner, `high` from that of the upper side to the same corner, both with rising corners."""

    low: list[Corner]
    high: list[Corner]


class _Cutter:
    """The state of a sweep: the chain directly above each side that has the region above it."""

    def __init__(self) -> None:
        self.triangles: list[Triangle] = []
        self._chains: dict[Side, _Chain] = {}

    def meet(self, meeting: Meeting) -> None:
        """Links the corner of a meeting to the chains on its left and begins those on its right."""
        corner, leaving = meeting.corner, meeting.leaving
        lower, upper = self._link(meeting)
        for side in leaving[:-1]:
            if side.forward:
                self._chains[side] = _Chain([corner], [corner])
        if leaving and upper:
            self._chains[leaving[-1]] = upper
        elif lower and upper:
            lower = _Chain(lower.low, upper.high)
        if meeting.below and lower:
            self._chains[meeting.below] = lower

    def _link(self, meeting: Meeting) -> tuple[_Chain | None, _Chain | None]:
        """The chains directly below and directly above the corner once it is linked to them, or None where the region
        isn't there."""
        corner, arriving = meeting.corner, meeting.arriving
        under = self._chains.pop(meeting.below, None) if meeting.below else None
        if not arriving:
            if under is None:
                return None, None
            self._cut_low(under.low, corner)
            self._cut_high(under.high, corner)
            return _Chain(under.low, [corner]), _Chain([corner], under.high)
        for side in arriving[:-1]:
            self._close(self._chains.pop(side, None), corner)
        return self._end_above(under, corner), self._end_below(self._chains.pop(arriving[-1], None), corner)

    def _close(self, chain: _Chain | None, corner: Corner) -> None:
        """Both sides end at the corner, which sees all of the chain."""
        if chain:
            self._fan_high(chain.high, corner)
            self._fan_low(chain.low, corner)

    def _end_above(self, chain: _Chain | None, corner: Corner) -> _Chain | None:
        """The upper side ends at the corner, which sees all of the upper half of the chain."""
        if chain is None:
            return None
        self._fan_high(chain.high, corner)
        self._cut_low(chain.low, corner)
        return _Chain(chain.low, [corner])

    def _end_below(self, chain: _Chain | None, corner: Corner) -> _Chain | None:
        """The lower side ends at the corner, which sees all of the lower half of the chain."""
        if chain is None:
            return None
        self._fan_low(chain.low, corner)
        self._cut_high(chain.high, corner)
        return _Chain([corner], chain.high)

    def _fan_low(self, low: Sequence[Corner], corner: Corner) -> None:
        for a, b in zip(low, low[1:]):
            self._add(a, corner, b)

    def _fan_high(self, high: Sequence[Corner], corner: Corner) -> None:
        for a, b in zip(high, high[1:]):
            self._add(b, corner, a)

    def _cut_low(self, low: list[Corner], corner: Corner) -> None:
        """Cuts off, from the greatest corner on, what the corner sees of the lower half, and puts the corner at its end."""
        while len(low) > 1 and turn(low[-2], corner, low[-1]) > 0:
            self._add(low[-2], corner, low.pop())
        low.append(corner)

    def _cut_high(self, high: list[Corner], corner: Corner) -> None:
        """Cuts off, from the greatest corner on, what the corner sees of the upper half, and puts the corner at its end."""
        while len(high) > 1 and turn(high[-1], corner, high[-2]) > 0:
            self._add(high.pop(), corner, high[-1])
        high.append(corner)

    def _add(self, a: Corner, b: Corner, c: Corner) -> None:
        if turn(a, b, c) != 0:
            self.triangles.append((a, b, c))


def triangles_of(rings: Sequence[Ring]) -> list[Triangle]:
    """Triangles with corners of the rings whose insides are disjoint and whose union is the region on the left of the sides.

    The rings are those of `rings.oriented_rings`; of others nothing is promised."""
    cutter = _Cutter()
    for meeting in sweep(rings):
        cutter.meet(meeting)
    return cutter.triangles
