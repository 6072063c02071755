"""Triangles as sides that know what is beside them, and their sides made shorter.

A side between two triangles is exchanged for the other diagonal of both together where that is shorter, as by C. L. Lawson,
"Software for C1 surface interpolation", Mathematical Software III, 1977, who exchanges by another rule. Each exchange makes
the sum of all lengths less, so this ends; it is stopped earlier where it takes many exchanges, so that it takes O(n) steps.
What it is for is that compact pieces are found faster than slivers by an index of boxes."""
from collections.abc import Sequence

from dedale.importing.cutting import Triangle
from dedale.importing.sweep import Corner, turn

MOST_EXCHANGES = 2
"""For each side of a triangle, on average."""


class Mesh:
    """The sides of pieces, each by a number, with its beginning, the sides before and behind it in its piece, and the same
    side the other way round in the neighbouring piece, or -1 at the border."""

    def __init__(self, triangles: Sequence[Triangle]) -> None:
        count = 3 * len(triangles)
        self.start = [corner for triangle in triangles for corner in triangle]
        self.next = [3 * (side // 3) + (side + 1) % 3 for side in range(count)]
        self.previous = [3 * (side // 3) + (side + 2) % 3 for side in range(count)]
        numbers = {(self.start[side], self.end(side)): side for side in range(count)}
        self.opposite = [numbers.get((self.end(side), self.start[side]), -1) for side in range(count)]

    def end(self, side: int) -> Corner:
        """The corner at which a side ends."""
        return self.start[self.next[side]]

    def exchange(self, side: int) -> None:
        """Takes the other diagonal of the two triangles at a side in its place, under the same two numbers."""
        back = self.opposite[side]
        a, b = self.previous[side], self.previous[back]
        c, d = self.next[side], self.next[back]
        self.start[side], self.start[back] = self.start[b], self.start[a]
        for first, second, third in ((side, a, d), (back, b, c)):
            self.next[first], self.next[second], self.next[third] = second, third, first
            self.previous[second], self.previous[third], self.previous[first] = first, second, third


def length(a: Corner, b: Corner) -> int:
    """The square of a distance."""
    return (a[0] - b[0]) ** 2 + (a[1] - b[1]) ** 2


def shorten(mesh: Mesh) -> None:
    """Exchanges sides of a mesh of triangles for shorter ones, where that is possible."""
    waiting = [side for side, back in enumerate(mesh.opposite) if side < back]
    left = MOST_EXCHANGES * len(mesh.start)
    start, following, previous = mesh.start, mesh.next, mesh.previous
    while waiting and left:
        side = waiting.pop()
        back = mesh.opposite[side]
        a, b = start[side], start[back]
        c, d = start[previous[side]], start[previous[back]]
        if length(c, d) < length(a, b) and turn(c, a, d) > 0 and turn(d, b, c) > 0:
            left -= 1
            around = (following[side], previous[side], following[back], previous[back])
            mesh.exchange(side)
            waiting += [one for one in around if mesh.opposite[one] >= 0]
