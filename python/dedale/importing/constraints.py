"""Convex pieces, segments and points as constraints over `x` and `y`, and how they are written."""
from collections.abc import Sequence
from dataclasses import dataclass
from math import gcd

from dedale.importing.decimals import LARGEST, constraint_fits, power_of_ten, without_zeros, written_quotient
from dedale.importing.sweep import Corner

MOST_SIDES = 400
"""The most sides of a piece in one statement, so that a statement stays below its 65,536 bytes."""


@dataclass(frozen=True, slots=True)
class Constraint:
    """`a*x + b*y` compared with `c` by `sign`, in whole numbers without a common divisor; the first of a and b that isn't 0
    is above 0."""

    a: int
    b: int
    sign: str
    c: int


@dataclass(frozen=True, slots=True)
class Scale:
    """How coordinates that were multiplied by ten to the power of `digits` are written: as they are, or, with
    `as_decimals`, divided again."""

    digits: int
    as_decimals: bool

    @property
    def factor(self) -> int:
        """What a written coordinate was multiplied by."""
        return 1 if self.as_decimals else power_of_ten(self.digits)

    def text(self, constraint: Constraint) -> str:
        """The constraint in the language."""
        number = self.number(constraint.c)
        return f"{_sum(constraint.a, constraint.b)} {constraint.sign} {number}"

    def number(self, value: int) -> str:
        """A coordinate in the language."""
        return written_quotient(value, self.digits) if self.as_decimals else str(value)

    def fits(self, constraint: Constraint) -> bool:
        """Whether all numbers of a constraint, as it is written and in its normal form, are below 2^63."""
        a, b = constraint.a, constraint.b
        if not self.as_decimals:
            return max(abs(a), abs(b), abs(constraint.c)) <= LARGEST
        c, places = without_zeros(constraint.c, self.digits)
        power = power_of_ten(places)
        scaled = (a * power, b * power, c)
        return constraint_fits(places, (a, b, c), scaled, scaled)


def _sum(a: int, b: int) -> str:
    terms = [(number, name) for number, name in ((a, "x"), (b, "y")) if number]
    first, *others = [(number, name if abs(number) == 1 else f"{abs(number)}*{name}") for number, name in terms]
    return " ".join([first[1], *(f"{'-' if number < 0 else '+'} {text}" for number, text in others)])


def _reduced(a: int, b: int, sign: str, c: int) -> Constraint:
    divisor = gcd(a, b, c)
    if (a or b) < 0:
        divisor = -divisor
        sign = {">=": "<=", "<=": ">=", "=": "="}[sign]
    return Constraint(a // divisor, b // divisor, sign, c // divisor)


def half_planes(piece: Sequence[Corner]) -> list[Constraint]:
    """The constraints that hold exactly in a convex piece, whose corners run counterclockwise: one for each side."""
    found = []
    for (x, y), (u, v) in zip(piece, (*piece[1:], piece[0])):
        a, b = y - v, u - x
        found.append(_reduced(a, b, ">=", a * x + b * y))
    return found


def segment(p: Corner, q: Corner) -> list[Constraint]:
    """The constraints that hold exactly between two different points, both of them included."""
    (x, y), (u, v) = sorted((p, q))
    line = _reduced(v - y, x - u, "=", (v - y) * x + (x - u) * y)
    if x == u:
        return [line, Constraint(0, 1, ">=", y), Constraint(0, 1, "<=", v)]
    return [line, Constraint(1, 0, ">=", x), Constraint(1, 0, "<=", u)]


def point(p: Corner) -> list[Constraint]:
    """The constraints that hold exactly at a point."""
    return [Constraint(1, 0, "=", p[0]), Constraint(0, 1, "=", p[1])]


def in_statements(piece: Sequence[Corner]) -> list[list[Corner]]:
    """A convex piece as pieces of at most `MOST_SIDES` sides."""
    first, rest = piece[0], piece[1:]
    step = MOST_SIDES - 2
    return [[first, *rest[start : start + step + 1]] for start in range(0, len(rest) - 1, step)]
