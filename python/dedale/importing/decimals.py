"""Numbers as files write them, exactly: read, rounded, scaled and written."""
import re
from collections.abc import Iterable, Sequence
from decimal import ROUND_HALF_EVEN, Context, Decimal
from fractions import Fraction
from math import gcd

from dedale.importing.faults import Fault, shown

LARGEST = 2**63 - 1
"""The largest number that a statement may have, and that a constraint in normal form may have."""

LARGEST_NUMERATOR = 2**96
"""The largest numerator of a decimal over the common denominator of its constraint."""

MOST_DIGITS = 18
"""The most digits behind a point: ten to this power is below 2^63, and no greater power is."""

LONGEST = 400
"""The most characters of a number, and the most places from the point to its first digit: more than a double has."""

_NUMBER = re.compile(r"[+-]?(?:\d+\.?\d*|\.\d+)(?:[eE][+-]?\d+)?", re.ASCII)
_DECIMAL_COMMA = re.compile(r"[+-]?\d+,\d+", re.ASCII)
_EXACT = Context(prec=4 * LONGEST, rounding=ROUND_HALF_EVEN)


def read_decimal(text: str) -> Decimal:
    """The number that a text writes in decimal digits, maybe with a sign, a point and a power of ten as in `-1.5e-3`.
    Blanks around it are left out. Raises `Fault` for anything else, also for `nan` and `inf`."""
    digits = text.strip()
    if not _NUMBER.fullmatch(digits):
        hint = " (decimals are written with a point)" if _DECIMAL_COMMA.fullmatch(digits) else ""
        raise Fault(f"{shown(text)} is no number{hint}")
    if len(digits) > LONGEST:
        raise Fault(f"{shown(text)} is too long for a number")
    value = Decimal(digits)
    if not value:
        return Decimal(0)
    if abs(value.adjusted()) > LONGEST:
        raise Fault(f"{shown(text)} is out of the range of numbers")
    return value


def scaled(value: Decimal, digits: int) -> int:
    """The whole number that is nearest to `value` times ten to the power of `digits`, the even one of two."""
    return int(value.scaleb(digits, _EXACT).to_integral_value(context=_EXACT))


def digits_behind_point(value: Decimal) -> int:
    """How many digits it takes behind the point to write a number exactly, zeros at its end left out."""
    exponent = value.normalize(_EXACT).as_tuple().exponent
    return max(0, -exponent) if isinstance(exponent, int) else 0


def written(value: Decimal) -> str:
    """A number in plain digits, without zeros at the end and without a power of ten."""
    text = format(value, "f")
    if "." in text:
        text = text.rstrip("0").rstrip(".")
    return "0" if text == "-0" else text


def written_quotient(number: int, digits: int) -> str:
    """`number` divided by ten to the power of `digits`, in plain digits."""
    return written(Decimal(number).scaleb(-digits, _EXACT))


def nearly(value: Fraction | int, digits: int) -> str:
    """For messages: `value` divided by ten to the power of `digits`, rounded to at most 9 digits behind the point."""
    return written(Decimal(round(Fraction(value) / 10**digits * 10**9)).scaleb(-9, _EXACT))


def power_of_ten(digits: int) -> int:
    """Ten to the power of a number of digits, at least 0."""
    return int(10**digits)


def without_zeros(number: int, digits: int) -> tuple[int, int]:
    """`number` divided by ten to the power of `digits`, as the same quotient with the fewest digits."""
    while digits and number % 10 == 0:
        number, digits = number // 10, digits - 1
    return number, digits


def must_fit(value: Decimal) -> None:
    """Raises `Fault` for a number that can't stand in a script: one of 2^63 or more without its point, or of more than 18
    digits behind the point."""
    digits = digits_behind_point(value)
    if digits > MOST_DIGITS or abs(scaled(value, digits)) > LARGEST:
        raise Fault(f"the number {shown(written(value))} is too long: without its point it must be below 2^63, "
                    f"and it may have {MOST_DIGITS} digits behind the point")


def constraint_fits(digits: int, literals: Iterable[int], numerators: Iterable[int], normal: Sequence[int]) -> bool:
    """Whether the program takes a constraint whose longest decimal has so many digits behind the point. `literals` are its
    numbers without their points, `numerators` its numbers times ten to the power of `digits`, and `normal` the same of its
    coefficients and its constant once it is brought to one side."""
    divisor = gcd(*normal) or 1
    return (
        digits <= MOST_DIGITS
        and all(abs(literal) <= LARGEST for literal in literals)
        and all(abs(numerator) <= LARGEST_NUMERATOR for numerator in numerators)
        and all(abs(number) // divisor <= LARGEST for number in normal)
    )
