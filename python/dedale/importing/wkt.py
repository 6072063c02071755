"""Well-known text, as in OGC "Simple feature access, part 1", section 7, for points, lines and polygons of two
coordinates."""
import re
from collections.abc import Callable
from typing import TypeVar

from dedale.importing.decimals import read_decimal
from dedale.importing.faults import Fault, shown
from dedale.importing.shapes import HEIGHT, Kind, Position, Shape, checked

Curve = list[Position]
Part = list[Curve]
Item = TypeVar("Item")

_TOKEN = re.compile(r"[(),]|[^\s(),]+")


class _Reader:
    """The tokens of a text, and how far they are read."""

    def __init__(self, text: str) -> None:
        self._tokens = [(found.group(), found.start()) for found in _TOKEN.finditer(text)]
        self._next = 0

    def peek(self) -> str:
        """The next token, or nothing at the end."""
        return self._tokens[self._next][0] if self._next < len(self._tokens) else ""

    def take(self) -> str:
        """The next token, which is read by this."""
        token = self.peek()
        self._next += 1
        return token

    def expect(self, *wanted: str) -> str:
        """Takes the next token, which must be one of these."""
        if self.peek() not in wanted:
            raise self.fault(" or ".join(shown(word) for word in wanted) + f" is wanted, not {shown(self.peek())}")
        return self.take()

    def fault(self, reason: str) -> Fault:
        """What is wrong at the next token, or at the end."""
        if self._next >= len(self._tokens):
            return Fault("the WKT ends too early")
        return Fault(f"{reason} (character {self._tokens[self._next][1] + 1} of the WKT)")


def _listed(read: Callable[[_Reader], Item]) -> Callable[[_Reader], list[Item]]:
    """Reads items between parentheses, with commas between them."""

    def read_items(reader: _Reader) -> list[Item]:
        reader.expect("(")
        items = [read(reader)]
        while reader.expect(",", ")") == ",":
            items.append(read(reader))
        return items

    return read_items


def _position(reader: _Reader) -> Position:
    numbers = []
    while reader.peek() not in ("", "(", ")", ","):
        try:
            numbers.append(read_decimal(reader.peek()))
        except Fault as fault:
            raise reader.fault(str(fault)) from None
        reader.take()
    if len(numbers) > 2:
        raise reader.fault(HEIGHT)
    if len(numbers) < 2:
        raise reader.fault("a number is wanted")
    return numbers[0], numbers[1]


def _bare_or_enclosed(reader: _Reader) -> Part:
    """A point of several, which may stand in parentheses of its own."""
    if reader.peek() != "(":
        return [[_position(reader)]]
    reader.take()
    position = _position(reader)
    reader.expect(")")
    return [[position]]


_curve = _listed(_position)
_polygon = _listed(_curve)


def _point(reader: _Reader) -> list[Part]:
    reader.expect("(")
    position = _position(reader)
    reader.expect(")")
    return [[[position]]]


_FORMS: dict[str, tuple[Kind, Callable[[_Reader], list[Part]]]] = {
    "POINT": (Kind.POINT, _point),
    "MULTIPOINT": (Kind.POINT, _listed(_bare_or_enclosed)),
    "LINESTRING": (Kind.LINE, lambda reader: [[_curve(reader)]]),
    "MULTILINESTRING": (Kind.LINE, lambda reader: [[curve] for curve in _polygon(reader)]),
    "POLYGON": (Kind.POLYGON, lambda reader: [_polygon(reader)]),
    "MULTIPOLYGON": (Kind.POLYGON, _listed(_polygon)),
}


def read_wkt(text: str) -> Shape:
    """The geometry of a WKT text. Raises `Fault` for another text, for an empty geometry, an unclosed ring, a height or a
    measure, and for what is no number."""
    reader = _Reader(text)
    word = reader.take().upper()
    if word.rstrip("ZM") in _FORMS and (word not in _FORMS or reader.peek().upper() in ("Z", "M", "ZM")):
        raise Fault(HEIGHT)
    if word == "GEOMETRYCOLLECTION":
        raise Fault("a GEOMETRYCOLLECTION isn't read: points, lines and polygons are")
    if word not in _FORMS:
        raise Fault(f"{shown(text)} is no WKT of a point, a line or a polygon")
    kind, read = _FORMS[word]
    if reader.peek().upper() == "EMPTY":
        raise Fault("the geometry is empty")
    parts = read(reader)
    if reader.peek():
        raise reader.fault(f"the end is wanted, not {shown(reader.peek())}")
    return checked(Shape(kind, parts))
