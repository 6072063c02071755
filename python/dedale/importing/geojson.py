"""GeoJSON after RFC 7946: a `FeatureCollection` or a `Feature`, its geometries points, lines and polygons of two
coordinates."""
import json
import re
from collections.abc import Iterator
from typing import Any

from dedale.importing.decimals import read_decimal
from dedale.importing.faults import Fault, FileFault, shown
from dedale.importing.records import Record
from dedale.importing.shapes import HEIGHT, Kind, Position, Shape, checked
from dedale.importing.table_files import NOT_UTF_8, decoded, is_utf_8

_BLANK = re.compile(r"[ \t\n\r]*")


class _Number(str):
    """A number, in the digits of the file."""


class _NoNumber:
    """`NaN` or an infinity, which are no JSON, though some programs write them."""

    def __init__(self, word: str) -> None:
        self.word = word


def _object(members: list[tuple[str, Any]]) -> dict[str, Any]:
    found = dict(members)
    if len(found) < len(members):
        names = [name for name, _ in members]
        twice = next(name for name in names if names.count(name) > 1)
        raise ValueError(f"{shown(twice)} stands twice in an object")
    return found


_DECODER = json.JSONDecoder(
    parse_float=_Number, parse_int=_Number, parse_constant=_NoNumber, object_pairs_hook=_object
)


class _Cursor:
    """A place in a JSON text. What is read by it raises `FileFault` where the text is no JSON."""

    def __init__(self, text: str) -> None:
        self.text = text
        self._place = 0
        self._counted = (0, 1)
        self._is_clean = is_utf_8(text)
        self.blank()

    def blank(self) -> None:
        """Goes on to what isn't blank."""
        found = _BLANK.match(self.text, self._place)
        self._place = found.end() if found else self._place

    def line(self, place: int | None = None) -> int:
        """The line of a place, from 1 on; of this one where none is given."""
        place = self._place if place is None else place
        start, line = self._counted if self._counted[0] <= place else (0, 1)
        line += self.text.count("\n", start, place)
        self._counted = (place, line)
        return line

    def peek(self) -> str:
        """The next character, or nothing at the end."""
        return self.text[self._place : self._place + 1]

    def skip(self, wanted: str) -> str:
        """Takes the next character, which must be one of those that are wanted, and the blanks behind it."""
        found = self.peek()
        if not found or found not in wanted:
            what = f"not {shown(found)}" if found else "and the file ends"
            raise FileFault(f"no JSON: {' or '.join(map(shown, wanted))} is wanted, {what}", self.line())
        self._place += 1
        self.blank()
        return found

    def value(self) -> tuple[Any, bool]:
        """Takes the next value, and says whether all of it was UTF-8 in the file."""
        start = self._place
        try:
            value, self._place = _DECODER.raw_decode(self.text, start)
        except json.JSONDecodeError as error:
            raise FileFault(f"no JSON: {error.msg}", self.line(error.pos)) from None
        except RecursionError:
            raise FileFault("the JSON is nested too deeply", self.line(start)) from None
        except ValueError as error:
            raise FileFault(f"no JSON: {error}", self.line(start)) from None
        is_clean = self._is_clean or is_utf_8(self.text[start : self._place])
        self.blank()
        return value, is_clean


def read_geojson(content: bytes) -> Iterator[Record]:
    """The features in a file, each with its properties as fields. Raises `FileFault`, as features are read, where the file
    is no JSON or has no features. What is wrong with one feature becomes the `fault` of its record, or is raised as `Fault`
    when its shape is read."""
    text = decoded(content)
    start = _Cursor(text)
    line = start.line()
    if start.peek() != "{":
        raise FileFault("no GeoJSON: a FeatureCollection or a Feature is wanted", line)
    others: dict[str, Any] = {}
    has_features = False
    cursor = _Cursor(text)
    for name in _members(cursor):
        if name in others or (name == "features" and has_features):
            raise FileFault(f"{shown(name)} stands twice in an object", cursor.line())
        if name == "features" and cursor.peek() == "[":
            has_features = True
            yield from _features(cursor)
        else:
            others[name] = cursor.value()[0]
    if cursor.peek():
        raise FileFault("no JSON: something stands behind the end of the first object", cursor.line())
    if others.get("type") == "Feature":
        yield _record(*start.value(), line, 1)
    elif not has_features or others.get("type") != "FeatureCollection":
        raise FileFault("no GeoJSON: a FeatureCollection or a Feature is wanted", line)


def _members(cursor: _Cursor) -> Iterator[str]:
    """The names in an object, the cursor each time before the value, which the caller takes."""
    cursor.skip("{")
    if cursor.peek() == "}":
        cursor.skip("}")
        return
    while True:
        if cursor.peek() != '"':
            cursor.skip('"')
        name, _ = cursor.value()
        cursor.skip(":")
        yield name
        if cursor.skip(",}") == "}":
            return


def _features(cursor: _Cursor) -> Iterator[Record]:
    cursor.skip("[")
    if cursor.peek() == "]":
        cursor.skip("]")
        return
    number = 0
    while True:
        number += 1
        line = cursor.line()
        feature, is_clean = cursor.value()
        yield _record(feature, is_clean, line, number)
        if cursor.skip(",]") == "]":
            return


def _record(feature: object, is_clean: bool, line: int, number: int) -> Record:
    if not isinstance(feature, dict) or feature.get("type") != "Feature":
        return Record("feature", line, number, {}, fault="it is no Feature")
    properties = feature.get("properties")
    if properties is None:
        properties = {}
    if not isinstance(properties, dict):
        return Record("feature", line, number, {}, fault="its properties are no object")
    geometry = feature.get("geometry")
    fault = "" if is_clean else f"the feature {NOT_UTF_8}"
    return Record("feature", line, number, properties, lambda: _shape(geometry), fault)


def _shape(geometry: object) -> Shape:
    if geometry is None:
        raise Fault("it has no geometry")
    if not isinstance(geometry, dict):
        raise Fault("its geometry is no object")
    word, found = geometry.get("type"), geometry.get("coordinates")
    if word == "Point":
        return checked(Shape(Kind.POINT, [[[_position(found)]]]))
    if word == "MultiPoint":
        return checked(Shape(Kind.POINT, [[[_position(point)]] for point in _listed(found)]))
    if word == "LineString":
        return checked(Shape(Kind.LINE, [[_curve(found)]]))
    if word == "MultiLineString":
        return checked(Shape(Kind.LINE, [[curve] for curve in _polygon(found)]))
    if word == "Polygon":
        return checked(Shape(Kind.POLYGON, [_polygon(found)]))
    if word == "MultiPolygon":
        return checked(Shape(Kind.POLYGON, [_polygon(polygon) for polygon in _listed(found)]))
    raise Fault(f"a geometry of the type {shown(str(word))} isn't read: points, lines and polygons are")


def _polygon(found: object) -> list[list[Position]]:
    return [_curve(curve) for curve in _listed(found)]


def _curve(found: object) -> list[Position]:
    return [_position(position) for position in _listed(found)]


def _listed(found: object) -> list[Any]:
    if not isinstance(found, list):
        raise Fault(f"a list is wanted in the coordinates, not {_sort(found)}")
    return found


def _position(found: object) -> Position:
    numbers = _listed(found)
    if len(numbers) > 2:
        raise Fault(HEIGHT)
    if len(numbers) < 2:
        raise Fault("a position has fewer than two numbers")
    for number in numbers:
        if not isinstance(number, _Number):
            raise Fault(f"a number is wanted in the coordinates, not {_sort(number)}")
    return read_decimal(numbers[0]), read_decimal(numbers[1])


def _sort(found: object) -> str:
    """What sort of value this is, for messages."""
    if isinstance(found, _NoNumber):
        return found.word
    if isinstance(found, _Number):
        return f"the number {found}"
    if isinstance(found, str):
        return f"the text {shown(found)}"
    sorts = {dict: "an object", list: "a list", bool: "a truth value"}
    return sorts.get(type(found), "null")
