"""Replies read from the lines that the program writes."""
import re
from fractions import Fraction
from typing import Callable

from dedale.errors import NoReply
from dedale.polyhedra import Bound, Row, Sign, Span
from dedale.replies import Answer, Apart, Certificate, Done, Dump, Meet, Number, Plan, Refused, Reply, Spans, Stored, Truth
from dedale.statements import shortened
from dedale.tuples import Constraint, GeneralizedTuple, Heading, TextPair, TextValue

ReadLine = Callable[[], str]
"""Gives the next line without its line feed."""

_COUNTED = re.compile(r"(answer|tuples|plan|apart|dump) [0-9]+")
_LINE = re.compile(r"(ok)|(yes|no)|tuple ([0-9]+)|meet ([0-9]+) ([0-9]+)")
_REFUSED = re.compile(r"refused ([0-9]+) (.+)", re.DOTALL)
_CERTIFICATE = re.compile(r"([0-9]+) ([0-9]+) (?:text|:((?: -?[0-9]+)*))")
_STORED = re.compile(r"([0-9]+) (\{.*\})", re.DOTALL)
_FRACTION = r"-?[0-9]+(?:/[1-9][0-9]*)?"
_SPAN = re.compile(rf"([A-Za-z_][A-Za-z0-9_]*) in ([(\[])(-inf|{_FRACTION}), (inf|{_FRACTION})([)\]])")
_TUPLE = re.compile(r"\{ (?:(.*) )?\}", re.DOTALL)
_CONSTRAINT = re.compile(r"((?:[^',]|'[^']*')+)(?:, |\Z)")
_TEXT = re.compile(r"(\w+) (!?=) (?:'((?:[^']|'')*)'|([A-Za-z_]\w*))", re.ASCII)
_ROW = re.compile(r"(.*) (<=|>=|<|>|=) (-?[0-9]+)")
_TERM = re.compile(r"(- )?(?:([0-9]+)\*)?([A-Za-z_][A-Za-z0-9_]*)")
_SIGNS = {"<": (Sign.LESS, 1), "<=": (Sign.AT_MOST, 1), "=": (Sign.EQUAL, 1), ">": (Sign.LESS, -1), ">=": (Sign.AT_MOST, -1)}


def is_counted(line: str) -> bool:
    """Whether the line is the first one of a reply that goes on to a line `end`."""
    return _COUNTED.fullmatch(line) is not None


def is_refusal(line: str) -> bool:
    """Whether the line is a refusal."""
    return _REFUSED.fullmatch(line) is not None


def is_span(line: str) -> bool:
    """Whether the line is one of those with which `box` replies the bounds of columns."""
    return _SPAN.fullmatch(line) is not None


def read_refusal(line: str, statement: str, number: int) -> Refused:
    """The refusal of a statement that starts on the line of that number. Raises `NoReply` where the line is none."""
    found = _matched(_REFUSED, line)
    return Refused(int(found[1]), found[2], statement, number)


def read_reply(head: str, read_line: ReadLine, columns: Heading) -> Reply:
    """The reply, other than a refusal or one to `box`, that begins with this line. The columns are those of what was asked or
    shown, which no reply names. Raises `NoReply` where the lines are none, and what `read_line` raises."""
    if not is_counted(head):
        return _read_line(head)
    lines = []
    while (inner := read_line()) != "end":
        lines.append(inner)
    return _read_lines(head, lines, columns)


def read_spans(lines: list[str]) -> Spans:
    """The reply to `box`, whose lines these are. Raises `NoReply` where they are none."""
    if lines == ["empty"]:
        return Spans(None)
    if lines == ["no rational column"]:
        return Spans({})
    found = [_matched(_SPAN, line) for line in lines]
    spans = Spans({one[1]: Span(_bound(one[3], one[2] == "("), _bound(one[4], one[5] == ")")) for one in found})
    if spans.printed() != "".join(line + "\n" for line in lines):
        raise NoReply(f"no bounds of columns: {shortened(', '.join(lines))}")
    return spans


def read_tuple(text: str, columns: Heading) -> GeneralizedTuple:
    """The tuple over the columns that the program has written so. Raises `NoReply` where it is none."""
    body = _matched(_TUPLE, text)[1]
    parts = _CONSTRAINT.findall(body) if body else []
    found = GeneralizedTuple(columns, tuple(_read_constraint(part) for part in parts))
    if found.printed() != text:
        raise NoReply(f"no tuple: {shortened(text)}")
    return found


def _read_line(line: str) -> Reply:
    """A reply of one line."""
    found = _matched(_LINE, line)
    if found[1]:
        return Done()
    if found[2]:
        return Truth(line == "yes")
    return Number(int(found[3])) if found[3] else Meet(int(found[4]), int(found[5]))


def _read_lines(head: str, lines: list[str], columns: Heading) -> Reply:
    """A reply of several lines, of which the first one is the head."""
    match head.split(" ")[0]:
        case "answer":
            return Answer(columns, tuple(read_tuple(line, columns) for line in lines))
        case "tuples":
            stored = [_matched(_STORED, line) for line in lines]
            return Stored(columns, {int(one[1]): read_tuple(one[2], columns) for one in stored})
        case "apart":
            return Apart(tuple(_read_certificate(line) for line in lines))
        case "plan":
            return Plan(tuple(lines))
        case _:
            return Dump(tuple(lines))


def _read_certificate(line: str) -> Certificate:
    first, second, multipliers = _matched(_CERTIFICATE, line).groups()
    return Certificate(int(first), int(second), None if multipliers is None else tuple(map(int, multipliers.split())))


def _read_constraint(text: str) -> Constraint:
    found = _TEXT.fullmatch(text)
    if not found:
        return _read_row(text)
    column, sign, value, other = found.groups()
    if other:
        return TextPair(column, sign == "=", other)
    return TextValue(column, sign == "=", value.replace("''", "'"))


def _read_row(text: str) -> Row:
    left, comparison, right = _matched(_ROW, text).groups()
    sign, factor = _SIGNS[comparison]
    terms = [(name, int(times or 1) * (-factor if minus else factor)) for minus, times, name in _TERM.findall(left)]
    return Row(tuple(terms), sign, -int(right) * factor)


def _bound(text: str, is_open: bool) -> Bound | None:
    return None if text in ("-inf", "inf") else Bound(Fraction(text), is_open)


def _matched(pattern: re.Pattern[str], text: str) -> re.Match[str]:
    found = pattern.fullmatch(text)
    if not found:
        raise NoReply(f"no reply of Dedale: {shortened(text)}")
    return found
