"""Patterns of tuples: the constraints of an insert, with the columns of a file in braces."""
import re
from collections.abc import Iterator, Mapping, Sequence
from dataclasses import dataclass
from decimal import Decimal

from dedale.importing.columns import Sort, split_sort
from dedale.importing.decimals import constraint_fits, digits_behind_point, must_fit, scaled, written
from dedale.importing.faults import BadWords, Fault, shown
from dedale.importing.names import check_name
from dedale.importing.records import Record
from dedale.importing.scripts import MOST_COLUMNS, Heading
from dedale.importing.values import Source, Values

_TOKEN = re.compile(
    r"""\s* (?: <=|>=|!=|[<>=+*,-]  # a sign
              | \{[^{}]*\}          # a field
              | '(?:[^']|'')*'      # a text
              | \d+(?:\.\d+)?       # a number
              | [A-Za-z_]\w* )      # a name""",
    re.ASCII | re.VERBOSE,
)
_HEADING = re.compile(r"\s*(\w+)\s*\((.*)\)\s*", re.ASCII | re.DOTALL)
_SIGNS = ("<=", ">=", "!=", "<", ">", "=")


@dataclass(frozen=True, slots=True)
class Term:
    """A number, which the pattern has or a field gives, with a sign, maybe times a column of the relation."""

    is_negative: bool
    number: Decimal | Source
    column: str | None

    def value(self, record: Record, values: Values) -> Decimal:
        """The number with its sign."""
        number = self.number if isinstance(self.number, Decimal) else values.number(record, self.number)
        return -number if self.is_negative else number


@dataclass(frozen=True, slots=True)
class Comparison:
    """Two sums and the sign between them."""

    left: Sequence[Term]
    sign: str
    right: Sequence[Term]

    def text(self, record: Record, values: Values) -> str:
        """The comparison of one record. Raises `Fault` where the program wouldn't take it."""
        sides = [[(term.value(record, values), term.column) for term in side] for side in (self.left, self.right)]
        _check_numbers(*sides)
        left, right = map(_written_sum, sides)
        return f"{left} {self.sign} {right}"

    def sources(self) -> Iterator[Source]:
        """The columns of the file that it wants."""
        return (term.number for side in (self.left, self.right) for term in side if isinstance(term.number, Source))


@dataclass(frozen=True, slots=True)
class TextComparison:
    """Two texts and the sign between them. A text that the file doesn't give is as the script has it."""

    left: str | Source
    sign: str
    right: str | Source

    def text(self, record: Record, values: Values) -> str:
        """The comparison of one record."""
        left, right = (side if isinstance(side, str) else values.text(record, side) for side in (self.left, self.right))
        return f"{left} {self.sign} {right}"

    def sources(self) -> Iterator[Source]:
        """The columns of the file that it wants."""
        return (side for side in (self.left, self.right) if isinstance(side, Source))


Pattern = Sequence[Comparison | TextComparison]


def equation(name: str, source: Source) -> Comparison | TextComparison:
    """The comparison by which a column of the relation has the value of a field."""
    if source.is_text:
        return TextComparison(name, "=", source)
    return Comparison([Term(False, Decimal(1), name)], "=", [Term(False, source, None)])


def _check_numbers(left: Sequence[tuple[Decimal, str | None]], right: Sequence[tuple[Decimal, str | None]]) -> None:
    total: dict[str | None, Decimal] = {None: Decimal(0)}
    for side, sign in ((left, 1), (right, -1)):
        for number, column in side:
            must_fit(number)
            total[column] = total.get(column, Decimal(0)) + sign * number
    numbers = [number for number, _ in (*left, *right)]
    digits = max(map(digits_behind_point, numbers))
    numerators = [scaled(number, digits) for number in numbers]
    if not constraint_fits(digits, (), numerators, [scaled(number, digits) for number in total.values()]):
        raise Fault("a number of its constraints would be 2^63 or more")


def _written_sum(terms: Sequence[tuple[Decimal, str | None]]) -> str:
    text = ""
    for number, column in terms:
        sign = ("-" if number < 0 else "") if not text else (" - " if number < 0 else " + ")
        size = written(abs(number))
        text += sign + (size if column is None else column if size == "1" else f"{size}*{column}")
    return text


def read_heading(text: str) -> Heading:
    """The heading that a text spells as a script does, `Clock(zone text, utc)`. Raises `BadWords` for another text."""
    found = _HEADING.fullmatch(text)
    if not found:
        raise BadWords(f"the heading {shown(text)} isn't spelled as in: Clock(zone text, utc)")
    columns = []
    for column in found[2].split(","):
        words = column.split() or [""]
        if words[1:] not in ([], ["text"]):
            raise BadWords(f"the heading has the column {shown(column.strip())}, and NAME or NAME text is wanted")
        columns.append((check_name(words[0], "the column"), len(words) == 2))
    return checked_heading(Heading(check_name(found[1], "the relation"), columns))


def checked_heading(heading: Heading) -> Heading:
    """The heading, where the program takes it. Raises `BadWords` for too many columns, and for one that stands twice."""
    names = [name for name, _ in heading.columns]
    twice = next((name for name in names if names.count(name) > 1), None)
    if twice is not None:
        raise BadWords(f"the relation would have two columns {shown(twice)}")
    if not 1 <= len(names) <= MOST_COLUMNS:
        raise BadWords(f"the relation would have {len(names)} columns, and 1 to {MOST_COLUMNS} are possible")
    return heading


def read_pattern(text: str, heading: Heading) -> Pattern:
    """The constraints that a text spells as an insert does, between commas. Raises `BadWords` for another text, for names
    that are no columns of the heading, and where a text stands for a number or a number for a text."""
    return _PatternReader(text, dict(heading.columns)).pattern()


class _PatternReader:
    """The tokens of a pattern, and how far they are read."""

    def __init__(self, text: str, columns: Mapping[str, bool]) -> None:
        self._columns = columns
        self._tokens: list[str] = []
        place = 0
        while text[place:].strip():
            found = _TOKEN.match(text, place)
            if not found:
                raise BadWords(f"the pattern isn't understood from {shown(text[place:].strip())} on")
            self._tokens.append(found.group().strip())
            place = found.end()
        self._next = 0

    def pattern(self) -> Pattern:
        """All constraints."""
        found = [self._comparison()]
        while self._peek() == ",":
            self._take()
            found.append(self._comparison())
        if self._peek():
            raise self._fault("a comma or the end")
        return found

    def _peek(self) -> str:
        return self._tokens[self._next] if self._next < len(self._tokens) else ""

    def _take(self) -> str:
        token = self._peek()
        self._next += 1
        return token

    def _fault(self, wanted: str) -> BadWords:
        place = f"where {shown(self._peek())} stands" if self._peek() else "at its end"
        return BadWords(f"{wanted} is wanted in the pattern {place}")

    def _sign(self) -> str:
        if self._peek() not in _SIGNS:
            raise self._fault("one of < <= = != >= >")
        return self._take()

    def _comparison(self) -> Comparison | TextComparison:
        if self._is_text():
            left, sign = self._text(), self._sign()
            if sign not in ("=", "!="):
                raise BadWords(f"texts are compared by = and != alone, not by {sign}, in the pattern")
            if not self._is_text():
                raise self._fault("a text")
            return TextComparison(left, sign, self._text())
        terms, sign = self._sum(), self._sign()
        if sign == "!=":
            raise BadWords("numbers of a tuple aren't compared by !=, in the pattern")
        return Comparison(terms, sign, self._sum())

    def _is_text(self) -> bool:
        token = self._peek()
        if token.startswith("{"):
            return self._source(token).is_text
        return token.startswith("'") or self._columns.get(token, False)

    def _text(self) -> str | Source:
        token = self._take()
        return self._source(token) if token.startswith("{") else token

    def _source(self, token: str) -> Source:
        name, sort = split_sort(token[1:-1].strip(), Sort.NUMBER)
        if sort is Sort.WKT:
            raise BadWords(f"{token} is a geometry, and stands in no pattern")
        return Source(name, sort)

    def _sum(self) -> list[Term]:
        is_negative = self._peek() == "-"
        if is_negative:
            self._take()
        terms = [self._term(is_negative)]
        while self._peek() in ("+", "-"):
            terms.append(self._term(self._take() == "-"))
        return terms

    def _term(self, is_negative: bool) -> Term:
        token = self._peek()
        if token in self._columns and not self._columns[token]:
            return Term(is_negative, Decimal(1), self._take())
        number: Decimal | Source
        if token.startswith("{") and not self._is_text():
            number = self._source(self._take())
        elif token[:1].isdigit():
            number = Decimal(self._take())
        else:
            raise self._fault("a number, a column of numbers or {..}")
        if self._peek() != "*":
            return Term(is_negative, number, None)
        self._take()
        if self._columns.get(self._peek(), True):
            raise self._fault("a column of numbers")
        return Term(is_negative, number, self._take())
