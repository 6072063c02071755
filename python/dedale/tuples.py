"""Generalized tuples: conjunctions of linear constraints and constraints of texts over named columns."""
from dataclasses import dataclass
from fractions import Fraction

from dedale.polyhedra import Corner, Row, Span, corners, holds_somewhere, span


@dataclass(frozen=True)
class Column:
    """A column of a heading. `is_text` tells one of texts from one of rational numbers."""

    name: str
    is_text: bool = False

    def printed(self) -> str:
        """The column as a heading has it."""
        return f"{self.name} text" if self.is_text else self.name


Heading = tuple[Column, ...]


@dataclass(frozen=True)
class TextValue:
    """The column of texts is this text, or any other one where `is_equal` is false.

    Bytes of the text that are no UTF-8 stand in it as surrogates (the error handler `surrogateescape`)."""

    column: str
    is_equal: bool
    text: str

    def printed(self) -> str:
        """The constraint as the program writes it."""
        return f"{self.column} {'=' if self.is_equal else '!='} {quoted(self.text)}"


@dataclass(frozen=True)
class TextPair:
    """The two columns of texts have the same text, or different ones where `is_equal` is false."""

    column: str
    is_equal: bool
    other: str

    def printed(self) -> str:
        """The constraint as the program writes it."""
        return f"{self.column} {'=' if self.is_equal else '!='} {self.other}"


def quoted(text: str) -> str:
    """A text between quotes, each quote in it doubled."""
    return "'" + text.replace("'", "''") + "'"


Constraint = Row | TextValue | TextPair


@dataclass(frozen=True)
class GeneralizedTuple:
    """A conjunction of constraints over the columns of a heading. A column that no constraint names is free."""

    columns: Heading
    constraints: tuple[Constraint, ...]

    @property
    def rows(self) -> tuple[Row, ...]:
        """The constraints between numbers."""
        return tuple(one for one in self.constraints if isinstance(one, Row))

    @property
    def texts(self) -> tuple[TextValue | TextPair, ...]:
        """The constraints of texts."""
        return tuple(one for one in self.constraints if not isinstance(one, Row))

    def holds_somewhere(self) -> bool:
        """Whether there is a point at which all constraints hold."""
        return self._texts_hold() and holds_somewhere(self.rows)

    def text(self, column: str) -> str | None:
        """The one text that the column of texts has, or none where it may have several.
        Raises `KeyError` where the heading has no such column of texts."""
        self._check(column, is_text=True)
        return self._text(column)

    def span(self, column: str) -> Span | None:
        """The least interval that has all values of the rational column, or none where the tuple holds nowhere.
        Raises `KeyError` where the heading has no such rational column."""
        self._check(column, is_text=False)
        return span(self.rows, column) if self._texts_hold() else None

    def value(self, column: str) -> Fraction | None:
        """The one value of the rational column, or none where it has several or the tuple holds nowhere.
        Raises `KeyError` where the heading has no such rational column."""
        found = self.span(column)
        return found.value if found else None

    def corners(self, x: str, y: str) -> tuple[Corner, ...]:
        """The corners of the closure of the tuple's projection to two rational columns, counterclockwise, each once.
        There are none where the tuple holds nowhere, and may be none where it is unbounded.
        Raises `KeyError` where the heading has no such rational column, `ValueError` where it is the same one twice."""
        self._check(x, is_text=False)
        self._check(y, is_text=False)
        return corners(self.rows, x, y) if self._texts_hold() else ()

    def printed(self) -> str:
        """The tuple as the program writes it."""
        return "{ " + ", ".join(one.printed() for one in self.constraints) + " }" if self.constraints else "{ }"

    def _same(self, column: str) -> set[str]:
        """The columns of texts that are equal to this one, itself among them."""
        pairs = [{one.column, one.other} for one in self.texts if isinstance(one, TextPair) and one.is_equal]
        found = {column}
        for _ in pairs:
            found = found.union(*(pair for pair in pairs if pair & found))
        return found

    def _text(self, column: str) -> str | None:
        """The first text that the column is said to have."""
        same = self._same(column)
        values = (one for one in self.texts if isinstance(one, TextValue) and one.is_equal)
        return next((one.text for one in values if one.column in same), None)

    def _texts_hold(self) -> bool:
        """Whether there are texts at which all constraints of texts hold."""
        return all(self._allows(one) for one in self.texts)

    def _allows(self, one: TextValue | TextPair) -> bool:
        """Whether the constraint goes together with those that say that columns are equal, or have a text."""
        text = self._text(one.column)
        if isinstance(one, TextValue):
            return (text == one.text) == one.is_equal
        if one.is_equal:
            return True
        return one.other not in self._same(one.column) and (text is None or text != self._text(one.other))

    def _check(self, column: str, is_text: bool) -> None:
        if Column(column, is_text) not in self.columns:
            kind = "column of texts" if is_text else "rational column"
            raise KeyError(f"no {kind} {column}")
