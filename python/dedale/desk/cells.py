"""What the table of an answer says of a tuple: a cell for each column, and what ties columns to each other.

The words are those of `dedale_table`, but that a cell of one value has that value alone, and texts stand in quotes."""
from dataclasses import dataclass
from fractions import Fraction

from dedale.desk.texts import shown
from dedale.exporting.numbers import exact, interval
from dedale.polyhedra import Row, Span
from dedale.tuples import Column, GeneralizedTuple, TextPair, TextValue, quoted


@dataclass(frozen=True)
class Cells:
    """A tuple: a text for each column, and the constraints that tie columns to each other."""

    columns: tuple[str, ...]
    ties: tuple[str, ...]


def cells_of(one: GeneralizedTuple) -> Cells:
    """The cells of a tuple."""
    if not one.holds_somewhere():
        return Cells(tuple(f"{column.name} nowhere" for column in one.columns), _ties(one, frozenset()))
    spans = {column.name: one.span(column.name) for column in one.columns if not column.is_text}
    fixed = frozenset(name for name, span in spans.items() if span and span.value is not None)
    return Cells(tuple(_cell(one, column, spans.get(column.name)) for column in one.columns), _ties(one, fixed))


def span_text(name: str, span: Span) -> str:
    """The interval of a column."""
    return f"{name} in {_interval(span)}"


def _interval(span: Span) -> str:
    """The interval, with both its bounds also where it has one value."""
    value: Fraction | None = span.value
    return interval(span) if value is None else f"[{exact(value)}, {exact(value)}]"


def _cell(one: GeneralizedTuple, column: Column, span: Span | None) -> str:
    """The cell of a column in a tuple that holds somewhere. The span is that of a rational one."""
    if span:
        return exact(span.value) if span.value is not None else span_text(column.name, span)
    text = one.text(column.name)
    if text is not None:
        return shown(quoted(text))
    others = [text for text in one.texts if isinstance(text, TextValue) and text.column == column.name]
    return shown(", ".join(text.printed() for text in others)) or f"{column.name} any"


def _ties(one: GeneralizedTuple, fixed: frozenset[str]) -> tuple[str, ...]:
    """The constraints between columns of more than one value."""
    return tuple(constraint.printed() for constraint in one.constraints if _is_tie(one, constraint, fixed))


def _is_tie(one: GeneralizedTuple, constraint: object, fixed: frozenset[str]) -> bool:
    if isinstance(constraint, Row):
        return sum(1 for name, _ in constraint.terms if name not in fixed) >= 2
    return isinstance(constraint, TextPair) and (one.text(constraint.column) is None or one.text(constraint.other) is None)
