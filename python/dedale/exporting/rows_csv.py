"""Answers as CSV: one line for each tuple, with texts, numbers and intervals."""
from dataclasses import dataclass
from fractions import Fraction
from math import gcd

from dedale.exporting.features import problem_with
from dedale.exporting.numbers import decimal, exact, interval
from dedale.exporting.problems import Problem, Unwritable
from dedale.exporting.results import Result
from dedale.exporting.tables import Record, Table, plain_cell
from dedale.exporting.texts import texts_of
from dedale.polyhedra import Bound, Row, Span, holds_somewhere
from dedale.tuples import GeneralizedTuple

TIES = "tied by"
"""The heading of the constraints between columns. No column has this name, as it has a blank."""


@dataclass(frozen=True)
class Style:
    """How cells are written: `scaled` are the columns to be divided by the scale, or else the first two rational ones of
    each heading that has two; `for_spreadsheets` has texts quoted that a spreadsheet would run, and fractions rounded, which
    it would take for dates."""

    scale: int
    scaled: tuple[str, ...] | None
    for_spreadsheets: bool


def csv_of(results: list[Result], style: Style) -> tuple[str, list[Problem]]:
    """All tuples of the results as one table, and a problem for each that holds nowhere or has several texts in a column."""
    table, problems = Table(), []
    for result in results:
        for column in result.columns:
            table.name(column.name)
        for one in result.tuples:
            try:
                table.add(_record(result, one, style))
            except Unwritable as error:
                problems.append(problem_with(result, one, error))
    table.put_last(TIES)
    return table.csv(), problems


def _record(result: Result, one: GeneralizedTuple, style: Style) -> Record:
    """The cells of a tuple. Raises `Unwritable` where it holds nowhere or has several texts in a column."""
    texts, scales = dict(texts_of(one)), _scales(result, style)
    spans = {name: _scaled_span(span, scales.get(name, 1)) for name, span in _spans(result, one).items()}
    record = {
        column.name: _text_cell(texts[column.name], style) if column.is_text else _number_cell(spans[column.name], style)
        for column in result.columns
    }
    ties = [_scaled_row(row, scales).printed() for row in one.rows if _is_tie(row, spans)]
    if ties:
        record[TIES] = _text_cell(", ".join(ties), style)
    return record


def _scales(result: Result, style: Style) -> dict[str, int]:
    """By what the columns of a result are divided, where that isn't 1."""
    names = result.names(is_text=False)
    scaled = names[:2] if style.scaled is None and len(names) > 1 else style.scaled or ()
    return {name: style.scale for name in scaled if name in names}


def _spans(result: Result, one: GeneralizedTuple) -> dict[str, Span]:
    """The span of each rational column. Raises `Unwritable` where the tuple holds nowhere."""
    spans = {name: one.span(name) for name in result.names(is_text=False)}
    found = {name: span for name, span in spans.items() if span is not None}
    if len(found) < len(spans) or not spans and not holds_somewhere(one.rows):
        raise Unwritable("it holds nowhere")
    return found


def _scaled_span(span: Span, scale: int) -> Span:
    """The values of a span divided by the scale."""
    low, high = (bound and Bound(bound.value / scale, bound.is_open) for bound in (span.low, span.high))
    return Span(low, high)


def _scaled_row(row: Row, scales: dict[str, int]) -> Row:
    """The row that columns satisfy when they are divided by their scales, in lowest terms."""
    terms = [(name, times * scales.get(name, 1)) for name, times in row.terms]
    divisor = gcd(row.constant, *(times for _, times in terms))
    return Row(tuple((name, times // divisor) for name, times in terms), row.sign, row.constant // divisor)


def _is_tie(row: Row, spans: dict[str, Span]) -> bool:
    """Whether the row names several columns that aren't of one value."""
    return sum(spans[name].value is None for name, _ in row.terms) > 1


def _text_cell(text: str, style: Style) -> str:
    return plain_cell(text) if style.for_spreadsheets else text


def _number_cell(span: Span, style: Style) -> str:
    value: Fraction | None = span.value
    if value is None:
        return interval(span)
    written = exact(value)
    return decimal(value) if style.for_spreadsheets and "/" in written else written
