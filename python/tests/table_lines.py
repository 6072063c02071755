"""The lines of tables as the documents define them, from tuples that the package has read."""
from collections.abc import Collection
from fractions import Fraction

from dedale.polyhedra import Bound, Row, Span
from dedale.tuples import Column, GeneralizedTuple, Heading, TextPair, TextValue

DIGITS_BEHIND_POINT = 9


def titles(columns: Heading) -> str:
    """The line of the columns."""
    return "\t".join(column.printed() for column in columns)


def possible_lines(one: GeneralizedTuple) -> list[str]:
    """The lines that may be written for a tuple: that with its bounds, and where these may be too wide, that without."""
    return [exact_line(one), wide_line(one)] if may_be_wide(one) else [exact_line(one)]


def exact_line(one: GeneralizedTuple) -> str:
    """The line of a tuple whose bounds are told."""
    if not one.holds_somewhere():
        return "\t".join([f"{column.name} nowhere" for column in one.columns] + _ties(one, fixed=(), least=2))
    spans = {column.name: one.span(column.name) for column in one.columns if not column.is_text}
    cells = [_cell(one, column, spans.get(column.name)) for column in one.columns]
    fixed = [name for name, span in spans.items() if span and span.value is not None]
    return "\t".join(cells + _ties(one, fixed, least=2))


def wide_line(one: GeneralizedTuple) -> str:
    """The line of a tuple whose bounds aren't told, as they may be too wide."""
    cells = [_texts(one, column) if column.is_text else f"{column.name} wide" for column in one.columns]
    return "\t".join(cells + _ties(one, fixed=(), least=1))


def may_be_wide(one: GeneralizedTuple) -> bool:
    """Whether the bounds of the tuple may be too wide."""
    lengths = [number.bit_length() for row in one.rows for number in (row.constant, *dict(row.terms).values())]
    rational = sum(1 for column in one.columns if not column.is_text)
    is_narrow = (max(lengths, default=0) + 1) * 2**rational <= 128
    return not is_narrow and not all(_is_order_row(row) for row in one.rows)


def value_text(value: Fraction) -> str:
    """A value: a decimal where it has few digits behind the point, else a fraction."""
    shifted = value * 10**DIGITS_BEHIND_POINT
    if value.denominator == 1 or shifted.denominator != 1:
        return str(value)
    whole, behind = divmod(abs(shifted.numerator), 10**DIGITS_BEHIND_POINT)
    digits = f"{behind:0{DIGITS_BEHIND_POINT}}".rstrip("0")
    return f"{'-' if value < 0 else ''}{whole}.{digits}"


def _is_order_row(row: Row) -> bool:
    """Whether the row compares one column with a number, or two of them with each other."""
    return len(row.terms) < 2 or row.constant == 0 and sorted(times for _, times in row.terms) == [-1, 1]


def _cell(one: GeneralizedTuple, column: Column, span: Span | None) -> str:
    """The cell of a column in a tuple that holds somewhere. The span is that of a rational one."""
    if not span:
        return _texts(one, column)
    if span.value is not None:
        return f"{column.name}={value_text(span.value)}"
    return f"{column.name} in {_end(span.low, '([', '-inf')}, {_end(span.high, ')]', 'inf')}"


def _end(bound: Bound | None, brackets: str, infinite: str) -> str:
    """An end of an interval, with the round or the square one of the brackets, which stands outside of the value."""
    bracket = brackets[0] if not bound or bound.is_open else brackets[1]
    value = value_text(bound.value) if bound else infinite
    return bracket + value if bracket in "([" else value + bracket


def _texts(one: GeneralizedTuple, column: Column) -> str:
    """The cell of a column of texts: the texts that it is said to be, or not to be."""
    said = [text for text in one.texts if isinstance(text, TextValue) and text.column == column.name]
    return ", ".join(f"{column.name}{'=' if text.is_equal else '!='}{text.text}" for text in said) or f"{column.name} any"


def _ties(one: GeneralizedTuple, fixed: Collection[str], least: int) -> list[str]:
    """What stands behind the cells: pairs of columns of texts, and the rows with at least so many columns that aren't fixed."""
    return [
        constraint.printed()
        for constraint in one.constraints
        if isinstance(constraint, TextPair)
        or isinstance(constraint, Row)
        and sum(1 for name, _ in constraint.terms if name not in fixed) >= least
    ]
