"""The one text that a tuple has in each column of texts."""
from typing import Iterable

from dedale.exporting.problems import Unwritable
from dedale.tuples import GeneralizedTuple, TextPair, TextValue

Texts = tuple[tuple[str, str], ...]
"""Columns of texts, each with its text, in the order of the heading."""


def texts_of(one: GeneralizedTuple) -> Texts:
    """The text in each column of texts of a tuple, also where another column that is the same tells it.
    Raises `Unwritable` where a column may have several texts, or none."""
    columns = [column.name for column in one.columns if column.is_text]
    same = _same_columns(columns, one.texts)
    found: dict[str, str] = {}
    for constraint in one.texts:
        if isinstance(constraint, TextValue) and constraint.is_equal:
            if found.setdefault(same[constraint.column], constraint.text) != constraint.text:
                raise Unwritable("it holds nowhere")
    values = {column: found.get(same[column]) for column in columns}
    if any(_is_false(constraint, values, same) for constraint in one.texts if not constraint.is_equal):
        raise Unwritable("it holds nowhere")
    for column, text in values.items():
        if text is None:
            raise Unwritable(f"{column} isn't one text")
    return tuple((column, text) for column, text in values.items() if text is not None)


def printed(texts: Texts) -> str:
    """The texts as constraints."""
    return ", ".join(TextValue(column, True, text).printed() for column, text in texts)


def _same_columns(columns: list[str], constraints: Iterable[TextValue | TextPair]) -> dict[str, str]:
    """For each column, one that stands for all that have the same text by the equations between columns."""
    same = {column: column for column in columns}
    for constraint in constraints:
        if isinstance(constraint, TextPair) and constraint.is_equal:
            old, new = same[constraint.column], same[constraint.other]
            same = {column: new if standing == old else standing for column, standing in same.items()}
    return same


def _is_false(constraint: TextValue | TextPair, values: dict[str, str | None], same: dict[str, str]) -> bool:
    """Whether a constraint by `!=` can't hold with these texts."""
    value = values[constraint.column]
    if isinstance(constraint, TextValue):
        return value == constraint.text
    return same[constraint.column] == same[constraint.other] or value is not None and value == values[constraint.other]
