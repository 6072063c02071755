"""Features: the shapes of an answer, one for each of its texts."""
from dataclasses import dataclass

from dedale.exporting.pieces import Piece
from dedale.exporting.problems import Problem, Unwritable
from dedale.exporting.regions import piece_in
from dedale.exporting.results import Result
from dedale.exporting.shapes import Shape, union
from dedale.exporting.texts import Texts, texts_of
from dedale.tuples import GeneralizedTuple

Columns = tuple[str, str]


@dataclass(frozen=True)
class Feature:
    """The union of all tuples of an answer that have the same texts, and the line of the script on which its statement starts."""

    line: int
    texts: Texts
    shape: Shape


@dataclass(frozen=True)
class Features:
    """The features of answers, in the order in which their texts come first; the names of their columns of texts; and what has
    no place in them."""

    found: list[Feature]
    columns: list[str]
    problems: list[Problem]


def features_of(results: list[Result], columns: Columns | None, taken: str | None) -> Features:
    """The features of all results in the plane of two rational columns: the named ones, or else the first two of each
    heading. A result without such columns is a problem, or with a column of texts whose name the format has taken, and so is
    each tuple that isn't bounded in them, has several texts, or holds nowhere. A result without columns of texts is one
    feature, also where it has no tuple."""
    features = Features([], [], [])
    for result in results:
        plane = plane_of(result, columns)
        if plane is None:
            features.problems.append(Problem(result.line, f"no shape, as there {_missing(columns)}: {result.heading()}"))
        elif taken in result.names(is_text=True):
            words = f"a column of texts has the name {taken}, which the format needs; ask for it under another name"
            features.problems.append(Problem(result.line, words))
        else:
            _add(result, plane, features)
    return features


def plane_named(names: tuple[str, ...] | None) -> Columns | None:
    """The two columns that are named, or none where none are."""
    return (names[0], names[1]) if names else None


def plane_of(result: Result, columns: Columns | None) -> Columns | None:
    """The two columns of coordinates, or none where the result doesn't have them."""
    if columns is not None:
        return columns if result.has_rational(columns) else None
    names = result.names(is_text=False)
    return (names[0], names[1]) if len(names) > 1 else None


def _missing(columns: Columns | None) -> str:
    return f"aren't the rational columns {columns[0]} and {columns[1]}" if columns else "aren't two rational columns"


def _add(result: Result, plane: Columns, features: Features) -> None:
    """Adds the features of one result, its columns, and its problems."""
    columns = result.names(is_text=True)
    features.columns.extend(column for column in columns if column not in features.columns)
    pieces: dict[Texts, list[Piece]] = {} if columns or result.tuples else {(): []}
    for one in result.tuples:
        try:
            texts, piece = texts_of(one), piece_in(one, *plane)
            pieces.setdefault(texts, []).append(piece)
        except Unwritable as error:
            features.problems.append(problem_with(result, one, error))
    features.found.extend(Feature(result.line, texts, union(parts)) for texts, parts in pieces.items())


def problem_with(result: Result, one: GeneralizedTuple, error: Unwritable) -> Problem:
    """The problem that a tuple of a result isn't written."""
    return Problem(result.line, f"{error}: {one.printed()}")
