"""The answers and stored tuples that a script gets when it is run."""
import re
from dataclasses import dataclass
from itertools import islice

from dedale.client import Dedale
from dedale.errors import Ended, TimeLimit
from dedale.exporting.problems import Problem
from dedale.replies import Answer, Refused, Reply, Stored
from dedale.statements import split
from dedale.tuples import Column, GeneralizedTuple, Heading

_SCALE = re.compile(rb"^-- scale ([1-9][0-9]*)\r?$", re.MULTILINE)


class BadScript(Exception):
    """A script can't be exported: why, and the line on which the statement starts that is at fault, where it is one."""

    def __init__(self, words: str, line: int | None = None) -> None:
        super().__init__(words)
        self.line = line

    def printed(self, script: str) -> str:
        """The words, behind the name of the script and the line."""
        return f"{script}: {self}" if self.line is None else f"{script}:{self.line}: {self}"


@dataclass(frozen=True)
class Result:
    """An answer or stored tuples, with the line of the script on which the statement starts."""

    line: int
    columns: Heading
    tuples: tuple[GeneralizedTuple, ...]

    def names(self, is_text: bool) -> list[str]:
        """The columns of texts, or the rational ones, in the order of the heading."""
        return [column.name for column in self.columns if column.is_text == is_text]

    def has_rational(self, names: tuple[str, ...]) -> bool:
        """Whether all of the names are rational columns."""
        return all(Column(name) in self.columns for name in names)

    def heading(self) -> str:
        """The heading as a script has it."""
        return "(" + ", ".join(column.printed() for column in self.columns) + ")"


@dataclass(frozen=True)
class Results:
    """What a script gets: the answers and stored tuples in order, and a problem for each statement that was refused."""

    found: list[Result]
    refusals: list[Problem]


def run(db: Dedale, script: bytes) -> Results:
    """Runs a script, and returns what its statements `query` and `show` were answered.
    Raises `BadScript` where a statement gets no reply, and what else `Dedale.run` raises."""
    results = Results([], [])
    for statement, reply in zip(split(script), _replies(db, script)):
        match reply:
            case Answer():
                results.found.append(Result(statement.line, reply.columns, reply.tuples))
            case Stored():
                results.found.append(Result(statement.line, reply.columns, tuple(reply.tuples.values())))
            case Refused():
                words = f"refused {reply.number} {reply.words}: {statement.shortened()}"
                results.refusals.append(Problem(statement.line, words))
    return results


def _replies(db: Dedale, script: bytes) -> list[Reply]:
    try:
        return db.run(script)
    except TimeLimit as error:
        raise BadScript(f"no reply within {error.seconds:g} s: {error.statement}", error.line) from error
    except Ended as error:
        statement = next(islice(split(script), len(error.replies), None))
        raise BadScript(f"{error}: {statement.shortened()}", statement.line) from error


def scale_of(script: bytes) -> int:
    """The number in the script's comment lines `-- scale N`, by which its coordinates were multiplied: 1 where there is none.
    Raises `BadScript` where there are two different ones."""
    scales = sorted({int(found) for found in _SCALE.findall(script)})
    if len(scales) > 1:
        raise BadScript(f"the script tells several scales: {', '.join(map(str, scales))}; give one by --scale")
    return scales[0] if scales else 1


def check_columns(results: list[Result], names: tuple[str, ...]) -> None:
    """Raises `BadScript` where there are results, and one of the names is a rational column of none of them."""
    for name in names:
        if results and not any(result.has_rational((name,)) for result in results):
            raise BadScript(f"no answer has a rational column {name}")
