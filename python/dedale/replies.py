"""The replies of the program, as values. `printed` of each gives the lines that the program writes for it."""
from dataclasses import dataclass
from typing import Mapping, Sequence

from dedale.errors import DedaleError
from dedale.polyhedra import Span
from dedale.statements import shortened
from dedale.tuples import GeneralizedTuple, Heading


@dataclass(frozen=True)
class Done:
    """`ok`: the statement was carried out."""

    def printed(self) -> str:
        """The line of the reply."""
        return "ok\n"


@dataclass(frozen=True)
class Number:
    """`tuple K`: the number that the inserted tuple was given."""

    number: int

    def printed(self) -> str:
        """The line of the reply."""
        return f"tuple {self.number}\n"


@dataclass(frozen=True)
class Truth:
    """`yes` or `no`."""

    holds: bool

    def printed(self) -> str:
        """The line of the reply."""
        return "yes\n" if self.holds else "no\n"


@dataclass(frozen=True)
class Answer:
    """The reply to `query`: a point over the columns is in the answer exactly where one of the tuples holds."""

    columns: Heading
    tuples: tuple[GeneralizedTuple, ...]

    def printed(self) -> str:
        """The lines of the reply."""
        return _counted("answer", [one.printed() for one in self.tuples])


@dataclass(frozen=True)
class Stored:
    """The reply to `show`: the tuples of a relation under their numbers, in ascending order."""

    columns: Heading
    tuples: Mapping[int, GeneralizedTuple]

    def printed(self) -> str:
        """The lines of the reply."""
        return _counted("tuples", [f"{number} {one.printed()}" for number, one in self.tuples.items()])


@dataclass(frozen=True)
class Spans:
    """The reply to `box`: the least interval of each rational column of a relation, or none where it has no point.

    A relation with points but without a rational column has no spans."""

    spans: Mapping[str, Span] | None

    def printed(self) -> str:
        """The lines of the reply."""
        if self.spans is None:
            return "empty\n"
        return "".join(f"{name} in {one.printed()}\n" for name, one in self.spans.items()) or "no rational column\n"


@dataclass(frozen=True)
class Plan:
    """The reply to `explain`: the nodes of a plan, two blanks for each level before them."""

    nodes: tuple[str, ...]

    def printed(self) -> str:
        """The lines of the reply."""
        return _counted("plan", self.nodes)


@dataclass(frozen=True)
class Certificate:
    """Why two tuples, by their numbers, have no common point: by these multipliers of their rows, or by their texts
    where there are none."""

    first: int
    second: int
    multipliers: tuple[int, ...] | None

    def printed(self) -> str:
        """The line of the certificate."""
        proof = "text" if self.multipliers is None else " ".join([":", *map(str, self.multipliers)])
        return f"{self.first} {self.second} {proof}"


@dataclass(frozen=True)
class Apart:
    """The reply to `disjoint` for relations without a common point: a certificate for each pair of tuples."""

    certificates: tuple[Certificate, ...]

    def printed(self) -> str:
        """The lines of the reply."""
        return _counted("apart", [one.printed() for one in self.certificates])


@dataclass(frozen=True)
class Meet:
    """The reply to `disjoint` for relations with a common point: the numbers of the first tuples that share one."""

    first: int
    second: int

    def printed(self) -> str:
        """The line of the reply."""
        return f"meet {self.first} {self.second}\n"


@dataclass(frozen=True)
class Dump:
    """The reply to `dump`: the lines of a script that makes the same catalogue again."""

    lines: tuple[str, ...]

    def printed(self) -> str:
        """The lines of the reply."""
        return _counted("dump", self.lines)


# Not frozen, since an exception gets its traceback while it is raised; nothing else sets a field.
@dataclass(unsafe_hash=True)
class Refused(DedaleError):
    """A refusal: its number and words, the statement, and the line of the script on which that starts, from 1 on.

    It is a reply, and it is raised where one statement alone was asked."""

    number: int
    words: str
    statement: str
    line: int = 1

    def printed(self) -> str:
        """The line of the reply."""
        return f"refused {self.number} {self.words}\n"

    def __str__(self) -> str:
        return f"line {self.line}: refused {self.number} {self.words}: {shortened(self.statement)}"


Reply = Done | Number | Truth | Answer | Stored | Spans | Plan | Apart | Meet | Dump | Refused


def _counted(word: str, lines: Sequence[str]) -> str:
    """A reply of several lines behind their count."""
    return "\n".join([f"{word} {len(lines)}", *lines, "end\n"])
