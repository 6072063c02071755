"""Scripts: what stands at their head, their inserts and their questions."""
from collections import Counter
from collections.abc import Iterator, Sequence
from dataclasses import dataclass, field

from dedale.importing.faults import Fault

LONGEST_STATEMENT = 65_000
"""The most bytes of a statement that is written; the program reads 65,536, also counting what is blank before it."""

MOST_COLUMNS = 16
USUAL_LIMIT = 100_000
GREATEST_LIMIT = 1_000_000


@dataclass(frozen=True, slots=True)
class Heading:
    """A relation: its name and its columns, each with whether it has texts."""

    relation: str
    columns: Sequence[tuple[str, bool]]

    def statement(self, relation: str | None = None) -> str:
        """The statement that defines it, maybe under another name."""
        columns = ", ".join(f"{name} text" if is_text else name for name, is_text in self.columns)
        return f"relation {relation or self.relation}({columns});"


def insert(relation: str, parts: Sequence[str]) -> str:
    """The statement that inserts the tuple of some constraints. Raises `Fault` where it would be too long."""
    statement = f"insert {relation} {{ {', '.join(parts)} }};"
    length = len(statement.encode("utf-8"))
    if length > LONGEST_STATEMENT:
        raise Fault(f"a statement of {length:,} bytes would be too long: at most {LONGEST_STATEMENT:,} are written")
    return statement


@dataclass(frozen=True, slots=True)
class Check:
    """The questions whether the border of what was imported of a feature is exactly its edges.

    `values` are the values of its columns but for `x` and `y`."""

    relation: str
    edges: str
    label: str
    values: Sequence[str]

    def lines(self, number: int) -> Iterator[str]:
        """The questions, between two views and their end; `number` tells the views apart from others."""
        piece, border = self._view("piece", number), self._view("border", number)
        arguments = ", ".join([*self.values, "x", "y"])
        yield f"-- {self.label}"
        yield f"view {piece}(x, y) := {self.relation}({arguments});"
        yield f"view {border}(x, y) := closure({piece})(x, y) and not interior({piece})(x, y);"
        yield f"ask forall x forall y ({border}(x, y) implies {self.edges}({arguments}));"
        yield f"ask forall x forall y ({self.edges}({arguments}) implies {border}(x, y));"
        yield f"drop {border};"
        yield f"drop {piece};"

    def _view(self, what: str, number: int) -> str:
        """A name that is neither that of the relation nor that of its edges, nor too long."""
        name = f"{self.relation[:40]}_{what}_{number}"
        while name in (self.relation, self.edges):
            name += "_"
        return name


@dataclass
class Script:
    """A script that grows with the features of a file."""

    has_decimals: bool = False
    comments: list[str] = field(default_factory=list)
    definitions: list[str] = field(default_factory=list)
    inserts: list[str] = field(default_factory=list)
    counts: Counter[str] = field(default_factory=Counter)
    checks: list[Check] = field(default_factory=list)

    def extend(self, relation: str, inserts: Sequence[str]) -> None:
        """Adds inserts into one relation."""
        self.inserts += inserts
        self.counts[relation] += len(inserts)

    def lines(self) -> Iterator[str]:
        """Its lines, in order, without line feeds."""
        if self.has_decimals:
            yield "dedale 2;"
        yield from (f"-- {comment}" for comment in self.comments)
        yield from self.definitions
        yield from self.inserts
        for number, check in enumerate(self.checks, 1):
            yield from check.lines(number)

    def limit_words(self) -> str:
        """What to tell where a relation of so many tuples wants `--limit`, or nothing."""
        most = max(self.counts.values(), default=0)
        if most <= USUAL_LIMIT:
            return ""
        if most > GREATEST_LIMIT:
            return f"{most:,} tuples of a relation are written, and a program holds at most {GREATEST_LIMIT:,}"
        return f"{most:,} tuples of a relation are written: run them with --limit {most}"
