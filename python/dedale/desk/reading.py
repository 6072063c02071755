"""What stands in a statement, with the places of its parts."""
from dataclasses import dataclass, field
from typing import Mapping

from dedale.desk.tokens import Token
from dedale.tuples import Column, Heading

Scope = Mapping[str, bool]
"""The variables that quantifiers around a place bind, each with whether it is one of texts."""


@dataclass(frozen=True)
class Operand:
    """A side of a comparison, or an argument: a text, or a sum, which may be a lone name.

    `names` are the variables in it."""

    first: Token
    is_text: bool
    is_lone: bool
    names: tuple[Token, ...]


@dataclass(frozen=True)
class Comparison:
    """Two operands compared."""

    left: Operand
    sign: Token
    right: Operand
    scope: Scope

    def operands(self) -> tuple[Operand, ...]:
        """Both sides."""
        return (self.left, self.right)


@dataclass(frozen=True)
class Atom:
    """A relation or view, its closure or its interior, of these arguments."""

    name: Token
    arguments: tuple[Operand, ...]
    scope: Scope

    def operands(self) -> tuple[Operand, ...]:
        """The arguments."""
        return self.arguments


Leaf = Comparison | Atom


@dataclass
class Reading:
    """What is read of a statement: its first word, the names that stand beside that, the number of a `delete`, the columns
    of its heading, and the comparisons and atoms of its formula or tuple."""

    word: str = ""
    names: list[Token] = field(default_factory=list)
    number: Token | None = None
    columns: list[tuple[Token, bool]] = field(default_factory=list)
    leaves: list[Leaf] = field(default_factory=list)

    @property
    def heading(self) -> Heading:
        """The columns, without their places."""
        return tuple(Column(name.text, is_text) for name, is_text in self.columns)
