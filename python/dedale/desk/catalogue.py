"""The relations and views of a database, as told by the statements that were accepted."""
from dataclasses import dataclass, field, replace
from typing import Iterable

from dedale.desk.grammar import NoStatement, TooDeep, read
from dedale.desk.reading import Reading
from dedale.statements import Statement
from dedale.tuples import Heading

NAMING_WORDS = ("drop", "keep", "relation", "view")
"""The words of the statements that change which names there are, or what is told of them."""


@dataclass(frozen=True)
class Entry:
    """A relation or a view, by its name and heading. `is_kept` tells of a view that its answer is held as a list."""

    name: str
    columns: Heading
    is_view: bool
    is_kept: bool = False

    def printed(self) -> str:
        """The entry as a line."""
        kind = ("kept view" if self.is_kept else "view") if self.is_view else "relation"
        return f"{kind} {self.name}({', '.join(column.printed() for column in self.columns)})"

    def question(self) -> str:
        """The statement, without its `;`, that is answered by its tuples."""
        if not self.is_view:
            return f"show {self.name}"
        heading = ", ".join(column.printed() for column in self.columns)
        return f"query ({heading}) : {self.name}({', '.join(column.name for column in self.columns)})"


@dataclass
class Catalogue:
    """The names that are defined, in the order of their definitions, and whether the language is 2."""

    entries: dict[str, Entry] = field(default_factory=dict)
    is_second: bool = False

    def accept(self, statement: Statement) -> None:
        """Takes note of a statement that the program has accepted."""
        if statement.first_word == "dedale":
            self.is_second = True
        elif statement.first_word in NAMING_WORDS:
            try:
                self._accept(read(statement.text, self.is_second))
            except (NoStatement, TooDeep):
                pass

    def _accept(self, reading: Reading) -> None:
        name = reading.names[0].text
        match reading.word:
            case "drop":
                self.entries.pop(name, None)
            case "keep" if name in self.entries:
                self.entries[name] = replace(self.entries[name], is_kept=True)
            case "relation" | "view":
                self.entries[name] = Entry(name, reading.heading, reading.word == "view")


def catalogue_of(changes: Iterable[Statement]) -> Catalogue:
    """The catalogue that these accepted statements make."""
    catalogue = Catalogue()
    for statement in changes:
        catalogue.accept(statement)
    return catalogue
