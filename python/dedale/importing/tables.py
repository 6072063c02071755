"""Rows of tables as inserts."""
from dataclasses import dataclass

from dedale.importing.pattern import Comparison, Pattern
from dedale.importing.records import Record
from dedale.importing.scripts import Heading, Script, insert
from dedale.importing.values import Source, Values


@dataclass
class TableImport:
    """Turns records into inserts by a pattern of the tuple."""

    heading: Heading
    pattern: Pattern
    values: Values
    script: Script

    def __post_init__(self) -> None:
        self.script.definitions.append(self.heading.statement())

    def sources(self) -> list[Source]:
        """The columns of the file that it wants."""
        return [source for comparison in self.pattern for source in comparison.sources()]

    def add(self, record: Record) -> None:
        """Adds the insert of a record to the script. Raises `Fault`, and adds nothing, where the record is bad."""
        numbers, parts = [], []
        for comparison in self.pattern:
            parts.append(comparison.text(record, self.values))
            if isinstance(comparison, Comparison):
                numbers.append(parts[-1])
        statement = insert(self.heading.relation, parts)
        self.script.has_decimals |= any("." in number for number in numbers)
        self.script.extend(self.heading.relation, [statement])
