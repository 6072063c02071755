"""The values of fields, as scripts have them."""
import unicodedata
from collections.abc import Callable
from dataclasses import dataclass, field
from decimal import Decimal

from dedale.importing.columns import Sort, Units
from dedale.importing.faults import Fault, shown
from dedale.importing.names import quoted
from dedale.importing.records import Record


@dataclass(frozen=True, slots=True)
class Source:
    """A column of the file, and what its fields stand for."""

    column: str
    sort: Sort

    @property
    def is_text(self) -> bool:
        """Whether its values are texts, and not numbers."""
        return self.sort is Sort.TEXT


@dataclass
class Values:
    """Reads fields. `warn` is told of texts that look the same and aren't: by the line of the later one and in words."""

    warn: Callable[[int, str], None]
    units: Units = field(default_factory=Units)
    _texts: dict[tuple[str, str], tuple[str, int]] = field(default_factory=dict)

    def text(self, record: Record, source: Source) -> str:
        """The text in a field, between quotes. Raises `Fault` where a script can't have it."""
        text = record.text(source.column)
        try:
            value = quoted(text)
        except Fault as fault:
            raise Fault(f"{source.column}: {fault}") from None
        before, line = self._texts.setdefault((source.column, unicodedata.normalize("NFC", text)), (text, record.line))
        if before != text:
            self.warn(record.line, f"{shown(source.column)} {shown(text)} and that of line {line} differ in Unicode normal "
                                   "form alone: Dedale takes them for two texts")
        return value

    def number(self, record: Record, source: Source) -> Decimal:
        """The number that a field stands for. Raises `Fault` where it stands for none, or for one too long."""
        text = record.text(source.column)
        try:
            return self.units.number(text, source.sort)
        except Fault as fault:
            raise Fault(f"{source.column}: {fault}") from None
