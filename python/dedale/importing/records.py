"""What files are read into: one record for each row or feature."""
from collections.abc import Callable, Mapping
from dataclasses import dataclass

from dedale.importing.faults import Fault, shown
from dedale.importing.shapes import Shape

NAMES_SHOWN = 5
"""The most names of fields in a message."""


@dataclass(frozen=True, slots=True)
class Record:
    """A row of a table, or a feature of a map.

    `line` is the line of the file on which it begins and `number` its place among all, both from 1 on; `noun` says what it
    is. `fault` says what is wrong with all of it, where something is. `read_shape` gives its geometry or raises `Fault`."""

    noun: str
    line: int
    number: int
    fields: Mapping[str, object]
    read_shape: Callable[[], Shape] | None = None
    fault: str = ""

    def text(self, name: str) -> str:
        """The field as the file has it; numbers of GeoJSON in their digits, truth values as `true` and `false`. Raises
        `Fault` where there is none."""
        if name not in self.fields:
            others = ", ".join(map(shown, list(self.fields)[:NAMES_SHOWN])) or "nothing"
            raise Fault(f"it has no {shown(name)}, but {others}{', ..' * (len(self.fields) > NAMES_SHOWN)}")
        value = self.fields[name]
        if isinstance(value, bool):
            return "true" if value else "false"
        if not isinstance(value, str):
            raise Fault(f"{shown(name)} is {'null' if value is None else 'no text and no number'}")
        return value
