"""Features of maps as inserts."""
from collections.abc import Sequence
from dataclasses import dataclass, field

from dedale.importing.constraints import Constraint, Scale
from dedale.importing.decimals import written
from dedale.importing.faults import Fault
from dedale.importing.records import Record
from dedale.importing.regions import Region, region_of
from dedale.importing.scripts import Check, Heading, Script, insert
from dedale.importing.shapes import Shape
from dedale.importing.values import Source, Values

LABEL_LENGTH = 60
"""The most characters of a value in a comment."""


@dataclass(frozen=True, slots=True)
class MapWords:
    """What is wanted of the import of a map: the columns with the sources of their values, the scale, the name of a
    relation for edges, and whether each feature is to be checked."""

    relation: str
    columns: Sequence[tuple[str, Source]]
    scale: Scale
    edges: str | None
    is_checked: bool

    def heading(self) -> Heading:
        """The relation that is written."""
        named = [(name, source.is_text) for name, source in self.columns]
        return Heading(self.relation, [*named, ("x", False), ("y", False)])


@dataclass
class MapImport:
    """Turns features into inserts of the constraints of their shapes."""

    words: MapWords
    values: Values
    script: Script
    _firsts: dict[tuple[str, ...], Record] = field(default_factory=dict)

    def __post_init__(self) -> None:
        heading = self.words.heading()
        self.script.has_decimals = self.words.scale.as_decimals
        self.script.comments.append(f"scale {self.words.scale.factor}")
        self.script.definitions.append(heading.statement())
        if self.words.edges:
            self.script.definitions.append(heading.statement(self.words.edges))

    def sources(self) -> list[Source]:
        """The columns of the file that it wants, but for the geometry."""
        return [source for _, source in self.words.columns]

    def add(self, record: Record) -> None:
        """Adds the inserts of a feature to the script, and its check. Raises `Fault`, and adds nothing, where the feature is
        bad."""
        values = tuple(self._value(record, source) for _, source in self.words.columns)
        region = region_of(self._shape(record), self.words.scale, self.words.edges is not None)
        if self.words.is_checked:
            self._check_once(record, values)
        tuples = self._inserts(self.words.relation, values, region.tuples)
        edges = self._inserts(self.words.edges, values, region.edges) if self.words.edges else []
        self.script.has_decimals |= any(
            "." in value for value, (_, source) in zip(values, self.words.columns) if not source.is_text
        )
        self.script.extend(self.words.relation, tuples)
        if self.words.edges:
            self.script.extend(self.words.edges, edges)
            self._add_check(record, values, region)

    def _value(self, record: Record, source: Source) -> str:
        if source.is_text:
            return self.values.text(record, source)
        return written(self.values.number(record, source))

    def _shape(self, record: Record) -> Shape:
        if record.read_shape is None:
            raise Fault("it has no geometry")
        return record.read_shape()

    def _check_once(self, record: Record, values: tuple[str, ...]) -> None:
        """Features are told apart by their values, so no two of them may have the same ones."""
        first = self._firsts.setdefault(values, record)
        if first is not record:
            raise Fault(f"its columns have the same values as those of {first.noun} {first.number} on line {first.line}, and "
                        "--check tells features apart by them")

    def _inserts(self, relation: str, values: Sequence[str], tuples: Sequence[Sequence[Constraint]]) -> list[str]:
        named = [f"{name} = {value}" for (name, _), value in zip(self.words.columns, values)]
        return [insert(relation, [*named, *map(self.words.scale.text, row)]) for row in tuples]

    def _add_check(self, record: Record, values: Sequence[str], region: Region) -> None:
        if self.words.is_checked and self.words.edges and region.edges:
            label = f"line {record.line}" + "".join(f", {value[:LABEL_LENGTH]}" for value in values[:1])
            self.script.checks.append(Check(self.words.relation, self.words.edges, label, values))
