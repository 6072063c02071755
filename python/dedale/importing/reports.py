"""What the user is told on standard error, each line with the file, the line in it and the feature."""
import time
from collections.abc import Iterable, Iterator
from dataclasses import dataclass
from typing import TextIO

from dedale.importing.faults import FileFault
from dedale.importing.records import Record

SECONDS_BETWEEN = 2.0


@dataclass
class Report:
    """Writes what is wrong with an input to `stream`, and counts the bad features."""

    file: str
    stream: TextIO
    bad: int = 0

    def fault(self, record: Record, label: str, reason: str) -> None:
        """One feature is bad."""
        self.bad += 1
        self.note(record.line, f"{label}: {reason}")

    def file_fault(self, fault: FileFault) -> None:
        """The file can't be read."""
        self.bad += 1
        self.note(fault.line, str(fault))

    def warning(self, line: int | None, message: str) -> None:
        """Something is to be looked at, and nothing is left out."""
        self.note(line, f"warning: {message}")

    def note(self, line: int | None, message: str) -> None:
        """A message about a line of the file, or about all of it."""
        place = self.file if line is None else f"{self.file}:{line}"
        print(f"{place}: {message}", file=self.stream)

    def watched(self, records: Iterable[Record]) -> Iterator[Record]:
        """The same records; on a terminal their number is told every two seconds."""
        told = time.monotonic()
        for count, record in enumerate(records):
            if self.stream.isatty() and time.monotonic() - told > SECONDS_BETWEEN:
                told = time.monotonic()
                self.note(record.line, f"{count:,} read so far")
            yield record
