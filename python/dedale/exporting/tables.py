"""Tables of texts: a heading and lines, written as CSV."""
import csv
import io
from dataclasses import dataclass, field

Record = dict[str, str]

_RUN_BY_SPREADSHEETS = ("=", "+", "-", "@", "\t", "\r")


@dataclass
class Table:
    """Lines that have a cell under some of the headings. Headings stand in the order in which they are named first."""

    headings: list[str] = field(default_factory=list)
    records: list[Record] = field(default_factory=list)

    def name(self, heading: str) -> None:
        """Adds a heading, where there is no such one."""
        if heading not in self.headings:
            self.headings.append(heading)

    def add(self, record: Record) -> None:
        """Adds a line, and a heading for each of its cells that has none yet."""
        for heading in record:
            self.name(heading)
        self.records.append(record)

    def put_last(self, heading: str) -> None:
        """Makes the heading the last one, where there is such a one."""
        if heading in self.headings:
            self.headings.remove(heading)
            self.headings.append(heading)

    def csv(self) -> str:
        """The table as CSV (RFC 4180, but with line feeds alone), cells under other headings empty."""
        out = io.StringIO()
        writer = csv.DictWriter(out, self.headings, restval="", lineterminator="\n")
        if self.headings:
            writer.writeheader()
        writer.writerows(self.records)
        return out.getvalue()


def plain_cell(text: str) -> str:
    """A text that no spreadsheet takes for a formula: an apostrophe stands before one that begins as a formula does."""
    return f"'{text}" if text.startswith(_RUN_BY_SPREADSHEETS) else text
