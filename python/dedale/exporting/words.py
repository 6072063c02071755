"""The words of the commands `export` and `area`, as what they ask for."""
import argparse
import re
import sys
from dataclasses import dataclass
from enum import Enum
from pathlib import Path
from typing import Sequence

STANDARD_INPUT = "-"

_EXPORT = """Runs a script, and writes the tuples of its answers (query) and relations (show) as a map or a table.

wkt, geojson: all tuples of an answer that have the same texts are one feature, the closure of their union: without edges where
  they touch, and once where they overlap. wkt is CSV: the texts, and a column wkt, whose numbers are exact up to 17 digits.
  geojson has texts as properties; its numbers are the nearest doubles, which is exact up to 15 digits. Columns that are neither
  texts nor the two coordinates are projected away.
csv: a line for each tuple. A number is exact (2.5, 1/3), several are an interval ([480, 540), (-inf, 3]). Constraints between
  columns stand in a last column, "tied by".
Coordinates are divided by N where the script has a comment line `-- scale N`, as import writes it.
"""
_AREA = """Runs a script, and writes the exact areas of the tuples of its answers (query) and relations (show), as CSV: a line for
each of an answer's texts. What several tuples hold counts once. Where the script has a comment line `-- scale N`, as import
writes it, areas are divided by the square of N.
"""
_STATUS = """A statement that is refused, and a tuple that can't be written (it has no bounds or several texts, or holds nowhere),
is told on standard error with the line of the statement; then nothing else is written, or with --skip all the rest.
Status: 0 all was written, 1 something wasn't, 2 bad words or an unreadable script."""


class Format(Enum):
    """What is written."""

    WKT = "wkt"
    GEOJSON = "geojson"
    CSV = "csv"
    AREA = "area"


@dataclass(frozen=True)
class Words:
    """What is wanted.

    `columns` are those of coordinates, where they are named, and `scale` is a whole number above 0 by which they are divided,
    where it isn't to be taken from the script. `skips` asks for the rest where something can't be written. `program`, `limit`
    and `seconds` are for the client."""

    command: str
    format: Format
    script: str
    columns: tuple[str, ...] | None
    scale: int | None
    skips: bool
    for_spreadsheets: bool
    program: str | None
    limit: int | None
    seconds: float | None

    @property
    def script_name(self) -> str:
        """What messages call the script."""
        return "standard input" if self.script == STANDARD_INPUT else self.script

    def read_script(self) -> bytes:
        """The script. Raises `OSError`."""
        return sys.stdin.buffer.read() if self.script == STANDARD_INPUT else Path(self.script).read_bytes()


def read_words(arguments: Sequence[str]) -> Words:
    """What the words ask for, of which the first one is `export` or `area`. Ends by `SystemExit`, as `argparse` does, for
    words that aren't known or contradict each other, and for `--help`."""
    parser = _parser(arguments[0])
    given = parser.parse_args(arguments[1:])
    wanted = Format(given.format)
    if given.spreadsheet and wanted is not Format.CSV:
        parser.error("--spreadsheet is for --format csv")
    if given.columns is not None and wanted is not Format.CSV and len(given.columns) != 2:
        parser.error("--columns takes two columns")
    return Words(
        arguments[0], wanted, given.script, given.columns, given.scale, given.skip, given.spreadsheet,
        given.program, given.limit, given.seconds,
    )


def _parser(command: str) -> argparse.ArgumentParser:
    is_export = command == "export"
    parser = argparse.ArgumentParser(
        prog=f"dedale-tools {command}",
        description=_EXPORT if is_export else _AREA,
        epilog=_STATUS,
        formatter_class=argparse.RawDescriptionHelpFormatter,
        allow_abbrev=False,
    )
    parser.set_defaults(format=Format.AREA.value, spreadsheet=False)
    if is_export:
        kinds = (Format.WKT.value, Format.GEOJSON.value, Format.CSV.value)
        parser.add_argument("--format", required=True, choices=kinds, help="what is written")
        helps = "with csv: quote texts that a spreadsheet would run, and round fractions, which it takes for dates"
        parser.add_argument("--spreadsheet", action="store_true", help=helps)
    parser.add_argument("--columns", type=_names, metavar="X,Y", help="the coordinates; else the first two rational columns")
    parser.add_argument("--scale", type=_whole, metavar="N", help="the scale, whatever the script tells")
    parser.add_argument("--skip", action="store_true", help="write the rest where something can't be written")
    parser.add_argument("--program", metavar="PATH", help="the program; else DEDALE, dedale on PATH, or that of the clone")
    parser.add_argument("--limit", type=_whole, metavar="N", help="the most tuples of a relation, as for the program")
    parser.add_argument("--seconds", type=_seconds, metavar="S", help="the longest that a statement may take")
    parser.add_argument("script", nargs="?", default=STANDARD_INPUT, help="a file, or - for standard input")
    return parser


def _names(text: str) -> tuple[str, ...]:
    names = tuple(text.split(","))
    if len(set(names)) < len(names) or not all(re.fullmatch(r"[A-Za-z_]\w*", name, re.ASCII) for name in names):
        raise argparse.ArgumentTypeError(f"different columns with commas between them, and not {text!r}")
    return names


def _whole(text: str) -> int:
    if not re.fullmatch("[1-9][0-9]{0,17}", text):
        raise argparse.ArgumentTypeError(f"a whole number above 0, and not {text!r}")
    return int(text)


def _seconds(text: str) -> float:
    if not re.fullmatch(r"[0-9]{1,9}(\.[0-9]{1,9})?", text) or not float(text):
        raise argparse.ArgumentTypeError(f"a number of seconds above 0, and not {text!r}")
    return float(text)
