"""The words of the command, as what they ask for."""
import argparse
from collections.abc import Sequence
from dataclasses import dataclass

from dedale.importing.columns import Sort, split_sort
from dedale.importing.constraints import Scale
from dedale.importing.decimals import MOST_DIGITS
from dedale.importing.faults import BadWords, shown
from dedale.importing.maps import MapWords
from dedale.importing.names import check_name, is_name, proposed_name
from dedale.importing.pattern import Pattern, checked_heading, equation, read_heading, read_pattern
from dedale.importing.scripts import Heading
from dedale.importing.values import Source

USUAL_DIGITS = 4

_DESCRIPTION = """Reads a table (CSV) or a map (CSV with a column of WKT, or GeoJSON) from standard input, and writes a script
of Dedale that makes it a relation. Where a feature or row is bad, nothing is written, each bad one is named with its line, and
the status is 1."""

_EPILOG = """A COLUMN is the name of a column or property, with what its fields stand for behind a colon: text (where nothing
is said), number, time (hh:mm is minutes, hh:mm:ss seconds; hours may pass 24), date (days since 1970-01-01), instant
(yyyy-mm-ddThh:mm:ss, with Z or an offset: seconds since 1970 in UTC). The last one, where nothing is said of it, or that with
:wkt is the geometry, but with --geojson. A map's relation has the columns x and y behind the others.
"""

_ROWS_EPILOG = """In the PATTERN stands {COLUMN}, or {COLUMN:SORT}, for a field: a number where nothing is said, or text, time,
date or instant. For example: import rows "Clock(zone text, utc, local)" "zone = {zone:text}, local = utc + {offset},
utc >= {from_utc}, utc < {to_utc}" < clocks.csv"""


@dataclass(frozen=True, slots=True)
class TableWords:
    """What is wanted of the import of a table."""

    heading: Heading
    pattern: Pattern


@dataclass(frozen=True, slots=True)
class ImportWords:
    """What is wanted of an import: of a table, of a map with a column of WKT, or, where `wkt` is None, of GeoJSON."""

    wanted: TableWords | MapWords
    wkt: str | None
    skips: bool
    file: str | None


def read_words(words: Sequence[str]) -> ImportWords:
    """What the words ask for. Raises `BadWords` where they contradict each other or the language, and `SystemExit`, as
    `argparse` does, for words that aren't known and for `--help`."""
    if words and words[0] == "rows":
        return _read_rows(words[1:])
    return _read_import(words)


def _parser(name: str, epilog: str) -> argparse.ArgumentParser:
    parser = argparse.ArgumentParser(prog=name, description=_DESCRIPTION, epilog=epilog, allow_abbrev=False)
    parser.add_argument("--skip", action="store_true", help="write the good features or rows though others are bad")
    parser.add_argument("--file", metavar="FILE", help="read this file and not standard input")
    return parser


def _read_rows(words: Sequence[str]) -> ImportWords:
    parser = _parser("dedale-tools import rows", _ROWS_EPILOG)
    parser.add_argument("heading", metavar="HEADING", help='the relation: "Clock(zone text, utc, local)"')
    parser.add_argument("pattern", metavar="PATTERN", help="the constraints of its tuples, with columns of the file in braces")
    given = parser.parse_args(words)
    heading = read_heading(given.heading)
    return ImportWords(TableWords(heading, read_pattern(given.pattern, heading)), None, given.skip, given.file)


def _import_parser() -> argparse.ArgumentParser:
    parser = _parser("dedale-tools import", _EPILOG)
    parser.add_argument("relation", metavar="RELATION", help="the name of the relation; `rows` for a pattern of the tuple")
    parser.add_argument("columns", metavar="COLUMN", nargs="*", help="a column or property, maybe with :SORT")
    parser.add_argument("--geojson", action="store_true", help="read GeoJSON and not CSV")
    parser.add_argument("--digits", type=int, metavar="N", help=f"round coordinates to N digits (usually {USUAL_DIGITS})")
    parser.add_argument("--decimals", action="store_true", help="write decimals, in language 2, and not scaled numbers")
    parser.add_argument("--edges", metavar="RELATION", help="write the edges of the rings as a second relation")
    parser.add_argument("--check", action="store_true", help="write two questions for each feature, both answered yes where "
                        "the border of what is imported is exactly its edges")
    parser.add_argument("--rename", metavar="OLD=NEW", action="append", default=[], help="give a column another name")
    return parser


def _read_import(words: Sequence[str]) -> ImportWords:
    given = _import_parser().parse_intermixed_args(words)
    relation = check_name(given.relation, "the relation")
    if not given.columns and not given.geojson:
        raise BadWords("no column is given: name those to import, and last that with the geometry as WKT, if there is one")
    renamed = _renamed(given.rename)
    sources = [Source(*split_sort(word, Sort.TEXT)) for word in given.columns]
    wkt = None if given.geojson else _wkt(given.columns, sources)
    if given.geojson and any(source.sort is Sort.WKT for source in sources):
        raise BadWords("with --geojson the geometry is that of the feature, and no column is :wkt")
    sources = [source for source in sources if source.column != wkt or source.sort is not Sort.WKT]
    columns = [(_column(source.column, renamed), source) for source in sources]
    if renamed:
        raise BadWords(f"--rename: there is no column {shown(next(iter(renamed)))} among those that are imported")
    if wkt is None and not given.geojson:
        return ImportWords(_table(given, relation, columns), None, given.skip, given.file)
    return ImportWords(_map(given, relation, columns), wkt, given.skip, given.file)


def _renamed(words: Sequence[str]) -> dict[str, str]:
    found: dict[str, str] = {}
    for word in words:
        old, equals, new = word.rpartition("=")
        if not equals or not is_name(new):
            would = f": {shown(proposed_name(new))} would do" if equals and new else ""
            raise BadWords(f"--rename {shown(word)}: OLD=NEW is wanted, NEW a name in Dedale{would}")
        found[old] = new
    return found


def _wkt(words: Sequence[str], sources: list[Source]) -> str | None:
    """The column of the geometry: that which says so, or the last one where that has no sort, which gets it by this."""
    if sources and ":" not in words[-1] and not any(source.sort is Sort.WKT for source in sources):
        sources[-1] = Source(sources[-1].column, Sort.WKT)
    found = [source.column for source in sources if source.sort is Sort.WKT]
    if len(found) > 1:
        raise BadWords(f"{len(found)} columns are :wkt, and a relation has one geometry")
    return found[0] if found else None


def _column(name: str, renamed: dict[str, str]) -> str:
    if name in renamed:
        return renamed.pop(name)
    if not is_name(name):
        raise _no_name(name, "is no name in Dedale" if proposed_name(name) != name + "_" else "is reserved in Dedale")
    return name


def _no_name(name: str, why: str) -> BadWords:
    return BadWords(f"the column {shown(name)} {why}: give it another one, such as --rename {_shell(name, proposed_name(name))}")


def _shell(old: str, new: str) -> str:
    word = f"{old}={new}"
    return word if word.replace("=", "").replace("_", "").isalnum() else "'" + word.replace("'", "'\\''") + "'"


def _table(given: argparse.Namespace, relation: str, columns: Sequence[tuple[str, Source]]) -> TableWords:
    for word in ("digits", "decimals", "edges", "check"):
        if getattr(given, word) not in (None, False):
            raise BadWords(f"--{word} is for maps, and no column is the geometry (as in: wkt, or geometry:wkt)")
    heading = checked_heading(Heading(relation, [(name, source.is_text) for name, source in columns]))
    return TableWords(heading, [equation(name, source) for name, source in columns])


def _map(given: argparse.Namespace, relation: str, columns: Sequence[tuple[str, Source]]) -> MapWords:
    digits = USUAL_DIGITS if given.digits is None else given.digits
    if not 0 <= digits <= MOST_DIGITS:
        raise BadWords(f"--digits {digits}: 0 to {MOST_DIGITS} are possible")
    if given.check and not given.edges:
        raise BadWords("--check wants --edges, the name of a relation for the edges to check against")
    if given.edges is not None:
        check_name(given.edges, "the relation of the edges")
        if given.edges == relation:
            raise BadWords(f"--edges {relation}: the edges want a relation of their own")
    for name, source in columns:
        if name in ("x", "y"):
            raise BadWords(f"the column {shown(source.column)} would have the name of a coordinate: give it another one, "
                           f"such as --rename {_shell(source.column, name + '_')}")
    found = MapWords(relation, columns, Scale(digits, given.decimals), given.edges, given.check)
    checked_heading(found.heading())
    return found
