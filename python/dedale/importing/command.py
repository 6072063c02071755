"""`import`: tables and maps in, a script of Dedale out."""
import gc
import sys
from collections.abc import Iterable, Iterator, Sequence
from contextlib import contextmanager
from dataclasses import replace
from functools import partial
from pathlib import Path

from dedale.importing.faults import BadWords, Fault, FileFault, shown
from dedale.importing.geojson import read_geojson
from dedale.importing.maps import MapImport, MapWords
from dedale.importing.records import Record
from dedale.importing.regions import TooLong
from dedale.importing.reports import Report
from dedale.importing.scripts import Script
from dedale.importing.shapes import Shape
from dedale.importing.table_files import read_table
from dedale.importing.tables import TableImport
from dedale.importing.values import Source, Values
from dedale.importing.wkt import read_wkt
from dedale.importing.words import ImportWords, read_words

DONE, FAULTY, BAD_WORDS = 0, 1, 2


def main(arguments: Sequence[str]) -> int:
    """Runs `import`, the first of the words, with those behind it, from standard input to standard output. The status is 0
    where all was written, 1 where something in the file is bad, and 2 for words that can't be followed. Raises `OSError`
    where standard input or output fails."""
    try:
        words = read_words(arguments[1:])
    except BadWords as fault:
        print(f"dedale-tools import: {fault}", file=sys.stderr)
        return BAD_WORDS
    except SystemExit as end:
        return end.code if isinstance(end.code, int) else BAD_WORDS
    report = Report(words.file or "<stdin>", sys.stderr)
    with _no_collector():
        try:
            script = _imported(words, report)
        except FileFault as fault:
            report.file_fault(fault)
            script = None
        for line in script.lines() if script else ():
            sys.stdout.buffer.write(line.encode("utf-8") + b"\n")
    return FAULTY if report.bad else DONE


@contextmanager
def _no_collector() -> Iterator[None]:
    """Switches the search for cycles of objects off: an import makes none to speak of, and the search takes time that grows
    faster than the file."""
    was_enabled = gc.isenabled()
    gc.disable()
    try:
        yield
    finally:
        if was_enabled:
            gc.enable()


def _imported(words: ImportWords, report: Report) -> Script | None:
    """The script of what is good in the file, or None where something is bad and nothing is to be written."""
    script = Script()
    values = Values(report.warning)
    wanted = words.wanted
    importer: MapImport | TableImport
    if isinstance(wanted, MapWords):
        importer = MapImport(wanted, values, script)
    else:
        importer = TableImport(wanted.heading, wanted.pattern, values, script)
    sources = importer.sources()
    digits: list[int | None] = []
    for record in report.watched(_records(words, sources)):
        try:
            if record.fault:
                raise Fault(record.fault)
            importer.add(record)
        except Fault as fault:
            report.fault(record, _label(record, sources), str(fault))
            if isinstance(fault, TooLong):
                digits.append(fault.digits)
    if digits and None not in digits:
        report.note(None, f"no number would be too long with --digits {min(d for d in digits if d is not None)}")
    if report.bad and not words.skips:
        report.note(None, f"{report.bad} bad, so nothing is written; with --skip the others are")
        return None
    script.comments += values.units.comments()
    if script.limit_words():
        report.warning(None, script.limit_words())
    return script


def _records(words: ImportWords, sources: Sequence[Source]) -> Iterator[Record]:
    content = _content(words.file)
    if isinstance(words.wanted, MapWords) and words.wkt is None:
        yield from read_geojson(content)
        return
    table = read_table(content)
    names = [source.column for source in sources] + ([words.wkt] if words.wkt else [])
    missing = next((name for name in names if name not in table.columns), None)
    if missing is not None:
        hint = "; is it GeoJSON, which wants --geojson?" if table.columns[0].startswith(("{", "[")) else ""
        raise FileFault(f"there is no column {shown(missing)}, but {', '.join(map(shown, table.columns))}{hint}", 1)
    yield from _with_shapes(table.rows, words.wkt)


def _content(file: str | None) -> bytes:
    if file is None:
        return sys.stdin.buffer.read()
    try:
        return Path(file).read_bytes()
    except (OSError, ValueError) as error:
        raise FileFault(f"it can't be read: {getattr(error, 'strerror', None) or error}") from None


def _with_shapes(rows: Iterable[Record], wkt: str | None) -> Iterator[Record]:
    for record in rows:
        yield record if wkt is None else replace(record, read_shape=partial(_shape, record, wkt))


def _shape(record: Record, wkt: str) -> Shape:
    text = record.text(wkt)
    try:
        return read_wkt(text)
    except Fault as fault:
        raise Fault(f"{wkt}: {fault}") from None


def _label(record: Record, sources: Sequence[Source]) -> str:
    """What a record is called in messages: its first text and its number, the number alone where it has no text, and the
    text alone where it has a line of its own."""
    number = f"{record.noun} {record.number}"
    for source in sources:
        if source.is_text and isinstance(record.fields.get(source.column), str):
            text = shown(record.text(source.column))
            return text if record.noun == "row" else f"{number}, {text}"
    return number
