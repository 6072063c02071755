"""The commands `export` and `area`: a script is run, and what it is answered is written as a map or a table."""
import sys
from typing import Sequence

from dedale.client import Dedale
from dedale.errors import DedaleError
from dedale.exporting import areas, geojson, rows_csv, wkt
from dedale.exporting.features import features_of, plane_named
from dedale.exporting.problems import Problem
from dedale.exporting.results import BadScript, Result, check_columns, run, scale_of
from dedale.exporting.words import Format, Words, read_words

FAILED = 1
UNREADABLE = 2


def main(arguments: Sequence[str]) -> int:
    """Runs the command `export` or `area` with its words, the first of which names it. Returns its exit status: 0, 1 where
    something couldn't be written, 2 where the script can't be read. Ends by `SystemExit` for bad words and for `--help`."""
    words = read_words(arguments)
    try:
        script = words.read_script()
    except OSError as error:
        return _fail(words, f"{words.script_name}: {error.strerror}", UNREADABLE)
    try:
        text, problems = _output(words, script)
    except BadScript as error:
        return _fail(words, error.printed(words.script_name), FAILED)
    except DedaleError as error:
        return _fail(words, str(error), FAILED)
    for problem in problems:
        print(problem.printed(words.script_name), file=sys.stderr)
    if problems and not words.skips:
        return _fail(words, "nothing is written; with --skip the rest is", FAILED)
    sys.stdout.flush()
    sys.stdout.buffer.write(text.encode("utf-8", "surrogateescape"))
    return FAILED if problems else 0


def _output(words: Words, script: bytes) -> tuple[str, list[Problem]]:
    """What is to be written, and what has no place in it, by the lines of the script. Raises `BadScript` and `DedaleError`."""
    scale = words.scale or scale_of(script)
    limit = () if words.limit is None else ("--limit", str(words.limit))
    with Dedale(words.program, limit, seconds=words.seconds) as db:
        results = run(db, script)
    check_columns(results.found, words.columns or ())
    if not results.found and not results.refusals:
        _tell(words, f"{words.script_name}: no query and no show is answered, so there is nothing to write")
    text, problems = _written(words, results.found, scale)
    return text, sorted(results.refusals + problems, key=lambda problem: problem.line)


def _written(words: Words, results: list[Result], scale: int) -> tuple[str, list[Problem]]:
    """The results in the format, and what has no place in it."""
    if words.format is Format.CSV:
        return rows_csv.csv_of(results, rows_csv.Style(scale, words.columns, words.for_spreadsheets))
    taken = {Format.WKT: wkt.GEOMETRY, Format.AREA: areas.AREA}.get(words.format)
    features = features_of(results, plane_named(words.columns), taken)
    if words.format is Format.GEOJSON:
        return geojson.collection(features, scale)
    write = wkt.csv_of if words.format is Format.WKT else areas.csv_of
    return write(features, scale), features.problems


def _fail(words: Words, text: str, status: int) -> int:
    _tell(words, text)
    return status


def _tell(words: Words, text: str) -> None:
    print(f"dedale-tools {words.command}: {text}", file=sys.stderr)
