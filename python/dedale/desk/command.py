"""The command `desk`: its words, and how it begins and ends."""
import argparse
import os
import re
import signal
import sys
from io import TextIOWrapper
from pathlib import Path
from types import FrameType
from typing import Iterator, Sequence

from dedale.desk.catalogue import Catalogue
from dedale.desk.database import BadScript, Database
from dedale.desk.desk import Desk
from dedale.desk.files import FileError, telling
from dedale.desk.refusals import refusal_lines
from dedale.desk.sources import HISTORY_NAME, source
from dedale.desk.state import State
from dedale.desk.texts import shown
from dedale.desk.words import BadWord, seconds_of
from dedale.errors import DedaleError
from dedale.replies import Refused

FAILED = 1
UNREADABLE = 2
SIGNALLED = 128
SECONDS = 30.0
MOST_REFUSALS = 10
"""How many of the refusals in a file are told."""

CUT = "no `;` ends this statement, so it is left out, and the next change takes its place"

_DESCRIPTION = f"""A person at a terminal, over a database in a file: statements are typed, and answers are shown as tables.

FILE is a script. It is made where it isn't there; else what changes something in it is run first. Each accepted change stands in
it, and is on the disk, before its reply is shown. Lines that begin with a backslash are words of the desk: \\help lists them.
What is typed at a terminal is kept in ~/{HISTORY_NAME}. Without a terminal, standard input is read without a prompt."""
_STATUS = """Status: 0; 1 where FILE has a refused statement or the program isn't found, and without a terminal where something was
refused or wasn't done; 2 bad words or an unreadable file."""


def main(arguments: Sequence[str]) -> int:
    """Runs the command with its words, the first of which is its name, and returns its exit status. Ends by `SystemExit` for bad
    words and for `--help`."""
    words = _parser().parse_args(arguments[1:])
    for stream, errors in ((sys.stdin, "surrogateescape"), (sys.stdout, "backslashreplace"), (sys.stderr, "backslashreplace")):
        assert isinstance(stream, TextIOWrapper)
        stream.reconfigure(encoding="utf-8", errors=errors)
    limit = () if words.limit is None else ("--limit", str(words.limit))
    for one in (signal.SIGHUP, signal.SIGTERM):
        signal.signal(one, _end)
    path = Path(os.path.realpath(words.file))
    try:
        _check_kind(path, words.file)
        database = Database(path, words.program, limit)
    except BadScript as error:
        for line in _bad_script(words.file, error):
            print(shown(line), file=sys.stderr)
        return FAILED
    except FileError as error:
        return _fail(str(error), UNREADABLE)
    except DedaleError as error:
        return _fail(str(error), FAILED)
    if database.cut:
        print(f"{shown(words.file)}:{database.cut.line}: {CUT}: {database.cut.shortened()}", file=sys.stderr)
    try:
        return Desk(State(database, limit, words.seconds), source()).run()
    except DedaleError as error:
        return _fail(str(error), FAILED)
    finally:
        database.close()


def _parser() -> argparse.ArgumentParser:
    parser = argparse.ArgumentParser(
        prog="dedale-tools desk",
        description=_DESCRIPTION,
        epilog=_STATUS,
        formatter_class=argparse.RawDescriptionHelpFormatter,
        allow_abbrev=False,
    )
    helps = f"the longest that a reply may take; else {SECONDS:g}"
    parser.add_argument("--seconds", type=_seconds, default=SECONDS, metavar="S", help=helps)
    parser.add_argument("--program", metavar="PATH", help="the program; else DEDALE, dedale on PATH, or that of the clone")
    parser.add_argument("--limit", type=_whole, metavar="N", help="the most tuples of a relation, as for the program")
    parser.add_argument("file", metavar="FILE", help="the file of the database")
    return parser


def _whole(text: str) -> int:
    if not re.fullmatch("[1-9][0-9]{0,17}", text, re.ASCII):
        raise argparse.ArgumentTypeError(f"a whole number above 0, and not {text!r}")
    return int(text)


def _seconds(text: str) -> float:
    try:
        return seconds_of(text)
    except BadWord as error:
        raise argparse.ArgumentTypeError(str(error)) from error


def _check_kind(path: Path, name: str) -> None:
    """Raises `FileError` where the file with this name isn't a regular one, or can't be looked for."""
    with telling(path):
        is_other = path.exists() and not path.is_file()
    if is_other:
        raise FileError(f"{shown(name)}: it is no regular file")


def _bad_script(name: str, error: BadScript) -> Iterator[str]:
    """The lines that tell which statements of the file are refused, and why."""
    catalogue = Catalogue()
    count = 0
    for statement, reply in error.exchanges:
        if not isinstance(reply, Refused):
            catalogue.accept(statement)
            continue
        count += 1
        if count <= MOST_REFUSALS:
            head, *lines = refusal_lines(statement, reply, catalogue)
            yield f"{name}:{statement.line}: {head}"
            yield from lines
    if count > MOST_REFUSALS:
        yield f"{name}: {count - MOST_REFUSALS} more statements are refused"


def _fail(text: str, status: int) -> int:
    """Tells an error, and returns the status."""
    print(f"dedale-tools desk: {text}", file=sys.stderr)
    return status


def _end(number: int, frame: FrameType | None) -> None:
    """Ends the desk for a signal, so that the program that it runs is ended too."""
    raise SystemExit(SIGNALLED + number)
