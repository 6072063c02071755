"""The command `annotate`: it says on which line of a script each refused statement stands."""
import argparse
import sys
from dataclasses import dataclass, field
from pathlib import Path
from typing import BinaryIO, Iterator, Sequence

from dedale.headings import Relations
from dedale.reading import is_counted, is_refusal, is_span
from dedale.statements import Statement, shortened, split

FAULTS = 1
UNREADABLE = 2

# the first words of the replies that a statement with this first word may get, besides a refusal
REPLIES = {
    "ask": {"yes", "no"},
    "box": {"empty"},
    "dedale": {"ok"},
    "delete": {"ok"},
    "disjoint": {"apart", "meet"},
    "drop": {"ok"},
    "dump": {"dump"},
    "explain": {"plan"},
    "insert": {"tuple"},
    "keep": {"ok"},
    "query": {"answer"},
    "relation": {"ok"},
    "show": {"tuples"},
    "verify": {"yes", "no"},
    "view": {"ok"},
}
BYTE_ORDER_MARK = "\ufeff".encode()
NO_COLUMN = "no rational column"


class Mismatch(Exception):
    """The replies aren't those to the script."""


@dataclass
class Annotator:
    """Matches the replies of a program with the statements of the script that it ran.

    `name` is that of the script, `replies` are the lines of the replies, and `shows_all` asks for each reply, and not for
    the refusals alone. `has_refusal` tells whether one was met."""

    name: str
    replies: Iterator[str]
    shows_all: bool = False
    has_refusal: bool = False
    _relations: Relations = field(default_factory=Relations)
    _has_told_text: bool = False

    def annotate(self, script: bytes) -> Iterator[str]:
        """The lines that tell the replies to the statements of the script, and guess what is wrong.
        Raises `Mismatch` where the replies aren't those to the script."""
        for statement in split(script):
            yield from self._annotate(statement)
        left = sum(1 for _ in self.replies)
        if left:
            raise Mismatch(f"{self.name}: no statement is left for the last {left} lines of replies: is this their script?")

    def _annotate(self, statement: Statement) -> Iterator[str]:
        """What there is to say of a statement."""
        lines = list(self._reply(statement))
        is_refused = is_refusal(lines[0])
        if lines[0] == "ok":
            self._relations.accept(statement)
        if is_refused or self.shows_all:
            yield f"{self._place(statement)}: {lines[0]}: {statement.shortened()}"
            yield from ("  " + line for line in lines[1:])
        if is_refused:
            self.has_refusal = True
            yield from self._guess(statement)

    def _guess(self, statement: Statement) -> Iterator[str]:
        """What may be wrong with a statement that was refused. Behind the first quote that is missing texts begin where they
        should end, so that nothing is said of further ones."""
        if statement.text.startswith(BYTE_ORDER_MARK):
            yield f"{self._place(statement)}: a byte order mark stands before this statement, and is no blank"
        line = statement.open_text_line
        if line and not self._has_told_text:
            self._has_told_text = True
            yield f"{self.name}:{line}: a text goes on over the end of this line: is a quote missing in it?"

    def _place(self, statement: Statement) -> str:
        return f"{self.name}:{statement.line}"

    def _reply(self, statement: Statement) -> Iterator[str]:
        """The lines of the reply to a statement."""
        line = next(self.replies, None)
        if line is None:
            raise Mismatch(f"{self._place(statement)}: no reply: {statement.shortened()}")
        yield line
        if not self._fits(line, statement):
            raise Mismatch(f"{self._place(statement)}: {shortened(line)}: this is no reply to: {statement.shortened()}")
        if is_counted(line):
            yield from self._until_end(statement)
        if is_span(line):
            yield from self._spans(statement)

    def _fits(self, line: str, statement: Statement) -> bool:
        """Whether a reply to the statement may begin with this line."""
        if is_refusal(line):
            return True
        if statement.is_long or not statement.is_finished:
            return False
        if statement.first_word == "box" and (is_span(line) or line == NO_COLUMN):
            return True
        return line.split(" ")[0] in REPLIES.get(statement.first_word, ())

    def _until_end(self, statement: Statement) -> Iterator[str]:
        """The lines of a reply that runs to a line `end`."""
        for line in self.replies:
            yield line
            if line == "end":
                return
        raise Mismatch(f"{self._place(statement)}: the reply has no end: {statement.shortened()}")

    def _spans(self, statement: Statement) -> Iterator[str]:
        """The further lines of a reply to `box`, which has one for each rational column."""
        columns = [one for one in self._relations.columns_of_reply(statement) if not one.is_text]
        for column in columns[1:]:
            line = next(self.replies, "")
            if not line.startswith(column.name + " in "):
                raise Mismatch(f"{self._place(statement)}: the bounds of {column.name} are missing: {statement.shortened()}")
            yield line


def main(arguments: Sequence[str]) -> int:
    """Runs the command with its words, the first of which is its name. The status is 0 where nothing was refused, 1 where
    something was or the replies don't match the script, and 2 where the script can't be read."""
    words = _parser().parse_args(arguments[1:])
    try:
        script = Path(words.script).read_bytes()
    except OSError as error:
        print(f"dedale-tools annotate: {words.script}: {error.strerror}", file=sys.stderr)
        return UNREADABLE
    annotator = Annotator(words.script, _lines(sys.stdin.buffer), words.all)
    try:
        for line in annotator.annotate(script):
            sys.stdout.buffer.write(line.encode("utf-8", "surrogateescape") + b"\n")
    except Mismatch as mismatch:
        sys.stdout.flush()
        print(mismatch, file=sys.stderr)
        return FAULTS
    return FAULTS if annotator.has_refusal else 0


def _parser() -> argparse.ArgumentParser:
    parser = argparse.ArgumentParser(
        prog="dedale-tools annotate",
        description="Tells the line of each statement that was refused. Standard input has the replies to the script: "
        "dedale < map.dedale | dedale-tools annotate map.dedale",
        epilog="status: 0 nothing was refused, 1 something was or the replies don't match, 2 bad words or an unreadable file",
    )
    parser.add_argument("script", help="the script that was run")
    parser.add_argument("--all", action="store_true", help="tell each reply, and not the refusals alone")
    return parser


def _lines(stream: BinaryIO) -> Iterator[str]:
    """The lines of a stream without their line feeds, and without the carriage returns that other systems put before these."""
    return (line.removesuffix(b"\n").removesuffix(b"\r").decode("utf-8", "surrogateescape") for line in stream)
