"""Scripts cut into statements, exactly as the program cuts them.

A statement ends at a `;` that stands in no text and in no comment. A text stands between quotes, a comment runs from `--`
to the end of its line. What follows the last `;` is a statement too, an unfinished one, unless it is blanks and comments
alone. All this is done on bytes, as scripts need not be UTF-8."""
import re
from dataclasses import dataclass
from functools import cached_property
from typing import Iterator

STATEMENT_BYTES = 65_536
"""The most bytes that may stand before the `;` of a statement, behind that of the statement before."""

CHANGING_WORDS = ("dedale", "delete", "drop", "insert", "keep", "relation", "view")
"""The words with which statements begin that change something where they are accepted."""

_MARK = re.compile(rb"'|--|;")
_GAP = re.compile(rb"(?:[ \t\n\r]|--[^\n]*(?:\n|\Z))*")
_TEXT_OR_COMMENT = re.compile(rb"'[^']*(?:'|\Z)|--[^\n]*")
_WORD = re.compile(rb"[A-Za-z_][A-Za-z0-9_]*")
_TOKEN = re.compile(rb"'(?:[^']|'')*'|[A-Za-z_][A-Za-z0-9_]*|[0-9][0-9.]*|:=|<=|>=|!=|.", re.DOTALL)


@dataclass(frozen=True)
class Statement:
    """A statement of a script.

    `piece` are its bytes without the `;`, with the blanks and comments before it, which count in its length. `line` and
    `column`, both from 1 on and the column in bytes, are where it starts behind these. `is_finished` is false where no `;`
    ends it."""

    piece: bytes
    line: int
    column: int
    is_finished: bool = True

    @cached_property
    def text(self) -> bytes:
        """The bytes without the `;` and without the blanks and comments before it."""
        return self.piece[gap_length(self.piece) :]

    @property
    def is_long(self) -> bool:
        """Whether it has more bytes than a statement may have."""
        return len(self.piece) > STATEMENT_BYTES

    @property
    def first_word(self) -> str:
        """The word that it begins with, empty where it begins with something else."""
        found = _WORD.match(self.text)
        return found[0].decode() if found else ""

    @property
    def is_change(self) -> bool:
        """Whether it changes something where it is accepted."""
        return self.first_word in CHANGING_WORDS

    @property
    def may_become_change(self) -> bool:
        """Whether it may be accepted and change something once more bytes follow. No text of a statement that is accepted goes on
        over the end of a line."""
        texts = (found[0] for found in _TEXT_OR_COMMENT.finditer(self.text) if found[0].startswith(b"'"))
        begins_so = self.is_change or any(word.encode().startswith(self.text) for word in CHANGING_WORDS)
        return begins_so and not any(b"\n" in text for text in texts)

    @property
    def open_text_line(self) -> int | None:
        """The line on which its first text begins that goes on over the end of its line, as texts do behind a missing quote."""
        at = 0
        while found := _TEXT_OR_COMMENT.search(self.text, at):
            if found[0].startswith(b"'") and (b"\n" in found[0] or not found[0].endswith(b"'") or found[0] == b"'"):
                return self.line + self.text.count(b"\n", 0, found.start())
            at = found.end()
        return None

    def tokens(self) -> Iterator[bytes]:
        """Its words, numbers, texts and signs, in order. What is no token of the language comes byte by byte."""
        at = 0
        while (at := at + gap_length(self.text, at)) < len(self.text):
            found = _TOKEN.match(self.text, at)
            assert found
            yield found[0]
            at = found.end()

    def shortened(self, length: int = 90) -> str:
        """Its text on one line of at most that many characters."""
        return shortened(self.text.decode("utf-8", "backslashreplace"), length)


def shortened(text: str, length: int = 90) -> str:
    """The text on one line of at most that many characters, with escapes for what can't be printed."""
    line = " ".join(text.split())
    line = "".join(one if one.isprintable() else one.encode("unicode_escape").decode() for one in line)
    return line if len(line) <= length else line[: length - 3] + "..."


def gap_length(data: bytes, start: int = 0) -> int:
    """How many bytes of blanks and comments stand at the place."""
    found = _GAP.match(data, start)
    assert found
    return found.end() - start


def split(script: bytes) -> Iterator[Statement]:
    """The statements of a script, in order."""
    start, line, column = 0, 1, 1
    while start < len(script):
        end = piece_end(script, start)
        piece = script[start : len(script) if end is None else end]
        gap = piece[: gap_length(piece)]
        if end is None and len(gap) == len(piece):
            return
        line, column = _moved(line, column, gap)
        yield Statement(piece, line, column, end is not None)
        line, column = _moved(line, column, piece[len(gap) :] + b";")
        start += len(piece) + 1


def piece_end(script: bytes, start: int) -> int | None:
    """The place of the `;` that ends the statement behind `start`, or none where no `;` ends it."""
    while found := _MARK.search(script, start):
        if found[0] == b";":
            return found.start()
        closing = script.find(b"'" if found[0] == b"'" else b"\n", found.end())
        if closing < 0:
            return None
        start = closing + 1
    return None


def _moved(line: int, column: int, data: bytes) -> tuple[int, int]:
    """The line and column behind these bytes."""
    feeds = data.count(b"\n")
    return line + feeds, len(data) - data.rfind(b"\n") if feeds else column + len(data)
