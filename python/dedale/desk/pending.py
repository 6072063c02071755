"""Lines of input put together to statements."""
import re
from dataclasses import dataclass
from typing import Iterator

from dedale.statements import Statement, gap_length, piece_end, split

_TEXT_OR_COMMENT = re.compile(rb"'[^']*(?:'|\Z)|--[^\n]*")


@dataclass
class Pending:
    """What was read, and isn't a whole statement yet.

    `text_start` is the place in it of the quote from which a text goes on over its end, or none."""

    data: bytes = b""
    text_start: int | None = None
    _scanned: int = 0

    def add(self, line: bytes) -> Iterator[Statement]:
        """Takes a line, with its line feed if it has one, and gives the statements that end in it."""
        self.data += line
        while (end := piece_end(self.data, self._scanned)) is not None:
            piece, self.data, self._scanned = self.data[:end], self.data[end + 1 :], 0
            yield from split(piece + b";")
        self.text_start = _text_start(self.data, self._scanned)
        self._scanned = len(self.data) if self.text_start is None else self.text_start

    def rest(self) -> Iterator[Statement]:
        """Gives the statement that the end of the input cuts, where there is one."""
        data = self.data
        self.clear()
        yield from split(data)

    def clear(self) -> None:
        """Drops what was read."""
        self.data, self.text_start, self._scanned = b"", None, 0

    @property
    def is_blank(self) -> bool:
        """Whether there are blanks and comments alone."""
        return gap_length(self.data) == len(self.data)


def _text_start(data: bytes, start: int) -> int | None:
    """The place of a text that goes on over the end of the data. Neither a text nor a comment is open at `start`."""
    for found in _TEXT_OR_COMMENT.finditer(data, start):
        if found[0].startswith(b"'") and (found[0] == b"'" or not found[0].endswith(b"'")):
            return found.start()
    return None
