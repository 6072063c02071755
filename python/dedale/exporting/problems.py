"""What keeps a statement, an answer or a tuple from being written."""
from dataclasses import dataclass


class Unwritable(Exception):
    """A tuple or an answer has no place in the format; the words say why."""


@dataclass(frozen=True)
class Problem:
    """Something that isn't written: the line of the script on which its statement starts, and why."""

    line: int
    words: str

    def printed(self, script: str) -> str:
        """The problem as one line, with the name of the script."""
        return f"{script}:{self.line}: {self.words}"
