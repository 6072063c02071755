"""The script of a database: its changes, and what is left without the last of them."""
from typing import Iterator

from dedale.statements import Statement, gap_length, split


def changes_of(script: bytes) -> Iterator[Statement]:
    """The finished statements of a script that change something."""
    return (one for one in split(script) if one.is_finished and one.is_change)


def script_of(changes: Iterator[Statement]) -> bytes:
    """A script of these statements."""
    return b"".join(one.text + b";\n" for one in changes)


def without_last_change(script: bytes) -> tuple[bytes, Statement] | None:
    """The script without its last change, and that statement; none where there is no change. Comments and questions stay where
    they are, but for a statement at the end that was cut short, which is left out."""
    found: tuple[int, Statement] | None = None
    end = 0
    for statement in split(script):
        if not statement.is_finished:
            script = script[:end]
            break
        if statement.is_change:
            found = end, statement
        end += len(statement.piece) + 1
    if not found:
        return None
    start, change = found
    stop = start + len(change.piece) + 1
    return script[: start + _kept_length(change.piece[: gap_length(change.piece)])] + script[stop:], change


def _kept_length(gap: bytes) -> int:
    """How much stays of the blanks and comments before a statement that is taken off: all but a line feed at their end, with which
    a journal begins each statement, unless that ends a comment."""
    _, _, last_line = gap[:-1].rpartition(b"\n")
    return len(gap) - (gap.endswith(b"\n") and b"--" not in last_line)
