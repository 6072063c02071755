"""What may go wrong between a caller and the program. A refusal is `replies.Refused`."""
from __future__ import annotations

from typing import TYPE_CHECKING

from dedale.statements import shortened

if TYPE_CHECKING:
    from dedale.replies import Reply


class DedaleError(Exception):
    """Any error of this package."""


class NoProgram(DedaleError):
    """The program isn't found, or can't be started."""


class NoReply(DedaleError):
    """What the program wrote is no reply of Dedale."""


class Interrupted(DedaleError):
    """A statement got no reply.

    What was accepted before is in the database that the next statement finds, and the statement itself changed nothing.
    `replies` are those to the statements of the same call before it."""

    replies: tuple[Reply, ...] = ()


class Ended(Interrupted):
    """The program ended by itself, with this status; one below 0 is the number of a signal, negated."""

    def __init__(self, status: int) -> None:
        how = f"with status {status}" if status >= 0 else f"by signal {-status}"
        super().__init__(f"the program ended {how}")
        self.status = status


class TimeLimit(Interrupted):
    """The statement, which starts on this line of its script, took longer than it may take, and was stopped."""

    def __init__(self, statement: str, line: int, seconds: float) -> None:
        super().__init__(f"line {line}: no reply within {seconds:g} s: {shortened(statement)}")
        self.statement = statement
        self.line = line
        self.seconds = seconds


class JournalError(DedaleError):
    """The journal is in use, can't be written, or has a statement that is refused."""
