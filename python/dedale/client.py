"""A database in a program of its own, which this module talks to."""
import time
from pathlib import Path
from types import TracebackType
from typing import Self, Sequence, TypeVar

from dedale.errors import Interrupted, JournalError, TimeLimit
from dedale.headings import Relations
from dedale.journal import Journal, Log, MemoryLog
from dedale.process import Overdue, Process, check_program
from dedale.program import find_program
from dedale.reading import is_refusal, read_refusal, read_reply, read_spans
from dedale.replies import Answer, Done, Number, Refused, Reply, Spans, Stored, Truth
from dedale.statements import Statement, split

QUESTION = Statement(b"ask true", 1, 1)

OneReply = TypeVar("OneReply", Truth, Answer, Stored, Spans)


class Dedale:
    """A database, which ends with the `with` block unless it has a journal.

    Only one thread at a time may use it. Where a statement got no reply, be it for a time limit, an interrupt or an end of
    the program, that statement changed nothing, and the next one finds a new program that has run what was accepted
    before, tuples under the same numbers."""

    def __init__(
        self,
        program: str | Path | None = None,
        words: Sequence[str] = (),
        journal: str | Path | None = None,
        seconds: float | None = None,
    ) -> None:
        """Starts the program with these words, and has it run the journal, where there is one. Without `program` it is found as
        `find_program` says. `seconds` is the longest that the reply to a statement may take.
        Raises `NoProgram`, `Ended` where the program doesn't take the words, and `JournalError`."""
        self._command = [find_program(None if program is None else str(program)), *words]
        self._seconds = seconds
        self._process: Process | None = None
        self._relations = Relations()
        self._is_begun = False
        self._is_closed = False
        check_program(self._command)
        self._log: Log = MemoryLog()
        if journal is not None:
            self._log = Journal(Path(journal))
        try:
            self._start()
        except BaseException:
            self._log.close()
            raise

    def run(self, script: str | bytes, seconds: float | None = None) -> list[Reply]:
        """The replies to the statements of a script, in order, a refusal as `Refused`. `seconds` stands for the limit of this
        call. Where there is a journal, the accepted changes are on the disk before this returns or raises.
        Raises `TimeLimit`, `Ended`, `JournalError` and `NoReply`, and `ValueError` behind `close`."""
        if self._is_closed:
            raise ValueError("the database is closed")
        replies: list[Reply] = []
        try:
            for statement in split(_bytes_of(script)):
                replies.append(self._reply(statement, self._seconds if seconds is None else seconds))
        except Interrupted as error:
            error.replies = tuple(replies)
            raise
        finally:
            self._log.sync()
        return replies

    def ask(self, formula: str, seconds: float | None = None) -> bool:
        """Whether the closed formula is true.
        Raises `Refused`, `ValueError` where this isn't one statement, and what `run` raises."""
        return self._single(f"ask {formula}", Truth, seconds).holds

    def query(self, heading: str, formula: str, seconds: float | None = None) -> Answer:
        """The answer to the query of the formula with the columns of the heading, such as `(n text, x)`.
        Raises `Refused`, `ValueError` where this isn't one statement, and what `run` raises."""
        return self._single(f"query {heading} : {formula}", Answer, seconds)

    def show(self, name: str, seconds: float | None = None) -> Stored:
        """The tuples of a relation. Raises `Refused`, `ValueError` where this isn't one statement, and what `run` raises."""
        return self._single(f"show {name}", Stored, seconds)

    def box(self, name: str, seconds: float | None = None) -> Spans:
        """The spans of a relation's columns. Raises `Refused`, `ValueError` where this isn't one statement, and what `run`
        raises."""
        return self._single(f"box {name}", Spans, seconds)

    def close(self) -> None:
        """Ends the program, and the use of the journal. Nothing can be run then."""
        if self._is_closed:
            return
        self._is_closed = True
        if self._process:
            self._process.end()
            self._process = None
        self._log.close()

    def __enter__(self) -> Self:
        return self

    def __exit__(self, kind: type[BaseException] | None, error: BaseException | None, trace: TracebackType | None) -> None:
        self.close()

    def _single(self, text: str, kind: type[OneReply], seconds: float | None) -> OneReply:
        """The reply of this kind to a single statement, whose text ends in no comment that would hide the `;`."""
        script = f"{text}\n;"
        if len(list(split(_bytes_of(script)))) != 1:
            raise ValueError(f"not one statement: {text}")
        (reply,) = self.run(script, seconds)
        if isinstance(reply, Refused):
            raise reply
        assert isinstance(reply, kind)
        return reply

    def _reply(self, statement: Statement, seconds: float | None) -> Reply:
        """The reply to a statement, noted in the log where it is an accepted change."""
        if not statement.is_finished:
            return _unfinished(statement)
        process = self._process or self._start()
        self._is_begun = True
        try:
            reply = self._exchange(process, statement, None if seconds is None else time.monotonic() + seconds)
            if statement.is_change and isinstance(reply, (Done, Number)):
                self._log.append(statement.text)
            return reply
        except Overdue as error:
            self._stop()
            assert seconds is not None
            raise TimeLimit(_text_of(statement), statement.line, seconds) from error
        except BaseException:
            self._stop()
            raise

    def _exchange(self, process: Process, statement: Statement, deadline: float | None) -> Reply:
        """Sends a statement, and reads its reply."""
        if statement.first_word != "box":
            process.send(statement.piece + b";")
            return self._read(process, statement, deadline)
        # nothing in its reply tells the end of it, but the reply to a question behind it does
        process.send(statement.piece + b";ask true;")
        lines = [_line(process, deadline)]
        while lines[-1] != "yes" and not (len(lines) > 1 and is_refusal(lines[-1])):
            lines.append(_line(process, deadline))
        if is_refusal(lines[0]):
            return read_refusal(lines[0], _text_of(statement), statement.line)
        return read_spans(lines[:-1])

    def _read(self, process: Process, statement: Statement, deadline: float | None) -> Reply:
        """Reads the reply to a statement other than `box`, and takes note of a relation that is defined or dropped."""
        head = _line(process, deadline)
        if is_refusal(head):
            return read_refusal(head, _text_of(statement), statement.line)
        reply = read_reply(head, lambda: _line(process, deadline), self._relations.columns_of_reply(statement))
        if isinstance(reply, Done):
            self._relations.accept(statement)
        return reply

    def _start(self) -> Process:
        """Starts the program, and has it run what the log has."""
        self._relations = Relations()
        process = Process(self._command)
        try:
            self._restore(process)
        except BaseException:
            process.kill()
            raise
        self._process = process
        return process

    def _restore(self, process: Process) -> None:
        """Has a new program run what the log has."""
        changes = [one for one in split(self._log.script()) if one.is_finished and one.is_change]
        if self._is_begun and not changes:
            # `dedale 2` is accepted in no other place than the first
            changes = [QUESTION]
        process.send(b"".join(one.text + b";" for one in changes))
        for statement in changes:
            reply = self._read(process, statement, None)
            if isinstance(reply, Refused):
                raise JournalError(f"what was accepted before is refused: {reply}")

    def _stop(self) -> None:
        """Kills the program, whose next lines would belong to a statement that nobody waits for."""
        if self._process:
            self._process.kill()
            self._process = None


def _line(process: Process, deadline: float | None) -> str:
    return process.read_line(deadline).decode("utf-8", "surrogateescape")


def _bytes_of(script: str | bytes) -> bytes:
    return script if isinstance(script, bytes) else script.encode("utf-8", "surrogateescape")


def _text_of(statement: Statement) -> str:
    return statement.text.decode("utf-8", "surrogateescape").rstrip()


def _unfinished(statement: Statement) -> Refused:
    """The refusal of the statement that the end of a script cuts. It isn't sent, as the next script would go on with it."""
    number, words = (1, "long statement") if statement.is_long else (2, "unfinished")
    return Refused(number, words, _text_of(statement), statement.line)
