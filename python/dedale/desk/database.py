"""The database of the desk: a script in a file, which a client of the program runs and goes on with.

The rest of the desk knows no more of it than what this class says, so that another way to keep a database can stand here."""
from contextlib import AbstractContextManager
from pathlib import Path
from typing import Iterator, Sequence

from dedale.annotate import REPLIES
from dedale.client import Dedale
from dedale.desk.files import telling, write_anew
from dedale.desk.interrupts import uninterrupted
from dedale.desk.progress import progress
from dedale.desk.scripts import changes_of, without_last_change
from dedale.desk.texts import shown
from dedale.errors import DedaleError, Interrupted, JournalError
from dedale.replies import Done, Number, Refused, Reply
from dedale.statements import Statement, split


class BadScript(DedaleError):
    """Statements of the file are refused. `exchanges` are those that were run, with their replies, in order."""

    def __init__(self, path: Path, exchanges: list[tuple[Statement, Reply]]) -> None:
        super().__init__(f"{path}: a statement is refused")
        self.exchanges = exchanges


class MadeUnseen(DedaleError):
    """A change was made, and its reply is lost."""


class Unsettled(DedaleError):
    """The reply to a change is lost, and the file can't be opened to see whether it was made."""


class Database:
    """A database in a file, which is for this process alone as long as it is open.

    Each accepted change is on the disk before its reply is returned. The file is a script: what changes something in it is run
    when it is opened, and questions in it are not asked. `cut` is the statement at its end that no `;` ended then, which is
    left out, where there was one."""

    def __init__(self, path: Path, program: str | None, words: Sequence[str] = ()) -> None:
        """Opens the file, or makes it where it isn't there. Raises `DedaleError`, of which `BadScript` tells that statements in
        the file are refused, and `FileError` that it can't be read."""
        self.path = path
        self._program = program
        self._words = tuple(words)
        self._client: Dedale | None = None
        self._is_stopped = False
        self._count = 0
        self.cut: Statement | None = None
        self.start()

    def start(self) -> None:
        """Has the program run the file, where it doesn't yet. Raises what `__init__` does."""
        if not self._client:
            self._open()
        elif self._is_stopped:
            with self._progress():
                self._client.run(b"ask true;")
            self._is_stopped = False

    def run(self, statement: Statement, seconds: float | None) -> Reply:
        """The reply to a statement, which may take so many seconds.

        Where this raises, the statement changed nothing, unless it is `MadeUnseen` or `Unsettled`. Raises `Interrupted` for a
        time limit or an end of the program; another `DedaleError`; `KeyboardInterrupt`; and what `start` raises."""
        self.start()
        assert self._client
        try:
            (reply,) = self._client.run(statement.piece + b";" * statement.is_finished, seconds)
        except Interrupted:
            self._is_stopped = True
            raise
        except (KeyboardInterrupt, JournalError) as error:
            self._is_stopped = True
            if statement.is_change and self._has_grown(str(error) or "interrupted"):
                raise MadeUnseen(str(error) or "interrupted") from error
            raise
        self._count += statement.is_change and isinstance(reply, (Done, Number))
        return reply

    def undo(self) -> Statement | None:
        """Takes the last change off the file, and returns it; none where there is no change. The program runs the file again when
        `start` is called, or the next statement needs it. Raises `FileError` where the file can't be written, which is as it was
        then, and what `start` raises."""
        self.start()
        found = without_last_change(self.script())
        if not found:
            return None
        script, change = found
        with uninterrupted():
            try:
                write_anew(self.path, script)
            finally:
                self.close()
        return change

    def script(self) -> bytes:
        """The script in the file. Raises `FileError`."""
        with telling(self.path):
            return self.path.read_bytes() if self.path.exists() else b""

    def changes(self) -> Iterator[Statement]:
        """The accepted statements that changed something, in order. Raises `FileError`."""
        return changes_of(self.script())

    def close(self) -> None:
        """Ends the use of the file, until it is opened again."""
        client, self._client = self._client, None
        if client:
            client.close()

    def _open(self) -> None:
        """Opens the file, and has a new program run it."""
        before = self._file_number()
        script = self.script()
        self._count = sum(1 for _ in changes_of(script))
        self.cut = next((one for one in split(script) if not one.is_finished), None)
        with self._progress():
            try:
                client = Dedale(self._program, self._words, self.path)
            except JournalError as error:
                # one with a cause is of the file, and not of what stands in it
                if not error.__cause__:
                    self._check(script)
                raise
        try:
            if before not in (None, self._file_number()):
                # another process has written the file anew since it was opened here
                raise JournalError(f"{self.path} is in use by another process")
            if any(one.is_finished and one.first_word not in REPLIES for one in split(script)):
                self._check(script)
        except BaseException:
            client.close()
            raise
        self._client, self._is_stopped = client, False

    def _check(self, script: bytes) -> None:
        """Runs the statements that change something, and those that are none, and raises `BadScript` where one is refused."""
        exchanges: list[tuple[Statement, Reply]] = []
        with Dedale(self._program, self._words) as client:
            for one in split(script):
                if one.is_finished and (one.is_change or one.first_word not in REPLIES):
                    (reply,) = client.run(one.piece + b";")
                    exchanges.append((one, reply))
        if any(isinstance(reply, Refused) for _, reply in exchanges):
            raise BadScript(self.path, exchanges)

    def _has_grown(self, why: str) -> bool:
        """Whether the file has more changes than were counted, once it is opened again, for which there is a reason. Raises
        `Unsettled` where it can't be opened, or that is interrupted."""
        before = self._count
        with uninterrupted():
            self.close()
        try:
            self._open()
        except (DedaleError, KeyboardInterrupt) as error:
            raise Unsettled(f"{why}; {str(error) or 'interrupted'}") from error
        return self._count > before

    def _progress(self) -> AbstractContextManager[None]:
        return progress(f"{shown(self.path.name)}: the program runs its changes, {self._count} of them")

    def _file_number(self) -> int | None:
        """What tells the file from others that have had its name."""
        return self.path.stat().st_ino if self.path.exists() else None
