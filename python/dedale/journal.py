"""The statements from which a database is brought back."""
import fcntl
import os
from contextlib import contextmanager, suppress
from pathlib import Path
from typing import Iterator, Protocol

from dedale.errors import JournalError
from dedale.statements import STATEMENT_BYTES, split


class Log(Protocol):
    """A script of the statements that were accepted and changed something, in order."""

    def script(self) -> bytes:
        """All statements."""

    def append(self, statement: bytes) -> None:
        """Adds a statement, without its `;`. Where that fails the log is as it was before."""

    def sync(self) -> None:
        """Has what was added outlast the process."""

    def close(self) -> None:
        """Ends the use of the log."""


class MemoryLog:
    """A log that ends with the process."""

    def __init__(self) -> None:
        self._statements = bytearray()

    def script(self) -> bytes:
        """All statements."""
        return bytes(self._statements)

    def append(self, statement: bytes) -> None:
        """Adds a statement."""
        self._statements += statement + b";"

    def sync(self) -> None:
        """Does nothing, since nothing outlasts the process."""

    def close(self) -> None:
        """Does nothing."""


class Journal:
    """A log in a file, which is a script that the program runs.

    A last statement without its `;` was cut short while it was written. It is no part of the log, and is overwritten by the
    next one that is added."""

    def __init__(self, path: Path) -> None:
        """Opens the file, or makes an empty one, for this process alone. Raises `JournalError` where that is impossible, and
        where something else than a statement that was cut short stands at its end."""
        self._path = path
        self._is_synced = True
        with _telling(path):
            is_new = not path.exists()
            self._file = os.open(path, os.O_RDWR | os.O_CREAT | os.O_CLOEXEC, 0o666)
        try:
            self._lock()
            with _telling(path):
                self._end = _length_of_statements(path, self._read())
                if is_new:
                    _sync_folder(path.parent)
        except BaseException:
            os.close(self._file)
            raise

    def _lock(self) -> None:
        """Keeps other processes from the file. Raises `JournalError` where another one does so."""
        try:
            fcntl.flock(self._file, fcntl.LOCK_EX | fcntl.LOCK_NB)
        except OSError as error:
            raise JournalError(f"{self._path} is in use by another process") from error

    def script(self) -> bytes:
        """All statements."""
        with _telling(self._path):
            return self._read()[: self._end]

    def _read(self) -> bytes:
        """All bytes of the file."""
        with open(self._file, "rb", closefd=False) as file:
            file.seek(0)
            return file.read()

    def append(self, statement: bytes) -> None:
        """Adds a statement to the file. Raises `JournalError` where that fails, and leaves the file as it was."""
        data = self._separator(statement) + statement + b";"
        try:
            with _telling(self._path):
                os.ftruncate(self._file, self._end)
                self._write(data)
        except BaseException:
            with suppress(OSError):
                os.ftruncate(self._file, self._end)
            raise
        self._end += len(data)
        self._is_synced = False

    def _separator(self, statement: bytes) -> bytes:
        """What stands before the statement: a line feed, which counts in its length, unless it would be too long with it."""
        if not self._end:
            return b""
        is_full = len(statement) >= STATEMENT_BYTES and os.pread(self._file, 1, self._end - 1) == b";"
        return b"" if is_full else b"\n"

    def _write(self, data: bytes) -> None:
        """Writes all the bytes behind the statements."""
        at = self._end
        left = memoryview(data)
        while left:
            count = os.pwrite(self._file, left, at)
            at, left = at + count, left[count:]

    def sync(self) -> None:
        """Has the disk write what was added. Raises `JournalError` where that fails."""
        if not self._is_synced:
            with _telling(self._path):
                os.fsync(self._file)
            self._is_synced = True

    def close(self) -> None:
        """Closes the file, which another process may then use."""
        os.close(self._file)


@contextmanager
def _telling(path: Path) -> Iterator[None]:
    """Raises `JournalError` where there is an `OSError` within."""
    try:
        yield
    except OSError as error:
        raise JournalError(f"{path}: {error.strerror}") from error


def _length_of_statements(path: Path, script: bytes) -> int:
    """The length of a journal without a last statement that was cut short. Raises `JournalError` where something else stands
    at its end."""
    finished = 0
    for statement in split(script):
        if statement.is_finished:
            finished += len(statement.piece) + 1
        elif statement.may_become_change:
            return finished
        else:
            raise JournalError(f"{path}:{statement.line}: this is no journal: {statement.shortened()}")
    return len(script)


def _sync_folder(folder: Path) -> None:
    """Has the disk write which files the folder has."""
    opened = os.open(folder, os.O_RDONLY | os.O_DIRECTORY)
    try:
        os.fsync(opened)
    finally:
        os.close(opened)
