"""Where the lines of the desk come from: a person at a terminal, or a pipe."""
import os
import sys
from pathlib import Path
from types import ModuleType
from typing import Protocol

from dedale.statements import shortened

HISTORY_NAME = ".dedale_history"
HISTORY_LINES = 1000
PRIVATE = 0o600


class Source(Protocol):
    """Lines of input. `is_terminal` tells that a person types them, and sees at once what is written. `trouble` says why the
    history isn't kept, where it should be."""

    is_terminal: bool
    trouble: str | None

    def read_line(self, prompt: str) -> bytes | None:
        """The next line, with its line feed; none at the end. Raises `KeyboardInterrupt`."""


class Pipe:
    """Lines of standard input, which isn't a terminal."""

    is_terminal = False
    trouble: str | None = None

    def read_line(self, prompt: str) -> bytes | None:
        """The next line, with its line feed where it has one; none at the end."""
        return sys.stdin.buffer.readline() or None


class Terminal:
    """Lines that a person types, which can be edited, and are kept in the file of the history."""

    is_terminal = True

    def __init__(self, history: Path) -> None:
        """Reads the history, where there is one."""
        self.trouble: str | None = None
        self._history = history
        self._readline = _readline()
        if self._readline:
            self._readline.set_history_length(HISTORY_LINES)
            self._open_history(self._readline)

    def read_line(self, prompt: str) -> bytes | None:
        """The next line, with a line feed; none at the end. Raises `KeyboardInterrupt`."""
        count = self._readline.get_current_history_length() if self._readline else 0
        try:
            line = input(prompt)
        except EOFError:
            return None
        if self._readline and self._readline.get_current_history_length() > count and not self.trouble:
            self._keep(self._readline)
        return line.encode("utf-8", "surrogateescape") + b"\n"

    def _open_history(self, readline: ModuleType) -> None:
        """Reads the history, and makes its file, for the user alone, where there is none."""
        try:
            os.close(os.open(self._history, os.O_RDWR | os.O_CREAT | os.O_CLOEXEC, PRIVATE))
            readline.read_history_file(self._history)
        except OSError as error:
            self._tell(error)

    def _keep(self, readline: ModuleType) -> None:
        """Adds the last line to the file of the history."""
        try:
            readline.append_history_file(1, self._history)
        except OSError as error:
            self._tell(error)

    def _tell(self, error: OSError) -> None:
        self.trouble = f"the history isn't kept: {shortened(str(self._history))}: {error.strerror}"


def source() -> Source:
    """The source of what stands at standard input and output."""
    if not (sys.stdin.isatty() and sys.stdout.isatty()):
        return Pipe()
    return Terminal(Path(os.path.expanduser("~")) / HISTORY_NAME)


def _readline() -> ModuleType | None:
    """The module for editing lines, where Python has it."""
    try:
        import readline
    except ImportError:
        return None
    return readline
