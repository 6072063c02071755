"""The program as a co-process: bytes in, lines out, with neither side waiting for the other forever."""
import os
import selectors
import signal
import subprocess
import time
from collections import deque
from typing import Sequence

from dedale.errors import Ended, NoProgram

READ_AT_ONCE = 65_536
SECONDS_TO_END = 5


class Overdue(Exception):
    """The line didn't come in time."""


def check_program(command: Sequence[str]) -> None:
    """Runs the program without a statement. A program that is built by its first run is built then.
    Raises `NoProgram` where it can't be started, and `Ended` where its status isn't 0."""
    try:
        status = subprocess.run(command, stdin=subprocess.DEVNULL, stdout=subprocess.DEVNULL, check=False).returncode
    except OSError as error:
        raise NoProgram(f"{command[0]} can't be run: {error.strerror}") from error
    if status:
        raise Ended(status)


class Process:
    """A program that runs, away from the interrupts of the terminal."""

    def __init__(self, command: Sequence[str]) -> None:
        """Starts the program. Raises `NoProgram` where it can't be started."""
        try:
            self._popen = subprocess.Popen(
                command, bufsize=0, stdin=subprocess.PIPE, stdout=subprocess.PIPE, start_new_session=True
            )
        except OSError as error:
            raise NoProgram(f"{command[0]} can't be run: {error.strerror}") from error
        assert self._popen.stdin and self._popen.stdout
        self._input, self._output = self._popen.stdin.fileno(), self._popen.stdout.fileno()
        os.set_blocking(self._input, False)
        self._selector = selectors.DefaultSelector()
        self._selector.register(self._output, selectors.EVENT_READ)
        self._unsent = memoryview(b"")
        self._lines: deque[bytes] = deque()
        self._rest = b""

    def send(self, data: bytes) -> None:
        """Takes bytes that are written to the program while its lines are read. Those taken before have to be written."""
        assert not self._unsent
        self._unsent = memoryview(data)
        self._write()
        if self._unsent:
            self._selector.register(self._input, selectors.EVENT_WRITE)

    def read_line(self, deadline: float | None = None) -> bytes:
        """The next line that the program writes, without its line feed. Raises `Overdue` where it isn't there at the deadline,
        by `time.monotonic`, and `Ended` where the program has ended."""
        while not self._lines:
            self._wait(deadline)
        return self._lines.popleft()

    def _wait(self, deadline: float | None) -> None:
        """Reads and writes what can be read and written."""
        left = None if deadline is None else deadline - time.monotonic()
        if left is not None and left <= 0:
            raise Overdue
        for key, _ in self._selector.select(left):
            if key.fd == self._output:
                self._read()
            else:
                self._write()
                if not self._unsent:
                    self._selector.unregister(self._input)

    def _read(self) -> None:
        data = os.read(self._output, READ_AT_ONCE)
        if not data:
            raise Ended(self._wait_for_end())
        *lines, self._rest = (self._rest + data).split(b"\n")
        self._lines.extend(lines)

    def _write(self) -> None:
        try:
            self._unsent = self._unsent[os.write(self._input, self._unsent) :]
        except BlockingIOError:
            pass
        except BrokenPipeError:
            # the end of its output tells that it has ended, and how
            self._unsent = memoryview(b"")

    def end(self) -> None:
        """Ends the program by the end of its input, or kills it where it goes on."""
        self._close()
        self._wait_for_end()

    def kill(self) -> None:
        """Kills the program, where it hasn't ended, and what it has started."""
        if self._popen.poll() is None:
            os.killpg(self._popen.pid, signal.SIGKILL)
            self._popen.wait()
        self._close()

    def _wait_for_end(self) -> int:
        """The status of the program, which has no input or no output left. It is killed where it goes on."""
        try:
            return self._popen.wait(SECONDS_TO_END)
        except subprocess.TimeoutExpired:
            os.killpg(self._popen.pid, signal.SIGKILL)
            return self._popen.wait()

    def _close(self) -> None:
        self._selector.close()
        for stream in (self._popen.stdin, self._popen.stdout):
            if stream:
                stream.close()
