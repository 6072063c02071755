"""The command `desk` run by a pipe, and at a terminal."""
import os
import pty
import re
import select
import signal
import subprocess
import sys
import time
from contextlib import suppress
from dataclasses import dataclass
from pathlib import Path
from typing import Callable

from tests import test_client
from tests.scripts import ROOT

PATIENCE = 60
"""For how many seconds something is waited for that has to come."""

PAUSE = 0.3
"""For how many seconds a person waits before Ctrl-C. One that comes as the prompt is written does nothing before the next key."""

PATIENCE_WITH_INTERRUPTS = 10
"""After how many seconds Ctrl-C is typed again."""

PROGRESS = ": the program runs its changes, "
"""What stands in a line that a desk writes where the machine is slow."""

ESCAPES = re.compile(rb"\x1b\[[?0-9;]*[a-zA-Z]|\r|\a")
LONG_QUESTION = f"query {test_client.LONG_QUESTION[0]} : {test_client.LONG_QUESTION[1]};"
"""A question over the strips of the client's tests that runs for longer than any test waits."""


def command(path: Path, *words: str) -> list[str]:
    """The command line of the desk over a file."""
    return [sys.executable, "-m", "dedale", "desk", *words, str(path)]


def environment(home: Path) -> dict[str, str]:
    """The environment of a user with this home, at a terminal that knows no escapes."""
    return {**os.environ, "HOME": str(home), "TERM": "dumb", "PYTHONPATH": str(ROOT / "python")}


@dataclass(frozen=True)
class Ran:
    """What a desk did: its status, what it showed, and what it wrote to standard error."""

    status: int
    lines: list[str]
    errors: list[str]


def run(path: Path, script: str | bytes, *words: str, prepare: Callable[[], None] | None = None) -> Ran:
    """Runs a desk over a file by a pipe."""
    data = script.encode() if isinstance(script, str) else script
    done = subprocess.run(
        command(path, *words), input=data, capture_output=True, check=False, env=environment(path.parent), preexec_fn=prepare
    )
    return Ran(done.returncode, done.stdout.decode().splitlines(), _without_progress(done.stderr))


def _without_progress(data: bytes) -> list[str]:
    return [line for line in data.decode().splitlines() if PROGRESS not in line]


def end_programs(programs: list[int]) -> None:
    """Ends what goes on of these programs, which a desk ran that was killed."""
    for one in programs:
        with suppress(ProcessLookupError):
            os.kill(one, signal.SIGKILL)


class Terminal:
    """A desk at a terminal of its own."""

    def __init__(self, path: Path, *words: str) -> None:
        self.prompt = f"{path.name}> "
        self._pid, self._end = pty.fork()
        if self._pid == 0:
            os.execve(sys.executable, command(path, *words), environment(path.parent))
        self._unread = b""

    def read_until(self, text: str) -> list[str]:
        """The lines up to this text, without escapes."""
        wanted = text.encode()
        assert self._reads(wanted, PATIENCE), f"{text!r} isn't in {self._unread!r}"
        found, _, self._unread = self._unread.partition(wanted)
        return _without_progress(found)

    def _reads(self, wanted: bytes, seconds: float) -> bool:
        """Whether these bytes are read within so many seconds."""
        ends = time.monotonic() + seconds
        while wanted not in self._unread and time.monotonic() < ends:
            if select.select([self._end], [], [], 0.1)[0]:
                self._unread = ESCAPES.sub(b"", self._unread + os.read(self._end, 4096))
        return wanted in self._unread

    def say(self, line: str, prompt: str | None = None) -> list[str]:
        """Types a line, and returns what is shown before the next prompt, without the line."""
        self.send(line + "\n")
        return self.read_until(prompt or self.prompt)[1:]

    def send(self, text: str) -> None:
        """Types a text."""
        os.write(self._end, text.encode())

    def interrupt(self) -> list[str]:
        """Types Ctrl-C, and returns what is shown before the next prompt."""
        time.sleep(PAUSE)
        self.send("\x03")
        if not self._reads(self.prompt.encode(), PATIENCE_WITH_INTERRUPTS):
            self.send("\x03")
        return self.read_until(self.prompt)

    def kill(self) -> list[int]:
        """Kills the desk, as nothing can keep it from, and returns the programs that it ran, which may go on."""
        programs = Path(f"/proc/{self._pid}/task/{self._pid}/children").read_text(encoding="ascii").split()
        os.kill(self._pid, signal.SIGKILL)
        self.wait()
        return [int(one) for one in programs]

    def wait(self) -> int:
        """The status with which the desk ends."""
        ends = time.monotonic() + PATIENCE
        while True:
            pid, status = os.waitpid(self._pid, os.WNOHANG)
            if pid:
                os.close(self._end)
                return os.waitstatus_to_exitcode(status)
            assert time.monotonic() < ends
            if select.select([self._end], [], [], 0.1)[0]:
                try:
                    os.read(self._end, 4096)
                except OSError:
                    # its side of the terminal is closed
                    time.sleep(0.1)
