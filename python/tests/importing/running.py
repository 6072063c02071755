"""Runs `import` within the test, and the program on its script."""
import io
import subprocess
import sys
from dataclasses import dataclass
from unittest.mock import patch

from dedale.importing.command import main


@dataclass(frozen=True)
class Outcome:
    """What an import wrote, and its status."""

    status: int
    script: str
    errors: str

    def inserts(self) -> list[str]:
        """The lines of the script that insert."""
        return [line for line in self.script.splitlines() if line.startswith("insert ")]


def imported(content: str | bytes, *words: str) -> Outcome:
    """Runs `import` with these words on a file."""
    given = content.encode("utf-8") if isinstance(content, str) else content
    stdin, stdout, stderr = (io.TextIOWrapper(io.BytesIO(part), "utf-8", newline="\n") for part in (given, b"", b""))
    with patch.multiple(sys, stdin=stdin, stdout=stdout, stderr=stderr):
        status = main(["import", *words])
    return Outcome(status, *(_content(stream) for stream in (stdout, stderr)))


def _content(stream: io.TextIOWrapper) -> str:
    stream.flush()
    stream.seek(0)
    return stream.read()


def replies(program: str, script: str) -> list[str]:
    """The lines that the program replies to a script."""
    found = subprocess.run([program], input=script.encode("utf-8"), stdout=subprocess.PIPE, check=False, timeout=100)
    return found.stdout.decode("utf-8").splitlines()


def truths(program: str, script: str) -> list[str]:
    """The replies to the questions of a script, and its refusals."""
    return [line for line in replies(program, script) if line in ("yes", "no") or line.startswith("refused")]
