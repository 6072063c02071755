"""The commands as they are run from a terminal."""
import os
import subprocess
import sys
from dataclasses import dataclass
from pathlib import Path

PYTHON = Path(__file__).resolve().parents[2]


@dataclass(frozen=True)
class Run:
    """How a command ended, and what it wrote."""

    status: int
    out: str
    err: str


def run_tools(program: str, *words: str, script: str | bytes = b"") -> Run:
    """Runs a command of the package, with the script on standard input and the program to be found by `DEDALE`."""
    data = script.encode() if isinstance(script, str) else script
    environment = os.environ | {"DEDALE": program, "PYTHONPATH": str(PYTHON)}
    done = subprocess.run([sys.executable, "-m", "dedale", *words], input=data, capture_output=True, env=environment, check=False)
    return Run(done.returncode, done.stdout.decode("utf-8", "surrogateescape"), done.stderr.decode())
