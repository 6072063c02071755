"""The program `dedale-tools` and its launcher, as seen from outside."""
import re
import signal
import subprocess
from pathlib import Path
from typing import IO, Any

import pytest

from dedale.version import __version__
from tests.scripts import ROOT

LAUNCHER = str(ROOT / "dedale_tools")
ENVIRONMENT = {"PATH": "/usr/bin:/bin"}
SCRIPT = str(ROOT / "examples" / "map.dedale")


def tool(*words: str, stdin: bytes | IO[Any] | int = b"") -> tuple[int, str, str]:
    """The status, the output and the errors of the launcher with these words."""
    given: dict[str, Any] = {"input": stdin} if isinstance(stdin, bytes) else {"stdin": stdin}
    done = subprocess.run([LAUNCHER, *words], capture_output=True, check=False, env=ENVIRONMENT, **given)
    return done.returncode, done.stdout.decode(), done.stderr.decode()


def test_the_version() -> None:
    assert tool("--version") == (0, f"dedale-tools {__version__}\n", "")
    assert re.search(rf"^## {re.escape(__version__)}$", (ROOT / "python" / "CHANGELOG.md").read_text(), re.MULTILINE)


def test_help_has_all_words() -> None:
    status, output, errors = tool("--help")
    assert (status, errors) == (0, "")
    assert all(f"\n  {word} " in output for word in ("annotate", "area", "desk", "export", "import"))


@pytest.mark.parametrize("words", [(), ("nothing",), ("--version", "x"), ("annotate",), ("annotate", "--any", SCRIPT)])
def test_bad_words(words: tuple[str, ...]) -> None:
    status, output, errors = tool(*words)
    assert (status, output) == (2, "")
    assert "usage: dedale-tools" in errors
    assert "Traceback" not in errors


def test_annotate(tmp_path: Path) -> None:
    script = tmp_path / "s"
    script.write_bytes(b"ask true;\nask 'a\xff' = 1;")
    replies = b"yes\nrefused 14 sort\n"
    told = f"{script}:2: refused 14 sort: ask 'a\\xff' = 1\n"
    assert tool("annotate", str(script), stdin=replies) == (1, told, "")
    assert tool("annotate", "--all", str(script), stdin=replies) == (1, f"{script}:1: yes: ask true\n{told}", "")
    assert tool("annotate", str(script), stdin=replies.replace(b"\n", b"\r\n")) == (1, told, "")
    assert tool("annotate", str(script), stdin=b"yes\nno\n") == (0, "", "")
    assert tool("annotate", str(script), stdin=b"yes\n") == (1, "", f"{script}:2: no reply: ask 'a\\xff' = 1\n")
    none = tmp_path / "none"
    assert tool("annotate", str(none)) == (2, "", f"dedale-tools annotate: {none}: No such file or directory\n")
    assert tool("annotate", str(tmp_path)) == (2, "", f"dedale-tools annotate: {tmp_path}: Is a directory\n")


def test_failing_streams(tmp_path: Path) -> None:
    script = tmp_path / "s"
    script.write_bytes(b"ask Foo(1);\n" * 10_000)
    replies = tmp_path / "r"
    replies.write_bytes(b"refused 9 unknown\n" * 10_000)
    shell = f"{LAUNCHER} annotate {script} < {replies}"
    for command, status, errors in (
        (f"{shell} | head -n 1; exit ${{PIPESTATUS[0]}}", 4, ""),
        (f"{shell} > /dev/full", 4, "dedale-tools: No space left on device\n"),
        (f"{shell} >&-", 4, "dedale-tools: standard input, output or error is closed\n"),
        (f"{LAUNCHER} annotate {script} <&-", 4, "dedale-tools: standard input, output or error is closed\n"),
        (f"{LAUNCHER} annotate {script} < /", 4, "dedale_tools: standard input is a folder\n"),
    ):
        done = subprocess.run(["bash", "-c", command], env=ENVIRONMENT, capture_output=True, check=False)
        assert (done.returncode, done.stderr.decode()) == (status, errors)


def test_an_interrupt(tmp_path: Path) -> None:
    script = tmp_path / "s"
    script.write_bytes(b"ask true;\n" * 10_000)
    words = [LAUNCHER, "annotate", "--all", str(script)]
    pipe = subprocess.PIPE
    with subprocess.Popen(words, env=ENVIRONMENT, stdin=pipe, stdout=pipe, stderr=pipe) as command:
        assert command.stdin and command.stdout
        command.stdin.write(b"yes\n" * 2_000)
        command.stdin.flush()
        # it has begun, and waits for more
        assert command.stdout.readline()
        command.send_signal(signal.SIGINT)
        _, errors = command.communicate()
    assert (command.returncode, errors) == (130, b"")


def test_the_launcher_from_elsewhere(tmp_path: Path) -> None:
    (tmp_path / "json.py").write_text("raise SystemExit('not this one')")
    (tmp_path / "link").symlink_to(LAUNCHER)
    done = subprocess.run(["./link", "--version"], cwd=tmp_path, env=ENVIRONMENT, capture_output=True, check=False)
    assert done.stdout.decode() == f"dedale-tools {__version__}\n"


def test_the_launcher_takes_another_python_where_the_first_is_old(tmp_path: Path) -> None:
    old = tmp_path / "python3"
    old.write_text("#!/bin/sh\nexit 1\n")
    old.chmod(0o755)
    done = subprocess.run([LAUNCHER, "--version"], env={"PATH": f"{tmp_path}:/usr/bin:/bin"}, capture_output=True, check=False)
    assert done.stdout.decode() == f"dedale-tools {__version__}\n"
