"""The scripts of the repository, with their replies."""
import subprocess
from dataclasses import dataclass
from pathlib import Path

ROOT = Path(__file__).resolve().parents[2]



@dataclass(frozen=True)
class Script:
    """A script, the words that the program is given, and the replies."""

    name: str
    script: bytes
    words: tuple[str, ...]
    replies: bytes


def repository_scripts() -> list[Script]:
    """The scripts of examples and of tests, but for those that the words of their run keep from being read."""
    examples = [_script(path, path.with_suffix(".replies")) for path in sorted((ROOT / "examples").glob("*.dedale"))]
    tests = [_script(path, path.with_suffix(".out")) for path in sorted((ROOT / "tests" / "scripts").glob("*.in"))]
    return [one for one in examples + tests if _is_read(one)]


def run_program(program: str, script: bytes, words: tuple[str, ...] = ()) -> bytes:
    """The replies of the program to a script."""
    return subprocess.run([program, *words], input=script, stdout=subprocess.PIPE, check=False).stdout


def _script(path: Path, replies: Path) -> Script:
    words = path.with_suffix(".args")
    found = tuple(words.read_text().splitlines()) if words.exists() else ()
    return Script(path.name, path.read_bytes(), found, replies.read_bytes())


def _is_read(script: Script) -> bool:
    status = ROOT / "tests" / "scripts" / Path(script.name).with_suffix(".status")
    is_known = not status.exists() or status.read_text().strip() != "2"
    return is_known and not any(word.startswith("--make") for word in script.words)


def script_name(script: Script) -> str:
    """The name of a script, for the name of a test."""
    return script.name
