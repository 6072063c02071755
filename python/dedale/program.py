"""Where the program is found."""
import os
import shutil
from pathlib import Path

from dedale.errors import NoProgram

PACKAGE = Path(__file__).resolve().parent


def find_program(given: str | None = None) -> str:
    """The path of the program: the one that is given, or else that in the environment variable `DEDALE`, or else `dedale` on
    `PATH`, or else `dedale` in the clone that this package is in. The first two may also be names on `PATH`.
    Raises `NoProgram` where there is none."""
    if given:
        return _executable(given, given)
    named = os.environ.get("DEDALE")
    if named:
        return _executable(named, f"{named}, which DEDALE names,")
    found = shutil.which("dedale") or _in_clone()
    if not found:
        raise NoProgram("the program dedale isn't found: name it, or have DEDALE name it, or put it on PATH")
    return found


def _executable(name: str, called: str) -> str:
    """The path of a program that was named. An error calls it so."""
    found = shutil.which(name)
    if not found:
        raise NoProgram(f"{called} is no program that can be run")
    return found


def _in_clone() -> str | None:
    """The program at the top of the clone, where the package stands in its folder `python`."""
    folder = PACKAGE.parent
    return shutil.which(str(folder.parent / "dedale")) if folder.name == "python" else None
