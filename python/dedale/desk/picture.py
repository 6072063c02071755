"""Pictures by the program `dedale_draw`."""
import os
import shutil
import signal
import subprocess
from typing import Sequence

from dedale.errors import DedaleError, NoProgram
from dedale.process import check_program
from dedale.program import PACKAGE

NAME = "dedale_draw"
VARIABLE = "DEDALE_DRAW"
NOT_ALL = 1
"""The status of the program where something couldn't be drawn, and the rest was."""


class NoPicture(DedaleError):
    """There is no picture: why."""


def find_draw_program() -> str:
    """The path of the program: the one that the environment variable `DEDALE_DRAW` names, or else `dedale_draw` on `PATH`, or
    else that in the clone that this package is in. Raises `NoProgram` where there is none."""
    named = os.environ.get(VARIABLE)
    if named:
        found = shutil.which(named)
        if not found:
            raise NoProgram(f"{named}, which {VARIABLE} names, is no program that can be run")
        return found
    found = shutil.which(NAME) or shutil.which(str(PACKAGE.parent.parent / NAME))
    if not found:
        raise NoProgram(f"the program {NAME} isn't found: have {VARIABLE} name it, or put it on PATH")
    return found


def picture(script: bytes, words: Sequence[str], seconds: float | None) -> tuple[bytes, bool]:
    """The picture of what the script is answered, and whether all of it is drawn. The program, which is built first where it
    isn't, may take so many seconds. Raises `NoPicture` and `DedaleError`."""
    command = [find_draw_program(), *words]
    check_program(command)
    with subprocess.Popen(command, stdin=subprocess.PIPE, stdout=subprocess.PIPE, start_new_session=True) as program:
        try:
            drawn, _ = program.communicate(script, seconds)
        except subprocess.TimeoutExpired as error:
            os.killpg(program.pid, signal.SIGKILL)
            raise NoPicture(f"no picture within {seconds:g} s") from error
        except BaseException:
            os.killpg(program.pid, signal.SIGKILL)
            raise
    if program.returncode not in (0, NOT_ALL) or not drawn:
        raise NoPicture(f"{NAME} ended with status {program.returncode}")
    return drawn, program.returncode != NOT_ALL
