"""The program is found where it is named first."""
import shutil
from pathlib import Path

import pytest

from dedale import program
from dedale.errors import NoProgram
from dedale.program import find_program


def make(path: Path) -> str:
    """A file that can be run."""
    path.parent.mkdir(parents=True, exist_ok=True)
    path.write_text("#!/bin/sh\n")
    path.chmod(0o755)
    return str(path)


def test_the_order(tmp_path: Path, monkeypatch: pytest.MonkeyPatch) -> None:
    given, named, on_path = make(tmp_path / "given"), make(tmp_path / "named"), make(tmp_path / "bin" / "dedale")
    in_clone = make(tmp_path / "clone" / "dedale")
    monkeypatch.setattr(program, "PACKAGE", tmp_path / "clone" / "python" / "dedale")
    monkeypatch.setenv("DEDALE", named)
    monkeypatch.setenv("PATH", str(tmp_path / "bin"))
    assert find_program(given) == given
    assert find_program() == named
    monkeypatch.setenv("DEDALE", "dedale")
    assert find_program() == on_path
    monkeypatch.delenv("DEDALE")
    assert find_program() == on_path
    monkeypatch.setenv("PATH", "")
    assert find_program() == in_clone
    monkeypatch.setattr(program, "PACKAGE", tmp_path / "clone" / "site-packages" / "dedale")
    with pytest.raises(NoProgram):
        find_program()


def test_what_is_named_has_to_be_there(tmp_path: Path, monkeypatch: pytest.MonkeyPatch) -> None:
    monkeypatch.setenv("PATH", str(Path(make(tmp_path / "bin" / "dedale")).parent))
    assert shutil.which("dedale")
    with pytest.raises(NoProgram, match="^none is no program that can be run$"):
        find_program("none")
    monkeypatch.setenv("DEDALE", str(tmp_path))
    with pytest.raises(NoProgram, match="which DEDALE names, is no program that can be run$"):
        find_program()
