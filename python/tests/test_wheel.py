"""The wheel has the whole package, and what an installer needs."""
import base64
import hashlib
import zipfile
from pathlib import Path

import pytest

from dedale.version import __version__
from wheel_backend import SOURCE, UnsupportedOperation, build_sdist, build_wheel


def test_the_wheel_has_all_modules(tmp_path: Path) -> None:
    before = {path for path in SOURCE.rglob("*") if "__pycache__" not in path.parts}
    name = build_wheel(str(tmp_path))
    assert name == f"dedale_tools-{__version__}-py3-none-any.whl"
    with zipfile.ZipFile(tmp_path / name) as archive:
        modules = {path.relative_to(SOURCE).as_posix() for path in (SOURCE / "dedale").rglob("*.py")}
        info = f"dedale_tools-{__version__}.dist-info"
        added = {"dedale/py.typed", *(f"{info}/{one}" for one in ("METADATA", "WHEEL", "RECORD", "entry_points.txt"))}
        assert set(archive.namelist()) == modules | added
        assert f"Version: {__version__}\n" in archive.read(f"{info}/METADATA").decode()
        assert "dedale-tools = dedale.__main__:main\n" in archive.read(f"{info}/entry_points.txt").decode()
    assert {path for path in SOURCE.rglob("*") if "__pycache__" not in path.parts} == before


def test_the_record_has_all_hashes(tmp_path: Path) -> None:
    with zipfile.ZipFile(tmp_path / build_wheel(str(tmp_path))) as archive:
        (record,) = (name for name in archive.namelist() if name.endswith("/RECORD"))
        lines = [line.split(",") for line in archive.read(record).decode().splitlines()]
        assert {line[0] for line in lines} == set(archive.namelist())
        for name, digest, size in lines[:-1]:
            expected = base64.urlsafe_b64encode(hashlib.sha256(archive.read(name)).digest()).rstrip(b"=").decode()
            assert (digest, int(size)) == (f"sha256={expected}", len(archive.read(name)))
        assert lines[-1] == [record, "", ""]


def test_there_is_no_source_archive(tmp_path: Path) -> None:
    with pytest.raises(UnsupportedOperation):
        build_sdist(str(tmp_path))
