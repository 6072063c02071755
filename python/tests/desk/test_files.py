"""Files are written whole, or not at all."""
import os
import stat
from pathlib import Path

import pytest

from dedale.desk.files import FileError, write_anew


def test_a_file_is_replaced(tmp_path: Path) -> None:
    path = tmp_path / "file"
    write_anew(path, b"one")
    path.chmod(0o640)
    write_anew(path, b"two")
    assert path.read_bytes() == b"two"
    assert stat.S_IMODE(path.stat().st_mode) == 0o640
    assert os.listdir(tmp_path) == ["file"]


def test_a_link_stays_a_link(tmp_path: Path) -> None:
    (tmp_path / "link").symlink_to("file")
    write_anew(tmp_path / "link", b"one")
    assert (tmp_path / "file").read_bytes() == b"one"
    assert (tmp_path / "link").is_symlink()


def test_a_failure_leaves_the_file(tmp_path: Path, monkeypatch: pytest.MonkeyPatch) -> None:
    path = tmp_path / "file"
    path.write_bytes(b"one")
    monkeypatch.setattr("os.fsync", full_disk)
    with pytest.raises(FileError, match="file: No space left on device"):
        write_anew(path, b"two")
    assert path.read_bytes() == b"one"
    assert os.listdir(tmp_path) == ["file"]


def test_what_is_no_regular_file_stays_what_it_is() -> None:
    with pytest.raises(FileError, match="/dev/full: No space left on device"):
        write_anew(Path("/dev/full"), b"one")
    assert stat.S_ISCHR(os.stat("/dev/full").st_mode)
    write_anew(Path("/dev/null"), b"one")
    assert stat.S_ISCHR(os.stat("/dev/null").st_mode)


def full_disk(*_: object) -> None:
    """Fails as a write to a full disk does."""
    raise OSError(28, "No space left on device")
