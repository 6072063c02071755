"""Files read, and written so that a crash leaves the old one or the new one."""
import os
import stat
from contextlib import contextmanager, suppress
from pathlib import Path
from typing import Iterator

from dedale.errors import DedaleError
from dedale.statements import shortened


class FileError(DedaleError):
    """A file can't be read or written: which, and why."""


@contextmanager
def telling(path: Path) -> Iterator[None]:
    """Raises `FileError` where there is an `OSError` within."""
    try:
        yield
    except OSError as error:
        raise FileError(f"{shortened(str(path))}: {error.strerror}") from error


def write_anew(path: Path, data: bytes) -> None:
    """Writes these bytes as the file: into one beside it, which then gets its name. Once this returns the disk has it. What
    isn't a regular file is written to as it is. Raises `FileError`, and then the file is as it was."""
    with telling(path):
        _write_anew(Path(os.path.realpath(path)), data)


def _write_anew(path: Path, data: bytes) -> None:
    before = path.stat() if path.exists() else None
    if before and not stat.S_ISREG(before.st_mode):
        path.write_bytes(data)
        return
    beside = path.with_name(f".{path.name}.{os.getpid()}.new")
    try:
        _write(beside, data, before)
        os.replace(beside, path)
    except BaseException:
        with suppress(OSError):
            beside.unlink()
        raise
    _sync_folder(path.parent)


def _write(path: Path, data: bytes, before: os.stat_result | None) -> None:
    """Writes a new file, with the mode and the owner of the one that it is to stand for, and has the disk write it."""
    with path.open("xb") as file:
        if before:
            os.fchmod(file.fileno(), stat.S_IMODE(before.st_mode))
            with suppress(PermissionError):
                os.fchown(file.fileno(), before.st_uid, before.st_gid)
        file.write(data)
        file.flush()
        os.fsync(file.fileno())


def _sync_folder(folder: Path) -> None:
    """Has the disk write which files the folder has."""
    opened = os.open(folder, os.O_RDONLY | os.O_DIRECTORY)
    try:
        os.fsync(opened)
    finally:
        os.close(opened)
