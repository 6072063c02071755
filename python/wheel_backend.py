"""Builds the wheel of this package with the standard library alone.

Debian's setuptools needs the package `wheel` beside it, which a new virtual environment doesn't have. This is a build backend
(PEP 517) for what a package of Python sources needs: a zip archive with metadata (PEP 427, PEP 621). It writes nothing into
the source folder."""
import base64
import hashlib
import tomllib
import zipfile
from pathlib import Path
from typing import Any

from dedale.version import __version__

SOURCE = Path(__file__).resolve().parent
WHEEL = "Wheel-Version: 1.0\nGenerator: wheel_backend\nRoot-Is-Purelib: true\nTag: py3-none-any\n"


class UnsupportedOperation(Exception):
    """What this backend doesn't do."""


def build_wheel(
    wheel_directory: str, config_settings: dict[str, Any] | None = None, metadata_directory: str | None = None
) -> str:
    """Writes the wheel into the folder, and returns its file name. The other parameters, of PEP 517, have no effect."""
    project = tomllib.loads((SOURCE / "pyproject.toml").read_text(encoding="utf-8"))["project"]
    stem = f"{project['name'].replace('-', '_')}-{__version__}"
    files = _package_files() | {f"{stem}.dist-info/{name}": text.encode() for name, text in _metadata(project).items()}
    record = f"{stem}.dist-info/RECORD"
    lines = [_record_line(name, data) for name, data in files.items()] + [f"{record},,"]
    files[record] = "".join(line + "\n" for line in lines).encode()
    name = f"{stem}-py3-none-any.whl"
    with zipfile.ZipFile(Path(wheel_directory) / name, "w", zipfile.ZIP_DEFLATED) as archive:
        for path, data in files.items():
            archive.writestr(path, data)
    return name


def build_sdist(sdist_directory: str, config_settings: dict[str, Any] | None = None) -> str:
    """Raises `UnsupportedOperation`: the package is installed from the repository alone."""
    raise UnsupportedOperation("there is no source archive: the package is installed from the repository")


def _package_files() -> dict[str, bytes]:
    """The files of the package by their paths in the archive."""
    paths = sorted(path for path in (SOURCE / "dedale").rglob("*") if path.suffix == ".py" or path.name == "py.typed")
    return {path.relative_to(SOURCE).as_posix(): path.read_bytes() for path in paths}


def _metadata(project: dict[str, Any]) -> dict[str, str]:
    """The files of metadata by their names."""
    fields = [
        "Metadata-Version: 2.1",
        f"Name: {project['name']}",
        f"Version: {__version__}",
        f"Summary: {project['description']}",
        f"License: {project['license']['text']}",
        f"Requires-Python: {project['requires-python']}",
        "Description-Content-Type: text/markdown",
    ]
    readme = (SOURCE / project["readme"]).read_text(encoding="utf-8")
    scripts = "".join(f"{name} = {entry}\n" for name, entry in project["scripts"].items())
    return {
        "METADATA": "\n".join(fields) + "\n\n" + readme,
        "WHEEL": WHEEL,
        "entry_points.txt": f"[console_scripts]\n{scripts}",
    }


def _record_line(path: str, data: bytes) -> str:
    """The line of the record for a file: its path, hash and size."""
    digest = base64.urlsafe_b64encode(hashlib.sha256(data).digest()).rstrip(b"=").decode()
    return f"{path},sha256={digest},{len(data)}"
