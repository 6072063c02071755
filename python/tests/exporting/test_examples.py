"""Every example and script of the repository can be exported in every format, or is told why not."""
import csv
import io
import json

import pytest

from dedale.exporting import command
from tests.exporting.planar import read_wkt
from tests.exporting.tools import Run, run_tools
from tests.scripts import Script, repository_scripts, script_name

EXAMPLES = [one for one in repository_scripts() if one.name.endswith(".dedale")]
"""The scripts of `examples`."""


def _run(program: str, one: Script, *words: str) -> Run:
    run = run_tools(program, *words, "--skip", script=one.script)
    assert "Traceback" not in run.err
    assert run.status == (1 if run.err else 0)
    assert all(line.startswith("standard input:") for line in run.err.splitlines())
    return run


@pytest.mark.parametrize("one", EXAMPLES, ids=script_name)
def test_csv(program: str, one: Script) -> None:
    """Each tuple of an answer has its line, but for those that are told."""
    run = _run(program, one, "export", "--format", "csv")
    replies = one.replies.decode().splitlines()
    count = sum(int(line.split()[1]) for line in replies if line.startswith(("answer ", "tuples ")))
    told = sum("refused" not in line for line in run.err.splitlines())
    lines = list(csv.reader(io.StringIO(run.out)))
    assert len(lines[1:]) + told == count
    assert all(len(line) == len(lines[0]) for line in lines)


@pytest.mark.parametrize("one", EXAMPLES, ids=script_name)
def test_shapes(program: str, one: Script) -> None:
    """The formats have the same features, and Shapely reads them. An answer that is empty has an area and no shape."""
    geojson = json.loads(_run(program, one, "export", "--format", "geojson").out)["features"]
    wkt = list(csv.reader(io.StringIO(_run(program, one, "export", "--format", "wkt").out)))[1:]
    areas = list(csv.reader(io.StringIO(_run(program, one, "area").out)))[1:]
    assert len(geojson) == len(wkt) == len(areas)
    assert [line[:-1] for line in wkt] == [line[:-1] for line in areas]
    for line, feature in zip(wkt, geojson):
        shape = read_wkt(line[-1])
        assert shape.is_valid
        assert shape.geom_type == feature["geometry"]["type"]


@pytest.mark.parametrize("words", [("export", "--format", "csv"), ("export", "--format", "geojson")])
def test_scripts(program: str, monkeypatch: pytest.MonkeyPatch, capfd: pytest.CaptureFixture[str], words: tuple[str, ...]) -> None:
    """Nothing that the tests of the language have makes an error of its own."""
    monkeypatch.setenv("DEDALE", program)
    for one in repository_scripts():
        monkeypatch.setattr("sys.stdin", io.TextIOWrapper(io.BytesIO(one.script)))
        assert command.main(words) in (0, 1)
        capfd.readouterr()
