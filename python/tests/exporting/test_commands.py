"""The commands `export` and `area` from a terminal, with the program."""
import csv
import io
import json
import os
import subprocess
import sys
from pathlib import Path

import pytest

from dedale.exporting import command
from tests.exporting.tools import PYTHON, run_tools

SQUARES = """relation A(x, y);
insert A { x >= 0, x <= 4, y >= 0, y <= 4 };
insert A { x >= 2, x <= 6, y >= 2, y <= 6 };
"""
LAND = """-- scale 10
relation Land(n text, x, y);
insert Land { n = 'it''s, "so"', x >= 0, x <= 10, y >= 0, y < 10 };
insert Land { n = 'b', 3*x = 10, y = 20 };
"""


def test_area_counts_overlaps_once(program: str) -> None:
    assert run_tools(program, "area", script=SQUARES + "show A;").out == "area\n28\n"
    assert run_tools(program, "area", "--scale", "3", script=SQUARES + "query (x, y) : A(x, y);").out == "area\n28/9\n"


def test_area_of_each_text(program: str) -> None:
    script = LAND + "insert Land { n = 'b', x >= 5, x <= 6, y >= 0, y <= 1 };\nquery (n text, y, x) : Land(n, x, y);"
    lines = run_tools(program, "area", script=script).out.splitlines()
    assert (lines[0], sorted(lines[1:])) == ("n,area", ['"it\'s, ""so""",1', "b,0.01"])


def test_wkt(program: str) -> None:
    run = run_tools(program, "export", "--format", "wkt", script=LAND + "show Land;")
    assert (run.status, run.err) == (0, "")
    assert list(csv.reader(io.StringIO(run.out))) == [
        ["n", "wkt"],
        ['it\'s, "so"', "POLYGON ((0 0, 1 0, 1 1, 0 1, 0 0))"],
        ["b", "POINT (0.33333333333333333 2)"],
    ]


def test_geojson_from_a_file(program: str, tmp_path: Path) -> None:
    script = tmp_path / "land.dedale"
    script.write_text(LAND + "query (n text, x, y) : Land(n, x, y) and x >= 5; ask true; box Land;")
    run = run_tools(program, "export", "--format", "geojson", "--scale", "5", str(script))
    (feature,) = json.loads(run.out)["features"]
    assert feature["properties"] == {"n": 'it\'s, "so"'}
    assert feature["geometry"]["coordinates"] == [[[1, 0], [2, 0], [2, 2], [1, 2], [1, 0]]]


def test_csv(program: str) -> None:
    run = run_tools(program, "export", "--format", "csv", "-", script=LAND + "show Land;")
    assert run.out == 'n,x,y\n"it\'s, ""so""","[0, 1]","[0, 1)"\nb,1/3,2\n'
    run = run_tools(program, "export", "--format", "csv", "--columns", "y", script=LAND + "show Land;")
    assert run.out == 'n,x,y\n"it\'s, ""so""","[0, 10]","[0, 1)"\nb,10/3,2\n'


def test_csv_for_spreadsheets(program: str) -> None:
    script = "relation T(n text, x); insert T { n = '=cmd', x = -3 }; show T;"
    assert run_tools(program, "export", "--format", "csv", "--spreadsheet", script=script).out == "n,x\n'=cmd,-3\n"
    assert run_tools(program, "export", "--format", "csv", script=script).out == "n,x\n=cmd,-3\n"


def test_texts_in_any_bytes(program: str) -> None:
    script = b"relation T(n text, x, y); insert T { n = 'caf\xc3\xa9 \xff', x = 1, y = 2 }; show T;"
    assert run_tools(program, "export", "--format", "csv", script=script).out == "n,x,y\ncafé \udcff,1,2\n"
    run = run_tools(program, "export", "--format", "geojson", script=script)
    assert (run.status, run.out) == (1, "")
    assert "standard input:1: a text isn't UTF-8" in run.err


def test_refused_statements_are_named(program: str) -> None:
    script = "relation A(x, y);\n\ninsert B { x = 1 };\nshow A;\nquery (x) : A(x, 1"
    run = run_tools(program, "area", script=script)
    assert (run.status, run.out) == (1, "")
    assert run.err.splitlines() == [
        "standard input:3: refused 9 unknown: insert B { x = 1 }",
        "standard input:5: refused 2 unfinished: query (x) : A(x, 1",
        "dedale-tools area: nothing is written; with --skip the rest is",
    ]


def test_what_cannot_be_written_is_named_or_skipped(program: str, tmp_path: Path) -> None:
    path = tmp_path / "a.dedale"
    path.write_text(SQUARES + "insert A { x >= 5 };\nquery (x) : A(x, 1);\nshow A;\nshow B;\n")
    words = ("export", "--format", "wkt", str(path))
    told = [
        f"{path}:5: no shape, as there aren't two rational columns: (x)",
        f"{path}:6: it has no bound in x and y: {{ x >= 5 }}",
        f"{path}:7: refused 9 unknown: show B",
    ]
    run = run_tools(program, *words)
    assert (run.status, run.out) == (1, "")
    assert run.err.splitlines()[:3] == told
    run = run_tools(program, *words, "--skip")
    assert (run.status, run.err.splitlines()) == (1, told)
    assert run.out == 'wkt\n"POLYGON ((0 0, 4 0, 4 2, 6 2, 6 6, 2 6, 2 4, 0 4, 0 0))"\n'


@pytest.mark.parametrize(
    "words",
    [("export",), ("export", "--format", "shp"), ("export", "--format", "wkt", "--columns", "x"), ("area", "--format", "wkt"),
     ("export", "--format", "wkt", "--columns", "x,x"), ("export", "--format", "csv", "--scale", "0"), ("area", "--columns", "x,y,z"),
     ("export", "--format", "csv", "--scale", "1.5"), ("export", "--format", "wkt", "--spreadsheet"), ("area", "--nonsense"),
     ("export", "--format", "csv", "--columns", "x, y"), ("area", "--seconds", "0"), ("area", "--limit", "no"), ("area", "a", "b"),
     ("area", "no-such-file.dedale"), ("area", "/")],
)
def test_bad_words(capfd: pytest.CaptureFixture[str], words: tuple[str, ...]) -> None:
    assert _status(words) == 2
    written = capfd.readouterr()
    assert written.out == ""
    assert f"dedale-tools {words[0]}: " in written.err


@pytest.mark.parametrize("word", ["export", "area"])
def test_help(capfd: pytest.CaptureFixture[str], word: str) -> None:
    assert _status((word, "--help")) == 0
    assert f"usage: dedale-tools {word}" in capfd.readouterr().out


def test_several_scales(program: str) -> None:
    run = run_tools(program, "area", script="-- scale 10\n" + SQUARES + "\n-- scale 100\nshow A;")
    assert (run.status, run.out) == (1, "")
    assert run.err == "dedale-tools area: standard input: the script tells several scales: 10, 100; give one by --scale\n"
    assert run_tools(program, "area", "--scale", "2", script="-- scale 10\n-- scale 100\n" + SQUARES + "show A;").out == "area\n7\n"


def test_columns_that_no_answer_has(program: str) -> None:
    for words in (("area",), ("export", "--format", "csv"), ("export", "--format", "geojson")):
        run = run_tools(program, *words, "--columns", "x,z", script=SQUARES + "show A;")
        assert (run.status, run.out) == (1, "")
        assert run.err == f"dedale-tools {words[0]}: standard input: no answer has a rational column z\n"
    assert run_tools(program, "export", "--format", "csv", "--columns", "z", script=SQUARES).status == 0


def test_a_script_without_an_answer(program: str) -> None:
    for words, written in ((("area",), "area\n"), (("export", "--format", "csv"), ""), (("export", "--format", "wkt"), "wkt\n")):
        run = run_tools(program, *words, script=SQUARES)
        assert (run.status, run.out) == (0, written)
        assert run.err == f"dedale-tools {words[0]}: standard input: no query and no show is answered, so there is nothing to write\n"


def test_an_answer_without_a_tuple_has_its_columns(program: str) -> None:
    script = LAND + "query (n text, x, y) : Land(n, x, y) and x > 99;"
    for words, written in (
        (("area",), "n,area\n"), (("export", "--format", "csv"), "n,x,y\n"), (("export", "--format", "wkt"), "n,wkt\n"),
    ):
        run = run_tools(program, *words, script=script)
        assert (run.status, run.out, run.err) == (0, written, "")


@pytest.mark.parametrize("name", ["no-such-program", "/dev/null", "/"])
def test_missing_program(program: str, name: str) -> None:
    run = run_tools(program, "area", "--program", name, script=SQUARES)
    assert (run.status, run.out) == (1, "")
    assert name in run.err
    assert "Traceback" not in run.err


def test_a_program_that_is_no_dedale(program: str) -> None:
    for other in ("/bin/echo", "/bin/false", "/bin/true"):
        run = run_tools(program, "area", "--program", other, script=SQUARES)
        assert (run.status, run.out) == (1, "")
        assert run.err.startswith("dedale-tools area: ")
        assert "Traceback" not in run.err


def test_limits(program: str) -> None:
    run = run_tools(program, "area", "--limit", "1", script=SQUARES)
    assert run.err.startswith("standard input:3: refused 17 full: insert A")
    run = run_tools(program, "area", "--limit", "2000000", script=SQUARES)
    assert (run.status, run.out) == (1, "")
    assert run.err.startswith("dedale-tools area: ")


def test_time_limit(program: str, tmp_path: Path) -> None:
    silent = _other_program(tmp_path, "while read -r line; do :; done")
    run = run_tools(program, "area", "--program", silent, "--seconds", "0.2", script="-- squares\n" + SQUARES)
    assert (run.status, run.out) == (1, "")
    assert run.err == "dedale-tools area: standard input:2: no reply within 0.2 s: relation A(x, y)\n"


def test_a_program_that_ends(program: str, tmp_path: Path) -> None:
    mortal = _other_program(tmp_path, "read -r line || exit 0; echo ok; read -r line; kill -9 $$")
    run = run_tools(program, "area", "--program", mortal, script="-- squares\n" + SQUARES)
    assert (run.status, run.out) == (1, "")
    assert run.err.startswith("dedale-tools area: standard input:3: the program ended by signal 9: insert A {")


def test_a_reader_that_ends(program: str) -> None:
    words = [sys.executable, "-m", "dedale", "area"]
    environment = os.environ | {"DEDALE": program, "PYTHONPATH": str(PYTHON)}
    with subprocess.Popen(
        words, stdin=subprocess.PIPE, stdout=subprocess.PIPE, stderr=subprocess.PIPE, env=environment
    ) as process:
        assert process.stdin and process.stdout and process.stderr
        process.stdout.close()
        process.stdin.write(SQUARES.encode() + b"show A;")
        process.stdin.close()
        assert process.stderr.read() == b""
        assert process.wait() == 4


def _status(words: tuple[str, ...]) -> object:
    """The exit status of a command that isn't to run a script."""
    try:
        return command.main(words)
    except SystemExit as end:
        return end.code


def _other_program(folder: Path, commands: str) -> str:
    """A program by commands of the shell."""
    path = folder / "program"
    path.write_text(f"#!/bin/sh\n{commands}\n")
    path.chmod(0o755)
    return str(path)
