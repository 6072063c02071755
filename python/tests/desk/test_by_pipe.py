"""The desk by a pipe: replies, words, refusals and what fails."""
import resource
import signal
import subprocess
import time
from pathlib import Path

import pytest

from dedale.process import check_program
from tests.desk.running import LONG_QUESTION, command, environment, run
from tests.scripts import ROOT, run_program
from tests.test_client import STRIPS

LAND = """relation Land(n text, x, y);
insert Land { n = 'a', x >= 0, x <= 4, y = 5 };
insert Land { n = 'b', x >= 0, y >= 0, x + y <= 4 };
"""


@pytest.fixture(name="path")
def fixture_path(tmp_path: Path, program: str, monkeypatch: pytest.MonkeyPatch) -> Path:
    """The file of a database that isn't there yet, for the program that is tested."""
    monkeypatch.setenv("DEDALE", program)
    return tmp_path / "map.dedale"


def test_replies(path: Path) -> None:
    ran = run(path, LAND + "show Land; ask Land('a', 1, 5); box Land;\nquery (x) : exists y\n (Land('b', x, y)); delete Land 1;")
    assert ran.lines == [
        "ok",
        "tuple 1",
        "tuple 2",
        "tuple  n    x            y            tied by",
        "-----  ---  -----------  -----------  ----------",
        "1      'a'  x in [0, 4]  5",
        "2      'b'  x in [0, 4]  y in [0, 4]  x + y <= 4",
        "2 tuples",
        "yes",
        "x in [0, 4]",
        "y in [0, 5]",
        "x",
        "-----------",
        "x in [0, 4]",
        "1 tuple",
        "ok",
    ]
    assert (ran.status, ran.errors) == (0, [])
    assert run(path, "show Land;").lines[2:] == ["2      'b'  x in [0, 4]  y in [0, 4]  x + y <= 4", "1 tuple"]


def test_the_example_of_the_documents(path: Path) -> None:
    tools = (ROOT / "docs" / "tools.md").read_text(encoding="utf-8")
    example = [line[4:] for line in tools.split("## At a terminal")[1].split("\n## ")[0].split("\n") if line.startswith("    ")][1:]
    typed = [line.removeprefix("map.dedale> ") for line in example if line.startswith("map.dedale> ")]
    ran = run(path, "\n".join(typed))
    assert ran.lines == [line for line in example if not line.startswith("map.dedale> ")]
    assert len(typed) == 4


def test_the_file_is_a_script(path: Path, program: str) -> None:
    run(path, LAND + "ask true; insert Lnd { }; delete Land 1;")
    assert path.read_text() == LAND.rstrip() + "\ndelete Land 1;"
    assert run_program(program, path.read_bytes()) == b"ok\ntuple 1\ntuple 2\nok\n"


def test_refusals(path: Path) -> None:
    ran = run(path, "relation T(x);\nask exists y\n  (U(y) and y > 0);\nask true")
    assert ran.status == 1
    assert ran.lines[:4] == [
        "ok",
        "refused 9 unknown: no relation or view has the name, or that of which a closure or an interior is asked",
        "    (U(y) and y > 0)",
        "     ^",
    ]
    assert ran.lines[5:] == [
        "refused 2 unfinished: the script ends in a statement that no `;` ends, and that isn't blank",
        "  ask true",
    ]


def test_few_rows_are_shown(path: Path) -> None:
    inserts = "".join(f"insert T {{ x = {k} }};" for k in range(60))
    ran = run(path, f"relation T(x);{inserts}\nshow T;\n\\rows 2\nshow T;\n\\rows\n\\rows 0\n\\rows 100\nshow T;")
    lines = ran.lines[61:]
    assert lines[52] == "50 of 60 tuples, and 10 more: \\rows 60 shows all"
    assert lines[53:60] == [
        "at most 2 rows of a table are shown",
        "tuple  x",
        "-----  -",
        "1      0",
        "2      1",
        "2 of 60 tuples, and 58 more: \\rows 60 shows all",
        "at most 2 rows of a table are shown",
    ]
    assert lines[60] == "a number of rows is 1 to 1,000,000, and not '0'"
    assert (lines[-1], ran.status) == ("60 tuples", 1)


def test_names_are_listed(path: Path) -> None:
    views = "view V(x) := exists n text exists y (Land(n, x, y));view W(n text) := V(1) and n = n;keep V;"
    ran = run(path, f"\\show\n{LAND}{views}\n\\show\ndrop W;\n\\show")
    assert ran.lines[0] == "no relation and no view is defined"
    assert ran.lines[7:] == [
        "relation Land(n text, x, y)",
        "kept view V(x)",
        "view W(n text)",
        "ok",
        "relation Land(n text, x, y)",
        "kept view V(x)",
    ]
    assert run(path, "\\show").lines == ["relation Land(n text, x, y)", "kept view V(x)"]


def test_a_change_is_taken_off(path: Path) -> None:
    ran = run(path, LAND + "\\undo\n\\undo\ninsert Land { x = 7 };\n\\undo;\n\\undo\nshow Land;\n\\undo\n")
    assert ran.lines[3:8] == [
        "taken off: insert Land { n = 'b', x >= 0, y >= 0, x + y <= 4 }",
        "taken off: insert Land { n = 'a', x >= 0, x <= 4, y = 5 }",
        "tuple 1",
        "taken off: insert Land { x = 7 }",
        "taken off: relation Land(n text, x, y)",
    ]
    assert ran.lines[-1] == "nothing is left to be taken off"
    assert path.read_bytes() == b""


def test_a_script_is_saved(path: Path, tmp_path: Path) -> None:
    copy = tmp_path / "a copy"
    ran = run(path, f"{LAND}\\save '{copy}'\n\\save {path}\n\\save /dev/full\n\\save {tmp_path}/none/x\n\\save {tmp_path}")
    assert copy.read_bytes() == path.read_bytes() == LAND.rstrip().encode()
    assert ran.lines[3:] == [
        f"saved: 3 changes in {copy}",
        f"{path}: this is the file of the database",
        "/dev/full: No space left on device",
        f"{tmp_path}/none/x: No such file or directory",
        f"{tmp_path}: Is a directory",
    ]


def test_pictures(path: Path, tmp_path: Path) -> None:
    picture = tmp_path / "map.svg"
    view = "view V(x, y) := Land('b', x, y);"
    words = f"\\draw {picture}\n\\draw {picture} Land\n\\draw {picture} V\n\\draw {picture} U\n"
    ran = run(path, f"{LAND}{view}\n{words}query (x) : x = 1;\n\\draw {picture}\n\\draw /dev/full V\n")
    drawn = f"drawn in {picture}"
    assert ran.lines[4:8] == [
        "nothing was asked yet: name a relation or view behind the file",
        drawn,
        drawn,
        "no relation or view has the name U: \\show lists them",
    ]
    assert ran.lines[-2:] == ["nothing is drawn: there are no two columns of numbers", "/dev/full: No space left on device"]
    assert picture.read_text().count("<path") >= 1


def test_words_that_are_none(path: Path) -> None:
    ran = run(path, "\\shwo\nask true; \\show\n\\quit\nask true;")
    assert ran.lines == [
        "\\shwo is no word of the desk: is \\show meant? \\help lists them",
        "yes",
        "no relation and no view is defined",
    ]


def test_a_time_limit_ends_a_question(path: Path) -> None:
    started = time.monotonic()
    ran = run(path, f"{STRIPS}\n\\time 0.5\n{LONG_QUESTION}\n\\time 20\nask Strip(0, 0, 0, 0); insert Strip {{ x = 1 }};")
    assert time.monotonic() - started < 30
    assert ran.lines[61:] == [
        "a reply may take 0.5 s",
        "no reply within 0.5 s: it is ended, and nothing is changed; \\time N sets the limit",
        "a reply may take 20 s",
        "yes",
        "tuple 61",
    ]
    assert ran.status == 1


def test_the_limits_of_the_words(path: Path) -> None:
    assert run(path, "\\time", "--seconds", "7").lines == ["a reply may take 7 s"]
    ran = run(path, "relation T(x); insert T { }; insert T { };", "--limit", "1")
    full = "refused 17 full: the relation holds as many tuples as `--limit` allows, 100,000 where it isn't given"
    assert ran.lines[:3] == ["ok", "tuple 1", full]
    for words in (["--seconds", "0"], ["--limit", "x"], ["--secs", "1"]):
        ran = run(path, "", *words)
        assert ran.status == 2 and not any("Traceback" in line for line in ran.errors)


def test_files_that_are_none(path: Path, tmp_path: Path) -> None:
    folder = run(tmp_path, "")
    assert (folder.status, folder.errors) == (2, [f"dedale-tools desk: {tmp_path}: it is no regular file"])
    long = run_in(tmp_path / ("x" * 300), tmp_path)
    assert long.returncode == 2
    assert long.stderr.decode().startswith("dedale-tools desk: ") and long.stderr.decode().endswith(": File name too long\n")
    none = tmp_path / "none" / "map.dedale"
    missing = run_in(none, tmp_path)
    assert (missing.returncode, missing.stderr.decode()) == (1, f"dedale-tools desk: {none}: No such file or directory\n")
    path.write_text("relation T(x);\n\nask U(1);\ninsert U { x = 1 };\ninsert T { x = };")
    ran = run(path, "ask true;")
    assert (ran.status, ran.lines) == (1, [])
    assert [line for line in ran.errors if line.startswith(str(path))] == [
        f"{path}:4: refused 9 unknown: no relation or view has the name, or that of which a closure or an interior is asked",
        f"{path}:5: refused 3 syntax: it is no command",
    ]
    path.write_text("relation T(x);\ninsert T { x")
    assert run(path, "").errors == [
        f"{path}:2: no `;` ends this statement, so it is left out, and the next change takes its place: insert T {{ x"
    ]


def run_in(path: Path, home: Path) -> subprocess.CompletedProcess[bytes]:
    """Runs a desk whose file need not have a folder."""
    return subprocess.run(command(path), stdin=subprocess.DEVNULL, capture_output=True, check=False, env=environment(home))


def test_a_program_that_is_not_found(path: Path, tmp_path: Path) -> None:
    ran = run(path, "ask true;", "--program", str(tmp_path / "none"))
    assert (ran.status, ran.lines, len(ran.errors)) == (1, [], 1)
    assert ran.errors[0] == f"dedale-tools desk: {tmp_path}/none is no program that can be run"
    assert not path.exists()


def limit_files() -> None:
    """Has files grow to 100 bytes at most."""
    resource.setrlimit(resource.RLIMIT_FSIZE, (100, 100))


def test_a_file_that_can_not_grow(path: Path) -> None:
    ran = run(path, "relation T(n text);" + "insert T { n = 'abcdefghij' };" * 4 + "show T;", prepare=limit_files)
    assert ran.lines[:5] == ["ok", "tuple 1", "tuple 2"] + [f"{path}: File too large: nothing is changed"] * 2
    assert ran.lines[-1] == "2 tuples"
    assert not any("Traceback" in line for line in ran.errors)
    assert run(path, "show T;").lines[-1] == "2 tuples"


def test_failing_output(path: Path, tmp_path: Path) -> None:
    shell = " ".join(command(path))
    for line, status, told in (
        (f"echo 'ask true;' | {shell} > /dev/full", 4, "dedale-tools: No space left on device\n"),
        (f"yes 'ask true;' | head -n 2000 | {shell} | head -n 1 > /dev/null; exit ${{PIPESTATUS[2]}}", 4, ""),
    ):
        done = subprocess.run(["bash", "-c", line], env=environment(tmp_path), capture_output=True, check=False)
        assert (done.returncode, done.stderr.decode()) == (status, told)


@pytest.mark.parametrize("number, status", [(signal.SIGINT, 130), (signal.SIGTERM, 143), (signal.SIGHUP, 129)])
def test_signals_end_it(path: Path, tmp_path: Path, number: int, status: int) -> None:
    pipe = subprocess.PIPE
    with subprocess.Popen(command(path), env=environment(tmp_path), stdin=pipe, stdout=pipe, stderr=pipe) as desk:
        assert desk.stdin and desk.stdout
        desk.stdin.write(STRIPS.encode() + b"\n" + LONG_QUESTION.encode() + b"\n")
        desk.stdin.flush()
        for _ in range(61):
            assert desk.stdout.readline()
        time.sleep(0.5)
        desk.send_signal(number)
        _, errors = desk.communicate()
    assert (desk.returncode, errors) == (status, b"")


def test_the_launcher(path: Path, program: str) -> None:
    check_program([program])
    done = subprocess.run([str(ROOT / "dedale_tools"), "desk", "--help"], capture_output=True, check=False)
    assert done.returncode == 0 and b"FILE" in done.stdout and b"--seconds" in done.stdout
