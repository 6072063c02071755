"""The program that keeps a database in a file: runs that follow one another, runs that are killed, and files that it refuses."""
import os
import random
import resource
import shutil
import signal
import sqlite3
import subprocess
from collections.abc import Iterator
from contextlib import closing, contextmanager
from pathlib import Path

import pytest

KEPT = os.environ.get("DEDALE_KEPT", str(Path(__file__).resolve().parents[2] / "dedale_kept"))
NOT_OPENED = 7


@pytest.fixture()
def file(tmp_path: Path) -> Path:
    """A file that isn't there yet, in a folder of its own."""
    return tmp_path / "map.db"


def run_kept(file: Path, script: str, *words: str) -> tuple[int, str]:
    """The exit status and the replies of a whole run."""
    done = subprocess.run([KEPT, str(file), *words], input=script, stdout=subprocess.PIPE, text=True, check=False)
    return done.returncode, done.stdout


def replies_of(program: str, script: str) -> str:
    """The replies of the program that keeps nothing."""
    return subprocess.run([program], input=script, stdout=subprocess.PIPE, text=True, check=False).stdout


def kept_script(file: Path) -> str:
    """The statements of the file, as SQLite reads them."""
    with closing(sqlite3.connect(file)) as database:
        return "\n".join(text for (text,) in database.execute("select text from statement order by number"))


@contextmanager
def conversation(file: Path) -> Iterator[subprocess.Popen[str]]:
    """A run that is read reply by reply. It is killed where it still runs in the end."""
    with subprocess.Popen([KEPT, str(file)], stdin=subprocess.PIPE, stdout=subprocess.PIPE, text=True, bufsize=1) as run:
        try:
            yield run
        finally:
            run.kill()


def say(run: subprocess.Popen[str], statement: str) -> str:
    """The reply of one line to a statement."""
    assert run.stdin is not None and run.stdout is not None
    run.stdin.write(statement)
    run.stdin.flush()
    return run.stdout.readline()


def test_a_second_run_goes_on(file: Path) -> None:
    assert run_kept(file, "relation R(x); insert R { x = 1 }; insert R { x = 2 }; delete R 1;") == (0, "ok\ntuple 1\ntuple 2\nok\n")
    assert run_kept(file, "insert R { x = 3 }; show R;") == (0, "tuple 3\ntuples 2\n2 { x = 2 }\n3 { x = 3 }\nend\n")


def test_what_is_refused_or_cut_is_not_kept(file: Path) -> None:
    status, replies = run_kept(file, "relation R(x); relation R(y); insert S { x = 1 }; ask 1 = 1; insert R { x = 1 }")
    assert status == 1
    assert [line.split()[0] for line in replies.splitlines()] == ["ok", "refused", "refused", "yes", "refused"]
    assert kept_script(file) == "dedale 2;\nrelation R(x);"


def test_a_header_may_come_first(file: Path) -> None:
    assert run_kept(file, "dedale 2; relation R(x);") == (0, "ok\nok\n")
    assert run_kept(file, "dedale 2; ask exists x (R(x)); dedale 2;")[1].splitlines()[:2] == ["ok", "no"]


def test_the_statements_are_a_script(file: Path, program: str) -> None:
    script = "relation R(n text, x); insert R { n = 'a;b', x > 1/2 }; view V(x) := exists n text R(n, x); keep V; insert R { x < 0 };"
    run_kept(file, script)
    assert replies_of(program, kept_script(file) + "dump;").partition("dump ")[2] == run_kept(file, "dump;")[1].partition("dump ")[2]


def test_the_limit_is_that_of_the_run(file: Path) -> None:
    run_kept(file, "relation R(x); insert R { x = 1 };", "--limit", "1")
    assert run_kept(file, "insert R { x = 2 };", "--limit", "1")[1].startswith("refused 17")
    assert run_kept(file, "insert R { x = 2 };") == (0, "tuple 2\n")


@pytest.mark.parametrize("words", [[], ["--limit"], ["a.db", "b.db"], ["a.db", "--limit", "0"], ["a.db", "--make", "2"]])
def test_bad_words(words: list[str], tmp_path: Path) -> None:
    done = subprocess.run([KEPT, *words], input="ask 1 = 1;", stdout=subprocess.PIPE, text=True, check=False, cwd=tmp_path)
    assert (done.returncode, done.stdout, list(tmp_path.iterdir())) == (2, "", [])


@pytest.mark.parametrize("seed", range(20))
def test_what_was_acknowledged_survives_a_kill(seed: int, file: Path) -> None:
    chance = random.Random(seed)
    with conversation(file) as run:
        assert say(run, "relation R(x);") == "ok\n"
        acknowledged = chance.randrange(12)
        for number in range(1, acknowledged + 1):
            assert say(run, f"insert R {{ x = {number} }};") == f"tuple {number}\n"
        sent = acknowledged + chance.randrange(4)
        assert run.stdin is not None
        run.stdin.write("".join(f"insert R {{ x = {number} }};" for number in range(acknowledged + 1, sent + 1)))
        run.stdin.flush()
        if chance.random() < 0.5:
            os.kill(run.pid, signal.SIGKILL)
    status, replies = run_kept(file, "show R;")
    kept = replies.splitlines()[1:-1]
    assert status == 0 and acknowledged <= len(kept) <= sent
    assert kept == [f"{number} {{ x = {number} }}" for number in range(1, len(kept) + 1)]


def test_a_second_process_is_refused(file: Path) -> None:
    with conversation(file) as run:
        assert say(run, "relation R(x);") == "ok\n"
        assert run_kept(file, "relation S(x);") == (NOT_OPENED, "not opened: the file is in use\n")
        assert say(run, "insert R { x = 1 };") == "tuple 1\n"


def test_a_file_of_another_program_is_left_as_it_is(file: Path) -> None:
    file.write_text("this is no database\n" * 100)
    before = file.read_bytes()
    status, replies = run_kept(file, "relation R(x);")
    assert (status, file.read_bytes()) == (NOT_OPENED, before)
    assert replies.startswith("not opened: ")


def test_a_database_of_another_program_is_left_as_it_is(file: Path) -> None:
    with closing(sqlite3.connect(file)) as database:
        database.execute("create table t (x)")
        database.commit()
    assert run_kept(file, "relation R(x);") == (NOT_OPENED, "not opened: the file is of another program\n")
    with closing(sqlite3.connect(file)) as database:
        assert [name for (name,) in database.execute("select name from sqlite_schema")] == ["t"]


def test_a_statement_that_is_not_accepted_again_is_told(file: Path) -> None:
    run_kept(file, "relation R(x); insert R { x = 1 };")
    with closing(sqlite3.connect(file)) as database:
        database.execute("update statement set text = 'insert S { x = 1 };' where number = 3")
        database.commit()
    assert run_kept(file, "show R;") == (NOT_OPENED, "not opened: a statement of the file is not accepted again\n")


@pytest.mark.parametrize("where", ["nothing/map.db", "."])
def test_what_is_no_file_is_refused(where: str, tmp_path: Path) -> None:
    status, replies = run_kept(tmp_path / where, "relation R(x);")
    assert (status, replies) == (NOT_OPENED, "not opened: there is no such file that can be read and written\n")


def made_file(folder: Path) -> Path:
    """A file with some statements, and the log beside it."""
    file = folder / "whole.db"
    run_kept(file, "relation R(x);" + "".join(f"insert R {{ x = {number} }};" for number in range(1, 40)))
    return file


def is_front(replies: str) -> bool:
    """Whether the replies to `show R;` show the first tuples, or refuse it as unknown."""
    if replies.startswith("refused "):
        return True
    kept = replies.splitlines()[1:-1]
    return kept == [f"{number} {{ x = {number} }}" for number in range(1, len(kept) + 1)]


def test_a_file_that_is_cut_is_told_or_right(tmp_path: Path) -> None:
    whole = made_file(tmp_path)
    content = whole.read_bytes()
    for length in range(0, len(content), 509):
        cut = tmp_path / "cut.db"
        for path in (cut, tmp_path / "cut.db-wal"):
            path.unlink(missing_ok=True)
        cut.write_bytes(content[:length])
        status, replies = run_kept(cut, "show R;")
        assert (status == NOT_OPENED and replies.startswith("not opened: ")) or is_front(replies), length


def test_a_file_with_changed_bytes_ends_no_run_amiss(tmp_path: Path) -> None:
    whole = made_file(tmp_path)
    chance = random.Random(1)
    for _ in range(40):
        changed = tmp_path / "changed.db"
        for path in (changed, tmp_path / "changed.db-wal"):
            path.unlink(missing_ok=True)
        shutil.copy(whole, changed)
        content = bytearray(changed.read_bytes())
        place = chance.randrange(len(content))
        content[place] ^= 1 << chance.randrange(8)
        changed.write_bytes(content)
        status, replies = run_kept(changed, "show R;")
        assert (status == NOT_OPENED and replies.startswith("not opened: ")) or (status in (0, 1) and replies), place


def allow_little() -> None:
    """Lets the process write files of at most 32 kB, and has a longer one fail."""
    signal.signal(signal.SIGXFSZ, signal.SIG_IGN)
    resource.setrlimit(resource.RLIMIT_FSIZE, (32768, 32768))


def test_a_full_disk_ends_the_run(file: Path) -> None:
    script = "relation R(x);" + "".join(f"insert R {{ x = {number} }};" for number in range(1, 4000))
    # the statements go through a pipe, read by read
    with subprocess.Popen([KEPT, str(file)], stdin=subprocess.PIPE, stdout=subprocess.PIPE, text=True, preexec_fn=allow_little) as run:
        try:
            replies, _ = run.communicate(script)
        except BrokenPipeError:
            replies = ""
    assert run.returncode in (4, NOT_OPENED)
    acknowledged = sum(line.startswith("tuple ") for line in replies.splitlines())
    kept = run_kept(file, "show R;")[1]
    assert is_front(kept) and max(len(kept.splitlines()) - 2, 0) >= acknowledged
