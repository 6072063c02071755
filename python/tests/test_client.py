"""The client gives each statement its own reply, and keeps what was accepted."""
import signal
import subprocess
import sys
import threading
import time
from fractions import Fraction
from pathlib import Path
from random import Random
from typing import Iterator

import pytest

from dedale.client import Dedale
from dedale.errors import DedaleError, Ended, JournalError, NoProgram, NoReply, TimeLimit
from dedale.replies import Answer, Done, Number, Refused, Reply, Stored, Truth
from dedale.statements import STATEMENT_BYTES, split
from tests.random_statements import random_script
from tests.scripts import Script, repository_scripts, run_program, script_name

# what is in none of these strips takes minutes
STRIPS = "relation Strip(x, y, z, u);" + "".join(
    f"insert Strip {{ {a}*x + {b}*y + {c}*z + {d}*u >= {k}, {a}*x + {b}*y + {c}*z + {d}*u <= {k + 3} }};"
    for k in range(60)
    for a, b, c, d in [(k * k % 17 + 1, k * 7 % 19 + 1, k * k * 3 % 23 + 1, k * 5 % 29 + 1)]
)
LONG_QUESTION = ("(x, y, z, u)", "not Strip(x, y, z, u)")


@pytest.fixture
def db() -> Iterator[Dedale]:
    """A database of the program."""
    with Dedale() as found:
        yield found


def printed(replies: list[Reply]) -> bytes:
    """The replies as the program writes them."""
    return "".join(reply.printed() for reply in replies).encode("utf-8", "surrogateescape")


@pytest.mark.parametrize("one", repository_scripts(), ids=script_name)
def test_the_scripts_of_the_repository_get_their_replies(one: Script) -> None:
    with Dedale(words=one.words) as db:
        assert printed(db.run(one.script)) == one.replies


def test_random_statements_get_the_replies_of_a_plain_run(program: str) -> None:
    random = Random(48)
    script = random_script(random, 10_000)
    statements = [one.piece + b";" for one in split(script)]
    assert len(statements) == 10_000
    expected = run_program(program, script)
    replies: list[Reply] = []
    with Dedale() as db:
        while statements:
            count = random.choice([1, 2, 50])
            replies += db.run(b"".join(statements[:count]))
            del statements[:count]
    assert len(replies) == 10_000
    assert printed(replies) == expected
    kinds = {type(reply) for reply in replies}
    assert len(kinds) == 11


def test_values(db: Dedale) -> None:
    db.run("relation T(n text, x, y); insert T { n = 'a', x >= 0, 2*x + 3*y <= 7, y >= 1 };")
    answer = db.query("(y, k text)", "exists x (T(k, x, y)) -- y first")
    assert [(one.text("k"), str(one.span("y"))) for one in answer.tuples] == [("a", "[1, 7/3]")]
    assert db.box("T").printed() == "x in [0, 2]\ny in [1, 7/3]\n"
    assert db.show("T").tuples[1].corners("x", "y")[2] == (Fraction(0), Fraction(7, 3))
    assert db.ask("exists x (T('a', x, 2))")
    assert not db.ask("T('a', 3, 2)")


def test_a_refusal_has_its_statement_and_line(db: Dedale) -> None:
    replies = db.run("ask true;\n\n-- so\n ask\n Foo(1);ask 'a")
    assert replies == [Truth(True), Refused(9, "unknown", "ask\n Foo(1)", 4), Refused(2, "unfinished", "ask 'a", 5)]
    with pytest.raises(Refused) as caught:
        db.query("(x)", "Foo(x)")
    assert (caught.value.number, caught.value.words, caught.value.line) == (9, "unknown", 1)
    assert caught.value.statement == "query (x) : Foo(x)"
    with pytest.raises(Refused):
        db.show("Foo")
    with pytest.raises(Refused):
        db.box("Foo")
    assert db.ask("true")


@pytest.mark.parametrize("formula", ["true; drop T", "true;", "true; --", ";"])
def test_only_one_statement_is_asked(db: Dedale, formula: str) -> None:
    db.run("relation T(x);")
    with pytest.raises(ValueError):
        db.ask(formula)
    assert db.show("T").tuples == {}


def test_an_unfinished_statement_is_not_sent(db: Dedale) -> None:
    assert db.run("ask true") == [Refused(2, "unfinished", "ask true", 1)]
    long = "ask".rjust(STATEMENT_BYTES + 1)
    assert db.run(long) == [Refused(1, "long statement", "ask", 1)]
    with pytest.raises(Refused):
        db.ask("n = 'a")
    assert db.run(" -- nothing") == []
    assert db.ask("true")


def test_bytes_that_are_no_utf_8_go_through(db: Dedale) -> None:
    db.run(b"relation T(n text); insert T { n = '\xff\xc3\xa9' };")
    (one,) = db.query("(n text)", "T(n)").tuples
    assert one.text("n") == "\udcff\xe9"
    assert db.ask("T('\udcff\xe9')")


def test_both_pipes_may_fill_up(db: Dedale) -> None:
    count = 10_000
    db.run("relation T(n text, x);" + "".join(f"insert T {{ n = 'number {k}', x = {k} }};" for k in range(count)))
    assert len(db.show("T").tuples) == count
    assert db.run("ask" + " " * 3_000_000 + "true;") == [Refused(1, "long statement", "ask" + " " * 3_000_000 + "true", 1)]
    kill(db)
    with pytest.raises(Ended):
        db.ask("true")
    # the new program has as many statements to read as replies to write
    assert len(db.show("T").tuples) == count


def kill(db: Dedale) -> None:
    """Kills the program that the database is in."""
    assert db._process
    db._process._popen.kill()


def test_a_time_limit_leaves_what_was_accepted(db: Dedale) -> None:
    db.run(STRIPS)
    before = db.run(
        "relation T(n text, x); insert T { x = 1 }; insert T { x = 'a' }; insert T { x = 2 }; insert T { x = 3 };"
        "delete T 3; delete T 1; view V(x) := exists n text (T(n, x)); keep V; relation U(x); drop U; insert T { n = 'it''s' };"
    )
    assert before[-1] == Number(4)
    shown = db.show("T")
    started = time.monotonic()
    with pytest.raises(TimeLimit) as caught:
        db.run(f"insert T {{ x = 9 }};\n\n query {LONG_QUESTION[0]} : {LONG_QUESTION[1]}; ask true;", seconds=1)
    assert time.monotonic() - started < 30
    assert caught.value.statement == f"query {LONG_QUESTION[0]} : {LONG_QUESTION[1]}"
    assert (caught.value.line, caught.value.seconds, caught.value.replies) == (3, 1, (Number(5),))
    assert db.run("delete T 5;") == [Done()]
    assert db.show("T") == shown
    assert db.run("insert T { x = 7 }; drop U;") == [Number(6), Refused(9, "unknown", "drop U", 1)]
    assert db.ask("V(7)")


def test_the_time_limit_of_all_statements() -> None:
    with Dedale(seconds=0.5) as db:
        db.run(STRIPS, seconds=20)
        with pytest.raises(TimeLimit):
            db.query(*LONG_QUESTION)
        assert db.ask("Strip(0, 0, 0, 0)", seconds=20)


def test_the_language_stays_after_a_restart(db: Dedale) -> None:
    db.run("dedale 2; relation T(x); insert T { x = 1/2 };")
    kill(db)
    with pytest.raises(Ended) as caught:
        db.ask("true")
    assert caught.value.status == -signal.SIGKILL
    assert db.ask("T(0.5)")


def test_the_first_statement_stays_the_first_after_a_restart(db: Dedale) -> None:
    db.run("ask true;")
    kill(db)
    with pytest.raises(Ended):
        db.ask("true")
    assert db.run("dedale 2;") == [Refused(3, "syntax", "dedale 2", 1)]


def test_an_interrupt_leaves_no_reply_behind(db: Dedale) -> None:
    db.run(STRIPS + "insert Strip { x = 1 };")
    with pytest.raises(KeyboardInterrupt):
        threading.Timer(0.3, signal.pthread_kill, (threading.main_thread().ident, signal.SIGINT)).start()
        db.query(*LONG_QUESTION)
    assert db.run("ask 1 = 2; insert Strip { x = 2 };") == [Truth(False), Number(62)]


WITHOUT_INPUT = '[ "$(head -c 1)" ] || exit 0'


def fake(folder: Path, script: str) -> str:
    """A program that isn't Dedale."""
    path = folder / "fake"
    path.write_text(f"#!/bin/sh\n{script}\n")
    path.chmod(0o755)
    return str(path)


def test_a_program_that_ends(tmp_path: Path) -> None:
    with Dedale(fake(tmp_path, f"{WITHOUT_INPUT}\nexit 7")) as db:
        for _ in range(2):
            with pytest.raises(Ended) as caught:
                db.run("ask true;\n")
            assert caught.value.status == 7


def test_what_is_no_reply(tmp_path: Path) -> None:
    with Dedale(fake(tmp_path, f"{WITHOUT_INPUT}\necho nothing\nexec cat")) as db:
        with pytest.raises(NoReply):
            db.run("ask true;\n")


def test_words_that_the_program_does_not_know() -> None:
    with pytest.raises(Ended) as caught:
        Dedale(words=["--limit", "none"])
    assert caught.value.status == 2
    with Dedale(words=["--limit=1"]) as db:
        assert db.run("relation T(x); insert T { }; insert T { };")[2] == Refused(17, "full", "insert T { }", 1)


def test_a_program_that_can_not_be_run(tmp_path: Path) -> None:
    with pytest.raises(NoProgram):
        Dedale(str(tmp_path / "none"))
    path = tmp_path / "no_program"
    path.write_bytes(b"\x7fELF no")
    path.chmod(0o755)
    with pytest.raises(NoProgram):
        Dedale(str(path))


def test_the_journal_brings_all_back(tmp_path: Path, program: str) -> None:
    path = tmp_path / "journal"
    script = random_script(Random(7), 400)
    full = b"insert R0 {".ljust(STATEMENT_BYTES - 1) + b"}"
    with Dedale(journal=path) as db:
        db.run(script)
        db.run(b"relation Full(x); insert Full { x = 1 }; drop R0; relation R0(x);" + full + b";" + full + b";ask true;")
        dump = printed(db.run("dump; show R1; show R0; insert R1 { };"))
    again = run_program(program, path.read_bytes() + b"dump;show R1; show R0;")
    assert again.endswith(dump.rpartition(b"end\n")[0] + b"end\n")
    with Dedale(journal=path) as db:
        db.run("delete R1 1;")
        assert db.run("insert R0 { x = 2 };") == [Number(3)]


def test_a_journal_cut_short_anywhere(tmp_path: Path) -> None:
    whole = tmp_path / "whole"
    script = "relation T(n text, x); insert T { n = 'a;', x = 1 }; insert T -- a ; comment\n { x = 2 }; delete T 1;"
    with Dedale(journal=whole) as db:
        db.run(script)
    data = whole.read_bytes()
    path = tmp_path / "cut"
    for length in range(len(data)):
        path.write_bytes(data[:length])
        finished = [one for one in split(data[:length]) if one.is_finished]
        with Dedale(journal=path) as db:
            db.run("relation U(x);")
        assert [one.text for one in split(path.read_bytes())] == [one.text for one in finished] + [b"relation U(x)"]


def test_a_journal_is_used_by_one_at_a_time(tmp_path: Path) -> None:
    path = tmp_path / "journal"
    with Dedale(journal=path):
        with pytest.raises(JournalError):
            Dedale(journal=path)
    Dedale(journal=path).close()


def test_a_file_that_is_no_journal_stays_as_it_is(tmp_path: Path) -> None:
    path = tmp_path / "text"
    path.write_text("insert nothing; and so on")
    with pytest.raises(JournalError):
        Dedale(journal=path)
    assert path.read_text() == "insert nothing; and so on"
    path.write_text("insert\nno statement")
    Dedale(journal=path).close()
    path.write_text("relation T(x);\nand so on")
    for _ in range(2):
        with pytest.raises(JournalError, match="text:2: this is no journal: and so on"):
            Dedale(journal=path)
    assert path.read_text() == "relation T(x);\nand so on"
    with pytest.raises(JournalError):
        Dedale(journal=tmp_path)
    with pytest.raises(JournalError):
        Dedale(journal=tmp_path / "none" / "journal")


def test_nothing_of_a_journal_is_lost_behind_a_missing_quote(tmp_path: Path) -> None:
    path = tmp_path / "journal"
    script = "relation T(n text); -- it's\ninsert T { n = 'a };\ninsert T { n = 'b' };\n"
    path.write_text(script)
    with pytest.raises(JournalError, match="journal:2: this is no journal: insert T { n = 'a }; insert T"):
        Dedale(journal=path)
    assert path.read_text() == script


def test_a_full_disk(db: Dedale, tmp_path: Path, monkeypatch: pytest.MonkeyPatch) -> None:
    path = tmp_path / "journal"
    with Dedale(journal=path) as db:
        db.run("relation T(x); insert T { };")
        before = path.read_bytes()
        with monkeypatch.context() as patch:
            patch.setattr("os.pwrite", full_disk)
            with pytest.raises(JournalError):
                db.run("insert T { };")
        assert path.read_bytes() == before
        assert db.run("insert T { };") == [Number(2)]


def full_disk(*_: object) -> int:
    """Fails as a write to a full disk does."""
    raise OSError(28, "No space left on device")


WRITER = """
import sys
from dedale import Dedale
with Dedale(journal=sys.argv[1]) as db:
    while True:
        (reply,) = db.run("insert T { x = 1, n = 'a;' };")
        print(reply.number, flush=True)
"""


def test_what_was_returned_outlasts_a_kill(tmp_path: Path) -> None:
    path = tmp_path / "journal"
    with Dedale(journal=path) as db:
        db.run("relation T(n text, x);")
    returned = 0
    for count in (1, 2, 10, 40):
        writer = subprocess.Popen([sys.executable, "-c", WRITER, str(path)], stdout=subprocess.PIPE, text=True)
        assert writer.stdout
        for _ in range(count):
            returned = int(writer.stdout.readline())
        writer.kill()
        returned = max([returned, *(int(line) for line in writer.stdout if line.endswith("\n"))])
        writer.wait()
        writer.stdout.close()
        with Dedale(journal=path) as db:
            assert len(db.show("T").tuples) >= returned
    assert returned >= 53


def test_errors_are_of_one_kind() -> None:
    assert all(issubclass(one, DedaleError) for one in (Ended, JournalError, NoProgram, NoReply, Refused, TimeLimit))


def test_answers_have_their_columns(db: Dedale) -> None:
    (answer,) = db.run("query (a, b text, c) : a = 1;")
    assert isinstance(answer, Answer)
    assert [column.printed() for column in answer.columns] == ["a", "b text", "c"]
    assert answer.tuples[0].value("c") is None and answer.tuples[0].value("a") == 1
    db.run("relation T(a, b text); drop T; relation T(b text);")
    (stored,) = db.run("show T;")
    assert isinstance(stored, Stored)
    assert [column.printed() for column in stored.columns] == ["b text"]


def test_a_closed_database(db: Dedale) -> None:
    db.close()
    with pytest.raises(ValueError):
        db.ask("true")
    db.close()
