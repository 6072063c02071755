"""The database in a file: changes, their undoing, and what fails."""
import os
from pathlib import Path

import pytest

from dedale.client import Dedale
from dedale.desk.database import BadScript, Database, MadeUnseen, Unsettled
from dedale.desk.files import FileError
from dedale.errors import Ended, JournalError, NoProgram
from dedale.replies import Done, Number, Refused, Stored, Truth
from dedale.statements import Statement, split


def statement(text: str) -> Statement:
    """The statement with this text."""
    (found,) = split(text.encode() + b";")
    return found


def run(database: Database, *texts: str) -> list[object]:
    """The replies to statements."""
    return [database.run(statement(text), 20) for text in texts]


@pytest.fixture(name="path")
def fixture_path(tmp_path: Path) -> Path:
    """The file of a database that isn't there yet."""
    return tmp_path / "map.dedale"


def test_tuples_keep_their_numbers_when_a_change_is_taken_off(path: Path, program: str) -> None:
    database = Database(path, program)
    changes = ["relation T(x)", "insert T { x = 1 }", "insert T { x = 2 }", "delete T 1", "insert T { x = 3 }"]
    assert run(database, *changes) == [Done(), Number(1), Number(2), Done(), Number(3)]
    assert [one.text.decode() for one in database.changes()] == changes
    taken = database.undo()
    assert taken is not None and taken.text == b"insert T { x = 3 }"
    database.start()
    (shown,) = run(database, "show T")
    assert isinstance(shown, Stored) and list(shown.tuples) == [2]
    assert run(database, "insert T { x = 4 }") == [Number(3)]
    assert (database.undo(), database.undo()) != (None, None)
    (shown,) = run(database, "show T")
    assert isinstance(shown, Stored) and list(shown.tuples) == [1, 2]
    while database.undo():
        pass
    assert database.script() == b""
    assert run(database, "dedale 2", "relation T(x)") == [Done(), Done()]
    database.close()
    assert os.listdir(path.parent) == ["map.dedale"]


def test_the_file_is_for_one_at_a_time(path: Path, program: str) -> None:
    database = Database(path, program)
    run(database, "relation T(x)")
    database.undo()
    database.start()
    with pytest.raises(JournalError, match="in use by another process"):
        Database(path, program)
    database.close()
    Database(path, program).close()


def test_questions_and_comments_in_the_file_stay(path: Path, program: str) -> None:
    path.write_text("-- so\nrelation T(x);\nask U(1); -- nothing of this is asked\nshow U;\n")
    database = Database(path, program)
    run(database, "insert T { x = 1 }")
    database.undo()
    assert path.read_text() == "-- so\nrelation T(x);\nask U(1); -- nothing of this is asked\nshow U;\n"
    database.close()


def test_refused_statements_in_the_file(path: Path, program: str) -> None:
    path.write_text("relation T(x);\nInsert T { x = 1 };\nask U(1);\ninsert T { x = };\ninsert T { x = 2 };")
    with pytest.raises(BadScript) as caught:
        Database(path, program)
    refused = [(one.line, reply.number) for one, reply in caught.value.exchanges if isinstance(reply, Refused)]
    assert refused == [(2, 3), (4, 3)]
    path.write_text("relation T(x);\nInsert T { x = 1 };")
    with pytest.raises(BadScript):
        Database(path, program)
    # nobody keeps the file then
    Dedale(program, journal=path).close()


def test_a_statement_that_was_cut_short(path: Path, program: str) -> None:
    path.write_text("relation T(x);\n insert T { x = 1 }")
    database = Database(path, program)
    assert database.cut is not None and (database.cut.line, database.cut.text) == (2, b"insert T { x = 1 }")
    run(database, "insert T { x = 2 }")
    database.close()
    assert path.read_text() == "relation T(x);\ninsert T { x = 2 };"


def test_a_full_disk(path: Path, program: str, monkeypatch: pytest.MonkeyPatch) -> None:
    database = Database(path, program)
    run(database, "relation T(x)")
    with monkeypatch.context() as patch:
        patch.setattr("os.pwrite", full_disk)
        with pytest.raises(JournalError, match="map.dedale: No space left on device"):
            run(database, "insert T { x = 1 }")
    assert run(database, "insert T { x = 2 }") == [Number(1)]
    with monkeypatch.context() as patch:
        patch.setattr("os.fsync", full_disk)
        with pytest.raises(FileError, match="map.dedale: No space left on device"):
            database.undo()
    assert run(database, "ask T(2)") == [Truth(True)]
    assert os.listdir(path.parent) == ["map.dedale"]
    database.close()


def test_a_change_whose_reply_is_lost(path: Path, program: str, monkeypatch: pytest.MonkeyPatch) -> None:
    database = Database(path, program)
    run(database, "relation T(x)")
    with monkeypatch.context() as patch:
        patch.setattr("os.fsync", full_disk)
        with pytest.raises(MadeUnseen, match="map.dedale: No space left on device"):
            run(database, "insert T { x = 1 }")
    assert run(database, "ask T(1)") == [Truth(True)]
    database.close()


def test_a_change_that_is_interrupted(path: Path, program: str, monkeypatch: pytest.MonkeyPatch) -> None:
    database = Database(path, program)
    run(database, "relation T(x)")
    with monkeypatch.context() as patch:
        patch.setattr("os.pwrite", interrupt)
        with pytest.raises(KeyboardInterrupt):
            run(database, "insert T { x = 1 }")
    with monkeypatch.context() as patch:
        patch.setattr("os.fsync", interrupt)
        with pytest.raises(MadeUnseen, match="interrupted"):
            run(database, "insert T { x = 2 }")
    assert run(database, "insert T { x = 3 }", "ask T(2)") == [Number(2), Truth(True)]
    database.close()


def test_a_change_that_nobody_can_look_for(path: Path, program: str, monkeypatch: pytest.MonkeyPatch) -> None:
    database = Database(path, program)
    run(database, "relation T(x)")
    with monkeypatch.context() as patch:
        patch.setattr("os.fsync", full_disk)
        patch.setattr("os.open", full_disk)
        with pytest.raises(Unsettled, match="map.dedale: No space left on device; .*No space left on device"):
            run(database, "insert T { x = 1 }")
    assert run(database, "ask T(1)") == [Truth(True)]
    with monkeypatch.context() as patch:
        patch.setattr("os.fsync", interrupt)
        patch.setattr("dedale.desk.database.Dedale", interrupt)
        with pytest.raises(Unsettled, match="^interrupted; interrupted$"):
            run(database, "insert T { x = 2 }")
    assert run(database, "ask T(1)", "ask T(2)") == [Truth(True), Truth(True)]
    database.close()


def interrupt(*_: object) -> int:
    """Fails as what Ctrl-C interrupts does."""
    raise KeyboardInterrupt


def full_disk(*_: object) -> int:
    """Fails as a write to a full disk does."""
    raise OSError(28, "No space left on device")


def test_a_program_that_fails(path: Path, tmp_path: Path) -> None:
    with pytest.raises(NoProgram):
        Database(path, str(tmp_path / "none"))
    assert not path.exists()
    ends = tmp_path / "ends"
    ends.write_text("#!/bin/sh\nexit 7\n")
    ends.chmod(0o755)
    with pytest.raises(Ended):
        Database(path, str(ends))
