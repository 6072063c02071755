"""The desk at a terminal: prompts, interrupts, undoing, and a kill at any moment."""
import stat
import time
from pathlib import Path
from typing import Iterator

import pytest

from tests.desk.running import LONG_QUESTION, Terminal, end_programs
from tests.test_client import STRIPS

OPEN_TEXT = "a text goes on over the end of this line: is a quote missing in it? Ctrl-C gives the statement up"


@pytest.fixture(name="path")
def fixture_path(tmp_path: Path, program: str, monkeypatch: pytest.MonkeyPatch) -> Path:
    """The file of a database that isn't there yet, for the program that is tested."""
    monkeypatch.setenv("DEDALE", program)
    return tmp_path / "map.dedale"


@pytest.fixture(name="desk")
def fixture_desk(path: Path) -> Iterator[Terminal]:
    """A desk over the file, at its first prompt."""
    desk = Terminal(path)
    desk.read_until(desk.prompt)
    yield desk
    desk.interrupt()
    desk.send("\\quit\n")
    assert desk.wait() == 0


def test_statements_over_several_lines(desk: Terminal) -> None:
    assert desk.say("relation T(n text, x);") == ["ok"]
    assert desk.say("insert T", "       ...> ") == []
    assert desk.say("  { n = 'it''s', x = 1 }", "       ...> ") == []
    assert desk.say("; -- so") == ["tuple 1"]
    assert desk.say("-- nothing") == []
    assert desk.say("ask T('it''s', 1); ask T('it''s', 2);") == ["yes", "no"]
    assert desk.say("show T;") == ["tuple  n        x", "-----  -------  -", "1      'it''s'  1", "1 tuple"]


def test_a_refusal_has_a_caret(desk: Terminal) -> None:
    told = desk.say("ask exists x (x => 1);")
    assert told == ["refused 3 syntax: it is no command", "  ask exists x (x => 1)", "                   ^"]


def test_an_open_text_is_told_at_once(desk: Terminal) -> None:
    assert desk.say("ask 'a = 1;", "         '> ") == [OPEN_TEXT]
    assert desk.say("so", "         '> ") == []
    assert desk.interrupt()[-1] == "interrupted"
    assert desk.say("ask true;") == ["yes"]


def test_an_interrupt_ends_a_question(desk: Terminal) -> None:
    assert desk.say(STRIPS)[-1] == "tuple 60"
    desk.send(LONG_QUESTION + "\n")
    desk.read_until(LONG_QUESTION)
    told = desk.interrupt()
    assert told[-1] == "interrupted" and not any("tuple" in line for line in told)
    assert desk.say("ask Strip(0, 0, 0, 0); insert Strip { x = 1 };") == ["yes", "tuple 61"]
    desk.send("ask tr")
    assert desk.interrupt()[-1] == "interrupted"
    assert desk.say("ask true;") == ["yes"]


def test_a_change_is_taken_off(desk: Terminal, path: Path) -> None:
    assert desk.say("relation T(x); insert T { x = 1 }; insert T { x = 2 };") == ["ok", "tuple 1", "tuple 2"]
    assert desk.say("delete T 1;") == ["ok"]
    assert desk.say("\\undo") == ["taken off: delete T 1"]
    assert desk.say("show T;")[2:] == ["1      1", "2      2", "2 tuples"]
    assert desk.say("insert T { x = 3 };") == ["tuple 3"]
    assert path.read_text().count("\n") == 3
    assert desk.say("\\undu") == ["\\undu is no word of the desk: is \\undo meant? \\help lists them"]


def test_the_end_of_the_lines_ends_it(path: Path) -> None:
    desk = Terminal(path)
    desk.read_until(desk.prompt)
    assert desk.say("foo;")[0].startswith("refused 3")
    desk.send("\x04")
    assert desk.wait() == 0


def test_nothing_that_was_answered_is_lost_by_a_kill(path: Path) -> None:
    answered = 0
    for count in (1, 3, 7):
        desk = Terminal(path)
        desk.read_until(desk.prompt)
        if not answered:
            assert desk.say("relation T(x);") == ["ok"]
        for _ in range(count):
            answered += 1
            assert desk.say("insert T { x = 1 };") == [f"tuple {answered}"]
        desk.kill()
    desk = Terminal(path)
    desk.read_until(desk.prompt)
    assert desk.say("show T;")[-1] == f"{answered} tuples"
    assert desk.say(STRIPS)[-1] == "tuple 60"
    desk.send(f"\\time 1000\n{LONG_QUESTION}\n")
    desk.read_until(LONG_QUESTION)
    time.sleep(0.5)
    programs = desk.kill()
    desk = Terminal(path)
    desk.read_until(desk.prompt)
    assert desk.say("insert Strip { x = 1 };") == ["tuple 61"]
    desk.kill()
    assert programs
    end_programs(programs)


def test_a_file_is_for_one_desk(desk: Terminal, path: Path) -> None:
    other = Terminal(path)
    other.read_until(f"dedale-tools desk: {path} is in use by another process")
    assert other.wait() == 1
    assert desk.say("ask true;") == ["yes"]


def test_the_history_is_kept_beside_those_of_others(path: Path) -> None:
    history = path.parent / ".dedale_history"
    for line in ("ask true;", "ask false;"):
        desk = Terminal(path)
        desk.read_until(desk.prompt)
        desk.say(line)
        desk.kill()
    assert history.read_text() == "ask true;\nask false;\n"
    assert stat.S_IMODE(history.stat().st_mode) == 0o600
    desk = Terminal(path)
    desk.read_until(desk.prompt)
    desk.send("\x1b[A\x1b[A\n")
    assert desk.read_until(desk.prompt)[-1] == "yes"
    desk.kill()
    history.unlink()
    history.mkdir()
    desk = Terminal(path)
    desk.read_until(desk.prompt)
    assert f"the history isn't kept: {history}: Is a directory" in desk.say("ask true;")
    desk.kill()
    assert path.read_bytes() == b""
