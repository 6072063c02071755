"""What is left of a script without its last change."""
import pytest

from dedale.desk.scripts import changes_of, without_last_change

# a script with bars around what is taken off
SCRIPTS = [
    "|relation T(x);|",
    "relation T(x);|\ninsert T { };|",
    "relation T(x);|\ninsert T { };|\nask true; -- so\n",
    "relation T(x); -- it's\n|insert T { };|\n",
    "-- all\n|relation T(x);|\n-- end",
    "relation T(x); |insert T { n = 'a;' };| ask true; show T;",
    "relation T(x);\n\n  |delete T 1;|",
    "relation T(x);\n|\ndelete T 1;|",
    "relation T(x);-- so\n|\ndelete T 1;|",
]


@pytest.mark.parametrize("marked", SCRIPTS)
def test_the_last_change_is_taken_off(marked: str) -> None:
    before, change, behind = marked.split("|")
    found = without_last_change((before + change + behind).encode())
    assert found is not None
    assert (found[0].decode(), found[1].text.decode()) == (before + behind, change.strip().removesuffix(";"))


@pytest.mark.parametrize("script", [b"", b"-- so", b"ask true;\nshow T;", b"relation T(x)"])
def test_without_a_change_nothing_is_taken_off(script: bytes) -> None:
    assert without_last_change(script) is None


def test_what_was_cut_short_is_left_out() -> None:
    found = without_last_change(b"relation T(x);\ninsert T { };\ninsert T { x")
    assert found is not None
    assert (found[0], found[1].text) == (b"relation T(x);", b"insert T { }")


def test_changes() -> None:
    script = b"relation T(x); ask true; insert T { };-- delete T 1;\ndelete T 2"
    assert [one.text for one in changes_of(script)] == [b"relation T(x)", b"insert T { }"]
