"""The lines of refused statements are those on which they start."""
import re
from dataclasses import dataclass
from random import Random
from typing import Iterator

import pytest

from dedale.annotate import Annotator, Mismatch
from dedale.statements import split
from tests.scripts import Script, repository_scripts, run_program, script_name

EXAMPLES = [one for one in repository_scripts() if one.name.endswith(".dedale")]
FAULTS_IN_EACH = 25
TOKEN = re.compile(rb"--[^\n]*|'(?:[^']|'')*'|\w+|:=|<=|>=|!=|[^\s\w]")


def annotated(script: bytes, replies: bytes, shows_all: bool = False) -> list[str]:
    """The lines that are told of a script by the name of `s`."""
    lines = replies.decode("utf-8", "surrogateescape").split("\n")[:-1]
    return list(Annotator("s", iter(lines), shows_all).annotate(script))


@dataclass(frozen=True)
class Place:
    """Where a token of a script is, and the statement that has it: the first and the last line of that."""

    start: int
    end: int
    first_line: int
    last_line: int


def places(script: bytes) -> Iterator[Place]:
    """The tokens of a script, but for comments."""
    start = 0
    for statement in split(script):
        end = start + len(statement.piece)
        last_line = 1 + script.count(b"\n", 0, end)
        for found in TOKEN.finditer(script, end - len(statement.text), end):
            if not found[0].startswith(b"--"):
                yield Place(found.start(), found.end(), statement.line, last_line)
        start = end + 1


@pytest.mark.parametrize("one", EXAMPLES, ids=script_name)
def test_a_fault_is_told_on_its_line(one: Script, program: str) -> None:
    """A sign that is none, in the place of a token, is refused, and it is the first refusal that wasn't there before."""
    found = list(places(one.script))
    for place in Random(1).sample(found, FAULTS_IN_EACH):
        script = one.script[: place.start] + b"?" + one.script[place.end :]
        told = annotated(script, run_program(program, script))
        assert any(line.startswith(f"s:{place.first_line}: refused 3 syntax: ") for line in told)


@pytest.mark.parametrize("one", EXAMPLES, ids=script_name)
def test_a_missing_token_is_told_on_its_line(one: Script, program: str) -> None:
    """A token that is left out is told where its statement is no command then; nothing is told before it."""
    before = annotated(one.script, run_program(program, one.script))
    for place in Random(2).sample(list(places(one.script)), FAULTS_IN_EACH):
        script = one.script[: place.start] + one.script[place.end :]
        told = [line for line in annotated(script, run_program(program, script)) if line not in before]
        lines = [int(line.split(":")[1]) for line in told]
        assert all(line >= place.first_line for line in lines)
        assert all(line == place.first_line for line, text in zip(lines, told) if "refused 3" in text)


@pytest.mark.parametrize("one", EXAMPLES, ids=script_name)
def test_a_missing_quote_is_told_on_its_line(one: Script, program: str) -> None:
    quotes = [place for place in places(one.script) if one.script[place.start : place.start + 1] == b"'"]
    ends = [at for place in quotes for at in (place.start, place.end - 1)]
    for at in Random(3).sample(ends, min(len(ends), FAULTS_IN_EACH)):
        script = one.script[:at] + one.script[at + 1 :]
        line = 1 + script.count(b"\n", 0, at)
        told = annotated(script, run_program(program, script))
        assert f"s:{line}: a text goes on over the end of this line: is a quote missing in it?" in told


def test_without_words_only_refusals_are_told() -> None:
    script = b"relation T(n text, x, y);\nbox T;\n\n  ask\n true;ask U(1);\nshow T;\n"
    replies = b"ok\nx in (0, 1)\ny in [2, 3]\nyes\nrefused 9 unknown\ntuples 1\n1 { n = 'end' }\nend\n"
    assert annotated(script, replies) == ["s:5: refused 9 unknown: ask U(1)"]
    assert annotated(script, replies, shows_all=True) == [
        "s:1: ok: relation T(n text, x, y)",
        "s:2: x in (0, 1): box T",
        "  y in [2, 3]",
        "s:4: yes: ask true",
        "s:5: refused 9 unknown: ask U(1)",
        "s:6: tuples 1: show T",
        "  1 { n = 'end' }",
        "  end",
    ]


@pytest.mark.parametrize(
    ("script", "replies", "told"),
    [
        ("ask true;\nask false;", "yes\n", "s:2: no reply: ask false"),
        ("ask true;", "yes\nno\nyes\n", "s: no statement is left for the last 2 lines of replies: is this their script?"),
        ("ask true;\nrelation T(x);", "yes\nyes\n", "s:2: yes: this is no reply to: relation T(x)"),
        ("ask true;\nfoo;", "yes\nok\n", "s:2: ok: this is no reply to: foo"),
        ("query (x) : x = 1;", "answer 1\n{ x = 1 }\n", "s:1: the reply has no end: query (x) : x = 1"),
        ("relation T(x, y);box T;ask true;", "ok\nx in (0, 1)\nyes\n", "s:1: the bounds of y are missing: box T"),
        ("ask true", "yes\n", "s:1: yes: this is no reply to: ask true"),
        ("ask true;", "\x1b[2J" + "z" * 999 + "\n", f"s:1: \\x1b[2J{'z' * 80}...: this is no reply to: ask true"),
    ],
)
def test_replies_that_are_not_those_to_the_script(script: str, replies: str, told: str) -> None:
    with pytest.raises(Mismatch) as caught:
        annotated(script.encode(), replies.encode())
    assert str(caught.value) == told


def test_a_relation_that_is_dropped_and_defined_anew() -> None:
    script = b"relation T(x, y);drop T;relation T(y, n text);box T;ask true;relation U(n text);box U;box U;box V;ask true;"
    replies = b"ok\nok\nok\ny in (0, 1)\nyes\nok\nempty\nno rational column\nrefused 9 unknown\nno\n"
    assert annotated(script, replies) == ["s:1: refused 9 unknown: box V"]


def test_a_byte_order_mark() -> None:
    assert annotated("\ufeff-- map\nask true;".encode(), b"refused 3 syntax\n") == [
        "s:1: refused 3 syntax: \\ufeff-- map ask true",
        "s:1: a byte order mark stands before this statement, and is no blank",
    ]
