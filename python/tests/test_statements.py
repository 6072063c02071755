"""Scripts are cut into statements as the program cuts them."""
import pytest
from hypothesis import given, settings
from hypothesis import strategies as st

from dedale.annotate import Annotator
from dedale.statements import STATEMENT_BYTES, Statement, split
from tests.scripts import Script, repository_scripts, run_program, script_name

# pieces whose combinations reach every state of the cut; none of them makes a statement whose reply has several lines
PIECES = st.sampled_from(
    [b"'", b"''", b"-", b"--", b";", b"\n", b"\r\n", b" ", b"\0", b"\xff", b"ask", b"true", b"1", b"=", b"ask 1 = 1", b"box"]
)
SCRIPTS = st.lists(PIECES | st.binary(max_size=2), max_size=25).map(b"".join)


@pytest.mark.parametrize("one", repository_scripts(), ids=script_name)
def test_as_many_statements_as_replies(one: Script) -> None:
    replies = iter(one.replies.decode("utf-8", "surrogateescape").split("\n")[:-1])
    list(Annotator(one.name, replies).annotate(one.script))


@settings(max_examples=300)
@given(SCRIPTS)
def test_random_bytes_have_as_many_statements_as_replies(program: str, script: bytes) -> None:
    replies = run_program(program, script).split(b"\n")[:-1]
    statements = list(split(script))
    assert len(statements) == len(replies)
    assert [not one.is_finished for one in statements] == [reply == b"refused 2 unfinished" for reply in replies]


@given(SCRIPTS)
def test_nothing_of_a_script_is_lost(script: bytes) -> None:
    statements = list(split(script))
    again = b"".join(one.piece + b";" * one.is_finished for one in statements)
    rest = script[len(again) :]
    assert script.startswith(again)
    assert not list(split(rest))


@given(SCRIPTS)
def test_places(script: bytes) -> None:
    lines = script.split(b"\n")
    for one in split(script):
        assert lines[one.line - 1][one.column - 1 :].startswith(one.text.split(b"\n")[0])


@pytest.mark.parametrize("length", [STATEMENT_BYTES - 1, STATEMENT_BYTES, STATEMENT_BYTES + 1])
@pytest.mark.parametrize("end", [b";", b""])
def test_long_statements(program: str, length: int, end: bytes) -> None:
    script = b"ask".rjust(length) + end
    (statement,) = split(script)
    is_refused_as_long = run_program(program, script) == b"refused 1 long statement\n"
    assert statement.is_long == is_refused_as_long == (length > STATEMENT_BYTES)


def test_comments_count_in_the_length(program: str) -> None:
    script = b"--" + b"-" * STATEMENT_BYTES + b"\nask true;ask true;"
    assert [one.is_long for one in split(script)] == [True, False]
    assert run_program(program, script) == b"refused 1 long statement\nyes\n"


def test_a_statement() -> None:
    (one,) = split(b"-- first\n\n  query (n text) : n = 'it''s; -- so' -- yes\n and\ttrue ;  -- last")
    assert (one.line, one.column, one.first_word) == (3, 3, "query")
    assert list(one.tokens()) == [b"query", b"(", b"n", b"text", b")", b":", b"n", b"=", b"'it''s; -- so'", b"and", b"true"]
    assert one.shortened() == "query (n text) : n = 'it''s; -- so' -- yes and true"
    assert one.shortened(20) == "query (n text) : ..."


@pytest.mark.parametrize(
    ("text", "line"),
    [
        (b"a 'b' c", None),
        (b"a -- it's\n b", None),
        (b"a\n 'b\n' c", 6),
        (b"a 'b", 5),
        (b"a '", 5),
        (b"'a''b'\n'c''\nd'", 6),
    ],
)
def test_a_text_that_goes_on_over_the_end_of_its_line(text: bytes, line: int | None) -> None:
    assert Statement(text, 5, 1).open_text_line == line
