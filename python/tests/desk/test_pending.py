"""Lines are put together to the statements of the script that they are."""
from hypothesis import given
from hypothesis import strategies

from dedale.desk.pending import Pending
from dedale.statements import split

PIECE = strategies.sampled_from([b"'", b"''", b";", b"--", b"\n", b" ", b"ask", b"x", b"\\", b"\xff"])
PIECES = strategies.lists(PIECE, max_size=40)


@given(PIECES)
def test_statements_are_those_of_the_script(pieces: list[bytes]) -> None:
    script = b"".join(pieces)
    pending = Pending()
    found = [one for line in script.splitlines(keepends=True) for one in pending.add(line)]
    found += pending.rest()
    assert [(one.piece, one.is_finished) for one in found] == [(one.piece, one.is_finished) for one in split(script)]
    assert pending.is_blank


def test_an_open_text_is_seen() -> None:
    pending = Pending()
    assert list(pending.add(b"insert T { n = 'it''s\n")) == []
    assert (pending.text_start, pending.is_blank) == (19, False)
    (statement,) = pending.add(b"' }; -- it's\n")
    assert statement.text == b"insert T { n = 'it''s\n' }"
    assert (pending.text_start, pending.is_blank) == (None, True)
    assert list(pending.add(b"ask 'a\n")) == []
    pending.clear()
    assert (pending.text_start, pending.is_blank) == (None, True)


def test_comments_are_blank() -> None:
    pending = Pending()
    assert list(pending.add(b"-- it's; so\n  ")) == []
    assert (pending.text_start, pending.is_blank) == (None, True)
