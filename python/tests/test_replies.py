"""Replies printed again are the lines that were read, and what is no reply is told."""
from fractions import Fraction


import pytest
from hypothesis import given, settings
from hypothesis import strategies as st

from dedale.errors import NoReply
from dedale.polyhedra import Bound, Span
from dedale.reading import is_refusal, read_refusal, read_reply, read_spans
from dedale.replies import Answer, Apart, Certificate, Done, Dump, Meet, Number, Plan, Refused, Reply, Spans, Stored, Truth
from tests.tuples import HEADING, tuples

SMALL = st.integers(0, 2**70)
MULTIPLIERS = st.none() | st.lists(st.integers()).map(lambda found: tuple(found))
CERTIFICATES = st.builds(Certificate, SMALL, SMALL, MULTIPLIERS)
LINE = st.text(st.characters(blacklist_characters="\n")).filter(lambda line: line != "end")
LINES = st.lists(LINE).map(lambda lines: tuple(lines))
ANSWERS = st.builds(Answer, st.just(HEADING), st.lists(tuples(2**90), max_size=5).map(tuple))
REPLIES: st.SearchStrategy[Reply] = st.one_of(
    ANSWERS,
    st.builds(Done),
    st.builds(Number, SMALL),
    st.builds(Truth, st.booleans()),
    st.builds(Stored, st.just(HEADING), st.dictionaries(SMALL, tuples(9), max_size=4)),
    st.builds(Plan, LINES),
    st.builds(Dump, LINES),
    st.builds(Meet, SMALL, SMALL),
    st.builds(Apart, st.lists(CERTIFICATES).map(tuple)),
)


def read(text: str) -> Reply:
    """The reply that is printed so."""
    lines = iter(text.split("\n")[:-1])
    reply = read_reply(next(lines), lambda: next(lines), HEADING)
    assert not list(lines)
    return reply


@settings(max_examples=200)
@given(REPLIES)
def test_a_reply_printed_is_read_again(reply: Reply) -> None:
    again = read(reply.printed())
    assert again == reply
    assert again.printed() == reply.printed()


BOUNDS = st.none() | st.builds(Bound, st.fractions(), st.booleans())
NAMES = st.sampled_from(["x", "_", "y2", "Inf", "in"])


@given(st.builds(Spans, st.none() | st.dictionaries(NAMES, st.builds(Span, BOUNDS, BOUNDS))))
def test_spans_printed_are_read_again(spans: Spans) -> None:
    assert read_spans(spans.printed().split("\n")[:-1]) == spans


def test_a_refusal() -> None:
    refused = read_refusal("refused 24 conflict T", "commit", 3)
    assert refused == Refused(24, "conflict T", "commit", 3)
    assert refused.printed() == "refused 24 conflict T\n"
    assert str(refused) == "line 3: refused 24 conflict T: commit"
    assert not is_refusal("refused")


@settings(max_examples=150)
@given(ANSWERS, st.data())
def test_damaged_lines_are_told_or_read_as_they_are(answer: Answer, data: st.DataObject) -> None:
    text = answer.printed()
    place = data.draw(st.integers(0, len(text) - 1))
    damaged = text[:place] + data.draw(st.sampled_from(["", "x", "'", " ", "0", "}", "<"])) + text[place + 1 :]
    try:
        reply = read(damaged)
    except (NoReply, StopIteration, AssertionError):
        return
    assert reply.printed().split("\n")[1:] == damaged.split("\n")[1:]


@pytest.mark.parametrize("line", ["", "okay", "yes ", "tuple", "tuple x", "meet 1", "answer x", "refused x", "{ }", "\u0661"])
def test_no_reply(line: str) -> None:
    with pytest.raises(NoReply):
        read_reply(line, lambda: "end", HEADING)


def test_what_is_no_reply_is_told_on_one_short_line() -> None:
    with pytest.raises(NoReply) as caught:
        read_reply("\x1b[2J\udcff" + "z" * 999, lambda: "end", HEADING)
    assert str(caught.value) == f"no reply of Dedale: \\x1b[2J\\udcff{'z' * 74}..."


@pytest.mark.parametrize("lines", [["x in [1, 2"], ["x in [a, 2]"], ["x in [1/0, 2]"], ["empty", "empty"], ["yes"], []])
def test_no_spans(lines: list[str]) -> None:
    with pytest.raises(NoReply):
        read_spans(lines)


def test_an_open_interval() -> None:
    spans = read_spans(["x in (0, 28/3]", "_y in (-inf, inf)"])
    assert spans == Spans({"x": Span(Bound(Fraction(0), True), Bound(Fraction(28, 3), False)), "_y": Span(None, None)})


