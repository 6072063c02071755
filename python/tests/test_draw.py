"""A picture of the program `dedale_draw` is XML, counts the tuples that `dedale` writes, and tells all other replies as that does."""
import os
import re
from dataclasses import dataclass
from random import Random
from xml.etree import ElementTree

import pytest

from dedale.process import check_program
from tests.scripts import ROOT, Script, repository_scripts, script_name
from tests.table_lines import possible_lines
from tests.table_scripts import random_script
from tests.test_table import TABLES, Exchange, exchanges, run, tuples_of

SEEDS = range(3)
STATEMENTS = 1500
SVG = "{http://www.w3.org/2000/svg}"
COUNTS = ("tuples drawn: ", "tuples too long to be drawn: ", "answers without two such columns: ")
NUMBER = re.compile(r"tuple \d+")


@dataclass(frozen=True)
class Told:
    """What the description of a picture tells: three counts, and the lines of replies."""

    drawn: int
    long: int
    unseen: int
    lines: list[str]


@pytest.fixture(scope="session")
def draw_program() -> str:
    """The program that draws: the one that `DEDALE_DRAW` names, or that of the clone. The first run builds it."""
    found = os.environ.get("DEDALE_DRAW") or str(ROOT / "dedale_draw")
    check_program([found])
    return found


def told(picture: bytes) -> Told:
    """What the description of a picture tells."""
    description = ElementTree.fromstring(picture).find(f"{SVG}desc")
    assert description is not None and description.text is not None
    lines = description.text.split("\n")
    drawn, long, unseen = (int(line.removeprefix(words)) for words, line in zip(COUNTS, lines))
    assert lines.pop() == ""
    return Told(drawn, long, unseen, lines[len(COUNTS) :])


def is_drawn(exchange: Exchange) -> bool:
    """Whether a reply has tuples and two columns to draw them over."""
    return sum(not column.is_text for column in exchange.columns) >= 2


def has_tuples(exchange: Exchange) -> bool:
    """Whether a reply is an answer or a listing."""
    return exchange.lines[0].split(" ")[0] in TABLES


def printable(line: str) -> str:
    """A line as it stands in a description, where a byte that is no part of UTF-8 is replaced."""
    return re.sub("[\udc80-\udcff]", "\ufffd", line)


def check(found: list[Exchange], picture: bytes) -> None:
    """Checks a picture beside the replies of `dedale`."""
    description = told(picture)
    drawn = [exchange for exchange in found if has_tuples(exchange) and is_drawn(exchange)]
    lines = [possible_lines(one) for exchange in drawn for _, one in tuples_of(exchange)]
    nowhere = sum(any("nowhere" in line for line in possible) for possible in lines)
    assert len(lines) - nowhere <= description.drawn + description.long <= len(lines)
    assert description.unseen == sum(has_tuples(exchange) and not is_drawn(exchange) for exchange in found)
    others = [exchange for exchange in found if not has_tuples(exchange)]
    said = [exchange.lines for exchange in others if exchange.lines[0] != "ok" and not NUMBER.fullmatch(exchange.lines[0])]
    assert description.lines == [printable(line) for reply in said for line in reply]


@pytest.mark.parametrize("seed", SEEDS)
def test_random_scripts(program: str, draw_program: str, seed: int) -> None:
    script = random_script(Random(seed), STATEMENTS)
    _, replies = run(program, script)
    _, picture = run(draw_program, script)
    check(list(exchanges(script, replies, is_table=False)), picture)


@pytest.mark.parametrize("script", repository_scripts(), ids=script_name)
def test_scripts_of_the_repository(draw_program: str, script: Script) -> None:
    _, picture = run(draw_program, script.script, script.words)
    check(list(exchanges(script.script, script.replies, is_table=False)), picture)


def test_shapes_tell_their_tuples_and_the_legend_its_texts(draw_program: str) -> None:
    script = b"dedale 2;relation R(n text, x, y);insert R { n = '<&\xff>', x >= 0, x <= 1, y >= 0, y <= 1 };show R;"
    status, picture = run(draw_program, script)
    titles = [title.text for title in ElementTree.fromstring(picture).iterfind(f"{SVG}path/{SVG}title")]
    assert (status, titles) == (0, ["{ n = '<&\ufffd>', x >= 0, y >= 0, y <= 1, x <= 1 }", "<&\ufffd>"])
