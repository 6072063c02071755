"""The grammar reads what the program accepts, and finds a place in what is refused as no statement."""
import pytest

from dedale.desk.catalogue import Catalogue
from dedale.desk.grammar import NoStatement, TooDeep, read
from dedale.desk.places import place_of
from dedale.reading import read_refusal
from dedale.statements import split
from tests.scripts import Script, repository_scripts, script_name
from tests.test_table import exchanges

SYNTAX = "refused 3 syntax"
UNREAD = ("refused 1 ", "refused 2 ", "refused 21 ")
TOLD = tuple(f"refused {number} " for number in (3, 4, 8, 9, 10, 11, 12, 13, 14, 15, 16, 17, 18, 19))
"""How the refusals begin whose places are always told."""



def is_read(text: bytes, is_second: bool) -> bool:
    """Whether the text is a statement."""
    try:
        read(text, is_second)
    except NoStatement:
        return False
    except TooDeep:
        pass
    return True


@pytest.mark.parametrize("one", repository_scripts(), ids=script_name)
def test_scripts_of_the_repository(one: Script) -> None:
    catalogue = Catalogue()
    for exchange in exchanges(one.script, one.replies, is_table=False):
        statement, reply = exchange.statement, exchange.lines[0]
        if reply.startswith(UNREAD):
            continue
        is_header = statement.first_word == "dedale" and reply == "ok"
        assert (is_header or is_read(statement.text, catalogue.is_second)) is (reply != SYNTAX), statement.text
        if reply.startswith("refused "):
            place = place_of(statement, read_refusal(reply, "", 1), catalogue)
            assert place is not None or not reply.startswith(TOLD), statement.text
            assert place is None or 0 <= place <= len(statement.text)
        else:
            catalogue.accept(statement)


@pytest.mark.parametrize(
    "text",
    ["(" * 3000, "ask " + "(" * 3000, "ask " + "not " * 3000 + "true", "ask true" + " implies true" * 3000, "", "-- so", "ask"],
)
def test_what_is_long_or_empty_is_read_to_its_end(text: str) -> None:
    for statement in split(text.encode() + b";"):
        assert is_read(statement.text, is_second=False) is text.startswith(("ask (", "ask not", "ask true"))
