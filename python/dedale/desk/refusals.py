"""A refusal as the desk tells it: with its cause, and a caret below the place."""
from typing import Iterator

from dedale.annotate import BYTE_ORDER_MARK
from dedale.desk.catalogue import Catalogue
from dedale.desk.causes import CAUSES, HELP
from dedale.desk.places import SYNTAX, place_of
from dedale.desk.texts import shown, width
from dedale.replies import Refused
from dedale.statements import Statement

WIDTH_BEFORE = 60
"""How much of a line stands before the caret at most."""

WIDTH_BEHIND = 40
"""How much of a line stands behind the caret at most."""

INDENT = "  "
OPEN_TEXT = "a text goes on over the end of this line: is a quote missing in it?"


def refusal_lines(statement: Statement, refused: Refused, catalogue: Catalogue) -> Iterator[str]:
    """The lines that tell that a statement was refused over this catalogue."""
    cause = CAUSES.get(refused.number)
    head = f"refused {refused.number} {refused.words}"
    yield f"{head}: {cause}" if cause else head
    place = place_of(statement, refused, catalogue)
    yield from (INDENT + line for line in _excerpt(statement.text, place))
    yield from _guess(statement, refused, catalogue)
    yield from (INDENT + line for line in HELP.get(refused.number, ()))


def _excerpt(text: bytes, place: int | None) -> list[str]:
    """The line of a statement's text with this place, and a caret below it; without a place the first line."""
    at = place or 0
    start = text.rfind(b"\n", 0, at) + 1
    line, _, _ = text[start:].partition(b"\n")
    before, behind = _shown(line[: at - start]), _shown(line[at - start :]).rstrip()
    if len(before) > WIDTH_BEFORE:
        before = "..." + before[3 - WIDTH_BEFORE :]
    if len(behind) > WIDTH_BEHIND + (WIDTH_BEFORE if place is None else 0):
        behind = behind[: WIDTH_BEHIND + (WIDTH_BEFORE if place is None else 0) - 3] + "..."
    return [before + behind] if place is None else [before + behind, " " * width(before) + "^"]


def _shown(data: bytes) -> str:
    return shown(data.replace(b"\t", b" ").replace(b"\r", b" ").decode("utf-8", "surrogateescape"))


def _guess(statement: Statement, refused: Refused, catalogue: Catalogue) -> Iterator[str]:
    """What may be wrong with a statement that is no command."""
    if refused.number not in (1, 2, SYNTAX):
        return
    if statement.text.startswith(BYTE_ORDER_MARK):
        yield INDENT + "a byte order mark stands before this statement, and is no blank"
    if statement.open_text_line:
        yield INDENT + OPEN_TEXT
    if statement.first_word in ("dedale", "dump") and not catalogue.is_second:
        yield INDENT + "`dedale 2;` is taken as the first of all statements alone, and `dump;` behind it"
