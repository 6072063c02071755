"""The words of the desk, each behind a backslash."""
import re
import shlex
from dataclasses import dataclass
from difflib import get_close_matches

WORDS = {
    "draw": ("FILE [NAME]", "draws the last query or show, or a relation or view, as SVG"),
    "help": ("", "lists these words"),
    "quit": ("", "ends the desk, as Ctrl-D does"),
    "rows": ("[N]", "shows at most N rows of a table, or tells how many"),
    "save": ("FILE", "writes the script so far to a file"),
    "show": ("", "lists the relations and views with their headings"),
    "time": ("[N]", "ends what takes longer than N seconds, or tells N"),
    "undo": ("", "takes the last change off"),
}
"""Each word with what may stand behind it, and what it does."""

MOST_BEHIND = {"draw": 2, "rows": 1, "save": 1, "time": 1}
LEAST_BEHIND = {"draw": 1, "save": 1}
MOST_ROWS = 1_000_000


class BadWord(Exception):
    """The line is no word of the desk: why."""


@dataclass(frozen=True)
class Word:
    """A word, and what stands behind it."""

    name: str
    behind: tuple[str, ...]


def is_word(line: bytes) -> bool:
    """Whether a line is one with a word of the desk."""
    return line.lstrip().startswith(b"\\")


def read_word(line: bytes) -> Word:
    """The word on a line. Raises `BadWord`."""
    text = line.decode("utf-8", "surrogateescape").strip().removesuffix(";")[1:]
    if "\0" in text:
        raise BadWord("a zero byte stands in no word of the desk, and in no name of a file")
    name = re.match(r"\S*", text)
    assert name
    if name[0] not in WORDS:
        (nearest,) = get_close_matches(name[0], WORDS, 1, 0.0)
        raise BadWord(f"\\{name[0]} is no word of the desk: is \\{nearest} meant? \\help lists them")
    try:
        behind = tuple(shlex.split(text[name.end() :]))
    except ValueError as error:
        raise BadWord(f"\\{name[0]}: {str(error).lower()}") from error
    if not LEAST_BEHIND.get(name[0], 0) <= len(behind) <= MOST_BEHIND.get(name[0], 0):
        raise BadWord(f"it is {usage(name[0])}")
    return Word(name[0], behind)


def usage(name: str) -> str:
    """A word with what may stand behind it."""
    return f"\\{name} {WORDS[name][0]}".rstrip()


def rows_of(text: str) -> int:
    """The number of rows that is meant. Raises `BadWord`."""
    if not re.fullmatch("[0-9]{1,7}", text, re.ASCII) or not 1 <= int(text) <= MOST_ROWS:
        raise BadWord(f"a number of rows is 1 to {MOST_ROWS:,}, and not {text!r}")
    return int(text)


def seconds_of(text: str) -> float:
    """The number of seconds that is meant. Raises `BadWord`."""
    if not re.fullmatch(r"[0-9]{1,9}(\.[0-9]{1,9})?", text, re.ASCII) or not float(text):
        raise BadWord(f"a number of seconds is above 0, and not {text!r}")
    return float(text)


def help_lines() -> list[str]:
    """What `\\help` shows."""
    lines = [f"{usage(name):18} {does}" for name, (_, does) in WORDS.items()]
    return [
        "A statement ends with `;` and may go over several lines; Ctrl-C gives it up, or ends the question that runs.",
        "  relation Land(n text, x);   insert Land { n = 'a', x >= 0, x < 4 };   query (x) : Land('a', x);",
        *lines,
    ]
