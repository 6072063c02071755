"""The tokens of a statement, with their places."""
import re
from dataclasses import dataclass
from enum import Enum, auto

from dedale.importing.names import RESERVED
from dedale.statements import gap_length

_TOKEN = re.compile(
    rb"(?P<word>[A-Za-z_][A-Za-z0-9_]*)"
    rb"|(?P<decimal>[0-9]+\.[0-9]+(?![A-Za-z0-9_.]))"
    rb"|(?P<number>[0-9]+(?![A-Za-z0-9_.]))"
    rb"|(?P<text>'(?:[^'\x00-\x1f\x7f]|'')*')"
    rb"|(?P<sign>:=|<=|>=|!=|[-+*/<>=(){},:])"
    rb"|(?P<none>'[^']*(?:'|\Z)|[0-9][A-Za-z0-9_.]*|[\x80-\xff]+|.)",
    re.DOTALL,
)


class Kind(Enum):
    """What a token is. One of no other kind stands in no statement."""

    NAME = auto()
    RESERVED = auto()
    DECIMAL = auto()
    NUMBER = auto()
    TEXT = auto()
    SIGN = auto()
    NONE = auto()


_KINDS = {
    "decimal": Kind.DECIMAL,
    "number": Kind.NUMBER,
    "text": Kind.TEXT,
    "sign": Kind.SIGN,
    "none": Kind.NONE,
}


@dataclass(frozen=True)
class Token:
    """A token by its kind and its text, and the byte of the statement's text at which it starts."""

    kind: Kind
    text: str
    start: int


def tokens_of(text: bytes) -> list[Token]:
    """The tokens of a statement's text, in order."""
    found: list[Token] = []
    at = gap_length(text)
    while at < len(text):
        match = _TOKEN.match(text, at)
        assert match and match.lastgroup
        word = match[0].decode("utf-8", "surrogateescape")
        found.append(Token(_kind(match.lastgroup, word), word, at))
        at = match.end() + gap_length(text, match.end())
    return found


def _kind(group: str, word: str) -> Kind:
    if group == "word":
        return Kind.RESERVED if word in RESERVED else Kind.NAME
    return _KINDS[group]
