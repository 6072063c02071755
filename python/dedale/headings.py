"""The columns of replies, which no reply names: they stand in the statements."""
from itertools import chain
from typing import Iterator

from dedale.statements import Statement
from dedale.tuples import Column, Heading


class Relations:
    """The headings of the relations that are defined, as told by the statements that were accepted."""

    def __init__(self) -> None:
        self._headings: dict[str, Heading] = {}

    def accept(self, statement: Statement) -> None:
        """Takes note of a statement that the program has accepted."""
        if statement.first_word in ("relation", "drop"):
            tokens = statement.tokens()
            next(tokens)
            name = next(tokens).decode()
            self._headings.pop(name, None)
            if statement.first_word == "relation":
                self._headings[name] = _heading(tokens)

    def columns_of_reply(self, statement: Statement) -> Heading:
        """The columns of the reply to a statement that was accepted: none but for `query` and for what names one relation."""
        tokens = statement.tokens()
        match next(tokens, b""):
            case b"query":
                return _heading(tokens)
            case b"show" | b"box":
                return self._headings.get(next(tokens, b"").decode("utf-8", "replace"), ())
            case _:
                return ()


def _heading(tokens: Iterator[bytes]) -> Heading:
    """The heading with which the tokens begin; they are taken up to its closing parenthesis."""
    columns: list[Column] = []
    part: list[str] = []
    next(tokens, None)
    for token in chain(tokens, [b")"]):
        if token in (b",", b")"):
            columns.append(Column(part[0], part[1:] == ["text"]))
            part = []
        else:
            part.append(token.decode())
        if token == b")":
            break
    return tuple(columns)
