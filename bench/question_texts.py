"""What bench/questions asks: a problem is, for each program that can be asked, a text that loads and a text that asks."""

from collections.abc import Callable, Iterable
from typing import NamedTuple


class Text(NamedTuple):
    """What one program reads, in two parts, and the line by which it says yes."""

    load: str
    question: str
    yes: str = 'yes'


# By the names of the programs: Dedale, dedale_shared, SQLite, PPL, GEOS, z3.
Problem = dict[str, Text]


class Series(NamedTuple):
    """Problems of one kind, of three sizes. Counts of tuples aren't compared where each program cuts regions in its own way."""

    name: str
    make: Callable[[int], Problem]
    sizes: tuple[int, int, int]
    counted: bool = True


def text(load: Iterable[str], question: Iterable[str], yes: str = 'yes') -> Text:
    """The text of lines."""
    return Text(lines(load), lines(question), yes)


def lines(parts: Iterable[str]) -> str:
    return ''.join(f'{part}\n' for part in parts)


def whole(number: int) -> str:
    """A number as z3 reads it."""
    return str(number) if number >= 0 else f'(- {-number})'
