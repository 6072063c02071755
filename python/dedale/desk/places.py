"""Where in a statement the cause of its refusal stands."""
from typing import Callable, Iterable, Iterator

from dedale.desk.catalogue import Catalogue, Entry
from dedale.desk.grammar import NoStatement, TooDeep, read
from dedale.desk.reading import Atom, Comparison, Leaf, Operand, Reading, Scope
from dedale.desk.tokens import Kind, Token, tokens_of
from dedale.replies import Refused
from dedale.statements import Statement
from dedale.tuples import Heading

LONGEST_NAME = 64
LONGEST_NUMBER = 2**63 - 1
MOST_COLUMNS = 16
SYNTAX, LONG_NAME, LONG_NUMBER = 3, 4, 5


def place_of(statement: Statement, refused: Refused, catalogue: Catalogue) -> int | None:
    """The byte of the statement's text at which the cause stands for which it was refused over this catalogue, or none where
    that can't be told."""
    try:
        reading = read(statement.text, catalogue.is_second)
    except NoStatement as fault:
        # a text in a statement that is no statement says nothing of other refusals
        return fault.place if refused.number == SYNTAX else _first(_long_tokens(refused.number, statement))
    except TooDeep:
        return None
    if refused.number in (LONG_NAME, LONG_NUMBER):
        return _first(_long_tokens(refused.number, statement))
    find = _FINDERS.get(refused.number)
    return _first(find(reading, catalogue)) if find else None


def _first(tokens: Iterable[Token]) -> int | None:
    """The place of the first one of the tokens."""
    return min((one.start for one in tokens), default=None)


def _long_tokens(number: int, statement: Statement) -> Iterator[Token]:
    """The tokens that are too long, where the refusal has that number."""
    for one in tokens_of(statement.text):
        if number == LONG_NAME and one.kind is Kind.NAME and len(one.text) > LONGEST_NAME:
            yield one
        if number == LONG_NUMBER and one.kind is Kind.NUMBER and _is_long_number(one.text):
            yield one


def _is_long_number(digits: str) -> bool:
    digits = digits.lstrip("0")
    return len(digits) > len(str(LONGEST_NUMBER)) or int(digits or "0") > LONGEST_NUMBER


def _many(reading: Reading, catalogue: Catalogue) -> Iterator[Token]:
    """The first column that is too many."""
    yield from (name for name, _ in reading.columns[MOST_COLUMNS:])


def _twice(reading: Reading, catalogue: Catalogue) -> Iterator[Token]:
    """The columns whose names stand before."""
    seen: set[str] = set()
    for name, _ in reading.columns:
        if name.text in seen:
            yield name
        seen.add(name.text)


def _names(reading: Reading) -> Iterator[Token]:
    """The names of relations and views that have to be defined."""
    if reading.word not in ("relation", "view"):
        yield from reading.names
    yield from (leaf.name for leaf in reading.leaves if isinstance(leaf, Atom))


def _unknown(reading: Reading, catalogue: Catalogue) -> Iterator[Token]:
    yield from (name for name in _names(reading) if name.text not in catalogue.entries)


def _beside_the_word(reading: Reading, catalogue: Catalogue) -> Iterator[Token]:
    """The name that the statement is about."""
    yield from reading.names[:1]


def _kind(reading: Reading, catalogue: Catalogue) -> Iterator[Token]:
    """The names of views where relations have to stand, or the other way round."""
    wants_view = reading.word == "keep"
    for name in reading.names:
        entry = catalogue.entries.get(name.text)
        if entry and entry.is_view is not wants_view:
            yield name


def _arity(reading: Reading, catalogue: Catalogue) -> Iterator[Token]:
    """The atoms with more or fewer arguments than columns, or the second of two relations that have not as many."""
    if len({len(columns) for columns in _compared(reading, catalogue)}) > 1:
        yield reading.names[1]
    for leaf, entry in _known_atoms(reading, catalogue):
        if len(leaf.arguments) != len(entry.columns):
            yield leaf.name


def _compared(reading: Reading, catalogue: Catalogue) -> list[Heading]:
    """The headings of the relations that a statement compares."""
    if reading.word not in ("disjoint", "verify"):
        return []
    return [catalogue.entries[name.text].columns for name in reading.names if name.text in catalogue.entries]


def _known_atoms(reading: Reading, catalogue: Catalogue) -> Iterator[tuple[Atom, Entry]]:
    """The atoms whose names are defined."""
    for leaf in reading.leaves:
        if isinstance(leaf, Atom) and leaf.name.text in catalogue.entries:
            yield leaf, catalogue.entries[leaf.name.text]


def _scope(reading: Reading, catalogue: Catalogue, leaf: Leaf) -> Scope:
    """The variables that a leaf may have."""
    columns = reading.heading
    if reading.word == "insert" and reading.names[0].text in catalogue.entries:
        columns = catalogue.entries[reading.names[0].text].columns
    return {**{column.name: column.is_text for column in columns}, **leaf.scope}


def _unbound(reading: Reading, catalogue: Catalogue) -> Iterator[Token]:
    for leaf in reading.leaves:
        scope = _scope(reading, catalogue, leaf)
        for operand in leaf.operands():
            yield from (name for name in operand.names if name.text not in scope)


def _sort(reading: Reading, catalogue: Catalogue) -> Iterator[Token]:
    """What stands where something of the other sort has to, or the second of two relations with other sorts."""
    if len({tuple(column.is_text for column in columns) for columns in _compared(reading, catalogue)}) > 1:
        yield reading.names[1]
    for leaf in reading.leaves:
        scope = _scope(reading, catalogue, leaf)
        for operand in leaf.operands():
            yield from _texts_in_sum(operand, scope)
        if isinstance(leaf, Comparison):
            yield from _sort_of_comparison(leaf, scope, reading.word == "insert")
    for atom, entry in _known_atoms(reading, catalogue):
        scope = _scope(reading, catalogue, atom)
        for operand, column in zip(atom.arguments, entry.columns):
            if _is_text(operand, scope) is not column.is_text:
                yield operand.first


def _texts_in_sum(operand: Operand, scope: Scope) -> Iterator[Token]:
    if not operand.is_lone:
        yield from (name for name in operand.names if scope.get(name.text))


def _sort_of_comparison(one: Comparison, scope: Scope, is_insert: bool) -> Iterator[Token]:
    left, right = _is_text(one.left, scope), _is_text(one.right, scope)
    if left is not right:
        yield one.right.first
    elif left and one.sign.text not in ("=", "!="):
        yield one.sign
    elif not left and is_insert and one.sign.text == "!=":
        yield one.sign


def _is_text(operand: Operand, scope: Scope) -> bool:
    return operand.is_text or operand.is_lone and scope.get(operand.names[0].text, False)


def _number(reading: Reading, catalogue: Catalogue) -> Iterator[Token]:
    """The number of a `delete`."""
    if reading.number:
        yield reading.number


_FINDERS: dict[int, Callable[[Reading, Catalogue], Iterator[Token]]] = {
    7: _many,
    8: _twice,
    9: _unknown,
    10: _beside_the_word,
    11: _kind,
    12: _arity,
    13: _unbound,
    14: _sort,
    15: _beside_the_word,
    16: _number,
    17: _beside_the_word,
    18: _beside_the_word,
    19: _beside_the_word,
}
