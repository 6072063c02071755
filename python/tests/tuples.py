"""Random tuples."""
from hypothesis import strategies as st

from dedale.polyhedra import Row, Sign
from dedale.tuples import Column, Constraint, GeneralizedTuple, Heading, TextPair, TextValue

NUMBERS = ("x", "y", "z", "u")
TEXTS = ("n", "m", "k")
HEADING: Heading = tuple(Column(name) for name in NUMBERS) + tuple(Column(name, True) for name in TEXTS)


def coefficients(largest: int) -> st.SearchStrategy[int]:
    """Whole numbers but 0 up to a magnitude."""
    return st.integers(-largest, largest).filter(bool)


def rows(columns: tuple[str, ...], largest: int) -> st.SearchStrategy[Row]:
    """Rows over some of the columns, with numbers up to a magnitude."""
    names = st.lists(st.sampled_from(columns), min_size=1, unique=True)
    terms = names.flatmap(lambda found: st.tuples(*(st.tuples(st.just(name), coefficients(largest)) for name in found)))
    return st.builds(_row, terms, st.sampled_from(Sign), st.integers(-largest, largest))


def _row(terms: tuple[tuple[str, int], ...], sign: Sign, constant: int) -> Row:
    """A row as it is read from a reply: the first coefficient of an equation is above 0."""
    factor = -1 if sign is Sign.EQUAL and terms[0][1] < 0 else 1
    return Row(tuple((name, number * factor) for name, number in terms), sign, constant * factor)


# what the program takes for a text: no control characters
LETTERS = st.characters(blacklist_categories=("Cc", "Cs")) | st.sampled_from("'{},;- \udcff\u2028")
TEXT_CONSTRAINTS = st.builds(TextValue, st.sampled_from(TEXTS), st.booleans(), st.text(LETTERS, max_size=4)) | st.builds(
    TextPair, st.sampled_from(TEXTS), st.booleans(), st.sampled_from(TEXTS)
)


def tuples(largest: int) -> st.SearchStrategy[GeneralizedTuple]:
    """Tuples over all columns, with numbers up to a magnitude."""
    constraints: st.SearchStrategy[Constraint] = TEXT_CONSTRAINTS | rows(NUMBERS, largest)
    return st.builds(GeneralizedTuple, st.just(HEADING), st.lists(constraints, max_size=8).map(tuple))


def relation(name: str, heading: Heading = HEADING) -> str:
    """The statement that defines a relation of the columns."""
    return f"relation {name}({', '.join(column.printed() for column in heading)});"
