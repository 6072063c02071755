"""Tuples: what their texts are, and which columns they have."""
import pytest

from dedale.polyhedra import Row, Sign
from dedale.tuples import Column, Constraint, GeneralizedTuple, TextPair, TextValue

COLUMNS = (Column("n", True), Column("m", True), Column("k", True), Column("x"))


def of(*constraints: Constraint) -> GeneralizedTuple:
    """The tuple of these constraints."""
    return GeneralizedTuple(COLUMNS, constraints)


def test_texts_follow_from_each_other() -> None:
    one = of(TextPair("n", True, "m"), TextPair("k", True, "m"), TextValue("k", True, "a"))
    assert [one.text(name) for name in ("n", "m", "k")] == ["a", "a", "a"]
    assert of(TextPair("n", True, "m"), TextValue("n", False, "a")).text("n") is None


@pytest.mark.parametrize(
    "constraints",
    [
        (TextValue("n", True, "a"), TextValue("n", True, "b")),
        (TextValue("n", True, "a"), TextValue("n", False, "a")),
        (TextPair("n", True, "m"), TextPair("m", False, "n")),
        (TextPair("n", True, "m"), TextPair("m", True, "k"), TextPair("n", False, "k")),
        (TextValue("n", True, "a"), TextValue("m", True, "a"), TextPair("n", False, "m")),
        (TextPair("n", False, "n"),),
        (Row((), Sign.LESS, 0),),
    ],
)
def test_what_holds_nowhere(constraints: tuple[Constraint, ...]) -> None:
    one = of(*constraints)
    assert not one.holds_somewhere()
    assert one.span("x") is None
    assert one.value("x") is None


def test_what_holds_somewhere() -> None:
    one = of(TextValue("n", False, "a"), TextPair("n", False, "m"), TextValue("m", True, "b"), Row((("x", 2),), Sign.EQUAL, 1))
    assert one.holds_somewhere()
    assert str(one.value("x")) == "-1/2"
    assert of().value("x") is None


def test_no_such_column() -> None:
    one = of()
    for name, ask in (("y", one.span), ("n", one.span), ("x", one.text), ("n", one.value)):
        with pytest.raises(KeyError):
            ask(name)
    with pytest.raises(KeyError):
        one.corners("x", "n")
