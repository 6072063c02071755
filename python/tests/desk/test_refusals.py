"""Carets stand below the causes of refusals."""
import pytest

from dedale.desk.catalogue import Catalogue, catalogue_of
from dedale.desk.refusals import refusal_lines
from dedale.replies import Refused
from dedale.statements import Statement, split

DEFINED = b"relation Land(n text, x, y);relation Road(x, y);view Area(x, y) := exists n text (Land(n, x, y));"
WORDS = {
    2: "unfinished", 3: "syntax", 4: "long name", 5: "long number", 6: "deep", 7: "many", 8: "twice", 9: "unknown",
    10: "taken", 11: "kind", 12: "arity", 13: "unbound", 14: "sort", 15: "used", 16: "no tuple", 17: "full", 20: "wide",
}

# the number of a refusal, and its statement with a bar before the place of its cause
PLACES = [
    (3, "ask exists x (x =|> 0)"),
    (3, "|ASK true"),
    (3, "insert Road { x = 1 |and y = 2 }"),
    (3, "insert Road |( x = 1 )"),
    (3, "relation Slot(|begin, end)"),
    (3, "ask exists x (|2x = 1)"),
    (3, "ask exists x (x |≥ 1)"),
    (3, 'ask exists n text (n = |"a")'),
    (3, "ask exists x (x = 1|"),
    (3, "ask exists x (x = |0.5)"),
    (3, "ask true|; ask"),
    (3, "|dump"),
    (3, "insert Land { n = |'b, x >= 4, x <= 8 };\ninsert Land { n = 'c', x = 8 }"),
    (4, f"ask exists x (x = 1 and |{'y' * 65} = 2)"),
    (5, "ask exists x (x > |9223372036854775808)"),
    (5, "ask exists x (x > 9223372036854775807 - 0 and x > |00009223372036854775808)"),
    (7, "relation W(a, b, c, d, e, f, g, h, i, j, k, l, m, n, o, p, |q)"),
    (8, "relation Pair(x, |x)"),
    (9, "ask exists x (|Lnd('a', x, 1) and Road(x, x))"),
    (9, "ask closure(|Lnd)(1, 2)"),
    (9, "show |Lnd"),
    (9, "view Lnd(x) := |Lnd(x, x)"),
    (9, "disjoint Land |Lnd"),
    (10, "relation |Area(x)"),
    (11, "show |Area"),
    (11, "keep |Land"),
    (11, "disjoint Land |Area"),
    (12, "ask exists x (Road(x, x) and |Area(x))"),
    (12, "disjoint Land |Road"),
    (13, "query (x) : Area(x, |y)"),
    (13, "ask exists x (Area(x, x)) and |x = 1"),
    (13, "insert Land { n = 'a', |z = 1 }"),
    (14, "ask exists x (Land(|x, 1, 1))"),
    (14, "ask exists x (Land('a', x, |'b'))"),
    (14, "ask exists n text (Land(n, 1, 1) and n |< 'b')"),
    (14, "ask exists n text (1 + |n = 2)"),
    (14, "insert Land { n = 'b', x |!= 1 }"),
    (14, "insert Land { n = |5 }"),
    (15, "drop |Land"),
    (16, "delete Land |7"),
    (17, "insert |Land { x = 1 }"),
]
WITHOUT_PLACE = [
    (6, "ask " + "(" * 70 + "true" + ")" * 70),
    (7, "ask exists x (x = 1)"),
    (20, "ask exists x exists y (Area(x, y))"),
    (5, "ask exists x (4000000000000000000*x + 4000000000000000000*x + 4000000000000000000*x = 1)"),
]


def lines(statement: Statement, number: int) -> list[str]:
    """The lines that tell the refusal of a statement."""
    catalogue = catalogue_of(split(DEFINED))
    return list(refusal_lines(statement, Refused(number, WORDS[number], ""), catalogue))


def statement_of(text: str) -> Statement:
    """The statement that the text is, whatever `;` is in it."""
    return Statement(text.encode(), 1, 1)


@pytest.mark.parametrize("number, marked", PLACES)
def test_the_caret_stands_below_the_cause(number: int, marked: str) -> None:
    before, _, behind = marked.partition("|")
    told = lines(statement_of(before + behind), number)
    assert told[0].startswith(f"refused {number} {WORDS[number]}: ")
    caret = next(at for at, line in enumerate(told) if line.strip() == "^")
    assert told[caret][2:] == " " * len(before) + "^"
    assert f"  {before}{behind}".split("\n")[0].startswith(told[caret - 1].removesuffix("..."))


@pytest.mark.parametrize("number, text", WITHOUT_PLACE)
def test_without_a_place_the_first_line_is_told(number: int, text: str) -> None:
    told = lines(statement_of(text + "\n  and true"), number)
    assert told[1].startswith("  ask ") and len(told[1]) <= 110
    assert not any(line.strip() == "^" for line in told)


def test_the_line_with_the_place_is_told() -> None:
    text = "query (n text, x) : exists y\n\t(Land(n, x, y)\n    and Lnd(x))"
    assert lines(statement_of(text), 9)[1:3] == ["      and Lnd(x))", "          ^"]
    assert lines(statement_of("ask\n\tLnd(1)"), 9)[1:3] == ["   Lnd(1)", "   ^"]


def test_a_long_line_is_cut_around_the_place() -> None:
    text = "ask " + " and ".join(["exists x (x = 1)"] * 50 + ["Lnd(1)"] + ["exists x (x = 1)"] * 50)
    excerpt, caret = lines(statement_of(text), 9)[1:3]
    assert len(excerpt) <= 104 and excerpt.startswith("  ...") and excerpt.endswith("...")
    assert excerpt[caret.index("^") :].startswith("Lnd(1)")


def test_wide_and_strange_characters_before_the_place() -> None:
    text = b"ask n = '\xe6\xb0\xb4e\xcc\x81\xff' and Lnd(1)"
    excerpt, caret = lines(Statement(text, 1, 1), 9)[1:3]
    assert excerpt == "  ask n = '水e\u0301\\xff' and Lnd(1)"
    assert caret == " " * (excerpt.index("Lnd") + 1 - 1) + "^"


def test_what_annotate_guesses_is_told() -> None:
    guess = "  a text goes on over the end of this line: is a quote missing in it?"
    assert guess in lines(statement_of("insert Land { n = 'a };\ninsert Land { n = 'b' }"), 3)
    assert guess in lines(statement_of("insert Land { n = 'a };"), 2)
    assert guess not in lines(statement_of("insert Land { n = 'a' }; }"), 3)
    assert any("byte order mark" in line for line in lines(statement_of("\ufeffask true"), 3))
    assert any("the first of all statements" in line for line in lines(statement_of("dedale 2"), 3))


def test_nothing_is_known_of_a_new_number() -> None:
    told = list(refusal_lines(statement_of("ask true"), Refused(99, "new", ""), Catalogue()))
    assert told == ["refused 99 new", "  ask true"]
