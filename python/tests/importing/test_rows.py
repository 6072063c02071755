"""Tables as tuples: typed columns, and patterns of the tuple."""
from decimal import Decimal
from pathlib import Path

import pytest
from hypothesis import example, given, settings
from hypothesis import strategies

from tests.importing.running import imported, replies, truths

DATA = Path(__file__).resolve().parents[3] / "examples" / "data"
CLOCK = ("Clock(zone text, utc, local)", "zone = {zone:text}, local = utc + {offset}, utc >= {from_utc}, utc < {to_utc}")


def test_clocks_become_half_open_intervals(program: str) -> None:
    outcome = imported((DATA / "clocks.csv").read_bytes(), "rows", *CLOCK)
    assert (outcome.status, outcome.errors, len(outcome.inserts())) == (0, "", 66)
    assert outcome.script.splitlines()[:2] == [
        "relation Clock(zone text, utc, local);",
        "insert Clock { zone = 'Africa/Cairo', local = utc + 7200, utc >= 1767225600, utc < 1776981600 };",
    ]
    assert "insert Clock { zone = 'America/New_York', local = utc - 18000, utc >= 1767225600, utc < 1772953200 };" in outcome.inserts()
    questions = (
        "ask exists utc (utc >= 1767225600 and utc < 1861920000 and not exists local (Clock('Europe/Paris', utc, local)));"
        "ask exists utc exists a exists b (Clock('Europe/Paris', utc, a) and Clock('Europe/Paris', utc, b) and a != b);"
        "ask exists a exists u exists v (Clock('Europe/Paris', u, a) and Clock('Europe/Paris', v, a) and u < v);"
    )
    assert truths(program, outcome.script + questions) == ["no", "no", "yes"]


def test_typed_columns() -> None:
    content = "trip;arr;day;at;price\n17;25:05;2026-01-01;2026-01-01T01:00+01:00;-1.50\n"
    outcome = imported(content, "Stop", "trip", "arr:time", "day:date", "at:instant", "price:number")
    assert outcome.script.splitlines() == [
        "dedale 2;", "-- times are minutes since 00:00", "-- instants are seconds since 1970-01-01 00:00 UTC",
        "relation Stop(trip text, arr, day, at, price);",
        "insert Stop { trip = '17', arr = 1505, day = 20454, at = 1767225600, price = -1.5 };",
    ]


VALUES = {
    ("number", "1e3"): "1000", ("number", " +0.50 "): "0.5", ("number", "-0.0"): "0", ("number", "1e-18"): "0.000000000000000001",
    ("number", "9223372036854775807"): "9223372036854775807",
    ("time", "00:00"): "0", ("time", "7:05"): "425", ("time", "23:59:59"): "86399", ("time", "48:00:01"): "172801",
    ("date", "1970-01-01"): "0", ("date", "1969-12-31"): "-1", ("date", "2000-02-29"): "11016",
    ("instant", "1970-01-01T00:00:00Z"): "0", ("instant", "1970-01-01 00:00"): "0", ("instant", "1970-01-01T00:00:00.25Z"): "0.25",
    ("instant", "1970-01-01T00:00:00+02:00"): "-7200", ("instant", "1970-01-01T00:00:00-0330"): "12600",
    ("text", " a''b "): "' a''''b '", ("text", ""): "''",
}


@pytest.mark.parametrize("given", VALUES, ids=str)
def test_values(program: str, given: tuple[str, str]) -> None:
    outcome = imported(f"a,b\n{given[1]},\n", "T", f"a:{given[0]}")
    assert outcome.inserts() == [f"insert T {{ a = {VALUES[given]} }};"]
    assert replies(program, outcome.script)[-1] == "tuple 1"


BAD_VALUES = {
    ("number", ""): "a: '' is no number",
    ("number", "12,5"): "a: '12,5' is no number (decimals are written with a point)",
    ("number", "0x1"): "a: '0x1' is no number",
    ("number", "٣"): "a: '٣' is no number",
    ("number", "nan"): "a: 'nan' is no number",
    ("number", "Infinity"): "a: 'Infinity' is no number",
    ("number", "1" * 401): f"a: '{'1' * 40}..' is too long for a number",
    ("number", "9223372036854775808"):
        "a: the number '9223372036854775808' is too long: without its point it must be below 2^63, and it may have 18 digits behind the point",
    ("number", "1e-19"):
        "a: the number '0.0000000000000000001' is too long: without its point it must be below 2^63, and it may have 18 digits behind the point",
    ("time", "7:5"): "a: '7:5' is no time as hh:mm or hh:mm:ss",
    ("time", "07:60"): "a: '07:60' is no time as hh:mm or hh:mm:ss",
    ("time", "-1:00"): "a: '-1:00' is no time as hh:mm or hh:mm:ss",
    ("time", "2026-01-01T10:00Z"): "a: '2026-01-01T10:00Z' is no time as hh:mm or hh:mm:ss (an instant? that is column:instant)",
    ("date", "2026-02-29"): "a: '2026-02-29' is no date as yyyy-mm-dd",
    ("date", "20260228"): "a: '20260228' is no date as yyyy-mm-dd",
    ("date", "1.2.2026"): "a: '1.2.2026' is no date as yyyy-mm-dd",
    ("instant", "2026-01-01T24:00Z"): "a: '2026-01-01T24:00Z' is no instant as yyyy-mm-ddThh:mm:ss, maybe with Z or an offset such as +02:00",
    ("instant", "2026-13-01T00:00Z"): "a: '2026-13-01' is no date as yyyy-mm-dd",
    ("text", "a\tb"): r"a: 'a\tb' has a control character, U+0009",
    ("text", "a\x7fb"): r"a: 'a\x7fb' has a control character, U+007F",
}


@pytest.mark.parametrize("given", BAD_VALUES, ids=str)
def test_bad_values(given: tuple[str, str]) -> None:
    outcome = imported(f"n;a\nb;{given[1]}\n", "T", "n", f"a:{given[0]}")
    assert (outcome.status, outcome.script) == (1, "")
    assert outcome.errors.splitlines()[0] == f"<stdin>:2: 'b': {BAD_VALUES[given]}"


MIXED = {
    "a:time,b:time/10:00,10:00:00": "b: '10:00:00' is mixed with times without seconds",
    "a:time,b:time/10:00:00,10:00": "b: '10:00' is mixed with times with seconds",
    "a:instant,b:instant/2026-01-01T00:00,2026-01-01T00:00Z":
        "b: '2026-01-01T00:00Z' is mixed with instants without an offset",
    "a:instant,b:instant/2026-01-01T00:00+02:00,2026-01-01T00:00": "b: '2026-01-01T00:00' is mixed with instants with an offset",
}


@pytest.mark.parametrize("case", MIXED)
def test_times_of_two_forms_are_an_error(case: str) -> None:
    columns, row = case.split("/")
    outcome = imported(f"a,b\n{row}\n", "T", *columns.split(","))
    assert outcome.errors.splitlines()[0] == f"<stdin>:2: row 1: {MIXED[case]}"


PATTERNS = {
    "x >= {a}": "x >= -5",
    "x + {a} <= 3": "x - 5 <= 3",
    "x - {a} <= 3": "x + 5 <= 3",
    "-{a} <= x": "5 <= x",
    "{a}*x - {a}*y = 0": "-5*x + 5*y = 0",
    "2*x+1.5*y=-{b}": "2*x + 1.5*y = -7.25",
    "{b} = x + y - 3": "7.25 = x + y - 3",
    "n = 'it''s {a}'": "n = 'it''s {a}'",
    "n != {a:text}": "n != '-5'",
    "{the column:text} = n, x < {b}": "'c' = n, x < 7.25",
    "n = m": "n = m",
    "x = {t:time}, y = {d:date}": "x = 90, y = 1",
}


@pytest.mark.parametrize("pattern", PATTERNS)
def test_patterns(program: str, pattern: str) -> None:
    outcome = imported("a,b,the column,t,d\n-5,7.250,c,1:30,1970-01-02\n", "rows", "T(n text, m text, x, y)", pattern)
    assert outcome.inserts() == [f"insert T {{ {PATTERNS[pattern]} }};"]
    assert outcome.script.startswith("dedale 2;\n") == ("." in PATTERNS[pattern])
    assert replies(program, outcome.script)[-1] == "tuple 1"


BAD_PATTERNS = {
    ("T(n text, x)", ""): "a number, a column of numbers or {..} is wanted in the pattern at its end",
    ("T(n text, x)", "x"): "one of < <= = != >= > is wanted in the pattern at its end",
    ("T(n text, x)", "x = 1,"): "a number, a column of numbers or {..} is wanted in the pattern at its end",
    ("T(n text, x)", "x = 1 y"): "a comma or the end is wanted in the pattern where 'y' stands",
    ("T(n text, x)", "y = 1"): "a number, a column of numbers or {..} is wanted in the pattern where 'y' stands",
    ("T(n text, x)", "x = n"): "a number, a column of numbers or {..} is wanted in the pattern where 'n' stands",
    ("T(n text, x)", "n = x"): "a text is wanted in the pattern where 'x' stands",
    ("T(n text, x)", "n = {a}"): "a text is wanted in the pattern where '{a}' stands",
    ("T(n text, x)", "x = {a:text}"): "a number, a column of numbers or {..} is wanted in the pattern where '{a:text}' stands",
    ("T(n text, x)", "n < 'a'"): "texts are compared by = and != alone, not by <, in the pattern",
    ("T(n text, x)", "x != 1"): "numbers of a tuple aren't compared by !=, in the pattern",
    ("T(n text, x)", "x*2 = 1"): "one of < <= = != >= > is wanted in the pattern where '*' stands",
    ("T(n text, x)", "x = {a"): "the pattern isn't understood from '{a' on",
    ("T(n text, x)", "x = 2*n"): "a column of numbers is wanted in the pattern where 'n' stands",
    ("T(n text, x)", "x = {a:wkt}"): "{a:wkt} is a geometry, and stands in no pattern",
    ("T(n text, x)", "x = {a:hour}"): "'a:hour': 'hour' is none of text, number, time, date, instant, wkt",
    ("T n text", "x = 1"): "the heading 'T n text' isn't spelled as in: Clock(zone text, utc)",
    ("T(n txt)", "x = 1"): "the heading has the column 'n txt', and NAME or NAME text is wanted",
    ("T(n, n)", "n = 1"): "the relation would have two columns 'n'",
    ("T(from, to, box)", "n = 1"): "the column 'box' is a reserved word in Dedale: box_ would do",
    ("T()", "n = 1"): "the column '' is no name in Dedale: _ would do",
}


@pytest.mark.parametrize("words", BAD_PATTERNS, ids=str)
def test_bad_patterns(words: tuple[str, str]) -> None:
    outcome = imported("a\n1\n", "rows", *words)
    assert (outcome.status, outcome.script) == (2, "")
    assert outcome.errors == f"dedale-tools import: {BAD_PATTERNS[words]}\n"


def test_bad_rows_of_a_pattern() -> None:
    content = "a,b\n1,2\n,3\n9223372036854775807,-9223372036854775807\n4,x\n"
    outcome = imported(content, "rows", "T(x)", "x + {a} <= {b}", "--skip")
    assert (outcome.status, outcome.inserts()) == (1, ["insert T { x + 1 <= 2 };"])
    assert outcome.errors.splitlines() == [
        "<stdin>:3: row 2: a: '' is no number",
        "<stdin>:4: row 3: a number of its constraints would be 2^63 or more",
        "<stdin>:5: row 4: b: 'x' is no number",
    ]
    missing = imported(content, "rows", "T(x)", "x = {c}")
    assert missing.errors == "<stdin>:1: there is no column 'c', but 'a', 'b'\n"
    assert (missing.status, missing.script) == (1, "")


SIZES = strategies.sampled_from([0, 1, 2**62, 2**63 - 1, 2**63, 10**18, 10**18 + 1]) | strategies.integers(0, 2**64)
NUMBERS = strategies.builds(
    lambda size, digits, sign: f"{sign}{Decimal(size).scaleb(-digits):f}", SIZES, strategies.integers(0, 19), strategies.sampled_from(["", "-"])
)
SUMS = ["{a}*x + {b} <= {c}*x", "x + {a} = y - {b} + {c}", "x = {a}, y >= {b}", "-{a}*x - {b}*y > {c}", "1.5*x + {a} < {b}"]


@given(strategies.lists(strategies.tuples(NUMBERS, NUMBERS, NUMBERS), min_size=1, max_size=20), strategies.sampled_from(SUMS))
@example([("9223372036854775807", "0.00000000867758838", "9223372036854775807")], SUMS[0])
@settings(max_examples=60)
def test_the_program_takes_the_numbers_that_are_written(program: str, rows: list[tuple[str, str, str]], pattern: str) -> None:
    content = "a,b,c\n" + "".join(",".join(row) + "\n" for row in rows)
    outcome = imported(content, "rows", "T(x, y)", pattern, "--skip")
    assert not [line for line in replies(program, outcome.script) if line.startswith("refused")]
