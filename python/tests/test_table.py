"""The program `dedale_table` writes, for each tuple that `dedale` writes, the line that the package computes of it, and all else
as `dedale` does."""
import os
import re
import subprocess
from dataclasses import dataclass
from random import Random
from typing import Iterator

import pytest

from dedale.headings import Relations
from dedale.process import check_program
from dedale.reading import is_counted, is_refusal, read_reply
from dedale.replies import Answer, Stored
from dedale.statements import Statement, split
from dedale.tuples import GeneralizedTuple, Heading
from tests.scripts import ROOT, Script, repository_scripts, script_name
from tests.table_lines import possible_lines, titles
from tests.table_scripts import random_script

SEEDS = range(3)
STATEMENTS = 1500
TABLES = ("answer", "tuples")
WITHOUT_SPANS = ("empty", "no rational column")

# what stands in some line that is compared
KINDS = (
    "^tuple\t",
    "^answer 0$",
    " nowhere(\t|$)",
    " any(\t|$)",
    " wide(\t|$)",
    r"=-?\d+/\d+(\t|$)",
    r"=-\d+\.\d+(\t|$)",
    r"=\d+\.\d{9}(\t|$)",
    r"in \(-inf, -?\d+\.\d+\](\t|$)",
    r"in \[-?\d+/\d+, -?\d+/\d+\)(\t|$)",
    r"!=[^\t]*, \w+!=",
    r"=it's(\t|$)",
    r"={ x = 1 }(\t|$)",
    "\udcff",
    r"\t-?\d+\*\w+ [-+] [^\t]* <= ",
    r"\t\w+ != \w+$",
    "^refused 20 wide$",
)

# columns, a tuple and its line
DOCUMENTED = (
    ("x", "x = 12.6", "x=12.6"),
    ("x", "3*x = 1", "x=1/3"),
    ("x", "x >= 4, x <= 4", "x=4"),
    ("x", "1000000000*x = -1", "x=-0.000000001"),
    ("x", "1024*x = 1", "x=1/1024"),
    ("t", "t >= 480, t < 540", "t in [480, 540)"),
    ("t", "t <= 3", "t in (-inf, 3]"),
    ("t", "", "t in (-inf, inf)"),
    ("n text", "n = 'a'", "n=a"),
    ("n text", "n != 'a', n != 'b'", "n!=a, n!=b"),
    ("n text", "", "n any"),
    ("n text", "n = 'it''s, {x} = ''1'''", "n=it's, {x} = '1'"),
    ("a text, b text", "a = b", "a any\tb any\ta = b"),
    ("n text, x", "x > 0, x < 0", "n nowhere\tx nowhere"),
    ("x, y", "x >= 0, y >= 0, x - y <= 9, 2*x + 3*y <= 36", "x in [0, 12.6]\ty in [0, 12]\tx - y <= 9\t2*x + 3*y <= 36"),
    ("x, y", "5*x >= 63, x - y <= 9, 2*x + 3*y <= 36", "x=12.6\ty=3.6"),
    ("x, y", "x = 5, x - y <= 9", "x=5\ty in [-4, inf)"),
)


@dataclass(frozen=True)
class Exchange:
    """A statement, the columns of its reply, and the lines of the reply."""

    statement: Statement
    columns: Heading
    lines: list[str]


@pytest.fixture(scope="session")
def table_program() -> str:
    """The program that writes tables: the one that `DEDALE_TABLE` names, or that of the clone. The first run builds it."""
    found = os.environ.get("DEDALE_TABLE") or str(ROOT / "dedale_table")
    check_program([found])
    return found


def run(program: str, script: bytes, words: tuple[str, ...] = ()) -> tuple[int, bytes]:
    """The status of the program, which writes nothing to standard error, and its replies to a script."""
    ended = subprocess.run([program, *words], input=script, capture_output=True, check=False)
    assert ended.stderr == b""
    return ended.returncode, ended.stdout


def exchanges(script: bytes, replies: bytes, is_table: bool) -> Iterator[Exchange]:
    """The statements of a script with the lines of their replies, of which none is left over."""
    relations = Relations()
    lines = iter(replies.decode("utf-8", "surrogateescape").split("\n"))
    for statement in split(script):
        head = next(lines)
        columns = () if is_refusal(head) else relations.columns_of_reply(statement)
        behind = _lines_behind(head, columns, statement, is_table)
        yield Exchange(statement, columns, [head, *(next(lines) for _ in range(behind))])
        if head == "ok":
            relations.accept(statement)
    assert list(lines) == [""]


def _lines_behind(head: str, columns: Heading, statement: Statement, is_table: bool) -> int:
    """How many lines of a reply follow the first one."""
    if is_counted(head):
        word, count = head.split(" ")
        return int(count) + 1 + (is_table and word in TABLES)
    if statement.first_word != "box" or is_refusal(head) or head in WITHOUT_SPANS:
        return 0
    return sum(1 for column in columns if not column.is_text) - 1


def check(plain: Exchange, table: Exchange) -> None:
    """Checks the reply with a table beside that without."""
    if plain.lines[0].split(" ")[0] not in TABLES:
        assert table.lines == plain.lines
        return
    head, title, *lines, end = table.lines
    begins = "tuple\t" if plain.statement.first_word == "show" else ""
    assert (head, title, end) == (plain.lines[0], begins + titles(plain.columns), "end")
    for (begin, one), line in zip(tuples_of(plain), lines, strict=True):
        assert line in [begin + text for text in possible_lines(one)]


def tuples_of(plain: Exchange) -> Iterator[tuple[str, GeneralizedTuple]]:
    """The tuples of a reply, each with what its line in a table begins with."""
    head, *lines = plain.lines
    rest = iter(lines)
    reply = read_reply(head, lambda: next(rest), plain.columns)
    assert isinstance(reply, (Answer, Stored))
    if isinstance(reply, Answer):
        yield from (("", one) for one in reply.tuples)
    else:
        yield from ((f"{number}\t", one) for number, one in reply.tuples.items())


@pytest.fixture(scope="module")
def compared(program: str, table_program: str) -> list[tuple[Exchange, Exchange]]:
    """The replies of both programs to random scripts, statement by statement."""
    check_program([program])
    return [pair for seed in SEEDS for pair in compare(program, table_program, random_script(Random(seed), STATEMENTS))]


def compare(program: str, table_program: str, script: bytes) -> Iterator[tuple[Exchange, Exchange]]:
    """The replies of both programs, which end with the same status, to a script."""
    status, replies = run(program, script)
    status_of_tables, tables = run(table_program, script)
    assert status_of_tables == status
    return zip(exchanges(script, replies, is_table=False), exchanges(script, tables, is_table=True), strict=True)


def test_tables_are_what_the_package_computes(compared: list[tuple[Exchange, Exchange]]) -> None:
    for plain, table in compared:
        check(plain, table)


@pytest.mark.parametrize("one", repository_scripts(), ids=script_name)
def test_tables_of_the_scripts_of_the_repository(table_program: str, one: Script) -> None:
    _, tables = run(table_program, one.script, one.words)
    plain = exchanges(one.script, one.replies, is_table=False)
    for without, table in zip(plain, exchanges(one.script, tables, is_table=True), strict=True):
        check(without, table)


@pytest.mark.parametrize("pattern", KINDS)
def test_lines_of_this_kind_were_compared(compared: list[tuple[Exchange, Exchange]], pattern: str) -> None:
    assert any(re.search(pattern, line) for _, table in compared for line in table.lines)


@pytest.mark.parametrize("columns, constraints, line", DOCUMENTED)
def test_cells_are_as_documented(table_program: str, columns: str, constraints: str, line: str) -> None:
    heading = columns.replace(", ", "\t")
    script = f"dedale 2; relation T({columns}); insert T {{ {constraints} }}; show T;"
    table = f"ok\nok\ntuple 1\ntuples 1\ntuple\t{heading}\n1\t{line}\nend\n"
    assert run(table_program, script.encode()) == (0, table.encode())


def test_an_answer_without_a_tuple_has_its_columns(table_program: str) -> None:
    assert run(table_program, b"query (n text, x) : false;") == (0, b"answer 0\nn text\tx\nend\n")
