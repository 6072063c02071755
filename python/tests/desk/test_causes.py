"""The causes that the desk tells are those of the manual."""
import re

from dedale.desk.causes import CAUSES, HELP
from tests.scripts import ROOT

MANUAL = (ROOT / "docs" / "language.md").read_text(encoding="utf-8")
CAUSE = re.compile(r"^\| `refused (\d+) [^`]*` \| (.*) \|$", re.MULTILINE)
HELPS = re.compile(r"^\| `[^|]*;` \| `(\d+) [a-z ]+` \| (.*) \|$", re.MULTILINE)

# of the manual's cells this stands for another place of it
ELSEWHERE = re.compile(r'; of fractions and decimals, see below| \("Long numbers", below\)')
SYNTAX = 3


def test_causes_are_those_of_the_manual() -> None:
    found = {int(number): ELSEWHERE.sub("", cause) for number, cause in CAUSE.findall(MANUAL)}
    assert CAUSES == {number: cause for number, cause in found.items() if number <= max(CAUSES)}
    assert set(range(1, 22)) <= set(CAUSES)


def test_what_helps_is_that_of_the_manual() -> None:
    found: dict[int, tuple[str, ...]] = {}
    for number, helps in HELPS.findall(MANUAL):
        found[int(number)] = (*found.get(int(number), ()), helps)
    found.pop(SYNTAX)
    assert HELP == found
