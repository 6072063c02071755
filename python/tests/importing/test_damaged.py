"""Files that are damaged at random: an error with a place, or a script that the program takes, and never anything else."""
import json
import random
import re

import pytest

from tests.importing.polygons import closed, square, wkt_of
from tests.importing.running import Outcome, imported, replies

FILES = 1000
AT_ONCE = 100

POLYGONS = [[square(0, 0, 12), square(1, 1, 2), closed([(5, 5), (9, 5), (7, 8)])], [square(20, 20, 4)]]
NAMES = ["it's", "Größe", 'with "quotes"']
PLACE = re.compile(r"<stdin>:\d+: .+")
SUMMARY = re.compile(r"<stdin>: (\d+ bad, so nothing is written; with --skip the others are|no number would be too long with .*)")

JUNK = [b"", b",", b";", b'"', b"'", b"(", b")", b"[", b"]", b"{", b"}", b":", b"\n", b"\r", b"\t", b"\0", b"\xff", b"\xc3", b"-",
        b"1e999", b"nan", b" 7", b".", b"null", b"true", b"EMPTY", b" Z ", b"\xef\xbb\xbf", b"\\u0000", b"9" * 30, b"--", b"/*"]


def csv_file() -> bytes:
    """A map with quotes, line feeds and umlauts in it."""
    lines = ["name,time,wkt"]
    lines += [f'"{name.replace(chr(34), chr(34) * 2)}",2{number}:30,"{wkt_of(POLYGONS)}"' for number, name in enumerate(NAMES)]
    return "\r\n".join(lines).encode()


def geojson_file() -> bytes:
    """The same as GeoJSON."""
    geometry = {"type": "MultiPolygon", "coordinates": POLYGONS}
    features = [
        {"type": "Feature", "properties": {"name": name, "time": f"2{number}:30"}, "geometry": geometry}
        for number, name in enumerate(NAMES)
    ]
    return json.dumps({"type": "FeatureCollection", "features": features}, indent=1, ensure_ascii=False).encode()


def damaged(content: bytes, chance: random.Random, first: int) -> bytes:
    """The content with up to three places from `first` on cut out, written anew or doubled."""
    for _ in range(chance.randint(1, 3)):
        start = chance.randrange(first, max(first + 1, len(content)))
        end = min(len(content), start + chance.choice([0, 1, 1, 2, 5, 40]))
        new = chance.choice([chance.choice(JUNK), bytes([chance.randrange(256)]), content[start:end] * 2])
        content = content[:start] + new + content[end:]
    return content[: chance.randrange(first, len(content) + 1)] if chance.random() < 0.1 else content


def check(outcome: Outcome) -> bool:
    """Whether a script was written. Each error has its place."""
    errors = [line for line in outcome.errors.splitlines() if not SUMMARY.fullmatch(line)]
    assert all(PLACE.fullmatch(line) for line in errors)
    assert outcome.status == (1 if any(": warning: " not in line for line in errors) else 0)
    return bool(outcome.script)


@pytest.mark.parametrize("kind", ["csv", "wkt", "geojson"])
@pytest.mark.parametrize("words", [(), ("--skip",)], ids=["all", "skip"])
def test_damaged_files(program: str, kind: str, words: tuple[str, ...]) -> None:
    chance = random.Random(f"{kind} {words}")
    content = geojson_file() if kind == "geojson" else csv_file()
    given = ["Land", "name", "time:time", *(["--geojson"] if kind == "geojson" else ["wkt"]), *words, "--digits", "2"]
    written = 0
    waiting: list[str] = []
    for number in range(FILES // 2):
        first = content.index(b"MULTI") if kind == "wkt" else 0
        outcome = imported(damaged(content, chance, first), *given)
        if check(outcome):
            written += 1
            waiting += [outcome.script.replace("Land", f"Land_{number}")]
        if waiting and (len(waiting) == AT_ONCE or number == FILES // 2 - 1):
            assert not [line for line in replies(program, "".join(waiting)) if line.startswith("refused")]
            waiting.clear()
    assert 0 < written < FILES // 2
