"""The countries of the world, imported, confirmed by the program, drawn, and compared with Shapely. No part of the tests, since it
takes minutes and fetches the map: Natural Earth 1:110m, in Debian's `r-cran-spdata`.

    cd python && /usr/bin/python3 -m tests.importing.world_check

Its status is 0 where all is as it should be."""
import os
import subprocess
import sys
import tempfile
import time
from itertools import combinations
from pathlib import Path
from typing import Any

from shapely.errors import ShapelyError  # type: ignore[import]

from dedale.importing.records import Record
from dedale.importing.regions import convex_pieces
from dedale.importing.rings import RingFault, oriented_rings, twice_area
from dedale.importing.table_files import read_table
from dedale.importing.wkt import read_wkt
from dedale.program import find_program
from tests.importing.polygons import Polygon, shapely_of
from tests.importing.running import Outcome, imported
from tests.scripts import ROOT

PACKAGE = "r-cran-spdata"
DIGITS = 4
NEIGHBOURS = "query (n text, m text) : n != m and exists x exists y (Land(n, x, y) and Land(m, x, y));\n"


def fetched(folder: Path) -> bytes:
    """The map, from the package of Debian."""
    subprocess.run(["apt-get", "download", PACKAGE], cwd=folder, check=True, stdout=subprocess.DEVNULL, stderr=subprocess.DEVNULL)
    package = next(folder.glob(f"{PACKAGE}_*.deb"))
    subprocess.run(["dpkg-deb", "-x", package, folder], check=True)
    return next(folder.glob("**/world_wkt.csv")).read_bytes()


def rounded(record: Record) -> list[Polygon]:
    """The polygons of a country in whole numbers."""
    return read_wkt(record.text("WKT")).scaled(DIGITS)


def good_countries(content: bytes) -> dict[str, list[Polygon]]:
    """The polygons of the countries whose rings are right after rounding, by their names."""
    found = {}
    for record in read_table(content).rows:
        try:
            oriented_rings(rounded(record))
            found[record.text("name_long")] = rounded(record)
        except RingFault:
            pass
    return found


def run(script: str) -> tuple[list[str], float]:
    """The replies of the program, and the seconds that it took."""
    start = time.monotonic()
    done = subprocess.run([find_program()], input=script.encode("utf-8"), stdout=subprocess.PIPE, check=False)
    return done.stdout.decode("utf-8").splitlines(), time.monotonic() - start


def report(what: str, is_right: bool, told: object) -> bool:
    """Prints a line, and gives whether it is as it should be."""
    print(f"{'ok  ' if is_right else 'BAD '} {what}: {told}", flush=True)
    return is_right


def imports(outcome: Outcome) -> bool:
    """Exactly two countries are bad."""
    named = outcome.errors.splitlines()
    wanted = ("'Sudan': the ring crosses itself, near", "'Dem. Rep. Korea': the ring of part 1 has no area only after rounding")
    is_right = outcome.status == 1 and len(named) == 2 and all(words in line for words, line in zip(wanted, named))
    tuples = sum(line.startswith("insert Land ") for line in outcome.inserts())
    return report("named as bad", is_right, "; ".join(named)) & report("tuples", tuples > 0, tuples)


def is_confirmed(outcome: Outcome) -> bool:
    """The program says yes twice for each other country."""
    lines, seconds = run(outcome.script)
    counts = {word: lines.count(word) for word in ("yes", "no")}
    others = [line for line in lines if line.split()[0] not in ("ok", "tuple", "yes", "no")]
    return report(f"confirmed in {seconds:.0f} s", counts == {"yes": 350, "no": 0} and not others, f"{counts} {others[:3]}")


def is_drawn(outcome: Outcome) -> bool:
    """A picture shows each tuple."""
    script = outcome.script.split("\n-- line")[0] + "\nshow Land;\n"
    tuples = sum(line.startswith("insert Land ") for line in outcome.inserts())
    start = time.monotonic()
    program = os.environ.get("DEDALE_DRAW") or str(ROOT / "dedale_draw")
    done = subprocess.run([program], input=script.encode("utf-8"), stdout=subprocess.PIPE, check=False)
    seconds = time.monotonic() - start
    counted = f"<desc>tuples drawn: {tuples}\n".encode() in done.stdout
    return report(f"drawn in {seconds:.1f} s", done.returncode == 0 and counted, f"{tuples} tuples, {len(done.stdout)} bytes")


def has_areas(countries: dict[str, list[Polygon]]) -> bool:
    """Areas differ from those of Shapely by at most one part in 10^9."""
    worst = 0.0
    for polygons in countries.values():
        area = sum(map(twice_area, convex_pieces(oriented_rings(polygons)))) / 2
        worst = max(worst, abs(area - shapely_of(polygons).area) / area)
    return report("greatest relative difference of areas", worst < 1e-9, worst)


def has_neighbours(outcome: Outcome, countries: dict[str, list[Polygon]]) -> bool:
    """The same pairs of countries meet as in Shapely, where that doesn't throw."""
    lines, seconds = run(outcome.script.split("\n-- line")[0] + "\n" + NEIGHBOURS)
    found = {line for line in lines if line.startswith("{ n = ")}
    shapes: dict[str, Any] = {name: shapely_of(polygons) for name, polygons in countries.items()}
    wanted, thrown = set(), []
    for first, second in combinations(shapes, 2):
        pairs = {_pair(first, second), _pair(second, first)}
        try:
            if shapes[first].intersects(shapes[second]):
                wanted |= pairs
        except ShapelyError as error:
            thrown.append(f"{first} and {second} ({error})")
            found -= pairs
    invalid = [name for name, shape in shapes.items() if not shape.is_valid]
    report("GEOS throws at", True, "; ".join(thrown) or "none")
    report("GEOS takes for invalid", True, ", ".join(invalid) or "none")
    return report(f"neighbours in {seconds:.1f} s", found == wanted, f"{len(found)} ordered pairs, {len(found ^ wanted)} differ")


def _pair(first: str, second: str) -> str:
    n, m = (name.replace("'", "''") for name in (first, second))
    return f"{{ n = '{n}', m = '{m}' }}"


def main() -> int:
    """Runs all checks."""
    with tempfile.TemporaryDirectory() as folder:
        content = fetched(Path(folder))
    start = time.process_time()
    words = ("--digits", str(DIGITS), "--skip", "--edges", "Edge", "--check")
    outcome = imported(content, "Land", "name_long", "WKT", *words)
    report("imported", True, f"{time.process_time() - start:.1f} s")
    countries = good_countries(content)
    results = [
        report("countries", len(countries) == 175, len(countries)),
        imports(outcome), has_areas(countries), has_neighbours(outcome, countries), is_confirmed(outcome), is_drawn(outcome),
    ]
    return 0 if all(results) else 1


if __name__ == "__main__":
    sys.exit(main())
