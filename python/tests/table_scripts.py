"""Random scripts for tables: relations of all kinds of tuples, and questions on them."""
from random import Random

from dedale.tuples import Column, Heading, quoted
from tests.tuples import relation

NUMBERS = ("x", "y", "z", "_", "inf", "in", "wide", "tuple", "end", "X" * 64)
TEXTS = ("n", "m", "any", "nowhere", "N2")
VALUES = ("a", "b", "it's", "{ x = 1 }", ", n != 'a'", "n=a", "", " ", "any", "; --", "é", "\udcff", "\u2028", "[0, 4)")
COMPARISONS = ("<", "<=", "=", ">=", ">")
# denominators of values with few digits behind the point, with many, and with endless ones
DENOMINATORS = (2, 5, 8, 40, 512, 1024, 1953125, 9765625, 10**9, 10**10, 10**9 + 1, 3, 7, 99, 2**62)
LONGEST = 2**63 - 1
REFUSED = ("show None", "query (x) : y = 1", "ask x", "insert None { }", "'a'", "box", "query (x) : x = 'a'", "dedale 2")


def random_script(random: Random, count: int) -> bytes:
    """A script of so many statements, in language 2."""
    maker = _Maker(random)
    return "".join(f"{maker.statement()};\n" for _ in range(count)).encode("utf-8", "surrogateescape")


class _Maker:
    """Makes statements, of which few are refused."""

    def __init__(self, random: Random) -> None:
        self._random = random
        self._relations: dict[str, Heading] = {}
        self._is_begun = False

    def statement(self) -> str:
        """The next statement, without its `;`."""
        if not self._is_begun:
            self._is_begun = True
            return "dedale 2"
        if len(self._relations) < 6:
            return self._relation()
        name = self._random.choice(list(self._relations))
        match self._random.randrange(20):
            case 0:
                return self._drop(name)
            case 1 | 2 | 3:
                return f"show {name}"
            case 4 | 5:
                return self._projection(name)
            case 6 | 7:
                return self._formula()
            case 8:
                return self._other(name)
            case _:
                return f"insert {name} {{ {', '.join(self._constraints(self._relations[name]))} }}"

    def _relation(self) -> str:
        """A relation is defined."""
        name = next(name for number in range(7) if (name := f"R{number}") not in self._relations)
        heading = self._heading(self._random.choice((1, 2, 2, 3, 3, 4, 8)))
        self._relations[name] = heading
        return relation(name, heading).removesuffix(";")

    def _drop(self, name: str) -> str:
        del self._relations[name]
        return f"drop {name}"

    def _other(self, name: str) -> str:
        """A statement whose reply has no tuples, or that is refused."""
        other = self._random.choice(list(self._relations))
        return self._random.choice(
            (f"box {name}", f"delete {name} {self._random.randrange(1, 9)}", f"disjoint {name} {other}", "dump", "ask 1 < 2")
            + (f"explain (x, y) : x < y or {self._random.choice(DENOMINATORS)}*x = 1",)
            + (self._random.choice(REFUSED),)
        )

    def _heading(self, count: int) -> Heading:
        """A heading of that many columns."""
        columns = [Column(name) for name in NUMBERS] + [Column(name, True) for name in TEXTS]
        return tuple(self._random.sample(columns, count))

    def _projection(self, name: str) -> str:
        """A query for some columns of a relation, in another order, and maybe for one more."""
        columns = list(self._relations[name])
        self._random.shuffle(columns)
        hidden = columns[: self._random.randrange(min(3, len(columns)))]
        shown = columns[len(hidden) :] + [one for one in self._heading(1) if one not in columns]
        quantifiers = "".join(f"exists {column.printed()} " for column in hidden)
        arguments = ", ".join(column.name for column in self._relations[name])
        return f"{_query(shown)} : {quantifiers}({name}({arguments}))"

    def _formula(self) -> str:
        """A query for what comparisons say."""
        heading = self._heading(self._random.randrange(1, 4))
        parts = [" and ".join(self._constraints(heading)) or "true" for _ in range(self._random.randrange(1, 3))]
        return f"{_query(heading)} : {self._random.choice(('', 'not '))}({' or '.join(parts)})"

    def _constraints(self, heading: Heading) -> list[str]:
        """Some constraints over the columns. Where several rows have long numbers, bounds may be too wide."""
        numbers = [column.name for column in heading if not column.is_text]
        texts = [column.name for column in heading if column.is_text]
        found = [self._of_text(texts) for _ in range(self._random.randrange(4)) if texts]
        kinds = self._random.choice(((self._small, self._small, self._fixed, self._interval), (self._order,), (self._long,)))
        for _ in range(self._random.randrange(6) if numbers else 0):
            found += self._random.choice(kinds)(numbers)
        return found

    def _of_text(self, texts: list[str]) -> str:
        value = self._random.choice([quoted(self._random.choice(VALUES)), quoted(VALUES[0]), self._random.choice(texts)])
        return f"{self._random.choice(texts)} {self._random.choice(('=', '!=', '!='))} {value}"

    def _small(self, numbers: list[str]) -> list[str]:
        """A row of up to three columns."""
        right = f"{self._random.randrange(6)}*{self._random.choice(numbers)} + {self._random.randrange(20)}"
        return [f"{self._sum(numbers, 9)} {self._random.choice(COMPARISONS)} {right}"]

    def _fixed(self, numbers: list[str]) -> list[str]:
        """A column with one value, above or below 0."""
        sign = self._random.choice(("", "-"))
        value = f"{sign}{self._random.randrange(2**20)}/{self._random.choice(DENOMINATORS)}"
        return [f"{self._random.choice(numbers)} {self._random.choice(('=', '=', '<=', '>='))} {value}"]

    def _interval(self, numbers: list[str]) -> list[str]:
        """A column between two bounds, which may be the same."""
        low = self._random.randrange(-4000, 4000)
        high = low + self._random.choice((0, 0, 1, 1000))
        name, divisor = self._random.choice(numbers), self._random.choice(("", "4*", "30*"))
        return [f"{divisor}{name} {self._random.choice(COMPARISONS[3:])} {low}", f"{divisor}{name} <= {high}"]

    def _order(self, numbers: list[str]) -> list[str]:
        """A column compared with another one, or with a long number."""
        right = self._random.choice([str(self._random.randrange(LONGEST)), self._random.choice(numbers)])
        return [f"{self._random.choice(numbers)} {self._random.choice(COMPARISONS)} {right}"]

    def _long(self, numbers: list[str]) -> list[str]:
        """A row of up to three columns with long coefficients."""
        longest = 2 ** self._random.choice((20, 45, 63, 63))
        return [f"{self._sum(numbers, longest)} {self._random.choice(COMPARISONS)} {self._random.randrange(longest)}"]

    def _sum(self, numbers: list[str], longest: int) -> str:
        """A sum of up to three columns with coefficients of either sign."""
        some = self._random.sample(numbers, self._random.randrange(1, min(3, len(numbers)) + 1))
        terms = (f"{self._random.choice(('+', '-'))} {self._random.randrange(1, longest)}*{name}" for name in some)
        return " ".join(terms).removeprefix("+ ")


def _query(heading: list[Column] | Heading) -> str:
    """The beginning of a query."""
    return f"query ({', '.join(column.printed() for column in heading)})"
