"""Random scripts of statements of all kinds, most of which are accepted."""
from random import Random

COLUMNS = ["n text, x, y", "x, y, z", "n text, m text", "x", "n text, n text", "n text, x, y -- so\n"]
TEXTS = ["'a'", "'b;'", "'it''s'", "'--'", "'\xe9'", "'\udcff'", "''", "'a\nb'", "' \t'", "'{ }'", "'end'"]
FORMULAS = ["x < 4", "x = y", "x + 2*y <= 9", "n = 'a'", "not R1('a', x, y)", "R0(n, x, y)", "V(x)", "x < 'a'", "y >= -1/2"]
GAPS = ["", " ", "\n", "\t", "-- a ; comment\n", "-- isn't\n", "\r\n", "--\n\n"]
NOISE = ["", "ask", "box", "box box", "show", "(", "'", "commit", "refused 3", "yes", "query (x) x = 1", "\0", "\udcff"]
NOISE += ["insert R0 { x = 1.5 }", "end", "''", "- -"]


def random_script(random: Random, count: int) -> bytes:
    """A script of so many statements, in language 2, which ends in a gap."""
    statements = ["dedale 2;"]
    while len(statements) < count:
        statement = _statement(random)
        # a lone quote would go on to the next one
        if statement.count("'") % 2 == 0:
            statements.append(random.choice(GAPS) + statement + random.choice(GAPS[:4]) + ";")
    return ("".join(statements) + random.choice(GAPS)).encode("utf-8", "surrogateescape")


def _statement(random: Random) -> str:
    """A statement without its `;`, maybe one that is refused."""
    name = f"R{random.randrange(5)}"
    other = f"R{random.randrange(5)}"
    match random.randrange(16):
        case 0:
            return f"relation {name}({random.choice(COLUMNS)})"
        case 1:
            return f"drop {random.choice([name, 'V'])}"
        case 2:
            return f"delete {name} {random.randrange(1, 30)}"
        case 3:
            return f"view V(x) := exists n text exists y ({random.choice(FORMULAS)})"
        case 4:
            return f"keep {random.choice(['V', name])}"
        case 5 | 6:
            return f"box{random.choice([' ', '-- so' + chr(10), chr(10)])}{name}"
        case 7:
            return f"show {name}"
        case 8:
            return f"query (n text, x, y) : {random.choice(FORMULAS)} and {random.choice(FORMULAS)}"
        case 9:
            return f"ask exists n text exists x exists y ({random.choice(FORMULAS)} and {random.choice(FORMULAS)})"
        case 10:
            return random.choice([f"disjoint {name} {other}", f"explain (x, y) : {random.choice(FORMULAS)}"])
        case 11:
            return random.choice(NOISE + ["dump", "dedale 2"])
        case _:
            return f"insert {name} {{ {', '.join(_constraint(random) for _ in range(random.randrange(4)))} }}"


def _constraint(random: Random) -> str:
    if random.randrange(3) == 0:
        return f"{random.choice('nm')} {random.choice(['=', '!='])} {random.choice(TEXTS)}"
    left = f"{random.randrange(1, 5)}*{random.choice('xy')}"
    return f"{left} {random.choice(['<', '<=', '=', '>'])} {random.choice(['-3', '7', '0.5', '22/7', 'x', '2*y + 1'])}"
