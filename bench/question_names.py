"""The questions of bench/questions that names decide, and long statements, as scripts of Dedale, as statements of SQLite, and for z3,
which gets numbers as names."""

import random
from collections.abc import Iterable, Iterator
from typing import NamedTuple

from question_texts import Problem, Series, text

Value = str | int
INSERTS = 10                                  # into a relation under a kept view
TRANSACTIONS = 100


class Table(NamedTuple):
    """A relation of points, as a table of SQLite has them."""

    name: str
    columns: tuple[str, ...]
    rows: list[tuple[Value, ...]]


# ---- Texts of tables -----------------------------------------------------------------------------------------------

def written(value: Value) -> str:
    return f"'{value}'" if isinstance(value, str) else str(value)


def insert(table: Table, row: tuple[Value, ...]) -> str:
    """The statement of Dedale that inserts a row."""
    parts = (f'{column} = {written(value)}' for column, value in zip(table.columns, row))
    return f'insert {table.name} {{ {", ".join(parts)} }};'


def sql_insert(table: Table, row: tuple[Value, ...]) -> str:
    return f'insert into {table.name} values ({", ".join(map(written, row))})'


def statements(table: Table) -> Iterator[str]:
    """The table as statements of Dedale."""
    texts = (isinstance(value, str) for value in table.rows[0])
    heading = (f'{column} text' if is_text else column for column, is_text in zip(table.columns, texts))
    yield f'relation {table.name}({", ".join(heading)});'
    for row in table.rows:
        yield insert(table, row)


def sql_statements(table: Table) -> Iterator[str]:
    """The table as statements of SQLite, with an index on its first column and its last."""
    yield f'create table {table.name} ({", ".join(table.columns)})'
    yield 'begin'
    for row in table.rows:
        yield sql_insert(table, row)
    yield 'commit'
    yield f'create index {table.name}_index on {table.name} ({table.columns[0]}, {table.columns[-1]})'


def asked(tables: list[Table], question: list[str], sql: list[str]) -> Problem:
    """The same question of Dedale and of SQLite."""
    return {'Dedale': text((line for table in tables for line in statements(table)), question),
            'SQLite': text((line for table in tables for line in sql_statements(table)), sql)}


# ---- Two relations by name -----------------------------------------------------------------------------------------

def wares(n: int, sold_of: int = 2) -> list[Table]:
    """n wares with their prices; each `sold_of`-th was sold, half of these at that price."""
    chance = random.Random(n)
    priced: list[tuple[Value, ...]] = [(f'w{k}', chance.randrange(100)) for k in range(n)]
    sold: list[tuple[Value, ...]] = [(name, price if chance.random() < 0.5 else chance.randrange(100, 200))
                                     for name, price in priced[::sold_of]]
    chance.shuffle(sold)
    return [Table('Ware', ('n', 'x'), priced), Table('Sale', ('n', 'y'), sold)]


def anti_join(n: int) -> Problem:
    """The wares that weren't sold."""
    return asked(wares(n), ['query (n text, x) : Ware(n, x) and not exists y (Sale(n, y));'],
                 ['select n, x from Ware where not exists (select 1 from Sale where Sale.n = Ware.n)'])


def difference(n: int) -> Problem:
    """The wares that weren't sold at their price."""
    return asked(wares(n), ['query (n text, x) : Ware(n, x) and not Sale(n, x);'], ['select n, x from Ware except select n, y from Sale'])


def all_sold(n: int) -> Problem:
    """Was each ware sold? It was."""
    missing = 'select 1 from Ware where not exists (select 1 from Sale where Sale.n = Ware.n)'
    problem = asked(wares(n, 1), ['ask forall n text (exists x (Ware(n, x)) implies exists y (Sale(n, y)));'],
                    [f"select 'yes' where not exists ({missing})"])
    load = ['(declare-const n Int)', f'(assert {one_of(range(n))})', f'(assert (not {one_of(reversed(range(n)))}))']
    problem['z3'] = text(load, ['(check-sat)'], 'unsat')
    return problem


def one_of(numbers: Iterable[int]) -> str:
    return f'(or {" ".join(f"(= n {k})" for k in numbers)})'


def least_of_groups(n: int) -> Problem:
    """The cheapest offers of each of n/10 groups."""
    chance = random.Random(n)
    offers: list[tuple[Value, ...]] = [(f'g{k // 10}', f'o{k}', chance.randrange(1000)) for k in range(n)]
    return asked([Table('Offer', ('g', 'n', 'x'), offers)],
                 ['query (g text, n text, x) : Offer(g, n, x) and not exists m text exists y (Offer(g, m, y) and y < x);'],
                 ['select g, n, x from Offer as o where not exists (select 1 from Offer as p where p.g = o.g and p.x < o.x)'])


def join_of_views(n: int) -> Problem:
    """What is in two views, each of them a union."""
    return asked(wares(n), ["view Dear(n text) := exists x (Ware(n, x) and x >= 20) or n = 'gold';",
                            "view Sold(n text) := exists y (Sale(n, y)) or n = 'silver';", 'query (n text) : Dear(n) and Sold(n);'],
                 ["create view Dear as select n from Ware where x >= 20 union select 'gold'",
                  "create view Sold as select n from Sale union select 'silver'", 'select n from Dear intersect select n from Sold'])


def join_of_unions(n: int) -> Problem:
    """The wares that were sold cheap or dear."""
    either = 'exists y (Sale(n, y) and y < 20) or exists y (Sale(n, y) and y >= 50)'
    return asked(wares(n), [f'query (n text, x) : Ware(n, x) and ({either});'],
                 ['select n, x from Ware where n in (select n from Sale where y < 20 union select n from Sale where y >= 50)'])


def kept_not(n: int) -> Problem:
    """Sales one by one, under a kept view of the wares that weren't sold."""
    tables = wares(n)
    problem = asked(tables, [], [])
    sales: list[tuple[Value, ...]] = [(f'w{2 * k + 1}', 3) for k in range(INSERTS)]
    view = 'view Unsold(n text, x) := Ware(n, x) and not exists y (Sale(n, y));'
    rest = 'select n, x from Ware where not exists (select 1 from Sale where Sale.n = Ware.n)'
    kept = [f'create table Unsold as {rest}', 'create index Unsold_index on Unsold (n)',
            'create trigger Sold after insert on Sale begin delete from Unsold where n = new.n; end']
    return {'Dedale': text([problem['Dedale'].load, view, 'keep Unsold;'],
                           [*(insert(tables[1], row) for row in sales), 'query (n text, x) : Unsold(n, x);']),
            'SQLite': text([problem['SQLite'].load, *kept], [*(sql_insert(tables[1], row) for row in sales), 'select n, x from Unsold'])}


def none_of_names(n: int) -> Problem:
    """The names that none of n sales has: one tuple of n texts that it isn't. No table has that answer."""
    sales = wares(n, 1)[1]
    return {'Dedale': text(statements(sales), ['query (n text) : not exists y (Sale(n, y));'])}


# ---- Long statements -----------------------------------------------------------------------------------------------

def one_member(n: int) -> Problem:
    """One conjunction of n times the same member."""
    load = ['relation P(x);', *(f'insert P {{ x >= {10 * k}, x <= {10 * k + 5} }};' for k in range(3))]
    smt = ['(define-fun p ((x Real)) Bool (or (<= 0 x 5) (<= 10 x 15) (<= 20 x 25)))', '(declare-const x Real)']
    return {'Dedale': text(load, [f'ask exists x ({" and ".join(["P(x)"] * n)});']),
            'z3': text(smt, [f'(assert (and {" ".join(["(p x)"] * n)}))', '(check-sat)'], 'sat')}


def other_members(n: int) -> Problem:
    """One conjunction of n members, each with a number of its own."""
    smt = ['(define-fun p ((x Real)) Bool (<= 0 x 99999))']
    return {'Dedale': text(['relation P(x);', 'insert P { x >= 0, x <= 99999 };'], [f'ask {" and ".join(f"P({k})" for k in range(n))};']),
            'z3': text(smt, [f'(assert (and {" ".join(f"(p {k})" for k in range(n))}))', '(check-sat)'], 'sat')}


def texts_of_a_tuple(n: int) -> Problem:
    """A tuple that excludes n texts. Is there another one?"""
    free = f'insert Free {{ {", ".join(one_text(k, "!=") for k in range(n))} }};'
    excluded = f'(assert (and {" ".join(f"(distinct n {k})" for k in range(n))}))'
    return {'Dedale': text(['relation Free(n text);'], [free, 'ask exists n text (Free(n));']),
            'z3': text(['(declare-const n Int)'], [excluded, '(check-sat)'], 'sat')}


def texts_of_a_not(n: int) -> Problem:
    """What is none of n texts, which stand in one formula."""
    return {'Dedale': text([], [f'query (n text) : not ({" or ".join(one_text(k, "=") for k in range(n))});'])}


def one_text(k: int, sign: str) -> str:
    return f"n {sign} 't{k}'"


# ---- Transactions --------------------------------------------------------------------------------------------------

def transactions(n: int) -> Problem:
    """Transactions of one insert each, in a relation of n tuples."""
    table = Table('Stock', ('x', 'y'), [(k, k % 7) for k in range(n)])
    rows: list[tuple[Value, ...]] = [(-k - 1, 0) for k in range(TRANSACTIONS)]
    load = (f'1: {line}' for line in statements(table))
    question = [f'1: begin;\n1: {insert(table, row)}\n1: commit;' for row in rows]
    sql = [f'begin\n{sql_insert(table, row)}\ncommit' for row in rows]
    return {'dedale_shared': text(load, [*question, f'1: ask Stock({-TRANSACTIONS}, 0);']),
            'SQLite': text(sql_statements(table), [*sql, f"select 'yes' where exists (select 1 from Stock where x = {-TRANSACTIONS})"])}


SERIES: list[Series] = [
    Series('anti-join by name', anti_join, (1000, 3000, 10000)),
    Series('difference of two relations', difference, (1000, 3000, 10000)),
    Series('forall .. implies by name', all_sold, (1000, 3000, 10000)),
    Series('least of each group', least_of_groups, (1000, 3000, 10000)),
    Series('join of two views', join_of_views, (1000, 3000, 10000)),
    Series('join of unions', join_of_unions, (1000, 3000, 10000)),
    Series('ten inserts under a kept not', kept_not, (300, 1000, 3000)),
    Series('names that are none of n', none_of_names, (750, 1500, 3000)),
    Series('one member n times', one_member, (1000, 2000, 4000)),
    Series('n members of one conjunction', other_members, (1000, 2000, 4000)),
    Series('n text atoms of one tuple', texts_of_a_tuple, (1000, 2000, 4000)),
    Series('n text atoms of one not', texts_of_a_not, (1000, 2000, 4000)),
    Series('a hundred inserts in transactions', transactions, (12500, 25000, 50000)),
]
