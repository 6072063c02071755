#!/usr/bin/env python3
"""What bench/questions asks of Dedale, over tables of SQLite in memory: reads a statement a line, and replies as Dedale does."""

import sqlite3
import sys


def reply(rows: list[tuple[object, ...]]) -> str:
    """A yes, or the rows as tuples."""
    if rows == [('yes',)]:
        return 'yes'
    return '\n'.join([f'answer {len(rows)}', *(f'{{ {", ".join(map(str, row))} }}' for row in rows), 'end'])


def main() -> None:
    """Runs the statements, and replies to those that select."""
    base = sqlite3.connect(':memory:', isolation_level=None)
    for line in sys.stdin:
        rows = base.execute(line).fetchall()
        if line.startswith('select'):
            print(reply(rows))


main()
