"""Networks of events for bench/questions: rows that say how long after one event another one may be at most."""

import random
from collections.abc import Iterator

from question_texts import Problem, Series, text

Limit = tuple[int, int, int]                  # (i, j, c): event i is at most c after event j
SPAN = 1000                                   # of the times of events
SLACK = 200
EVENTS = 14                                   # of a network that is stored
LIMITS = 100


def network(events: int, limits: int, chance: random.Random) -> list[Limit]:
    """Limits that some times of the events keep, the first at 0, and that bound each event from both sides."""
    at = [0] + [chance.randrange(SPAN) for _ in range(events - 1)]
    before = [(k, chance.randrange(k)) for k in range(1, events)]
    pairs = before + [(j, i) for i, j in before]
    pairs += [(i, j) for i, j in (chance.sample(range(events), 2) for _ in range(limits - len(pairs)))]
    return [(i, j, at[i] - at[j] + chance.randrange(SLACK)) for i, j in pairs]


def written(limit: Limit) -> str:
    """A limit as Dedale reads it, where the first event is at 0."""
    i, j, c = limit
    if j == 0:
        return f'e{i} <= {c}'
    return f'e{j} >= {-c}' if i == 0 else f'e{i} - e{j} <= {c}'


def data(networks: list[list[Limit]], events: int) -> Iterator[str]:
    """The networks for question_peers.cc."""
    for limits in networks:
        yield f'network {events} {len(limits)}'
        yield from (f'{i} {j} {c}' for i, j, c in limits)


def times(n: int) -> Problem:
    """The earliest and the latest time of each of n events under 4n limits."""
    limits = network(n, 4 * n, random.Random(n))
    quantifiers = ' '.join(f'exists e{k}' for k in range(1, n))
    rows = ' and '.join(map(written, limits))
    return {'Dedale': text([], (f'query (t) : {quantifiers} (t = e{k} and {rows});' for k in range(1, n))),
            'PPL': text(data([limits], n), ['times'])}


def boxes(n: int) -> Problem:
    """The bounds of 14 columns of n tuples of 100 difference constraints each."""
    chance = random.Random(n)
    networks = [network(EVENTS, LIMITS, chance) for _ in range(n)]
    load = [f'relation Net({", ".join(f"e{k}" for k in range(EVENTS))});',
            *(f'insert Net {{ e0 = 0, {", ".join(map(written, limits))} }};' for limits in networks)]
    return {'Dedale': text(load, ['box Net;']), 'PPL': text(data(networks, EVENTS), ['box'])}


SERIES: list[Series] = [
    Series('times of n events', times, (14, 28, 56)),
    Series('box of 14 columns', boxes, (50, 100, 200)),
]
