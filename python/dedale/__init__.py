"""Dedale for files, terminals and other programs: a client of the program, and commands around it.

    from dedale import Dedale

    with Dedale() as db:
        db.run("relation Land(n text, x); insert Land { n = 'a', x >= 0, x < 4 };")
        answer = db.query("(x)", "exists n text (Land(n, x))")
        print(answer.tuples[0].span("x"))"""

from dedale.client import Dedale
from dedale.errors import DedaleError, Ended, Interrupted, JournalError, NoProgram, NoReply, TimeLimit
from dedale.polyhedra import Bound, Corner, Row, Sign, Span
from dedale.replies import (
    Answer,
    Apart,
    Certificate,
    Done,
    Dump,
    Meet,
    Number,
    Plan,
    Refused,
    Reply,
    Spans,
    Stored,
    Truth,
)
from dedale.tuples import Column, GeneralizedTuple, Heading, TextPair, TextValue
from dedale.version import __version__

__all__ = [
    "Answer",
    "Apart",
    "Bound",
    "Certificate",
    "Column",
    "Corner",
    "Dedale",
    "DedaleError",
    "Done",
    "Dump",
    "Ended",
    "GeneralizedTuple",
    "Heading",
    "Interrupted",
    "JournalError",
    "Meet",
    "NoProgram",
    "NoReply",
    "Number",
    "Plan",
    "Refused",
    "Reply",
    "Row",
    "Sign",
    "Span",
    "Spans",
    "Stored",
    "TextPair",
    "TextValue",
    "TimeLimit",
    "Truth",
    "__version__",
]
