"""What a desk works on."""
from dataclasses import dataclass, field

from dedale.desk.catalogue import Catalogue
from dedale.desk.database import Database
from dedale.tuples import Heading

ROWS = 50
"""How many rows of a table are shown where nothing else is said."""


@dataclass(frozen=True)
class Question:
    """A statement, without its `;`, that is answered by tuples over these columns."""

    text: bytes
    columns: Heading


@dataclass
class State:
    """A database, and what is told of it. The program is given the words.

    `seconds` is the longest that a reply may take, `rows` how many rows of a table are shown, and `last` the last question
    that was answered by tuples."""

    database: Database
    words: tuple[str, ...]
    seconds: float
    rows: int = ROWS
    catalogue: Catalogue = field(default_factory=Catalogue)
    last: Question | None = None
