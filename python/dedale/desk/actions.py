"""What the words of the desk do."""
import os
from pathlib import Path
from typing import Iterator

from dedale.desk.catalogue import catalogue_of
from dedale.desk.files import FileError, write_anew
from dedale.desk.picture import picture
from dedale.desk.scripts import changes_of, script_of
from dedale.desk.state import Question, State
from dedale.desk.texts import shown
from dedale.desk.words import BadWord, Word, help_lines, rows_of, seconds_of
from dedale.statements import shortened


def act(word: Word, state: State) -> Iterator[str]:
    """Does what a word says, other than `\\quit`, and gives the lines that tell of it. Raises `BadWord`, `DedaleError` and
    `KeyboardInterrupt`."""
    match word.name:
        case "draw":
            yield from _draw(state, *word.behind)
        case "help":
            yield from help_lines()
        case "rows":
            state.rows = rows_of(word.behind[0]) if word.behind else state.rows
            yield f"at most {state.rows} rows of a table are shown"
        case "save":
            yield from _save(state, word.behind[0])
        case "show":
            yield from [one.printed() for one in state.catalogue.entries.values()] or ["no relation and no view is defined"]
        case "time":
            state.seconds = seconds_of(word.behind[0]) if word.behind else state.seconds
            yield f"a reply may take {state.seconds:g} s"
        case "undo":
            yield from _undo(state)


def _undo(state: State) -> Iterator[str]:
    """Takes the last change off, and has the program run what is left."""
    change = state.database.undo()
    if not change:
        yield "nothing is left to be taken off"
        return
    state.catalogue = catalogue_of(state.database.changes())
    state.last = None
    yield f"taken off: {change.shortened()}"
    state.database.start()


def _save(state: State, name: str) -> Iterator[str]:
    """Writes the script so far to a file."""
    path = _path(state, name)
    script = state.database.script()
    write_anew(path, script)
    count = sum(1 for _ in changes_of(script))
    yield f"saved: {count} changes in {shortened(str(path))}"


def _draw(state: State, name: str, of: str | None = None) -> Iterator[str]:
    """Draws the tuples of a relation or view, or of the last question."""
    path = _path(state, name)
    question = _question(state, of)
    if sum(1 for column in question.columns if not column.is_text) < 2:
        raise BadWord("nothing is drawn: there are no two columns of numbers")
    script = script_of(state.database.changes()) + question.text + b"\n;"
    drawn, is_whole = picture(script, state.words, state.seconds)
    write_anew(path, drawn)
    yield f"drawn in {shortened(str(path))}" + ("" if is_whole else ", but for what has too long numbers to be drawn")


def _question(state: State, name: str | None) -> Question:
    """The question whose answer is drawn."""
    if name is None:
        if not state.last:
            raise BadWord("nothing was asked yet: name a relation or view behind the file")
        return state.last
    entry = state.catalogue.entries.get(name)
    if not entry:
        raise BadWord(f"no relation or view has the name {shown(name)}: \\show lists them")
    return Question(entry.question().encode(), entry.columns)


def _path(state: State, name: str) -> Path:
    """The file of this name. Raises `FileError` where it is that of the database."""
    path = Path(os.path.expanduser(name))
    if os.path.realpath(path) == os.path.realpath(state.database.path):
        raise FileError(f"{shortened(name)}: this is the file of the database")
    return path
