"""The desk: it takes lines, has statements answered, and shows what they are answered."""
from dataclasses import dataclass, field

from dedale.desk.actions import act
from dedale.desk.catalogue import catalogue_of
from dedale.desk.database import MadeUnseen, Unsettled
from dedale.desk.interrupts import uninterrupted
from dedale.desk.pending import Pending
from dedale.desk.refusals import OPEN_TEXT, refusal_lines
from dedale.desk.replies import reply_lines
from dedale.desk.sources import Source
from dedale.desk.state import Question, State
from dedale.desk.texts import shown, width
from dedale.desk.words import BadWord, is_word, read_word
from dedale.errors import DedaleError, TimeLimit
from dedale.replies import Answer, Done, Number, Refused, Reply, Stored
from dedale.statements import Statement

FAILED = 1
GIVE_UP = "Ctrl-C gives the statement up"


@dataclass
class Desk:
    """A desk that works on a state, and takes its lines from a source."""

    state: State
    source: Source
    _pending: Pending = field(default_factory=Pending)
    _has_failed: bool = False
    _is_ended: bool = False
    _has_told_trouble: bool = False

    def run(self) -> int:
        """Takes lines up to their end, and returns the exit status: 0 at a terminal, and else 1 where something was refused or
        wasn't done. Raises `DedaleError` where the script of the database can't be read, and `OSError` where standard output
        fails; and `KeyboardInterrupt` where no person sits at a terminal."""
        self.state.catalogue = catalogue_of(self.state.database.changes())
        while not self._is_ended:
            try:
                self._take(self.source.read_line(self._prompt()))
                self._tell_trouble()
            except KeyboardInterrupt:
                if not self.source.is_terminal:
                    raise
                self._give_up()
        return FAILED if self._has_failed and not self.source.is_terminal else 0

    def _prompt(self) -> str:
        """What stands before the next line: the name of the file, or a sign that a statement, or a text, isn't ended."""
        first = shown(self.state.database.path.name)
        if self._pending.is_blank:
            return f"{first}> "
        sign = "..." if self._pending.text_start is None else "'"
        return sign.rjust(width(first)) + "> "

    def _take(self, line: bytes | None) -> None:
        """Does what a line says, or what is left at the end of the lines."""
        if line is None:
            self._end()
        elif is_word(line) and self._pending.is_blank:
            self._act(line)
        else:
            self._take_statements(line)

    def _take_statements(self, line: bytes) -> None:
        """Has the statements answered that end on a line, and does what a word behind them says."""
        was_open = self._pending.text_start is not None
        for statement in self._pending.add(line):
            self._answer(statement)
        if is_word(self._pending.data):
            word = self._pending.data
            self._pending.clear()
            self._act(word)
        if self.source.is_terminal and self._pending.text_start is not None and not was_open:
            self._tell(f"{OPEN_TEXT} {GIVE_UP}")

    def _end(self) -> None:
        """Ends the desk at the end of the lines."""
        self._is_ended = True
        if self.source.is_terminal:
            self._tell("")
        for statement in self._pending.rest():
            self._answer(statement)

    def _give_up(self) -> None:
        """Drops what isn't answered yet."""
        with uninterrupted():
            self._pending.clear()
            self._tell("\ninterrupted")

    def _tell_trouble(self) -> None:
        """Tells once why the history isn't kept, where it isn't."""
        if self.source.trouble and not self._has_told_trouble:
            self._has_told_trouble = True
            self._tell(self.source.trouble)

    def _act(self, line: bytes) -> None:
        """Does what a line with a word of the desk says."""
        try:
            word = read_word(line)
            if word.name == "quit":
                self._is_ended = True
                return
            for told in act(word, self.state):
                self._tell(told)
        except (BadWord, DedaleError) as error:
            self._fail(str(error))

    def _answer(self, statement: Statement) -> None:
        """Has a statement answered, and shows the reply."""
        try:
            reply = self.state.database.run(statement, self.state.seconds)
        except TimeLimit as error:
            self._fail(f"no reply within {error.seconds:g} s: it is ended, and nothing is changed; \\time N sets the limit")
        except MadeUnseen as error:
            self.state.catalogue.accept(statement)
            self._fail(f"{error}: the change is made all the same, and \\undo takes it off")
        except Unsettled as error:
            self._fail(f"{error}: start the desk again to see whether the change is made")
        except DedaleError as error:
            self._fail(f"{error}: nothing is changed")
        else:
            self._show(statement, reply)

    def _show(self, statement: Statement, reply: Reply) -> None:
        """Takes note of the reply to a statement, and shows it."""
        if isinstance(reply, Refused):
            self._has_failed = True
            lines = refusal_lines(statement, reply, self.state.catalogue)
        else:
            self._note(statement, reply)
            lines = reply_lines(reply, self.state.rows)
        self._tell("\n".join(lines))

    def _note(self, statement: Statement, reply: Reply) -> None:
        """Takes note of a statement that was accepted with this reply."""
        if isinstance(reply, (Done, Number)):
            self.state.catalogue.accept(statement)
        if statement.first_word == "drop":
            # what was asked may speak of what is gone
            self.state.last = None
        if isinstance(reply, (Answer, Stored)):
            self.state.last = Question(statement.text, reply.columns)

    def _fail(self, text: str) -> None:
        self._has_failed = True
        self._tell(text)

    def _tell(self, text: str) -> None:
        print(text, flush=True)
