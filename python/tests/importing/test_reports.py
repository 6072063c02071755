"""Messages on standard error."""
import io

import pytest

from dedale.importing.faults import shown
from dedale.importing.records import Record
from dedale.importing.reports import Report


class Terminal(io.StringIO):
    """A stream that says that it is a terminal."""

    def isatty(self) -> bool:
        return True


@pytest.mark.parametrize("stream, told", [(Terminal(), "a.csv:3: 1 read so far\n"), (io.StringIO(), "")])
def test_progress_is_told_on_a_terminal(monkeypatch: pytest.MonkeyPatch, stream: io.StringIO, told: str) -> None:
    times = iter([0.0, 1.0, 3.0, 3.0])
    monkeypatch.setattr("time.monotonic", lambda: next(times, 3.0))
    records = [Record("row", line, line - 1, {}) for line in (2, 3)]
    assert list(Report("a.csv", stream).watched(records)) == records
    assert stream.getvalue() == told


def test_texts_are_shown_on_one_line() -> None:
    assert shown("a\nb\x00\udcff'ü") == r"'a\nb\x00\xff'ü'"
    assert shown("x" * 41) == "'" + "x" * 40 + "..'"
