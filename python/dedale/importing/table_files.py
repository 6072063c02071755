"""Tables as text: CSV after RFC 4180, with `,`, `;` or tabs between fields, in UTF-8."""
import codecs
import csv
import io
import sys
from collections.abc import Iterator, Sequence
from dataclasses import dataclass

from dedale.importing.faults import FileFault, shown
from dedale.importing.records import Record

SEPARATORS = ",;\t"

_OTHER_MARKS = {
    codecs.BOM_UTF32_LE: "UTF-32",
    codecs.BOM_UTF32_BE: "UTF-32",
    codecs.BOM_UTF16_LE: "UTF-16",
    codecs.BOM_UTF16_BE: "UTF-16",
}
NOT_UTF_8 = "isn't UTF-8: save the file in this encoding"


def decoded(content: bytes) -> str:
    """The text of a file, without a byte order mark. Bytes that aren't UTF-8 become lone surrogates, which `is_utf_8` tells.
    Raises `FileFault` for the marks of other encodings."""
    for mark, encoding in _OTHER_MARKS.items():
        if content.startswith(mark):
            raise FileFault(f"the file is {encoding} and {NOT_UTF_8}", 1)
    return content.removeprefix(codecs.BOM_UTF8).decode("utf-8", errors="surrogateescape")


def is_utf_8(text: str) -> bool:
    """Whether a text of `decoded` has no bytes that aren't UTF-8."""
    try:
        text.encode("utf-8")
    except UnicodeEncodeError:
        return False
    return True


@dataclass(frozen=True, slots=True)
class Table:
    """The columns of a table, as its first row names them, and its other rows."""

    columns: Sequence[str]
    rows: Iterator[Record]


def read_table(content: bytes) -> Table:
    """The table in a file. The separator is the one that gives the first row the most fields. Blank lines are left out.

    Raises `FileFault` for an empty file, a first row that isn't UTF-8 or has a column twice, and, as rows are read, for a
    quote that is out of place or is never closed. A row that isn't UTF-8 or hasn't as many fields as the first one becomes a
    record with a `fault`. Lines are counted as the file has them, also in quotes, and end by CRLF, LF or CR."""
    csv.field_size_limit(sys.maxsize)
    text = decoded(content)
    separator = max(SEPARATORS, key=lambda one: len(_first_row(text, one)))
    rows = _rows(text, separator)
    first = next(rows, None)
    if first is None:
        raise FileFault("the file is empty: a first row with the names of the columns is wanted", 1)
    line, columns = first
    if not all(map(is_utf_8, columns)):
        raise FileFault(f"the first row {NOT_UTF_8}", line)
    twice = next((name for name in columns if columns.count(name) > 1), None)
    if twice is not None:
        raise FileFault(f"the column {shown(twice)} stands twice in the first row", line)
    return Table(columns, _records(columns, rows))


def _records(columns: Sequence[str], rows: Iterator[tuple[int, list[str]]]) -> Iterator[Record]:
    for number, (line, fields) in enumerate(rows, 1):
        fault = ""
        if len(fields) != len(columns):
            fault = f"the row has {len(fields)} field{'s' * (len(fields) != 1)}, and {len(columns)} are wanted"
        elif not all(map(is_utf_8, fields)):
            fault = f"the row {NOT_UTF_8}"
        yield Record("row", line, number, dict(zip(columns, fields)), fault=fault)


def _rows(text: str, separator: str) -> Iterator[tuple[int, list[str]]]:
    """The rows that aren't blank, each with the line on which it begins."""
    reader = csv.reader(io.StringIO(text, newline=""), delimiter=separator, strict=True)
    while True:
        line = reader.line_num + 1
        try:
            fields = next(reader)
        except StopIteration:
            return
        except csv.Error as error:
            raise _quoting_fault(str(error), line, reader.line_num) from None
        if fields:
            yield line, fields


def _quoting_fault(error: str, first: int, last: int) -> FileFault:
    if "unexpected end of data" in error:
        return FileFault("a quote that opens in this row is never closed, up to the end of the file", first)
    return FileFault(f"a quote stands within a field that is in quotes; is one missing in the row that begins on line {first}?",
                     last)


def _first_row(text: str, separator: str) -> list[str]:
    try:
        for _, fields in _rows(text, separator):
            return fields
    except FileFault:
        pass
    return []
