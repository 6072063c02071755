"""What the fields of a column stand for: texts, numbers, times, dates and instants."""
import re
from collections.abc import Iterator
from dataclasses import dataclass
from datetime import date
from decimal import Decimal
from enum import Enum

from dedale.importing.decimals import must_fit, read_decimal
from dedale.importing.faults import BadWords, Fault, shown

_DATE = re.compile(r"\d{4}-\d{2}-\d{2}", re.ASCII)
_TIME = re.compile(r"(\d{1,9}):([0-5]\d)(?::([0-5]\d))?", re.ASCII)
_INSTANT = re.compile(
    r"(\d{4}-\d{2}-\d{2})[T ]([01]\d|2[0-3]):([0-5]\d)(?::([0-5]\d)(\.\d{1,9})?)?(Z|[+-](?:[01]\d|2[0-3]):?[0-5]\d)?", re.ASCII
)


class Sort(Enum):
    """What stands behind the colon in `column:sort`.

    - `text`: the field as it is.
    - `number`: a decimal number, exactly.
    - `time`: `hh:mm` is minutes, `hh:mm:ss` seconds, from 00:00 on; hours may pass 24. All times of an import have one form.
    - `date`: `yyyy-mm-dd` is days since 1970-01-01.
    - `instant`: `yyyy-mm-ddThh:mm:ss` with `Z` or an offset such as `+02:00` is seconds since 1970-01-01T00:00:00Z; without
      one it is seconds since that time on the same clock. All instants of an import have an offset, or none has.
    - `wkt`: a geometry."""

    TEXT = "text"
    NUMBER = "number"
    TIME = "time"
    DATE = "date"
    INSTANT = "instant"
    WKT = "wkt"


def split_sort(word: str, default: Sort) -> tuple[str, Sort]:
    """The name of a column and its sort in `column:sort` or `column`. A colon that isn't followed by a sort is an error,
    raised as `BadWords`."""
    name, colon, sort = word.rpartition(":")
    if not colon:
        return word, default
    try:
        return name, Sort(sort)
    except ValueError:
        sorts = ", ".join(one.value for one in Sort)
        raise BadWords(f"{shown(word)}: {shown(sort)} is none of {sorts}") from None


@dataclass
class Units:
    """The forms that the times and the instants of an import have had so far: None before the first one."""

    has_seconds: bool | None = None
    has_offset: bool | None = None

    def comments(self) -> Iterator[str]:
        """What the times and instants of a script count."""
        if self.has_seconds is not None:
            yield f"times are {'seconds' if self.has_seconds else 'minutes'} since 00:00"
        if self.has_offset is not None:
            yield f"instants are seconds since 1970-01-01 00:00 {'UTC' if self.has_offset else 'on the clock of the file'}"

    def number(self, field: str, sort: Sort) -> Decimal:
        """The number that a field of a sort other than `text` and `wkt` stands for. Raises `Fault` for a field that is
        none, for a number that no script can have, and for a form other than those before."""
        if sort is Sort.TIME:
            return Decimal(self._time(field.strip()))
        if sort is Sort.DATE:
            return Decimal(_days(field.strip()))
        value = self._instant(field.strip()) if sort is Sort.INSTANT else read_decimal(field)
        must_fit(value)
        return value

    def _time(self, field: str) -> int:
        found = _TIME.fullmatch(field)
        if not found:
            hint = " (an instant? that is column:instant)" if _INSTANT.fullmatch(field) else ""
            raise Fault(f"{shown(field)} is no time as hh:mm or hh:mm:ss{hint}")
        has_seconds = found[3] is not None
        if self.has_seconds not in (None, has_seconds):
            raise Fault(f"{shown(field)} is mixed with times {'with' if self.has_seconds else 'without'} seconds")
        self.has_seconds = has_seconds
        minutes = 60 * int(found[1]) + int(found[2])
        return 60 * minutes + int(found[3]) if has_seconds else minutes

    def _instant(self, field: str) -> Decimal:
        found = _INSTANT.fullmatch(field)
        if not found:
            raise Fault(f"{shown(field)} is no instant as yyyy-mm-ddThh:mm:ss, maybe with Z or an offset such as +02:00")
        has_offset = found[6] is not None
        if self.has_offset not in (None, has_offset):
            raise Fault(f"{shown(field)} is mixed with instants {'with' if self.has_offset else 'without'} an offset")
        seconds = 86400 * _days(found[1]) + 3600 * int(found[2]) + 60 * int(found[3]) + int(found[4] or 0)
        self.has_offset = has_offset
        return seconds - _offset(found[6] or "Z") + Decimal(found[5] or 0)


def _days(field: str) -> int:
    try:
        if _DATE.fullmatch(field):
            return (date.fromisoformat(field) - date(1970, 1, 1)).days
    except ValueError:
        pass
    raise Fault(f"{shown(field)} is no date as yyyy-mm-dd")


def _offset(text: str) -> int:
    """Seconds that an offset is ahead of UTC."""
    if text == "Z":
        return 0
    hours, minutes = int(text[1:3]), int(text[-2:])
    return (-1 if text[0] == "-" else 1) * (3600 * hours + 60 * minutes)
