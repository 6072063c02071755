"""What can be wrong with an input, told apart by how much of it is lost."""


class Fault(Exception):
    """One feature or row is bad; `str` of it is a clause that says why. The others may still be imported."""


class FileFault(Exception):
    """The input can't be read on from some place, so none of it is imported.

    `line` is the line of the file, from 1 on, or None where the fault has no line."""

    def __init__(self, reason: str, line: int | None = None) -> None:
        super().__init__(reason)
        self.line = line


class BadWords(Exception):
    """The words of the command contradict each other or the language."""


def shown(text: str, most: int = 40) -> str:
    """A text between quotes for a message: on one line, cut after `most` characters, with control characters and bytes that
    aren't UTF-8 escaped."""
    cut = text if len(text) <= most else text[:most] + ".."
    return "'" + "".join(map(_visible, cut)) + "'"


def _visible(character: str) -> str:
    if character.isprintable():
        return character
    if "\udc80" <= character <= "\udcff":  # by which Python stands in for a byte that isn't UTF-8
        return f"\\x{ord(character) - 0xDC00:02x}"
    return character.encode("unicode_escape").decode("ascii")
