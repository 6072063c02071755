"""Texts as a terminal shows them."""
import unicodedata


def shown(text: str) -> str:
    """The text with escapes for what can't be printed, among it bytes that are no UTF-8."""
    return text if text.isprintable() else "".join(_escaped(one) for one in text)


def _escaped(one: str) -> str:
    if one.isprintable():
        return one
    if "\udc80" <= one <= "\udcff":
        return f"\\x{ord(one) - 0xDC00:02x}"
    return one.encode("unicode_escape", "surrogatepass").decode()


def width(text: str) -> int:
    """In how many places of a terminal the text stands, which can be printed."""
    if text.isascii():
        return len(text)
    return sum(_width_of(one) for one in text)


def _width_of(one: str) -> int:
    if unicodedata.combining(one):
        return 0
    return 2 if unicodedata.east_asian_width(one) in "WF" else 1
