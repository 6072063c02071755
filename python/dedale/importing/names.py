"""Names and texts as the language has them."""
import re
import unicodedata

from dedale.importing.faults import BadWords, Fault, shown

RESERVED = frozenset(
    "abort and ask begin box closure commit dedale delete disjoint drop dump exists explain false forall implies insert "
    "interior keep not or query relation show text true verify view".split()
)
LONGEST_NAME = 64

_NAME = re.compile(r"[A-Za-z_][A-Za-z0-9_]*", re.ASCII)


def is_name(text: str) -> bool:
    """Whether a text is a name in Dedale: a letter or `_`, then letters, digits and `_`, at most 64, and not reserved."""
    return bool(_NAME.fullmatch(text)) and len(text) <= LONGEST_NAME and text not in RESERVED


def proposed_name(text: str) -> str:
    """A name that is like the text: accents are taken off, and what is no letter and no digit becomes `_`."""
    plain = "".join(c for c in unicodedata.normalize("NFKD", text) if not unicodedata.combining(c))
    name = re.sub(r"[^A-Za-z0-9_]", "_", plain)[: LONGEST_NAME - 1]
    if not name or name[0].isdigit():
        name = "_" + name
    return name + "_" if name in RESERVED else name


def check_name(text: str, what: str) -> str:
    """The text, where it is a name. Else raises `BadWords` with one that would do; `what` says what it is to name."""
    if is_name(text):
        return text
    why = "is a reserved word" if text in RESERVED else "is no name"
    raise BadWords(f"{what} {shown(text)} {why} in Dedale: {proposed_name(text)} would do")


def quoted(text: str) -> str:
    """A text as a script has it: between quotes, each quote in it doubled. Raises `Fault` for control characters, which no
    text may have, and for what can't be written as UTF-8."""
    for character in text:
        category = unicodedata.category(character)
        if category == "Cc":
            raise Fault(f"{shown(text)} has a control character, U+{ord(character):04X}")
        if category == "Cs":
            raise Fault(f"{shown(text)} isn't UTF-8")
    return "'" + text.replace("'", "''") + "'"
