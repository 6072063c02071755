"""What the scripts beside this file read of the crates: their order, what each makes public, and the definitions of their specs."""
import os
import re
from collections.abc import Iterator
from dataclasses import dataclass

ROOT = os.path.dirname(os.path.dirname(os.path.abspath(__file__)))
CRATES = os.path.join(ROOT, "crates")

IMPL = re.compile(r"impl(?:<.*?>)? (\w+)")
ITEM = re.compile(r"( *)(pub )?(fn|struct|enum|trait|const|type|ghost) (?!use\b)(\w+)")
CLAUSE = re.compile(r"\s*ensures (\w*)")
EXPORT = re.compile(r"^pub use ([\w:]+)::(?:\{(.*?)\}|(\w+));", re.M | re.S)
USE = re.compile(r"^use ([\w:]+)::(?:\{(.*?)\}|(\w+));", re.M | re.S)
IMPORT = re.compile(r"^\s*(?:ghost )?use ((?:Rattle|lib)[\w.+-]*?)\.\{(.*?)\};?\s*$", re.M)
WHOLE_IMPORT = re.compile(r"^\s*(?:ghost )?use ((?:Rattle|lib)[\w.+-]*) as (\w+);?\s*$", re.M)
SENTENCE = re.compile(r".*?[.!?](?=\s|$)")
MODIFIERS = {"abbrev", "pub", "unfoldable", "seen", "opaque", "private"}


def text_of(path: str) -> str:
    with open(path, encoding="utf-8") as file:
        return file.read()


def lines_of(path: str) -> list[str]:
    return text_of(path).splitlines()


@dataclass(frozen=True)
class Floor:
    """Crates of one floor, with the name of the floor."""

    name: str
    crates: list[str]


def floors() -> list[Floor]:
    """The floors of crates.txt, in order."""
    found: list[Floor] = []
    for line in lines_of(os.path.join(ROOT, "crates.txt")):
        if line.startswith("# "):
            found.append(Floor(line[2:].partition(":")[0], []))
        elif ":" in line:
            found[-1].crates.append(line.partition(":")[0])
    return [floor for floor in found if floor.crates]


def needs() -> dict[str, list[str]]:
    """Each crate with the crates of ours that its line of crates.txt names, in order."""
    named: dict[str, list[str]] = {}
    for line in lines_of(os.path.join(ROOT, "crates.txt")):
        crate, colon, libraries = line.partition(":")
        if colon and not line.startswith("#"):
            named[crate] = libraries.split()
    return {crate: [name for name in libraries if name in named] for crate, libraries in named.items()}


def files_of(crate: str, folder: str, ending: str) -> list[str]:
    """The paths of the files with an ending below a folder of a crate, in order."""
    found = []
    for at, folders, files in os.walk(os.path.join(CRATES, crate, folder)):
        folders[:] = sorted(name for name in folders if name != "out")
        found += [os.path.join(at, name) for name in sorted(files) if name.endswith(ending)]
    return found


def first_sentence(remarks: list[str]) -> str:
    """The first sentence of some lines of prose, or nothing where they have none."""
    paragraph: list[str] = []
    for line in remarks:
        if not line.strip():
            break
        paragraph.append(line.strip())
    text = " ".join(paragraph)
    found = SENTENCE.match(text)
    return found.group(0) if found else text


def about(crate: str) -> str:
    """The first sentence of what a crate says of itself."""
    lines = lines_of(os.path.join(CRATES, crate, "src", "lib.rt"))
    return first_sentence([line[3:] for line in lines if line.startswith("//!")])


@dataclass(frozen=True)
class Item:
    """A public item: its name with that of the type that it is of, its first sentence, and the names of its clauses."""

    kind: str
    name: str
    says: str
    clauses: list[str]


def remarks_above(lines: list[str], at: int) -> list[str]:
    """The documentation above a line, without its marks."""
    first = at
    while first and lines[first - 1].lstrip().startswith(("///", "#[")):
        first -= 1
    return [line.lstrip()[3:] for line in lines[first:at] if line.lstrip().startswith("///")]


def clauses_below(lines: list[str], at: int) -> list[str]:
    """The names of the clauses of the function whose head begins at a line."""
    found = []
    margin = len(lines[at]) - len(lines[at].lstrip())
    for line in lines[at:]:
        clause = CLAUSE.match(line)
        if clause:
            found.append(clause.group(1))
        elif not line.strip() or line == " " * margin + "{" or line.endswith(" {"):
            break
    return found


def items_of(path: str) -> Iterator[tuple[str, Item]]:
    """The public items of a file, each behind the name of the type or trait that it is of, or of none."""
    lines = lines_of(path)
    owner, in_trait = "", False
    for at, line in enumerate(lines):
        if line.startswith("impl"):
            found = IMPL.match(line)
            owner, in_trait = found.group(1) if found and " for " not in line else "", False
        elif line == "}":
            owner = ""
        head = ITEM.match(line)
        if head is None:
            continue
        margin, public, kind, name = head.groups()
        if margin and not (owner and len(margin) == 4 and (public or in_trait and kind in ("fn", "ghost"))):
            continue
        if not margin and not public:
            continue
        whole = f"{owner}::{name}" if margin else name
        yield owner if margin else "", Item(kind, whole, first_sentence(remarks_above(lines, at)), clauses_below(lines, at))
        if kind == "trait" and not line.endswith("}"):
            owner, in_trait = name, True


def named(lines: re.Pattern[str], text: str) -> Iterator[tuple[str, list[str]]]:
    """The modules that some lines of a file name, each with the names that they take from it."""
    for module, several, one in lines.findall(text):
        yield module, [name.strip() for name in (several or one).split(",") if name.strip()]


def exports(lib: str) -> Iterator[tuple[str, list[str]]]:
    """The modules of which a root file makes items public, each with their names."""
    return named(EXPORT, lib)


def uses(text: str) -> Iterator[tuple[str, list[str]]]:
    """The modules of which a file uses items in Rust, each with their names."""
    return named(USE, text)


def path_of(crate: str, module: str) -> str:
    return os.path.join(CRATES, crate, "src", *module.split("::")) + ".rt"


def methods(crate: str, kinds: set[str]) -> dict[str, list[Item]]:
    """The public methods of some types of a crate, in whichever file they stand."""
    found: dict[str, list[Item]] = {}
    for path in files_of(crate, "src", ".rt"):
        for owner, item in items_of(path):
            if owner in kinds:
                found.setdefault(owner, []).append(item)
    return found


def module_items(crate: str, module: str) -> Iterator[Item]:
    """The public items of a public module and of the public modules in it, under their paths."""
    path = path_of(crate, module)
    for owner, item in items_of(path):
        if not owner:
            yield Item(item.kind, f"{module}::{item.name}", item.says, item.clauses)
    for inner in re.findall(r"^pub mod (\w+);", text_of(path), re.M):
        yield from module_items(crate, f"{module}::{inner}")


def public_items(crate: str) -> list[Item]:
    """All that a crate makes public, in the order of its root file, each type before its methods."""
    lib = text_of(path_of(crate, "lib"))
    found = [item for owner, item in items_of(path_of(crate, "lib")) if not owner]
    for inner in re.findall(r"^pub mod (\w+);", lib, re.M):
        found += list(module_items(crate, inner))
    for module, names in exports(lib):
        # what another crate has stands in the list of that
        if module in needs():
            continue
        there = {item.name: item for owner, item in items_of(path_of(crate, module)) if not owner}
        found += [there[name] for name in names]
    of_types = methods(crate, {item.name.split("::")[-1] for item in found if item.kind in ("struct", "enum", "trait")})
    whole = []
    for item in found:
        whole += [item, *of_types.get(item.name.split("::")[-1], [])]
    return whole


def imports(text: str) -> dict[str, tuple[str, str]]:
    """What each name that is imported stands for: a module and the name in it, which is empty for a whole module."""
    names: dict[str, tuple[str, str]] = {}
    for module, listed in IMPORT.findall(text):
        for item in listed.split(","):
            there, _, here = item.strip().partition(" as ")
            if there:
                names[here or there] = (module, there)
    for module, here in WHOLE_IMPORT.findall(text):
        names[here] = (module, "")
    return names


class Specs:
    """A module of definitions.

    `blocks` has the lines of each definition, the comment above it first, in the order in which they stand, and `kinds` the type of
    each case of an enumeration."""

    def __init__(self, path: str) -> None:
        text = text_of(path)
        self.path = path
        self.lines = len(text.splitlines())
        self.head = first_sentence([line[3:] for line in text.partition("\nuse ")[0].splitlines() if line.startswith("-- ")])
        self.names = imports(text)
        self.blocks: dict[str, list[str]] = {}
        self.kinds: dict[str, str] = {}
        self.name, self.kind = "", ""
        self.remarks: list[str] = []
        margin = 0
        for line in text.splitlines():
            if "mutual" in line.split()[:2] or line.startswith("module _ "):
                margin = 2
                continue
            if not line.startswith(" " * margin) and line.strip():
                margin = 0
            self.take(line[margin:])

    def take(self, line: str) -> None:
        """Reads one line more."""
        if not line.strip():
            self.remarks = []
        elif line.startswith("--"):
            self.remarks.append(line)
        elif not line.startswith(("use ", "infix", "pub mod ")):
            if not line[0].isspace():
                self.begin(line)
                self.remarks = []
            elif self.kind == "data" and re.match(r"  \w+ :", line):
                self.kinds[line.split()[0]] = self.name
            if not self.name:
                raise SystemExit(f"{self.path}: no definition begins before: {line}")
            self.blocks[self.name].append(line)

    def begin(self, line: str) -> None:
        """Begins a definition where a line without indentation is the head of one."""
        words = line.split()
        while words and words[0] in MODIFIERS:
            words.pop(0)
        if words[0] in ("record", "data"):
            self.kind, self.name = words[:2]
        elif len(words) > 1 and words[1] == ":":
            self.kind, self.name = "", words[0]
        else:
            return
        self.blocks[self.name] = [remark for remark in self.remarks if not remark.startswith("-- --")]

    def comment(self, name: str) -> str:
        """The comment above a definition, in one line, or nothing."""
        block = self.blocks[name]
        first = next(at for at, line in enumerate(block) if not line.startswith("--"))
        return " ".join(line[3:].strip() for line in block[:first])

    def is_public(self, name: str) -> bool:
        head = next(line for line in self.blocks[name] if not line.startswith("--"))
        return "pub" in head.split()[:3]
