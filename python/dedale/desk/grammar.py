"""The grammar of statements: it finds the place from which on a statement can be none.

The program alone decides what is refused. This says where, once it has been."""
from dataclasses import dataclass, field
from typing import Callable

from dedale.desk.reading import Atom, Comparison, Operand, Reading, Scope
from dedale.desk.tokens import Kind, Token, tokens_of

COMPARISONS = ("<", "<=", "=", "!=", ">=", ">")
DEEPEST = 100
"""How deep a formula may nest to be read; the program refuses it before."""


class NoStatement(Exception):
    """The text is no statement, whatever follows the byte of it at `place`: what stands there can't stand there."""

    def __init__(self, place: int) -> None:
        super().__init__(place)
        self.place = place


class TooDeep(Exception):
    """The formula nests too deep to be read."""


def read(text: bytes, is_second: bool) -> Reading:
    """What a statement says, in language 2 where `is_second` says so. Raises `NoStatement` and `TooDeep`."""
    parser = _Parser(tokens_of(text), len(text.rstrip()), is_second)
    parser.read_statement()
    return parser.reading


@dataclass
class _Parser:
    """Reads tokens from the first one on. `end` is the place behind the last one."""

    tokens: list[Token]
    end: int
    is_second: bool
    at: int = 0
    reading: Reading = field(default_factory=Reading)

    def read_statement(self) -> None:
        """Reads all tokens as one statement. Raises `NoStatement` and `TooDeep`."""
        first = self._take(Kind.RESERVED)
        self.reading.word = first.text
        match first.text:
            case "relation" | "view":
                self._take_name()
                self._read_heading()
                if first.text == "view":
                    self._take_sign(":=")
                    self._read_formula({}, 0)
            case "insert":
                self._take_name()
                self._read_braces(lambda: self._read_comparison({}))
            case "delete":
                self._take_name()
                self.reading.number = self._take(Kind.NUMBER)
            case "drop" | "keep" | "show" | "box":
                self._take_name()
            case "ask":
                self._read_formula({}, 0)
            case "query" | "explain":
                self._read_heading()
                self._take_sign(":")
                self._read_formula({}, 0)
            case "disjoint" | "verify":
                self._take_name()
                self._take_name()
                if first.text == "verify":
                    self._read_braces(self._read_entry)
            case "dump" if self.is_second:
                pass
            case _:
                raise NoStatement(first.start)
        if self.at < len(self.tokens):
            self._fail()

    def _fail(self) -> None:
        """Raises `NoStatement` for the next token."""
        raise NoStatement(self.tokens[self.at].start if self.at < len(self.tokens) else self.end)

    def _next(self) -> Token:
        """The next token, one of no kind where there is none."""
        return self.tokens[self.at] if self.at < len(self.tokens) else Token(Kind.NONE, "", self.end)

    def _is_next(self, *texts: str) -> bool:
        """Whether the next token is one of these signs or reserved words."""
        one = self._next()
        return one.kind in (Kind.SIGN, Kind.RESERVED) and one.text in texts

    def _accepts(self, *texts: str) -> bool:
        """Takes the next token, where it is one of these signs or reserved words, and tells whether it was."""
        is_next = self._is_next(*texts)
        self.at += is_next
        return is_next

    def _take(self, kind: Kind) -> Token:
        """Takes the next token, which has to be of this kind."""
        one = self._next()
        if one.kind is not kind:
            self._fail()
        self.at += 1
        return one

    def _take_sign(self, *texts: str) -> Token:
        """Takes the next token, which has to be one of these signs or reserved words."""
        one = self._next()
        if not self._accepts(*texts):
            self._fail()
        return one

    def _take_name(self) -> None:
        """Takes a name beside the first word."""
        self.reading.names.append(self._take(Kind.NAME))

    def _read_heading(self) -> None:
        self._take_sign("(")
        self.reading.columns.append(self._read_column())
        while self._accepts(","):
            self.reading.columns.append(self._read_column())
        self._take_sign(")")

    def _read_column(self) -> tuple[Token, bool]:
        return self._take(Kind.NAME), self._accepts("text")

    def _read_braces(self, read_part: Callable[[], None]) -> None:
        """Reads parts between braces, with commas between them."""
        self._take_sign("{")
        if self._accepts("}"):
            return
        read_part()
        while self._accepts(","):
            read_part()
        self._take_sign("}")

    def _read_entry(self) -> None:
        """Reads an entry of a certificate."""
        self._take(Kind.NUMBER)
        self._take(Kind.NUMBER)
        if self._accepts("text"):
            return
        self._take_sign(":")
        while not self._is_next(",", "}"):
            self._accepts("-")
            self._take(Kind.NUMBER)

    def _read_formula(self, scope: Scope, depth: int) -> None:
        self._read_unit(scope, depth)
        while self._accepts("and", "or", "implies"):
            self._read_unit(scope, depth)

    def _read_unit(self, scope: Scope, depth: int) -> None:
        """Reads what stands between the words that join formulas."""
        if depth > DEEPEST:
            raise TooDeep
        if self._accepts("not"):
            self._read_unit(scope, depth + 1)
        elif self._is_next("exists", "forall"):
            self._read_quantifier(scope, depth)
        elif self._is_next("("):
            self._read_nested(scope, depth)
        elif not self._accepts("true", "false"):
            self._read_leaf(scope)

    def _read_nested(self, scope: Scope, depth: int) -> None:
        self._take_sign("(")
        self._read_formula(scope, depth + 1)
        self._take_sign(")")

    def _read_quantifier(self, scope: Scope, depth: int) -> None:
        """Reads quantifiers, and the formula in parentheses behind them."""
        while self._accepts("exists", "forall"):
            name, is_text = self._read_column()
            scope = {**scope, name.text: is_text}
        self._read_nested(scope, depth)

    def _read_leaf(self, scope: Scope) -> None:
        """Reads an atom or a comparison."""
        if self._accepts("closure", "interior"):
            self._take_sign("(")
            name = self._take(Kind.NAME)
            self._take_sign(")")
            self._read_arguments(name, scope)
        elif self._next().kind is Kind.NAME and [one.text for one in self.tokens[self.at + 1 : self.at + 2]] == ["("]:
            self._read_arguments(self._take(Kind.NAME), scope)
        else:
            self._read_comparison(scope)

    def _read_arguments(self, name: Token, scope: Scope) -> None:
        self._take_sign("(")
        arguments = [self._read_operand()]
        while self._accepts(","):
            arguments.append(self._read_operand())
        self._take_sign(")")
        self.reading.leaves.append(Atom(name, tuple(arguments), scope))

    def _read_comparison(self, scope: Scope) -> None:
        left = self._read_operand()
        sign = self._take_sign(*COMPARISONS)
        self.reading.leaves.append(Comparison(left, sign, self._read_operand(), scope))

    def _read_operand(self) -> Operand:
        first = self._next()
        if first.kind is Kind.TEXT:
            self.at += 1
            return Operand(first, True, False, ())
        names: list[Token] = []
        self._accepts("-")
        self._read_product(names)
        while self._accepts("+", "-"):
            self._read_product(names)
        is_lone = bool(names) and self.tokens[self.at - 1] is first
        return Operand(first, False, is_lone, tuple(names))

    def _read_product(self, names: list[Token]) -> None:
        """Reads a name, a number, or a number times a name, and adds the name to these."""
        if self._next().kind is not Kind.NAME:
            self._read_number()
            if not self._accepts("*"):
                return
        names.append(self._take(Kind.NAME))

    def _read_number(self) -> None:
        """Reads a whole number, and in language 2 a decimal or a fraction."""
        if self.is_second and self._next().kind is Kind.DECIMAL:
            self.at += 1
            return
        self._take(Kind.NUMBER)
        if self.is_second and self._accepts("/"):
            if not self._next().text.strip("0"):
                self._fail()
            self._take(Kind.NUMBER)
