"""C texts as the grammar of docs/SUBSET_C.md reads them: what a text declares, what it weighs, and where it goes wrong.

The reader takes one token after another and stops at the first that cannot stand where it stands. It then knows what
was wanted there, which a refusal of the program does not say.
"""

from __future__ import annotations

from collections import Counter
from dataclasses import dataclass, field
from enum import Enum, auto

from .c_text import Token, number_of

KINDS = ("int", "unsigned")
KEYWORDS = frozenset(
    "auto break case char const continue default do double else enum extern float for goto if inline int long register"
    " restrict return short signed sizeof static struct switch typedef union unsigned void volatile while"
    " _Bool _Complex _Imaginary _SPM send".split()
)
LEVELS = [
    ["||"],
    ["&&"],
    ["|"],
    ["^"],
    ["&"],
    ["==", "!="],
    ["<", ">", "<=", ">="],
    ["<<", ">>"],
    ["+", "-"],
    ["*", "/", "%"],
]
OPERATORS = frozenset(sign for level in LEVELS for sign in level)
UNARY = frozenset("-~!+")
CLOSING = {"(": ")", "[": "]", "{": "}"}
MOST_OPEN = 64
MOST_FRAME, FRAME_BASE = 120, 24
MOST_FUNCTION, MOST_TASK = 4096, 32768
MOST_PRIVATE, MOST_SCRATCH = 49148, 2048
NUL = Token("\0", 0)


class Want(Enum):
    """What may stand at a place of a text."""

    UNIT = auto()  # a declaration or a function
    KIND = auto()  # `int` or `unsigned`, behind `_SPM`
    NAME = auto()  # the name that is declared
    GLOBAL = auto()  # `=`, `;`, `[` or `(`, behind the name
    LENGTH = auto()  # the length of an array
    LENGTH_END = auto()  # `]` behind it
    ARRAY = auto()  # `=` or `;` behind it
    LIST = auto()  # `{` of first values
    CONSTANT = auto()  # a first value
    LIST_NEXT = auto()  # `,` or `}`
    GLOBAL_END = auto()  # `;` behind a first value
    PARAMS_OPEN = auto()  # `(` of a void function
    PARAM = auto()  # a parameter, `void` or `)`
    PARAM_NEXT = auto()  # `,` or `)`
    BLOCK = auto()  # `{`
    STATEMENT = auto()  # a statement or `}`
    LOCAL = auto()  # `=` or `;` behind the name
    NAMED = auto()  # `=`, `[` or `(` behind a name that begins a statement
    ASSIGN = auto()  # `=`
    OPERAND = auto()  # an operand
    CHAIN = auto()  # an operator, or what ends the expression
    CALL_END = auto()  # `;` behind a call
    OPEN = auto()  # `(` behind a keyword
    SEND_CORE = auto()  # the number of a core
    COMMA = auto()  # `,`
    LOOP = auto()  # a loop, behind its bound
    FOR_NAME = auto()  # the variable of a `for`
    SEMICOLON = auto()  # `;` behind `break` and the like


class Sort(Enum):
    """What a name stands for."""

    VARIABLE = "a variable"
    ARRAY = "an array"
    FUNCTION = "a function"


@dataclass(frozen=True)
class Declared:
    """A name: its token, what it stands for, and the tokens between which it is known."""

    name: str
    at: int
    sort: Sort
    length: int = 0
    scratch: bool = False
    since: int = 0
    until: int | None = None


@dataclass(frozen=True)
class Part:
    """A part of a function: its first token, what it is, and what it weighs without the parts inside it."""

    at: int
    name: str
    weight: int


@dataclass
class Function:
    """A function: its name's token, the words of its frame by their cause, its parts, and its kind."""

    name: str
    at: int
    kind: str
    params: int = 0
    variables: int = 0
    loops: int = 0
    arms: int = 0
    weight: int = 64
    parts: list[Part] = field(default_factory=list)
    by_sort: Counter[str] = field(default_factory=Counter)

    @property
    def frame(self) -> int:
        """The words that it keeps on the stack."""
        return FRAME_BASE + self.params + self.variables + 2 * self.loops + self.arms


@dataclass
class Unit:
    """What a text declares, in its order."""

    names: list[Declared] = field(default_factory=list)
    functions: list[Function] = field(default_factory=list)

    @property
    def weight(self) -> int:
        return sum(function.weight for function in self.functions)

    def globals(self) -> list[Declared]:
        """The variables and arrays outside functions."""
        return [name for name in self.names if name.until is None and name.sort is not Sort.FUNCTION]


@dataclass
class Wrong(Exception):
    """The first token that cannot stand where it stands, and what is known there."""

    at: int
    want: Want
    closing: str  # what would end the expression, or the token that is missing
    owner: str  # the keyword or the name that wants it
    begin: int  # the first token of the statement or of the declaration
    opened: list[int]  # the brackets that are open
    function: Function | None


class Reader:
    """Reads one text from its front."""

    def __init__(self, tokens: list[Token]) -> None:
        self.tokens = tokens
        self.at = 0
        self.unit = Unit()
        self.opened: list[int] = []
        self.begin = 0
        self.function: Function | None = None

    def look(self) -> str:
        return self.tokens[self.at].text if self.at < len(self.tokens) else ""

    def wrong(self, want: Want, closing: str = "", owner: str = "") -> Wrong:
        return Wrong(self.at, want, closing, owner, self.begin, list(self.opened), self.function)

    def next(self) -> Token:
        """Takes a token; at most 64 brackets are open at once."""
        token = self.tokens[self.at]
        if token.text in CLOSING:
            self.opened.append(self.at)
        elif token.text in CLOSING.values():
            self.opened.pop()
        self.at += 1
        return token

    def need(self, text: str, want: Want, owner: str = "") -> None:
        if self.look() != text or (text in CLOSING and len(self.opened) >= MOST_OPEN):
            raise self.wrong(want, text, owner)
        self.next()

    def may(self, text: str) -> bool:
        if self.look() != text:
            return False
        self.next()
        return True

    def name(self, want: Want, owner: str = "") -> Token:
        if self.at >= len(self.tokens) or not is_plain_name(self.tokens[self.at]):
            raise self.wrong(want, "", owner)
        return self.next()

    def kind(self) -> str:
        """Takes `int`, `unsigned` or `unsigned int`."""
        first = self.next().text
        if first == "unsigned":
            self.may("int")
        return first

    def declare(self, name: Token, at: int, sort: Sort, **more: int | bool) -> None:
        self.unit.names.append(Declared(name.text, at, sort, since=at, **more))  # type: ignore[arg-type]

    # Outside functions.

    def read(self) -> Unit:
        while self.at < len(self.tokens):
            self.begin = self.at
            self.outside()
        return self.unit

    def outside(self) -> None:
        scratch = self.may("_SPM")
        if self.look() == "void" and not scratch:
            self.next()
            name = self.name(Want.NAME)
            self.need("(", Want.PARAMS_OPEN, name.text)
            return self.rest_of_function(name, self.at - 2, "void")
        if self.look() not in KINDS:
            raise self.wrong(Want.KIND if scratch else Want.UNIT)
        kind = self.kind()
        at, name = self.at, self.name(Want.NAME, kind)
        if not scratch and self.may("("):
            return self.rest_of_function(name, at, kind)
        if self.may("["):
            return self.rest_of_array(name, at, scratch)
        self.declare(name, at, Sort.VARIABLE, scratch=scratch)
        if self.may("="):
            self.constant(name.text)
            return self.need(";", Want.GLOBAL_END, name.text)
        return self.need(";", Want.GLOBAL, name.text)

    def rest_of_array(self, name: Token, at: int, scratch: bool) -> None:
        if self.at >= len(self.tokens) or not self.tokens[self.at].is_number:
            raise self.wrong(Want.LENGTH, "", name.text)
        length = number_of(self.next()) or 0
        self.declare(name, at, Sort.ARRAY, length=length, scratch=scratch)
        self.need("]", Want.LENGTH_END, name.text)
        if self.may("="):
            self.need("{", Want.LIST, name.text)
            self.constant(name.text)
            while self.may(","):
                self.constant(name.text)
            self.need("}", Want.LIST_NEXT, name.text)
            return self.need(";", Want.GLOBAL_END, name.text)
        return self.need(";", Want.ARRAY, name.text)

    def constant(self, owner: str) -> None:
        self.may("-")
        if self.at >= len(self.tokens) or not self.tokens[self.at].is_number:
            raise self.wrong(Want.CONSTANT, "", owner)
        self.next()

    def rest_of_function(self, name: Token, at: int, kind: str) -> None:
        self.function = Function(name.text, at, kind)
        self.declare(name, at, Sort.FUNCTION)
        scope = len(self.unit.names)
        if not self.may(")"):
            if not self.may("void"):
                self.parameters()
            self.need(")", Want.PARAM_NEXT, name.text)
        self.unit.functions.append(self.function)
        self.block(name.text)
        self.end_scope(scope)
        self.function = None

    def parameters(self) -> None:
        while True:
            if self.look() not in KINDS:
                raise self.wrong(Want.PARAM)
            kind = self.kind()
            at = self.at
            self.declare(self.name(Want.NAME, kind), at, Sort.VARIABLE)
            self.mine.params += 1
            if not self.may(","):
                return

    @property
    def mine(self) -> Function:
        assert self.function is not None
        return self.function

    def end_scope(self, first: int) -> None:
        """The names from this one on are known no longer."""
        names = self.unit.names
        for number in range(first, len(names)):
            if names[number].until is None:
                old = names[number]
                names[number] = Declared(old.name, old.at, old.sort, old.length, old.scratch, old.since, self.at)

    # Statements.

    def block(self, owner: str) -> None:
        self.need("{", Want.BLOCK, owner)
        scope = len(self.unit.names)
        while True:
            self.begin = self.at
            if self.may("}"):
                return self.end_scope(scope)
            self.statement()

    def weigh(self, begin: int, name: str, weight: int) -> None:
        self.mine.weight += weight
        self.mine.parts.append(Part(begin, name, weight))

    def statement(self) -> None:
        begin, text = self.at, self.look()
        if text == "{":
            if len(self.opened) >= MOST_OPEN:
                raise self.wrong(Want.STATEMENT)
            return self.block("{")
        if text == "if":
            return self.choice()
        if text in ("while", "for") or (text and self.tokens[self.at].is_bound):
            return self.loop()
        self.weigh(begin, *self.simple(text))
        return None

    def simple(self, text: str) -> tuple[str, int]:
        """A statement without a block: what it is, and what it weighs."""
        if text in KINDS:
            return self.local()
        if text in ("break", "continue"):
            self.next()
            self.need(";", Want.SEMICOLON, text)
            return f"`{text}`", 16
        if text == "return":
            self.next()
            weight = 16 if self.look() == ";" else 16 + self.expression(";")
            self.need(";", Want.CHAIN, "return")
            return "`return`", weight
        if text == "send":
            return self.send()
        name = self.name(Want.STATEMENT)
        if self.may("("):
            weight = self.arguments(name.text)
            self.need(";", Want.CALL_END, name.text)
            return f"the call of `{name.text}`", weight
        if self.may("["):
            weight = 28 + self.expression("]")
            self.need("]", Want.CHAIN, name.text)
            self.need("=", Want.ASSIGN, name.text)
            weight += self.right()
            self.need(";", Want.CHAIN, name.text)
            return f"the assignment of `{name.text}[..]`", weight
        self.need("=", Want.NAMED, name.text)
        weight = 12 + self.right()
        self.need(";", Want.CHAIN, name.text)
        return f"the assignment of `{name.text}`", weight

    def local(self) -> tuple[str, int]:
        kind = self.kind()
        at, name = self.at, self.name(Want.NAME, kind)
        self.declare(name, at, Sort.VARIABLE)
        self.mine.variables += 1
        if self.may("="):
            weight = 12 + self.right()
            self.need(";", Want.CHAIN, name.text)
        else:
            weight = 16
            self.need(";", Want.LOCAL, name.text)
        return f"the declaration of `{name.text}`", weight

    def send(self) -> tuple[str, int]:
        self.next()
        self.need("(", Want.OPEN, "send")
        if self.at >= len(self.tokens) or not self.tokens[self.at].is_number:
            raise self.wrong(Want.SEND_CORE, "", "send")
        self.next()
        weight = 32
        for _ in range(3):
            self.need(",", Want.COMMA, "send")
            weight += self.expression(",")
        self.need(")", Want.CHAIN, "send")
        self.need(";", Want.CALL_END, "send")
        return "`send`", weight

    def choice(self) -> None:
        while True:
            begin = self.at
            self.next()
            self.need("(", Want.OPEN, "if")
            weight = 24 + self.expression(")")
            self.need(")", Want.CHAIN, "if")
            self.mine.arms += 1
            self.weigh(begin, "an arm of an `if`", weight)
            self.block("if")
            self.begin = self.at
            if not self.may("else"):
                return
            if self.look() != "if":
                return self.block("else")

    def loop(self) -> None:
        begin = self.at
        if self.tokens[self.at].is_bound:
            self.next()
            if self.look() not in ("while", "for"):
                raise self.wrong(Want.LOOP)
        word = self.next().text
        self.need("(", Want.OPEN, word)
        if word == "for":
            first = self.step(";")
            weight = 48 + 2 * self.expression(";") + first
            self.need(";", Want.CHAIN, "for")
            weight += self.step(")")
        else:
            weight = 48 + 2 * self.expression(")")
        if word == "while":
            self.need(")", Want.CHAIN, word)
        self.mine.loops += 1
        self.weigh(begin, f"the head of a `{word}`", weight)
        self.block(word)

    def step(self, end: str) -> int:
        """An assignment in the head of a `for`, and what ends it."""
        name = self.name(Want.FOR_NAME, end)
        self.need("=", Want.NAMED, name.text)
        weight = 12 + self.expression(end)
        self.need(end, Want.CHAIN, "for")
        return weight

    # Expressions.

    def right(self) -> int:
        """A right side: an expression, or a call alone."""
        behind = self.tokens[self.at + 1].text if self.at + 1 < len(self.tokens) else ""
        if self.at < len(self.tokens) and is_plain_name(self.tokens[self.at]) and behind == "(":
            name = self.next()
            self.need("(", Want.CHAIN, name.text)
            weight = self.arguments(name.text)
            if self.look() != ";":
                raise self.wrong(Want.CALL_END, ";", name.text)
            return weight
        return self.expression(";")

    def arguments(self, owner: str) -> int:
        weight = 48
        if self.may(")"):
            return weight
        while True:
            weight += 6 + self.expression(")")
            if not self.may(","):
                break
        self.need(")", Want.CHAIN, owner)
        return weight

    def expression(self, end: str) -> int:
        """A chain: what levels it has makes no difference to where it ends, nor to what it weighs."""
        weight = self.operand(end)
        while self.look() in OPERATORS:
            sign = self.next().text
            each = {"*": 10, "/": 64, "%": 64}.get(sign, 8)
            if self.function is not None:
                self.function.by_sort[sign] += each
            weight += each + self.operand(end)
        return weight

    def operand(self, end: str) -> int:
        weight = 0
        while self.look() in UNARY:
            self.next()
            weight += 6
        token = self.tokens[self.at] if self.at < len(self.tokens) else NUL
        if token.is_number:
            self.next()
            return weight + 4
        if is_plain_name(token):
            self.next()
            if self.look() == "[" and len(self.opened) < MOST_OPEN:
                self.next()
                weight += 16 + self.expression("]")
                self.need("]", Want.CHAIN, token.text)
                return weight
            return weight + 4
        if token.text != "(" or len(self.opened) >= MOST_OPEN:
            raise self.wrong(Want.OPERAND, end)
        self.next()
        weight += self.expression(")")
        self.need(")", Want.CHAIN, "(")
        return weight


def is_plain_name(token: Token) -> bool:
    """A name that is no keyword."""
    return token.is_name and token.text not in KEYWORDS


def unit_of(tokens: list[Token]) -> Unit:
    """What the tokens declare; `Wrong` where they are no program."""
    return Reader(tokens).read()
