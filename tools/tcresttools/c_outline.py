"""The loops, divisions and calls of a C text, in the order in which its compiled code has them.

The text is one that the program takes. The order is that of docs/COMPILER.md: the condition of a loop is tested in each
iteration and once more after them; an index is worked out after the value that is stored there; of two operands the
one that needs more registers comes first; and what follows `break`, `continue` or `return` in its block has no code.
A division is a loop of 8 iterations, but for most of those by a number, which are a product or a shift.
"""

from __future__ import annotations

import re
from collections.abc import Iterator
from dataclasses import dataclass, field, replace

from .c_text import Token, number_of, tokens_of
from .c_tree import KINDS, LEVELS, UNARY

DIVIDING = {"/": "division", "%": "remainder"}
DIVISION_ITERATIONS = 8
SWAPPED = (">", ">=")
TRUTHS = ("||", "&&", "==", "!=", "<", "<=", *SWAPPED)
SHIFTS = ("<<", ">>")
MOST_INT = 2**31 - 1
WORD = 2**32


@dataclass(frozen=True)
class Division:
    """A sign `/` or `%` that is a loop in the code. In a loop's condition it is done once more behind."""

    sign: str
    at: int
    is_after_iterations: bool = False


@dataclass(frozen=True)
class Call:
    """A call of a function, by its name."""

    name: str
    at: int


@dataclass(frozen=True)
class Loop:
    """A loop with the most iterations of its bound, which all are made; and what an iteration has."""

    word: str
    at: int
    most: int
    items: list[Item]


Item = Loop | Division | Call


@dataclass(frozen=True)
class Outlined:
    """A function: its name, its first byte and its last one in the text, and what its code has."""

    name: str
    at: int
    end: int
    items: list[Item]


@dataclass(frozen=True)
class Expression:
    """How many registers an expression needs, the divisions of its code, whether its type is `unsigned`, and its number
    where it is one."""

    need: int = 1
    items: list[Item] = field(default_factory=list)
    is_unsigned: bool = False
    number: int | None = None


@dataclass(frozen=True)
class Statements:
    """What statements have, and whether nothing that follows them in their block has code."""

    items: list[Item]
    ends: bool = False


class OutlineReader:
    """Reads the tokens of a text that is a program."""

    def __init__(self, tokens: list[Token]) -> None:
        self.tokens = tokens
        self.at = 0
        self.unsigned: list[set[str]] = [set()]  # of each block that is open, the variables that are unsigned
        self.signed: list[set[str]] = [set()]

    def look(self, ahead: int = 0) -> str:
        at = self.at + ahead
        return self.tokens[at].text if at < len(self.tokens) else ""

    def take(self) -> Token:
        self.at += 1
        return self.tokens[self.at - 1]

    def may(self, text: str) -> bool:
        found = self.look() == text
        self.at += found
        return found

    def skip_behind(self, text: str) -> None:
        while self.take().text != text:
            pass

    def read(self) -> list[Outlined]:
        functions = []
        while self.at < len(self.tokens):
            name = self.declared()
            if self.may("("):
                functions.append(self.function(name))
            else:
                self.skip_behind(";")
        return functions

    def declared(self) -> Token:
        """A kind and a name, which is known in this block from here on."""
        self.may("_SPM")
        is_unsigned = self.take().text == "unsigned"
        if is_unsigned:
            self.may("int")
        name = self.take()
        (self.unsigned if is_unsigned else self.signed)[-1].add(name.text)
        return name

    def is_unsigned(self, name: str) -> bool:
        """The variable or array of this name has the type `unsigned`: as the innermost block that has one says."""
        for unsigned, signed in zip(reversed(self.unsigned), reversed(self.signed), strict=True):
            if name in unsigned or name in signed:
                return name in unsigned
        return False

    def open_block(self) -> None:
        self.unsigned.append(set())
        self.signed.append(set())

    def close_block(self) -> None:
        self.unsigned.pop()
        self.signed.pop()

    def function(self, name: Token) -> Outlined:
        self.open_block()
        while not self.may(")"):
            if self.look() == "void":
                self.take()
            else:
                self.declared()
            self.may(",")
        body = self.block()
        self.close_block()
        return Outlined(name.text, name.at, self.tokens[self.at - 1].at, body.items)

    # Statements.

    def block(self) -> Statements:
        """The statements of a block up to its end; what follows one that ends them is left out."""
        self.skip_behind("{")
        self.open_block()
        items: list[Item] = []
        ends = False
        while not self.may("}"):
            found = self.statement()
            if not ends:
                items += found.items
            ends = ends or found.ends
        self.close_block()
        return Statements(items, ends)

    def statement(self) -> Statements:
        text = self.look()
        if text == "{":
            return self.block()
        if text == "if":
            return Statements(self.choice())
        if text in ("while", "for") or self.tokens[self.at].is_bound:
            return Statements(self.loop())
        if text in ("break", "continue", "return"):
            self.take()
            items = [] if self.look() == ";" else self.expression().items
            self.skip_behind(";")
            return Statements(items, True)
        items = self.simple(text)
        self.skip_behind(";")
        return Statements(items)

    def simple(self, text: str) -> list[Item]:
        """A declaration, a transfer, a call or an assignment, up to its `;`."""
        if text in KINDS:
            self.declared()
            return self.right() if self.may("=") else []
        if self.look(1) == "(":
            return self.call()
        self.take()
        index = self.index()
        self.skip_behind("=")
        return self.right() + index.items

    def choice(self) -> list[Item]:
        """An `if` with all that follows its `else`: each condition and each arm is done."""
        self.take()
        items = self.parenthesis().items + self.block().items
        if not self.may("else"):
            return items
        return items + (self.choice() if self.look() == "if" else self.block().items)

    def loop(self) -> list[Item]:
        most = int(re.findall(r"\d+", self.take().text)[-1])
        word = self.take()
        is_for = word.text == "for"
        self.skip_behind("(")
        first = self.assignment(";") if is_for else []
        condition = self.expression().items
        self.skip_behind(";" if is_for else ")")
        step = self.assignment(")") if is_for else []
        body = self.block().items
        if most == 0:
            return first + condition
        again = [replace(item, is_after_iterations=True) for item in condition if isinstance(item, Division)]
        return [*first, Loop(word.text, word.at, most, condition + body + step), *again]

    def assignment(self, end: str) -> list[Item]:
        """An assignment in the head of a `for`, and what ends it."""
        self.skip_behind("=")
        items = self.expression().items
        self.skip_behind(end)
        return items

    # Expressions.

    def right(self) -> list[Item]:
        """A right side: an expression, or a call alone."""
        if self.look() not in (*UNARY, "(") and self.look(1) == "(":
            return self.call()
        return self.expression().items

    def call(self) -> list[Item]:
        """A call, or `send`: its arguments in their order, and then what it does."""
        name = self.take()
        self.take()
        items: list[Item] = []
        while not self.may(")"):
            items += self.expression().items
            self.may(",")
        return items if name.text == "send" else [*items, Call(name.text, name.at)]

    def parenthesis(self) -> Expression:
        self.take()
        found = self.expression()
        self.skip_behind(")")
        return found

    def index(self) -> Expression:
        """An index in brackets, where there is one."""
        if not self.may("["):
            return Expression()
        found = self.expression()
        self.skip_behind("]")
        return found

    def expression(self, level: int = 0) -> Expression:
        """An expression of operators of this level of precedence and of those that bind more."""
        if level == len(LEVELS):
            return self.operand()
        found = self.expression(level + 1)
        while self.look() in LEVELS[level]:
            sign = self.take()
            found = both(sign, found, self.expression(level + 1))
        return found

    def operand(self) -> Expression:
        sign = self.look()
        if sign in UNARY:
            self.take()
            return unary(sign, self.operand())
        if sign == "(":
            return self.parenthesis()
        token = self.take()
        number = number_of(token)
        if number is not None:
            return Expression(is_unsigned=number > MOST_INT or token.text[-1] in "uU", number=number)
        return replace(self.index(), is_unsigned=self.is_unsigned(token.text), number=None)


def unary(sign: str, operand: Expression) -> Expression:
    """An operator before an operand. `+` is left out, and the other ones make a number an expression."""
    if sign == "+":
        return operand
    return replace(operand, is_unsigned=operand.is_unsigned and sign != "!", number=None)


def both(sign: Token, left: Expression, right: Expression) -> Expression:
    """Two operands and their operator. `a > b` is `b < a`; the one of the greater need comes first."""
    is_unsigned = left.is_unsigned if sign.text in SHIFTS else left.is_unsigned or right.is_unsigned
    divides = sign.text in DIVIDING and is_long(right.number, is_unsigned)
    if sign.text in SWAPPED:
        left, right = right, left
    if left.need < right.need:
        first, second = right, left
    else:
        first, second = left, right
    own: list[Item] = [Division(sign.text, sign.at)] if divides else []
    items = first.items + second.items + own
    return Expression(max(first.need, second.need + 1), items, is_unsigned and sign.text not in TRUTHS)


def is_long(number: int | None, is_unsigned: bool) -> bool:
    """A division by this number, or by none, is a loop of the code.

    By a power of two it is a shift or a mask. By another number it is a product where that is exact for all dividends.
    """
    if number is None or number == 0 or (number > MOST_INT and not is_unsigned):
        return True
    scale = WORD << max((number - 1).bit_length() - 1, 0)
    factor = -(-scale // number)
    greatest = WORD - 1 if is_unsigned else MOST_INT + 1
    is_exact = number > 1 and factor < WORD and (factor * number - scale) * greatest < scale
    return not is_exact and number & (number - 1) != 0


def outline_of(source: bytes) -> list[Outlined]:
    """The functions of a text in its order."""
    return OutlineReader(tokens_of(source)).read()


def calls_in(items: list[Item]) -> Iterator[str]:
    """The names of the functions that are called."""
    for item in items:
        if isinstance(item, Call):
            yield item.name
        elif isinstance(item, Loop):
            yield from calls_in(item.items)


def image_order(functions: list[Outlined]) -> list[Outlined]:
    """The functions in the order of their code in the image: `main`, and the others in the order of the text."""
    return [one for one in functions if one.name == "main"] + [one for one in functions if one.name != "main"]


def reached(functions: list[Outlined]) -> set[str]:
    """The names of the functions that are run: `main`, and each that one of them calls."""
    by_name = {one.name: one for one in functions}
    names: set[str] = set()
    open_names = ["main"]
    while open_names:
        name = open_names.pop()
        if name not in names:
            names.add(name)
            open_names += calls_in(by_name[name].items)
    return names
