"""Expressions on words, made simple where that costs nothing. None of this has an effect."""

from __future__ import annotations

from dataclasses import dataclass

from . import arithmetic
from .kinds import INT, UNSIGNED, Integer
from .ranges import TRUTH, Range, full, of_binary
from .subset import LEVELS, ONE, WORD, ZERO, Chain, Expr, Name, Number, Sign, negated, number

NEUTRAL = {"+": 0, "-": 0, "|": 0, "^": 0, "<<": 0, ">>": 0, "*": 1, "/": 1}
LOW_HALF = Range(0, WORD // 2 - 1)


@dataclass(frozen=True)
class Value:
    """A word: its expression, and the range of the number that it is in C."""

    expr: Expr
    range: Range

    @property
    def known(self) -> int | None:
        """The number, where it is known."""
        return self.range.low if isinstance(self.expr, Number) else None

    @property
    def small(self) -> bool:
        """It is the same number with and without a sign."""
        return self.range.inside(*LOW_HALF)


@dataclass(frozen=True)
class Pair:
    """A number of 64 bits as two words; its range where it is known to be that of a word with or without a sign."""

    low: Value
    high: Value
    exact: Range | None = None

    @property
    def values(self) -> list[Value]:
        return [self.low, self.high]

    def with_values(self, values: list[Value]) -> Pair:
        """The same number by other expressions."""
        return Pair(values[0], values[1], self.exact)


def constant(value: int, kind: Integer = INT) -> Value:
    """A number."""
    unsigned = not kind.signed and kind.bits >= 32
    return Value(number(value, unsigned), Range(value, value))


def any_word(expr: Expr, kind: Integer = INT) -> Value:
    """A word of which nothing is known but what its expression says: a number is that number."""
    if isinstance(expr, Number):
        value = kind.wrapped(expr.word)
        return Value(expr, Range(value, value))
    return Value(expr, full(kind))


def truth(expr: Expr) -> Value:
    return Value(expr, TRUTH)


def folded(sign: str, left: Number, right: Number) -> Number | None:
    """The number of an operator between numbers, as the subset means it."""
    unsigned = Chain(sign, left, right).unsigned
    shift = LEVELS[sign] == 8
    kind = UNSIGNED if (left.unsigned if shift else left.unsigned or right.unsigned) else INT
    one, other = kind.wrapped(left.word), right.word % 32 if shift else kind.wrapped(right.word)
    if sign in arithmetic.COMPARISONS:
        return number(int(arithmetic.COMPARISONS[sign](one, other)))
    if sign in ("&&", "||"):
        both = (left.word != 0, right.word != 0)
        return number(int(all(both) if sign == "&&" else any(both)))
    found = arithmetic.binary(sign, one, other, kind)
    return None if found is None else number(found, unsigned)


def chain(sign: str, left: Expr, right: Expr) -> Expr:
    """An operator between two expressions. Whether the result is `unsigned` may be lost where the value is the same."""
    if isinstance(left, Number) and isinstance(right, Number):
        found = folded(sign, left, right)
        if found is not None:
            return found
    if isinstance(left, Number) and sign in ("+", "*", "&", "|", "^", "==", "!="):
        left, right = right, left
    if isinstance(right, Number):
        return with_number(sign, left, right)
    return Chain(sign, left, right)


def with_number(sign: str, left: Expr, right: Number) -> Expr:
    """An operator between an expression and a number."""
    if NEUTRAL.get(sign) == right.word and not (sign == "/" and left.unsigned != right.unsigned):
        return left
    if right.word == 0 and sign in ("*", "&"):
        return ZERO
    if sign == "&" and right.word == WORD - 1:
        return left
    if sign in ("+", "-"):
        return moved(left, right.word if sign == "+" else -right.word, right.unsigned)
    return Chain(sign, left, right)


def moved(expr: Expr, by: int, unsigned: bool = False) -> Expr:
    """An expression and a number added to it; numbers that are added one after another are one."""
    if isinstance(expr, Chain) and expr.sign in ("+", "-") and isinstance(expr.right, Number):
        by += expr.right.word if expr.sign == "+" else -expr.right.word
        unsigned = unsigned or expr.right.unsigned
        expr = expr.left
    by %= WORD
    if by == 0:
        return expr
    if by >= WORD // 2:
        return Chain("-", expr, Number(WORD - by, unsigned))
    return Chain("+", expr, Number(by, unsigned))


def sign_before(sign: str, operand: Expr) -> Expr:
    """A sign before an expression."""
    if isinstance(operand, Number):
        if sign == "!":
            return ONE if operand.word == 0 else ZERO
        return number(-operand.word if sign == "-" else ~operand.word, operand.unsigned)
    if sign == "!" and isinstance(operand, Chain) and operand.sign in ("==", "!="):
        return Chain("!=" if operand.sign == "==" else "==", operand.left, operand.right)
    return Sign(sign, operand)


def as_unsigned(value: Value) -> Expr:
    """The expression so that an operator takes it for `unsigned`."""
    if value.expr.unsigned:
        return value.expr
    if isinstance(value.expr, Number):
        return Number(value.expr.word, True)
    return Chain("+", value.expr, Number(0, True))


def arithmetic_of(sign: str, left: Value, right: Value, kind: Integer) -> Value:
    """`+ - * & | ^ <<` of two words, for which a sign does not matter."""
    found = of_binary(sign, left.range, right.range, kind)
    expr = chain(sign, left.expr, right.expr)
    if isinstance(expr, Number):
        value = kind.wrapped(expr.word)
        return Value(number(value, not kind.signed), Range(value, value))
    return Value(expr, found)


def boolean(value: Value) -> Expr:
    """0 or 1, for whether a word is not 0."""
    if value.range.inside(0, 1):
        return value.expr
    return chain("!=", value.expr, ZERO)


def opposite(expr: Expr) -> Expr:
    """0 or 1, for whether an expression is 0."""
    found = negated(expr)
    return chain("!=", found, ZERO) if isinstance(expr, Sign) and expr.sign == "!" else found


def simple(expr: Expr) -> bool:
    """An expression that may stand twice: a number or a name."""
    return isinstance(expr, Number | Name)


def power_of(value: int) -> int | None:
    """The exponent of a power of two."""
    return value.bit_length() - 1 if value > 0 and value & (value - 1) == 0 else None
