"""Expressions of C as words of the subset. Their effects go before them, in the order of C."""

from __future__ import annotations

from dataclasses import replace
from typing import TYPE_CHECKING

from .arithmetic import COMPARISONS
from .expressions import is_null
from .kinds import INT, CType, Integer, Pointer, cells, is_wide
from .ranges import Range, converted, full, of_binary, of_unary
from .subset import MOST_DEPTH, ZERO, Chain, Expr, Number, Sign, Stmt, depth, number

from .tree import (
    AddressOf, Assign, Binary, Call, Comma, Compare, Conditional, Const, Convert, Decay, Expression, Logic,
    PointerGap, PointerMove, Step, Unary, Update,
)  # fmt: skip
from .words import (
    Value, any_word, arithmetic_of, as_unsigned, boolean, chain, constant, moved, power_of, opposite, sign_before,
    simple, truth,
)  # fmt: skip

if TYPE_CHECKING:
    from .evaluator import Evaluator


class Words:
    """Makes the word of an expression."""

    def __init__(self, evaluator: Evaluator) -> None:
        self.to = evaluator

    def word(self, expression: Expression) -> Value:
        """The word of a number of at most 32 bits, or of a pointer; of 64 bits it is the lower one."""
        if is_wide(expression.type):
            return self.to.pair(expression).low
        found = self.made(expression)
        if depth(found.expr) >= MOST_DEPTH - 2:
            return self.to.builder.fixed(found)
        return found

    def made(self, expression: Expression) -> Value:
        match expression:
            case Const(kind, _, value):
                return constant(value, kind if isinstance(kind, Integer) else INT)
            case Decay(_, _, array):
                return self.to.spots.address(array)
            case AddressOf(_, _, target):
                return self.to.spots.address(target)
            case Unary():
                return self.unary(expression)
            case Binary(kind, _, sign, left, right):
                one, other = self.both(left, right)
                return self.worked(sign, one, other, kind)
            case Compare():
                return self.compared(expression)
            case Logic():
                return self.logic(expression)
            case Conditional():
                return self.to.assigning.chosen(expression)
            case Assign():
                return self.to.assigning.assign(expression, used=True)
            case Update():
                return self.to.assigning.update(expression, used=True)
            case Step():
                return self.to.assigning.step(expression, used=True)
            case PointerMove():
                return self.pointer_moved(expression)
            case PointerGap():
                return self.gap(expression)
            case Call():
                return self.to.calls.word(expression)
            case Comma(_, _, first, last):
                self.to.effect(first)
                self.to.builder.settled([])
                return self.word(last)
            case Convert():
                return self.converted_word(expression)
        return self.to.spots.load(self.to.spots.spot(expression))

    def both(self, left: Expression, right: Expression) -> tuple[Value, Value]:
        """Two operands, of which the left one comes first."""
        self.to.calls.check_order([left, right])
        one = self.word(left)
        kept, other = self.to.builder.after([one], lambda: self.word(right), ordered=False)
        return kept[0], other

    # Arithmetic.

    def signed(self, value: Value) -> Value:
        """A word that the subset takes for an `int`."""
        if not value.expr.unsigned:
            return value
        if isinstance(value.expr, Number):
            return replace(value, expr=Number(value.expr.word))
        made = self.to.builder.temporary(False)
        self.to.builder.assign(made, value.expr)
        return replace(value, expr=made)

    def alike(self, left: Value, right: Value, kind: Integer) -> tuple[Expr, Expr]:
        """Two operands so that the subset works in the type of C, where a sign matters."""
        if left.small and right.small:
            return left.expr, right.expr
        if kind.signed:
            kept, other = self.to.builder.after([left], lambda: self.signed(right))
            return self.signed(kept[0]).expr, other.expr
        if left.expr.unsigned or right.expr.unsigned:
            return left.expr, right.expr
        if isinstance(right.expr, Number):
            return left.expr, as_unsigned(right)
        return as_unsigned(left), right.expr

    def worked(self, sign: str, left: Value, right: Value, kind: Integer) -> Value:
        """`left sign right` in a type of 32 bits."""
        if sign in ("/", "%"):
            return self.divided(sign, left, right, kind)
        if sign == ">>":
            found = of_binary(sign, left.range, right.range, kind)
            if left.small:
                return Value(chain(">>", left.expr, right.expr), found)
            expr = self.signed(left).expr if kind.signed else as_unsigned(left)
            return Value(chain(">>", expr, right.expr), found)
        return arithmetic_of(sign, left, right, kind)

    def divided(self, sign: str, left: Value, right: Value, kind: Integer) -> Value:
        """A quotient or a remainder. By a power of two it is a shift or a mask."""
        found = of_binary(sign, left.range, right.range, kind)
        power = power_of(right.known) if right.known is not None else None
        if power is not None and (left.range.low >= 0 or not kind.signed):
            if sign == "%":
                return Value(chain("&", left.expr, number((1 << power) - 1)), found)
            expr = left.expr if left.small else as_unsigned(left)
            return Value(chain(">>", expr, number(power)), found)
        if power is not None and kind.signed and simple(left.expr):
            return Value(self.signed_power(sign, self.signed(left).expr, power), found)
        one, other = self.alike(left, right, kind)
        return Value(chain(sign, one, other), found)

    def signed_power(self, sign: str, left: Expr, power: int) -> Expr:
        """Division by a power of two, towards zero: numbers below zero are moved up before the shift."""
        up = chain("&", chain(">>", left, number(31)), number((1 << power) - 1))
        if power == 0:
            return left if sign == "/" else ZERO
        whole = chain("+", left, up)
        if sign == "/":
            return chain(">>", whole, number(power))
        return chain("-", left, chain("&", whole, number(-(1 << power))))

    def unary(self, expression: Unary) -> Value:
        """`-`, `~` and `!`."""
        if expression.sign == "!":
            return truth(opposite(self.condition(expression.operand)))
        operand = self.word(expression.operand)
        assert isinstance(expression.type, Integer)
        found = of_unary(expression.sign, operand.range, expression.type)
        return Value(sign_before(expression.sign, operand.expr), found)

    def inverted(self, expr: Expr) -> Expr:
        return sign_before("~", expr)

    # Truth.

    def condition(self, expression: Expression) -> Expr:
        """An expression that is not 0 where the condition holds."""
        if is_wide(expression.type):
            pair = self.to.pair(expression)
            return chain("|", pair.low.expr, pair.high.expr)
        return self.truth_value(expression).expr

    def compared(self, expression: Compare) -> Value:
        """A comparison."""
        kind, sign = expression.left.type, expression.sign
        if is_wide(kind):
            return self.to.pairs.compared(expression)
        left, right = self.both(expression.left, expression.right)
        if isinstance(kind, Pointer):
            return self.compared_pointers(expression, left, right)
        assert isinstance(kind, Integer)
        if (known := always(sign, left.range, right.range)) is not None:
            return constant(known)
        if sign in ("==", "!="):
            return truth(chain(sign, left.expr, right.expr))
        one, other = self.alike(left, right, kind)
        return truth(chain(sign, one, other))

    def compared_pointers(self, expression: Compare, left: Value, right: Value) -> Value:
        """A comparison of two pointers. One that is never null is not compared with null."""
        for null, side in ((expression.right, expression.left), (expression.left, expression.right)):
            if is_null(null) and expression.sign in ("==", "!="):
                memory = self.to.memory_behind(side)
                if memory is not None and not memory.null:
                    return constant(int(COMPARISONS[expression.sign](1, 0)))
        return truth(chain(expression.sign, left.expr, right.expr))

    def logic(self, expression: Logic) -> Value:
        """`&&` and `||`. The right side counts only where the left one does not decide."""
        builder = self.to.builder
        left = self.truth_value(expression.left)
        left = builder.settled([left])[0]
        if left.known is not None:
            if (left.known != 0) == (expression.sign == "||"):
                return constant(int(expression.sign == "||"))
            return truth(boolean(self.settled_truth(expression.right)))
        right, statements = builder.capture(lambda: self.settled_truth(expression.right))
        if not statements:
            return truth(Chain(expression.sign, left.expr, right.expr))
        made = builder.temporary(False)
        builder.assign(made, boolean(left))
        condition: Expr = made if expression.sign == "&&" else Sign("!", made)
        inner: list[Stmt] = [*statements, *builder.block(lambda: builder.assign(made, boolean(right)))]
        builder.branch(condition, inner, [])
        return truth(made)

    def truth_value(self, expression: Expression) -> Value:
        """The condition of an expression, with what is known of its range."""
        if is_wide(expression.type):
            return any_word(self.condition(expression))
        found = self.word(expression)
        if isinstance(expression.type, Pointer):
            memory = self.to.memory_behind(expression)
            return found if memory is None or memory.null else constant(1)
        return found

    def settled_truth(self, expression: Expression) -> Value:
        return self.to.builder.settled([self.truth_value(expression)])[0]

    # Pointers.

    def pointer_moved(self, expression: PointerMove) -> Value:
        """A pointer and so many elements, which are words here."""
        pointer = self.word(expression.pointer)
        kept, count = self.to.builder.after([pointer], lambda: self.count(expression.count), ordered=False)
        step = cells(expression.type.to)
        if count.known is not None:
            by = count.known * step if expression.sign == "+" else -count.known * step
            return any_word(moved(kept[0].expr, by)) if kept[0].known is None else constant(kept[0].known + by)
        expr = chain("*", count.expr, number(step))
        if expression.sign == "+" and isinstance(kept[0].expr, Number):
            return any_word(moved(expr, kept[0].expr.word))
        return any_word(sum_of(expression.sign, kept[0].expr, expr))

    def count(self, expression: Expression) -> Value:
        """A number of elements; of 64 bits the lower word counts."""
        return self.to.pair(expression).low if is_wide(expression.type) else self.word(expression)

    def gap(self, expression: PointerGap) -> Value:
        """How many elements lie between two pointers."""
        left, right = self.both(expression.left, expression.right)
        assert isinstance(expression.left.type, Pointer)
        step = cells(expression.left.type.to)
        difference = any_word(chain("-", left.expr, right.expr))
        power = power_of(step)
        if power is not None:
            return any_word(chain(">>", self.signed(difference).expr, number(power)))
        return self.divided("/", self.signed(difference), constant(step), INT)

    # Conversions.

    def converted_word(self, expression: Convert) -> Value:
        """A value as one of another type."""
        kind, own = expression.type, expression.operand.type
        if isinstance(own, Integer) and own.bits > 32:
            if isinstance(kind, Integer) and kind.boolean:
                return truth(boolean(any_word(self.condition(expression.operand))))
            return self.as_type(self.to.pair(expression.operand).low, kind)
        return self.as_type(self.word(expression.operand), kind)

    def as_type(self, value: Value, kind: CType) -> Value:
        """A word as one of a type: short types are cut, where the range does not show that this is idle."""
        if not isinstance(kind, Integer):
            return value
        if value.known is not None:
            return constant(kind.wrapped(value.known), kind if kind.bits == 32 else INT)
        if kind.bits >= 32:
            return replace(value, range=converted(value.range, kind))
        return self.narrowed(value, kind)

    def narrowed(self, value: Value, kind: Integer) -> Value:
        """A word cut to a short type."""
        if kind.boolean:
            return truth(boolean(value))
        if value.range.within(kind):
            return value
        if not kind.signed:
            return Value(chain("&", value.expr, number(kind.high)), full(kind))
        by = number(32 - kind.bits)
        return Value(chain(">>", chain("<<", self.signed(value).expr, by), by), full(kind))


def sum_of(sign: str, left: Expr, right: Expr) -> Expr:
    """A sum; a number that is added on the right goes to the end, where it meets others."""
    if isinstance(right, Chain) and right.sign in ("+", "-") and isinstance(right.right, Number) and sign == "+":
        by = right.right.word if right.sign == "+" else -right.right.word
        return moved(chain("+", left, right.left), by)
    return chain(sign, left, right)


def always(sign: str, left: Range, right: Range) -> int | None:
    """The result of a comparison, where the ranges tell it."""
    if left.high < right.low:
        return int(sign in ("<", "<=", "!="))
    if left.low > right.high:
        return int(sign in (">", ">=", "!="))
    if sign == "<=" and left.high <= right.low:
        return 1
    if sign == ">=" and left.low >= right.high:
        return 1
    if sign == "<" and left.low >= right.high:
        return 0
    if sign == ">" and left.high <= right.low:
        return 0
    return None
