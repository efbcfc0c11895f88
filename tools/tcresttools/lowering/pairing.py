"""Numbers of 64 bits as two words."""

from __future__ import annotations

from typing import TYPE_CHECKING

from .kinds import INT, UNSIGNED, Integer, is_wide
from .ranges import Range, full, product
from .spots import NameSpot
from .subset import MOST_DEPTH, ZERO, Expr, Name, depth, number
from .tree import Assign, Binary, Call, Comma, Compare, Conditional, Const, Convert, Expression, Step, Unary, Update
from .words import Pair, Value, any_word, as_unsigned, chain, constant, sign_before, truth

if TYPE_CHECKING:
    from .evaluator import Evaluator

HIGH, REST_LOW, REST_HIGH = "wide_high", "wide_rest_low", "wide_rest_high"


def needed_helpers(expression: Expression) -> set[str]:
    """The functions for 64 bits that an expression itself calls."""
    if isinstance(expression, Binary) and is_wide(expression.type):
        sign, signed, right = expression.sign, expression.type.signed, expression.right
    elif isinstance(expression, Update) and isinstance(expression.work, Integer) and is_wide(expression.work):
        sign, signed, right = expression.sign, expression.work.signed, expression.value
    else:
        return set()
    if sign in ("/", "%"):
        return {"wide_quotient_signed" if signed else "wide_quotient"}
    if sign == "*":
        return {"wide_product"}
    if sign in ("<<", ">>") and not isinstance(right, Const):
        return {"wide_left" if sign == "<<" else "wide_right_signed" if signed else "wide_right"}
    return set()


class Pairs:
    """Makes the two words of an expression of 64 bits."""

    def __init__(self, evaluator: Evaluator) -> None:
        self.to = evaluator

    def pair(self, expression: Expression) -> Pair:
        """Both words of a number of 64 bits."""
        found = self.made(expression)
        if max(depth(part.expr) for part in found.values) >= MOST_DEPTH - 4:
            return found.with_values([self.to.builder.fixed(part) for part in found.values])
        return found

    def made(self, expression: Expression) -> Pair:
        match expression:
            case Const(_, _, value):
                known = Range(value, value)
                low = constant(value) if known.within(INT) else constant(value % (1 << 32), UNSIGNED)
                return Pair(low, constant(INT.wrapped(value >> 32)), known)
            case Unary(_, _, sign, operand):
                return self.unary(sign, self.pair(operand))
            case Binary(kind, _, sign, left, right):
                return self.binary(kind, sign, left, right)
            case Conditional():
                return self.to.assigning.chosen_pair(expression)
            case Assign():
                return self.to.assigning.assign_pair(expression)
            case Update():
                return self.to.assigning.update_pair(expression)
            case Step():
                return self.to.assigning.step_pair(expression)
            case Call():
                return self.to.calls.pair(expression)
            case Comma(_, _, first, last):
                self.to.effect(first)
                self.to.builder.settled([])
                return self.pair(last)
            case Convert(_, _, operand):
                return self.widened(operand)
        return self.to.spots.load_pair(self.to.spots.spot(expression))

    def widened(self, operand: Expression) -> Pair:
        """A value as one of 64 bits."""
        kind = operand.type
        if is_wide(kind):
            return self.pair(operand)
        value = self.to.word(operand)
        if not (isinstance(kind, Integer) and kind.signed) or value.range.low >= 0:
            return Pair(value, constant(0), value.range)
        value = self.to.words.signed(self.simple(value))
        return Pair(value, Value(chain(">>", value.expr, number(31)), Range(-1, 0)), value.range)

    def simple(self, value: Value) -> Value:
        """A value that may stand several times."""
        if isinstance(value.expr, Name):
            return value
        return self.to.builder.fixed(value)

    def both(self, left: Expression, right: Expression) -> tuple[Pair, Pair]:
        self.to.calls.check_order([left, right])
        one = self.pair(left)
        kept, other = self.to.builder.after(one.values, lambda: self.pair(right), ordered=False)
        return one.with_values(kept), other

    def unary(self, sign: str, pair: Pair) -> Pair:
        """`-` and `~`."""
        low, high = (any_word(sign_before("~", part.expr), UNSIGNED) for part in (pair.low, pair.high))
        if sign == "~":
            return Pair(low, high)
        below = self.simple(pair.low)
        carry = chain("==", below.expr, ZERO)
        return Pair(any_word(sign_before("-", below.expr), UNSIGNED), any_word(chain("+", high.expr, carry), UNSIGNED))

    def binary(self, kind: Integer, sign: str, left: Expression, right: Expression) -> Pair:
        """Arithmetic. The right side of a shift is a number of its own type."""
        if sign in ("<<", ">>"):
            one = self.pair(left)
            kept, by = self.to.builder.after(one.values, lambda: self.to.words.count(right), ordered=False)
            return self.shifted(sign, one.with_values(kept), by, kind)
        return self.worked(sign, *self.both(left, right), kind)

    def worked(self, sign: str, left: Pair, right: Pair, kind: Integer) -> Pair:
        """`left sign right` on 64 bits."""
        match sign:
            case "+":
                return self.sum(left, right)
            case "-":
                return self.difference(left, right)
            case "*":
                return self.product(left, right)
            case "/" | "%":
                return self.quotient(sign, left, right, kind)
        low = any_word(chain(sign, left.low.expr, right.low.expr), UNSIGNED)
        return Pair(low, any_word(chain(sign, left.high.expr, right.high.expr)))

    def less(self, left: Value, right: Value) -> Expr:
        """Whether a lower word is less than another one."""
        one, other = self.to.words.alike(Value(left.expr, full(UNSIGNED)), Value(right.expr, full(UNSIGNED)), UNSIGNED)
        return chain("<", one, other)

    def sum(self, left: Pair, right: Pair) -> Pair:
        builder = self.to.builder
        added = self.simple(right.low)
        low = builder.fixed(any_word(as_unsigned(any_word(chain("+", left.low.expr, added.expr))), UNSIGNED))
        carry = self.less(low, added)
        high = chain("+", chain("+", left.high.expr, right.high.expr), carry)
        return Pair(low, any_word(high))

    def difference(self, left: Pair, right: Pair) -> Pair:
        one, other = self.simple(left.low), self.simple(right.low)
        borrow = self.less(one, other)
        high = chain("-", chain("-", left.high.expr, right.high.expr), borrow)
        return Pair(any_word(chain("-", one.expr, other.expr), UNSIGNED), any_word(high))

    def product(self, left: Pair, right: Pair) -> Pair:
        """The upper word of the lower words' product comes from a function; short factors need none."""
        exact = product_range(left, right)
        low = any_word(chain("*", left.low.expr, right.low.expr), UNSIGNED)
        if exact is not None and exact.within(INT):
            made = self.to.words.signed(self.simple(Value(low.expr, exact)))
            high = constant(0) if exact.low >= 0 else Value(chain(">>", made.expr, number(31)), Range(-1, 0))
            return Pair(made, high, exact)
        one, other = self.simple(left.low), self.simple(right.low)
        upper, lower = [self.simple(part.high) if part.high.known is None else part.high for part in (left, right)]
        made_high = self.to.calls.helper("wide_product", [one, other])
        high_expr = made_high.expr
        for factor, part in ((one, lower), (other, upper)):
            high_expr = signed_part(high_expr, factor.expr, part)
        return Pair(any_word(chain("*", one.expr, other.expr), UNSIGNED), any_word(high_expr))

    def quotient(self, sign: str, left: Pair, right: Pair, kind: Integer) -> Pair:
        name = "wide_quotient_signed" if kind.signed else "wide_quotient"
        low = self.to.calls.helper(name, [left.low, left.high, right.low, right.high])
        if sign == "/":
            return Pair(low, self.to.calls.helper_word(HIGH))
        return Pair(self.to.calls.helper_word(REST_LOW), self.to.calls.helper_word(REST_HIGH))

    def shifted(self, sign: str, left: Pair, by: Value, kind: Integer) -> Pair:
        """A shift, by a number that is known or by a function."""
        if by.known is None:
            name = "wide_left" if sign == "<<" else "wide_right_signed" if kind.signed else "wide_right"
            low = self.to.calls.helper(name, [left.low, left.high, by])
            return Pair(low, self.to.calls.helper_word(HIGH))
        count = by.known % 64
        if count == 0:
            return left
        if sign == "<<":
            return self.shifted_left(left, count)
        return self.shifted_right(left, count, kind)

    def shifted_left(self, left: Pair, count: int) -> Pair:
        if count >= 32:
            return Pair(constant(0, UNSIGNED), any_word(chain("<<", left.low.expr, number(count - 32))))
        low = self.simple(left.low)
        down = chain(">>", as_unsigned(low), number(32 - count))
        high = chain("|", chain("<<", left.high.expr, number(count)), down)
        return Pair(any_word(chain("<<", low.expr, number(count)), UNSIGNED), any_word(high))

    def shifted_right(self, left: Pair, count: int, kind: Integer) -> Pair:
        high = self.simple(left.high) if left.high.known is None else left.high
        shown = self.to.words.signed(high).expr if kind.signed else as_unsigned(high)
        if count >= 32:
            low = any_word(chain(">>", shown, number(count - 32)), UNSIGNED)
            return Pair(low, any_word(chain(">>", shown, number(31))) if kind.signed else constant(0))
        down = chain(">>", as_unsigned(left.low), number(count))
        low = any_word(chain("|", down, chain("<<", high.expr, number(32 - count))), UNSIGNED)
        return Pair(low, any_word(chain(">>", shown, number(count))))

    def compared(self, expression: Compare) -> Value:
        """A comparison: the upper words decide, and the lower ones where those are equal."""
        kind, sign = expression.left.type, expression.sign
        assert isinstance(kind, Integer)
        left, right = self.both(expression.left, expression.right)
        if sign in ("==", "!="):
            joined = "&&" if sign == "==" else "||"
            low = chain(sign, left.low.expr, right.low.expr)
            return truth(chain(joined, low, chain(sign, left.high.expr, right.high.expr)))
        if sign in (">", "<="):
            left, right = right, left
        high_kind = INT if kind.signed else UNSIGNED
        upper = [Value(part.high.expr, full(high_kind)) for part in (left, right)]
        one, other = self.to.words.alike(self.simple(upper[0]), self.simple(upper[1]), high_kind)
        first = chain("<", one, other)
        same = chain("==", one, other)
        less = chain("||", first, chain("&&", same, self.less(left.low, right.low)))
        return truth(less if sign in ("<", ">") else sign_before("!", less))

    def held(self, pair: Pair) -> Pair:
        """A pair in variables, which nothing changes."""
        return Pair(self.to.builder.fixed(pair.low), self.to.builder.fixed(pair.high))

    def fresh_spot(self, kind: Integer) -> NameSpot:
        """Two temporaries for a value of 64 bits."""
        builder = self.to.builder
        return NameSpot((builder.temporary(True), builder.temporary(not kind.signed)), kind)


def product_range(left: Pair, right: Pair) -> Range | None:
    """The range of a product whose factors are numbers of 32 bits."""
    return None if left.exact is None or right.exact is None else product(left.exact, right.exact)


def signed_part(high: Expr, factor: Expr, upper: Value) -> Expr:
    """The upper word of a product, and what the upper word of one factor adds."""
    if upper.known == 0:
        return high
    if upper.known == -1:
        return chain("-", high, factor)
    if upper.range.inside(-1, 0):
        return chain("-", high, chain("&", factor, upper.expr))
    return chain("+", high, chain("*", factor, upper.expr))
