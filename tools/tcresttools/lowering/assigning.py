"""Assignments, steps, and values that are chosen by a condition."""

from __future__ import annotations

from collections.abc import Callable
from functools import partial
from typing import TYPE_CHECKING

from .expressions import folded
from .kinds import INT, CType, Integer, Pointer, Record, cells, is_wide
from .spots import CellSpot, NameSpot, Spot, held, with_held
from .subset import Expr, Set, Stmt, number, weight
from .tree import Assign, Call, Conditional, Convert, Expression, Step, Update
from .words import Pair, Value, any_word, chain, constant, moved, opposite, simple, truth

if TYPE_CHECKING:
    from .evaluator import Evaluator

HEAVY_INDEX = 16


class Assigning:
    """Makes what sets a place."""

    def __init__(self, evaluator: Evaluator) -> None:
        self.to = evaluator

    def assign(self, expression: Assign, used: bool) -> Value:
        """`x = v`."""
        spot = self.to.spots.spot(expression.target)
        if isinstance(expression.type, Record):
            self.copy(spot, expression.value)
            return constant(0)
        stored = self.into(spot, expression.value)
        if not used:
            return constant(0)
        return stored if stored is not None and simple(stored.expr) else self.to.spots.load(self.kept_spot)

    def copy(self, spot: Spot, value: Expression) -> None:
        """A record as a whole."""
        values, source = self.to.builder.after(held(spot), lambda: self.to.spots.spot(value), ordered=False)
        self.to.spots.copy(with_held(spot, values), source)

    def into(self, spot: Spot, value: Expression) -> Value | None:
        """Sets a place to the value of an expression; the value that was set, where it is at hand."""
        self.kept_spot = spot
        if isinstance(value, Call):
            self.kept_spot = self.to.calls.into(value, spot)
            return None
        steady = isinstance(spot, NameSpot) or (isinstance(spot, CellSpot) and spot.index.known is not None)
        if steady and (chosen := pushed_inside(value)) is not None and self.chosen_into(spot, chosen):
            return None
        values, found = self.to.builder.after(held(spot), lambda: self.to.word(value), ordered=False)
        self.kept_spot = with_held(spot, values)
        self.to.spots.store(self.kept_spot, found)
        return found

    # `c ? a : b`.

    def condition(self, expression: Conditional) -> Expr:
        """The condition, behind which everything before it is done."""
        found = any_word(self.to.words.condition(expression.condition))
        return self.to.builder.settled([found])[0].expr

    def chosen_into(self, spot: Spot, expression: Conditional) -> bool:
        """Sets a place in the two arms of a branch."""
        condition = self.condition(expression)
        arms = [self.arm(partial(self.into, spot, value)) for value in (expression.then, expression.other)]
        self.to.builder.branch(condition, *arms)
        self.kept_spot = spot
        return True

    def arm(self, make: Callable[[], object]) -> list[Stmt]:
        """The statements of an arm, with what waits at its end."""

        def whole() -> None:
            make()
            self.to.builder.settled([])

        return self.to.builder.block(whole)

    def chosen(self, expression: Conditional) -> Value:
        """`c ? a : b` as a word."""
        builder = self.to.builder
        condition = self.condition(expression)
        then, first = builder.capture(partial(self.to.settled_word, expression.then))
        other, second = builder.capture(partial(self.to.settled_word, expression.other))
        if not first and not second and (then.known, other.known) in ((0, 1), (1, 0)):
            return truth(chain("!=", condition, number(0)) if then.known else opposite(condition))
        unsigned = isinstance(expression.type, Integer) and not expression.type.signed
        made = builder.temporary(unsigned)
        first += builder.block(partial(builder.assign, made, then.expr))
        second += builder.block(partial(builder.assign, made, other.expr))
        builder.branch(condition, first, second)
        return Value(made, then.range.with_other(other.range))

    def chosen_pair(self, expression: Conditional) -> Pair:
        """`c ? a : b` of 64 bits."""
        condition = self.condition(expression)
        assert isinstance(expression.type, Integer)
        spot = self.to.pairs.fresh_spot(expression.type)
        arms = [self.arm(partial(self.pair_into, spot, value)) for value in (expression.then, expression.other)]
        self.to.builder.branch(condition, *arms)
        return self.to.spots.load_pair(spot)

    def pair_into(self, spot: Spot, value: Expression) -> None:
        self.to.spots.store_pair(spot, self.to.pair(value))

    def chosen_record(self, expression: Conditional) -> Spot:
        """`c ? a : b` of records, in variables of its own."""
        condition = self.condition(expression)
        spot = self.to.record_of_temporaries(expression.type)
        arms = [self.arm(partial(self.copy, spot, value)) for value in (expression.then, expression.other)]
        self.to.builder.branch(condition, *arms)
        return spot

    # `x op= v`, `x++`.

    def update(self, expression: Update, used: bool) -> Value:
        """`x op= v` of a word."""
        spot, kind = self.to.spots.spot(expression.target), expression.type
        if is_wide(expression.work):
            pair = self.wide_update(expression, spot)
            new = self.to.words.as_type(pair.low, kind)
        else:
            values, value = self.to.builder.after(held(spot), lambda: self.operand(expression), ordered=False)
            self.kept_spot = self.light(with_held(spot, values))
            new = self.updated(expression, self.to.spots.load(self.kept_spot), value)
        self.to.spots.store(self.kept_spot, new)
        return self.to.spots.load(self.kept_spot) if used else constant(0)

    def operand(self, expression: Update) -> Value:
        return self.to.words.count(expression.value)

    def updated(self, expression: Update, old: Value, value: Value) -> Value:
        """The new value of an update."""
        kind, work = expression.type, expression.work
        if isinstance(kind, Pointer):
            step = chain("*", value.expr, number(cells(kind.to)))
            return any_word(chain(expression.sign, old.expr, step))
        assert isinstance(work, Integer)
        old = self.to.words.as_type(old, work)
        return self.to.words.as_type(self.to.words.worked(expression.sign, old, value, work), kind)

    def light(self, spot: Spot) -> Spot:
        """A place that is named twice: what is heavy in its index is worked out once."""
        values = held(spot)
        if any(weight(value.expr) > HEAVY_INDEX for value in values):
            return with_held(spot, [self.to.builder.fixed(value) for value in values])
        return spot

    def wide_update(self, expression: Update, spot: Spot) -> Pair:
        """The new value of an update that is worked out in 64 bits."""
        builder, work = self.to.builder, expression.work
        assert isinstance(work, Integer)
        if expression.sign in ("<<", ">>"):
            values, by = builder.after(held(spot), lambda: self.to.words.count(expression.value), ordered=False)
            self.kept_spot = self.light(with_held(spot, values))
            return self.to.pairs.shifted(expression.sign, self.old_pair(expression), by, work)
        values, value = builder.after(held(spot), lambda: self.to.pair(expression.value), ordered=False)
        self.kept_spot = self.light(with_held(spot, values))
        return self.to.pairs.worked(expression.sign, self.old_pair(expression), value, work)

    def old_pair(self, expression: Update) -> Pair:
        """The value before an update, as one of 64 bits."""
        if is_wide(expression.type):
            return self.to.spots.load_pair(self.kept_spot)
        old = self.to.spots.load(self.kept_spot)
        if old.range.low >= 0:
            return Pair(old, constant(0), old.range)
        old = self.to.words.signed(self.to.pairs.simple(old))
        return Pair(old, any_word(chain(">>", old.expr, number(31))), old.range)

    def update_pair(self, expression: Update) -> Pair:
        """`x op= v` of 64 bits."""
        pair = self.wide_update(expression, self.to.spots.spot(expression.target))
        self.to.spots.store_pair(self.kept_spot, pair)
        return self.to.spots.load_pair(self.kept_spot)

    def assign_pair(self, expression: Assign) -> Pair:
        """`x = v` of 64 bits."""
        spot = self.to.spots.spot(expression.target)
        values, pair = self.to.builder.after(held(spot), lambda: self.to.pair(expression.value), ordered=False)
        spot = with_held(spot, values)
        self.to.spots.store_pair(spot, pair)
        return self.to.spots.load_pair(spot)

    def step(self, expression: Step, used: bool) -> Value:
        """`x++` and its kind, of a word."""
        spot, builder = self.to.spots.spot(expression.target), self.to.builder
        by = step_of(expression)
        whole = isinstance(expression.type, Pointer) or expression.type.bits == 32  # type: ignore[union-attr]
        if isinstance(spot, NameSpot) and whole:
            made = Set(builder.at, spot.names[0], moved(spot.names[0], by))
            if used and expression.before:
                builder.wait(made)
            else:
                builder.emit(made)
            return self.to.spots.load(spot)
        spot = self.light(spot)
        old = self.to.spots.load(spot)
        if used and expression.before:
            old = builder.fixed(old)
        kind = expression.type if whole else INT
        new = self.to.words.worked("+", old, constant(by), kind if isinstance(kind, Integer) else INT)
        self.to.spots.store(spot, self.to.words.as_type(new, expression.type))
        return old if expression.before or not used else self.to.spots.load(spot)

    def step_pair(self, expression: Step) -> Pair:
        """`x++` and its kind, of 64 bits."""
        spot = self.light(self.to.spots.spot(expression.target))
        old = self.to.pairs.held(self.to.spots.load_pair(spot))
        one = Pair(constant(1), constant(0), None)
        new = self.to.pairs.difference(old, one) if expression.down else self.to.pairs.sum(old, one)
        self.to.spots.store_pair(spot, new)
        return old if expression.before else self.to.spots.load_pair(spot)


def step_of(expression: Step) -> int:
    """By how much a step moves."""
    kind: CType = expression.type
    by = cells(kind.to) if isinstance(kind, Pointer) else 1
    return -by if expression.down else by


def pushed_inside(value: Expression) -> Conditional | None:
    """A choice whose arms are converted, for a choice that is converted; none where it is no choice."""
    if isinstance(value, Conditional):
        return value
    if isinstance(value, Convert) and isinstance(value.operand, Conditional) and not is_wide(value.operand.type):
        inner = value.operand
        arms = [folded(Convert(value.type, arm.at, arm)) for arm in (inner.then, inner.other)]
        return Conditional(value.type, value.at, inner.condition, *arms)
    return None
