"""Calls: arguments from left to right, words that do not fit through outer variables, levels of recursion."""

from __future__ import annotations

from functools import partial
from typing import TYPE_CHECKING

from .context import Called
from .kinds import UNSIGNED, Integer, Record, is_wide, leaves
from .ranges import full
from .regions import Memory
from .spots import CellSpot, NameSpot, Spot, held, leaf_range, part_of, with_held
from .subset import MOST_PARAMETERS, ONE, Element, Expr, Invoke, Iterations, Name, Number, names_in
from .told import Refused
from .tree import Call, Const, Expression, walk
from .words import Pair, Value, any_word, constant

if TYPE_CHECKING:
    from .evaluator import Evaluator


OPEN_CALLS = "C leaves open which of these calls comes first, and both set the same: here it is the left one"


class Calls:
    """Makes the calls of a function."""

    def __init__(self, evaluator: Evaluator) -> None:
        self.to = evaluator

    # The words of a result.

    def word(self, call: Call) -> Value:
        """A result of one word, in a temporary."""
        unsigned = isinstance(call.type, Integer) and not call.type.signed and call.type.bits >= 32
        target = self.to.builder.temporary(unsigned)
        self.invoke(call, target)
        known = self.to.context.intervals.result(call.function)
        return Value(target, known or leaf_range(call.type))

    def pair(self, call: Call) -> Pair:
        """A result of 64 bits: the lower word, and the upper one in an outer variable."""
        low = self.to.builder.temporary(True)
        called = self.invoke(call, low)
        return Pair(Value(low, full(UNSIGNED)), any_word(called.more_results[0]))

    def record(self, call: Call) -> list[Name]:
        """A record as result: its first word, and the others in outer variables."""
        first = self.to.builder.temporary(False)
        called = self.invoke(call, first)
        return [first, *called.more_results]

    def into(self, call: Call, spot: Spot) -> Spot:
        """A call whose result of one word goes to a place."""
        values, arguments = self.to.builder.after(held(spot), lambda: self.arguments(call), ordered=False)
        spot = with_held(spot, values)
        if isinstance(spot, NameSpot):
            self.call(call, arguments, spot.names[0])
        elif isinstance(spot, CellSpot):
            spot = self.steady(call, spot)
            self.call(call, arguments, Element(spot.memory.name, spot.index.expr, spot.memory.unsigned))
        else:
            found = self.to.builder.temporary(False)
            self.call(call, arguments, found)
            self.to.spots.store(spot, any_word(found))
        return spot

    def steady(self, call: Call, spot: CellSpot) -> CellSpot:
        """A place whose index the called function does not change."""
        name = self.level_of(call)
        writes = set() if name is None else self.to.context.effects.get(name.name, set())
        if names_in(spot.index.expr) & writes:
            return CellSpot(spot.memory, self.to.builder.fixed(spot.index), spot.type)
        return spot

    def effect(self, call: Call) -> None:
        """A call whose result nobody wants."""
        self.call(call, self.arguments(call), None)

    def invoke(self, call: Call, target: Name) -> Called:
        return self.call(call, self.arguments(call), target)

    # The call itself.

    def arguments(self, call: Call) -> list[Value]:
        """The words of the arguments."""
        found: list[Value] = []
        self.check_order(call.arguments)
        for argument in call.arguments:
            found, more = self.to.builder.after(found, partial(self.words_of, argument), ordered=False)
            found += more
        return found

    def check_order(self, parts: list[Expression]) -> None:
        """Warns where calls in two parts set the same, and C leaves open which comes first."""
        before: set[str] = set()
        for part in parts:
            sets: set[str] = set()
            for call in (found for found in walk(part) if isinstance(found, Call)):
                called = self.level_of(call)
                sets |= self.to.context.effects.get(called.name, set()) if called is not None else set()
            if sets & before:
                self.to.context.notes.warn(parts[0].at, OPEN_CALLS)
            before |= sets

    def words_of(self, argument: Expression) -> list[Value]:
        """The words of an argument."""
        if isinstance(argument.type, Record):
            spot = self.to.spots.spot(argument)
            return [found for word, kind in leaves(argument.type) for found in self.leaf(spot, word, kind)]
        if is_wide(argument.type):
            return self.to.pair(argument).values
        return [self.to.word(argument)]

    def leaf(self, spot: Spot, word: int, kind: object) -> list[Value]:
        """The words of a part of a record."""
        assert not isinstance(kind, Record)
        part = part_of(spot, word, 4 * word, kind)  # type: ignore[arg-type]
        if is_wide(part.type):
            return self.to.spots.load_pair(part).values
        return [self.to.spots.load(part)]

    def level_of(self, call: Call) -> Called | None:
        """The function that is called, at its level; none where the recursion goes deeper than was told."""
        order, function = self.to.context.order, call.function
        level = 0
        ring = order.ring.get(function)
        if ring is not None and ring == order.ring.get(self.to.function):
            level = self.to.level + (1 if order.head.get(ring) is function else 0)
        return self.to.context.called.get((function, level))

    def call(self, call: Call, arguments: list[Value], target: Name | Element | None) -> Called:
        """The call, with what could be seen before it done."""
        builder = self.to.builder
        if call.function.body is None:
            self.send(call, arguments, target)
            return Called("send", [], [], "void", [])
        called = self.level_of(call)
        arguments = builder.settle_for_call(arguments)
        if called is None:
            self.too_deep(target)
            return self.to.context.called[call.function, 0]
        for name, value in zip(called.extra, arguments[MOST_PARAMETERS:], strict=True):
            builder.assign(name, value.expr)
        words = [value.expr for value in arguments[:MOST_PARAMETERS]]
        builder.emit(Invoke(builder.at, called.name, words, target))
        return called

    def too_deep(self, target: Name | Element | None) -> None:
        """A call deeper than was told: a loop whose bound does not do raises the flag."""
        builder = self.to.builder
        builder.emit(Iterations(builder.at, ONE, [], 0, 0, builder.label()))
        if isinstance(target, Name):
            builder.assign(target, Number(0))
        elif target is not None:
            index = Value(target.index, full(UNSIGNED))
            memory = Memory([], False, target.array, unsigned=target.unsigned)
            self.to.spots.store(CellSpot(memory, index, UNSIGNED), constant(0))

    def send(self, call: Call, arguments: list[Value], target: Name | Element | None) -> None:
        """The word `send` of the subset."""
        if target is not None or len(arguments) != 4 or not isinstance(call.arguments[0], Const):
            raise Refused(call.at, "`send` has four arguments, the first a number, and no result")
        words: list[Expr] = [value.expr for value in self.to.builder.settle_for_call(arguments)]
        self.to.builder.emit(Invoke(self.to.builder.at, "send", words))

    # Functions for 64 bits.

    def helper(self, name: str, arguments: list[Value]) -> Value:
        """Calls a function for 64 bits; its result is a lower word."""
        builder, called = self.to.builder, self.to.context.helper(name)
        arguments = builder.settle_for_call(arguments)
        target = builder.temporary(True)
        builder.emit(Invoke(builder.at, called.name, [value.expr for value in arguments], target))
        return Value(target, full(UNSIGNED))

    def helper_word(self, name: str) -> Value:
        """The outer variable in which a function for 64 bits leaves a word."""
        return Value(self.to.context.helper_name(name), full(UNSIGNED))
