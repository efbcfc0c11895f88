"""Places that can be read and set: variables, elements of arrays, and bytes inside the words of a union."""

from __future__ import annotations

from dataclasses import dataclass, replace
from functools import partial
from typing import TYPE_CHECKING, TypeAlias

from .kinds import INT, UNSIGNED, Array, CType, Integer, Pointer, Record, cells, leaves, shown, size
from .ranges import Range, full
from .regions import HomeKind, Memory
from .subset import Element, Name, Put, number
from .told import Refused
from .tree import Assign, Call, Comma, Conditional, Decay, Deref, Expression, Member, PointerMove, Ref, Variable
from .words import Pair, Value, chain, constant, moved

if TYPE_CHECKING:
    from .evaluator import Evaluator


@dataclass(frozen=True)
class NameSpot:
    """A value in variables of its own."""

    names: tuple[Name, ...]
    type: CType
    range: Range | None = None


@dataclass(frozen=True)
class CellSpot:
    """A value in an array, from an index on."""

    memory: Memory
    index: Value
    type: CType


@dataclass(frozen=True)
class UnionSpot:
    """A value inside a union: so many bytes behind the word of an index."""

    memory: Memory
    index: Value
    byte: Value
    type: CType


Spot: TypeAlias = NameSpot | CellSpot | UnionSpot


def held(spot: Spot) -> list[Value]:
    """The values that say where a place is."""
    match spot:
        case CellSpot():
            return [spot.index]
        case UnionSpot():
            return [spot.index, spot.byte]
    return []


def with_held(spot: Spot, values: list[Value]) -> Spot:
    """The same place by other values."""
    match spot:
        case CellSpot():
            return replace(spot, index=values[0])
        case UnionSpot():
            return replace(spot, index=values[0], byte=values[1])
    return spot


def plus(value: Value, by: int) -> Value:
    """An index and some words."""
    if value.known is not None:
        return constant(value.known + by)
    return Value(moved(value.expr, by), full(INT)) if by else value


def leaf_range(kind: CType) -> Range:
    """What a word of a type can be."""
    return full(kind) if isinstance(kind, Integer) and kind.bits <= 32 else full(INT)


class Spots:
    """Finds, reads and sets places."""

    def __init__(self, evaluator: Evaluator) -> None:
        self.to = evaluator

    def spot(self, target: Expression) -> Spot:
        """The place of an expression."""
        match target:
            case Ref(kind, _, variable):
                return self.variable_spot(variable, kind)
            case Deref():
                return self.pointed(target)
            case Member(kind, _, record, member):
                return part_of(self.spot(record), member.word, member.byte, kind)
            case Call(kind):
                return NameSpot(tuple(self.to.calls.record(target)), kind)
            case Assign(_, _, inner):
                self.to.assigning.assign(target, used=False)
                return self.spot(inner)
            case Comma(_, _, first, last):
                self.to.effect(first)
                self.to.builder.settled([])
                return self.spot(last)
            case Conditional():
                return self.to.assigning.chosen_record(target)
        raise Refused(target.at, "this has no place in memory")

    def variable_spot(self, variable: Variable, kind: CType) -> Spot:
        """The place of a variable."""
        home = self.to.context.layout.homes[variable]
        if home.kind is HomeKind.SCALARS:
            return NameSpot(self.to.names_of(variable), kind, self.to.context.intervals.of(variable))
        assert home.memory is not None
        base = home.memory.base[variable]
        if not variable.storage.lasting:
            base += self.to.level * cells(variable.type)
        return CellSpot(home.memory, constant(base), kind)

    def pointed(self, target: Deref) -> Spot:
        """What a pointer points to."""
        array = target.pointer
        if isinstance(array, PointerMove) and isinstance(array.pointer, Decay) and in_bytes(array.pointer.array):
            return self.byte_element(array, array.pointer.array, target.type)
        if isinstance(array, Decay) and in_bytes(array.array):
            return replace(self.spot(array.array), type=target.type)
        region = self.to.context.regions.target(target.pointer)
        memory = self.to.context.layout.memory_of(region, target.at)
        return CellSpot(memory, self.to.word(target.pointer), target.type)

    def byte_element(self, move: PointerMove, array: Expression, kind: CType) -> Spot:
        """An element of an array inside a union."""
        base = self.spot(array)
        values, count = self.to.builder.after(held(base), partial(self.to.words.count, move.count), ordered=False)
        base = with_held(base, values)
        assert isinstance(base, UnionSpot)
        by = size(kind) if move.sign == "+" else -size(kind)
        if count.known is not None and base.byte.known is not None:
            byte = constant(base.byte.known + count.known * by)
        else:
            byte = Value(chain("+", base.byte.expr, chain("*", count.expr, number(by))), full(INT))
        return UnionSpot(base.memory, base.index, byte, kind)

    def address(self, target: Expression) -> Value:
        """The index of a place, as a pointer has it."""
        spot = self.spot(target)
        if isinstance(spot, CellSpot):
            return spot.index
        if isinstance(spot, UnionSpot) and spot.byte.known is not None and whole_words(spot.type):
            return plus(spot.index, spot.byte.known // 4)
        raise Refused(
            target.at, f"a pointer to `{shown(target.type)}` inside a union: use its name, or shifts and masks"
        )

    # Reading and setting.

    def load(self, spot: Spot) -> Value:
        """The word of a place."""
        kind = spot.type
        match spot:
            case NameSpot(names, _, known):
                return Value(names[0], known or leaf_range(kind))
            case CellSpot(memory, index, _):
                found = Value(Element(memory.name, index.expr, memory.unsigned), leaf_range(kind))
                if memory.loose and isinstance(kind, Integer) and kind.bits < 32:
                    return self.to.words.narrowed(Value(found.expr, full(INT)), kind)
                return found
        return self.load_bytes(spot)

    def load_bytes(self, spot: UnionSpot) -> Value:
        """A word inside a union, or a part of one."""
        kind = spot.type
        index, shift = word_and_shift(spot)
        word = Element(spot.memory.name, index.expr, spot.memory.unsigned)
        if not isinstance(kind, Integer) or kind.bits >= 32:
            return Value(word, leaf_range(kind))
        return self.to.words.narrowed(Value(chain(">>", word, shift.expr), full(UNSIGNED)), kind)

    def load_pair(self, spot: Spot) -> Pair:
        """The two words of a place of 64 bits."""
        low, high = self.halves(spot)
        return Pair(Value(self.load(low).expr, full(UNSIGNED)), Value(self.load(high).expr, self.load(high).range))

    def halves(self, spot: Spot) -> tuple[Spot, Spot]:
        """The places of both words of 64 bits."""
        kind = spot.type
        upper = INT if isinstance(kind, Integer) and kind.signed else UNSIGNED
        match spot:
            case NameSpot(names):
                return NameSpot(names[:1], UNSIGNED), NameSpot(names[1:2], upper)
            case CellSpot(memory, index):
                return CellSpot(memory, index, UNSIGNED), CellSpot(memory, plus(index, 1), upper)
        assert isinstance(spot, UnionSpot)
        further = (
            Value(moved(spot.byte.expr, 4), full(INT)) if spot.byte.known is None else constant(spot.byte.known + 4)
        )
        return replace(spot, type=UNSIGNED), replace(spot, byte=further, type=upper)

    def store(self, spot: Spot, value: Value) -> None:
        """Sets the word of a place."""
        builder = self.to.builder
        match spot:
            case NameSpot(names):
                builder.assign(names[0], value.expr)
            case CellSpot(memory, index):
                builder.emit(Put(builder.at, Element(memory.name, index.expr, memory.unsigned), value.expr))
            case UnionSpot():
                self.store_bytes(spot, value)

    def store_bytes(self, spot: UnionSpot, value: Value) -> None:
        """Sets a word inside a union, or a part of one."""
        kind, builder = spot.type, self.to.builder
        index, shift = word_and_shift(spot)
        word = Element(spot.memory.name, index.expr, spot.memory.unsigned)
        if isinstance(kind, Integer) and kind.bits < 32:
            mask = number((1 << kind.bits) - 1)
            kept = chain("&", word, number(~(mask.word << shift.known))) if shift.known is not None else None
            if kept is None:
                hole = self.to.words.inverted(chain("<<", mask, shift.expr))
                kept = chain("&", word, hole)
            part = chain("<<", chain("&", value.expr, mask), shift.expr)
            value = Value(chain("|", kept, part), full(UNSIGNED))
        builder.emit(Put(builder.at, word, value.expr))

    def store_pair(self, spot: Spot, pair: Pair) -> None:
        """Sets both words of a place of 64 bits. Neither may read what the other one sets."""
        low, high = self.halves(spot)
        builder = self.to.builder
        kept, _ = builder.after([pair.high], lambda: self.store(low, pair.low))
        self.store(high, kept[0])

    def copy(self, target: Spot, source: Spot) -> None:
        """Sets a record to another one, word by word."""
        kind = target.type
        for word, leaf in leaves(kind):
            self.store(part_of(target, word, 4 * word, leaf), self.load(part_of(source, word, 4 * word, leaf)))
            if isinstance(leaf, Integer) and leaf.bits > 32:
                upper = plus_word(target, word), plus_word(source, word)
                self.store(upper[0], self.load(upper[1]))


def plus_word(spot: Spot, word: int) -> Spot:
    """The second word of 64 bits that begin at a word of a record."""
    return part_of(spot, word + 1, 4 * word + 4, INT)


def word_and_shift(spot: UnionSpot) -> tuple[Value, Value]:
    """The index of the word in which bytes stand, and how far up in it, as little-endian machines have it."""
    if spot.byte.known is not None:
        return plus(spot.index, spot.byte.known // 4), constant(spot.byte.known % 4 * 8)
    byte = spot.byte.expr
    index = chain("+", chain(">>", byte, number(2)), spot.index.expr)
    return Value(index, full(INT)), Value(chain("<<", chain("&", byte, number(3)), number(3)), Range(0, 24))


def part_of(spot: Spot, word: int, byte: int, kind: CType) -> Spot:
    """A part of a record, from a word on, or in a union from a byte on."""
    match spot:
        case NameSpot(names):
            return NameSpot(names[word : word + cells(kind)], kind)
        case CellSpot(memory, index, Record(union=True)):
            return UnionSpot(memory, index, constant(byte), kind)
        case CellSpot(memory, index):
            return CellSpot(memory, plus(index, word), kind)
    assert isinstance(spot, UnionSpot)
    known = spot.byte.known
    further = constant(known + byte) if known is not None else Value(moved(spot.byte.expr, byte), full(INT))
    return UnionSpot(spot.memory, spot.index, further, kind)


def in_bytes(target: Expression) -> bool:
    """The value stands inside a union, where bytes count."""
    while isinstance(target, Member):
        if isinstance(target.record.type, Record) and target.record.type.union:
            return True
        target = target.record
    if (
        isinstance(target, Deref)
        and isinstance(target.pointer, PointerMove)
        and isinstance(target.pointer.pointer, Decay)
    ):
        return in_bytes(target.pointer.pointer.array)
    return isinstance(target, Deref) and isinstance(target.pointer, Decay) and in_bytes(target.pointer.array)


def whole_words(kind: CType) -> bool:
    """All parts of a value take whole words."""
    while isinstance(kind, Array):
        kind = kind.of
    if isinstance(kind, Record):
        return not kind.union and all(whole_words(member.type) for member in kind.fields or [])
    return isinstance(kind, Pointer) or (isinstance(kind, Integer) and kind.size >= 4)
