"""The types of C with 32-bit `int`, `long` and pointers, and where their parts stand in words.

A number of at most 32 bits takes one word, one of 64 bits two, a pointer one. The size in bytes is what `sizeof` says.
"""

from __future__ import annotations

from collections.abc import Iterator
from dataclasses import dataclass
from typing import TypeAlias

from .told import Place, Refused


@dataclass(frozen=True)
class Integer:
    """A type of whole numbers: how many bits count, whether it has a sign, and its bytes."""

    bits: int
    signed: bool
    size: int
    boolean: bool = False

    @property
    def low(self) -> int:
        return -(1 << (self.bits - 1)) if self.signed else 0

    @property
    def high(self) -> int:
        return (1 << (self.bits - 1)) - 1 if self.signed else (1 << self.bits) - 1

    def wrapped(self, value: int) -> int:
        """The number of this type that a number is turned into."""
        if self.boolean:
            return int(value != 0)
        value &= (1 << self.bits) - 1
        return value - (1 << self.bits) if self.signed and value > self.high else value


@dataclass(frozen=True)
class Pointer:
    """A pointer to a type."""

    to: CType


@dataclass(frozen=True)
class Array:
    """An array of elements; without a length where the text has none yet."""

    of: CType
    length: int | None


@dataclass(frozen=True)
class Void:
    """No value."""


@dataclass(frozen=True)
class Signature:
    """The type of a function."""

    result: CType
    parameters: tuple[CType, ...]


@dataclass
class Field:
    """A member of a record: its name, its type, its first word and its first byte."""

    name: str
    type: CType
    word: int = 0
    byte: int = 0


@dataclass(eq=False)
class Record:
    """A struct or a union. Without fields it is only named yet."""

    name: str
    union: bool
    fields: list[Field] | None = None
    bit_fields: bool = False

    def field_named(self, name: str, place: Place) -> Field:
        """The member of this name."""
        for member in self.fields or []:
            if member.name == name:
                return member
        raise Refused(place, f"`{name}` is no member of `{self.name}`")


CType: TypeAlias = Integer | Pointer | Array | Void | Signature | Record

INT = Integer(32, True, 4)
UNSIGNED = Integer(32, False, 4)
CHAR = Integer(8, True, 1)
BYTE = Integer(8, False, 1)
SHORT = Integer(16, True, 2)
USHORT = Integer(16, False, 2)
BOOL = Integer(1, False, 1, True)
LONG_LONG = Integer(64, True, 8)
UNSIGNED_LONG_LONG = Integer(64, False, 8)
VOID = Void()


def is_wide(kind: CType) -> bool:
    """A number of 64 bits, which takes two words."""
    return isinstance(kind, Integer) and kind.bits > 32


def cells(kind: CType) -> int:
    """How many words a value takes."""
    match kind:
        case Integer():
            return 2 if kind.bits > 32 else 1
        case Pointer() | Void():
            return 1
        case Array(of, length):
            return cells(of) * (length or 0)
        case Record(union=True):
            return max(1, -(-size(kind) // 4))
        case Record():
            return sum(cells(member.type) for member in kind.fields or [])
    return 0


def size(kind: CType) -> int:
    """What `sizeof` says, in bytes."""
    match kind:
        case Integer():
            return kind.size
        case Pointer():
            return 4
        case Array(of, length):
            return size(of) * (length or 0)
        case Record(union=True):
            most = max((size(member.type) for member in kind.fields or []), default=0)
            return -(-most // alignment(kind)) * alignment(kind)
        case Record():
            end = 0
            for member in kind.fields or []:
                end = -(-end // alignment(member.type)) * alignment(member.type) + size(member.type)
            return -(-end // alignment(kind)) * alignment(kind)
    return 1


def alignment(kind: CType) -> int:
    """What the address of a value is a multiple of; 8 bytes stand on any word, as on the 32-bit machines of gcc."""
    match kind:
        case Array(of, _):
            return alignment(of)
        case Record():
            return max((alignment(member.type) for member in kind.fields or []), default=1)
    return min(size(kind), 4)


def place_fields(record: Record) -> None:
    """Says where each member stands, in words and in bytes."""
    word = byte = 0
    for member in record.fields or []:
        step = alignment(member.type)
        byte = 0 if record.union else -(-byte // step) * step
        member.word, member.byte = 0 if record.union else word, byte
        word, byte = word + cells(member.type), byte + size(member.type)


def leaves(kind: CType, offset: int = 0) -> Iterator[tuple[int, CType]]:
    """The numbers and pointers of a value, each with its first word. A union counts as words."""
    match kind:
        case Array(of, length):
            for at in range(length or 0):
                yield from leaves(of, offset + at * cells(of))
        case Record(union=True):
            for at in range(cells(kind)):
                yield offset + at, UNSIGNED
        case Record():
            for member in kind.fields or []:
                yield from leaves(member.type, offset + member.word)
        case _:
            yield offset, kind


def promoted(kind: CType) -> CType:
    """What arithmetic makes of a short type."""
    if isinstance(kind, Integer) and kind.bits < 32:
        return INT
    return kind


def common(first: CType, second: CType) -> Integer:
    """The type in which two numbers are worked on."""
    one, other = promoted(first), promoted(second)
    assert isinstance(one, Integer) and isinstance(other, Integer)
    if one.bits != other.bits:
        return one if one.bits > other.bits else other
    return one if not one.signed else other


def shown(kind: CType) -> str:
    """A type as people write it."""
    match kind:
        case Integer(boolean=True):
            return "_Bool"
        case Integer():
            name = {8: "char", 16: "short", 32: "int", 64: "long long"}.get(kind.bits, f"a field of {kind.bits} bits")
            return name if kind.signed else f"unsigned {name}"
        case Pointer(to):
            return f"{shown(to)} *"
        case Array(of, length):
            return f"{shown(of)}[{length or ''}]"
        case Record():
            return ("union " if kind.union else "struct ") + kind.name
        case Void():
            return "void"
    return "a function"
