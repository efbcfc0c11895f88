"""The names of a program: scopes of a file, and what its files share."""

from __future__ import annotations

from dataclasses import dataclass, field
from typing import Any

from .kinds import CType, Record
from .told import Notes, Place
from .tree import Call, Const, FunctionText, Variable


@dataclass
class Options:
    """What the command line chooses: the bits of `long`, and bounds and depths that are told there."""

    long_bits: int = 32
    bounds: dict[tuple[str, int], int] = field(default_factory=dict)
    depths: dict[str, int] = field(default_factory=dict)


Meaning = Variable | FunctionText | Const


@dataclass
class Scope:
    """The names of a block."""

    names: dict[str, Meaning] = field(default_factory=dict)
    types: dict[str, CType] = field(default_factory=dict)
    records: dict[str, Record] = field(default_factory=dict)


@dataclass
class Shared:
    """What the files of a program share: names with external linkage, all functions and all lasting variables."""

    options: Options
    notes: Notes
    names: dict[str, Variable | FunctionText] = field(default_factory=dict)
    functions: list[FunctionText] = field(default_factory=list)
    globals: list[Variable] = field(default_factory=list)
    calls: list[Call] = field(default_factory=list)
    undeclared: list[Call] = field(default_factory=list)
    # The records of headers, which several files read: by name, kind and place.
    records: dict[tuple[str, bool, str], Record] = field(default_factory=dict)


class Names:
    """The scopes that are open at a place of a file."""

    def __init__(self, shared: Shared) -> None:
        self.shared = shared
        self.scopes = [Scope()]
        self.function: FunctionText | None = None

    @property
    def inner(self) -> Scope:
        return self.scopes[-1]

    @property
    def outer(self) -> Scope:
        return self.scopes[0]

    def open(self) -> None:
        self.scopes.append(Scope())

    def close(self) -> None:
        self.scopes.pop()

    def meaning(self, name: str) -> Meaning | None:
        """What a name means here."""
        return next((scope.names[name] for scope in reversed(self.scopes) if name in scope.names), None)

    def type_named(self, name: str) -> CType | None:
        """The type that a name stands for here."""
        return next((scope.types[name] for scope in reversed(self.scopes) if name in scope.types), None)

    def record_named(self, name: str) -> Record | None:
        """The struct or union of a name."""
        return next((scope.records[name] for scope in reversed(self.scopes) if name in scope.records), None)


def place_of(node: Any) -> Place:
    """The line of a node of pycparser; where it has none, that of its first part with one."""
    coord = getattr(node, "coord", None)
    if coord is not None:
        return Place(str(coord.file), int(coord.line))
    inner = (place_of(child) for _, child in getattr(node, "children", tuple)())
    return next((place for place in inner if place.line), Place("", 0))


def kind_of(node: Any) -> str:
    """The class of a node of pycparser."""
    return type(node).__name__
