"""What all functions of a lowered text share: names, homes of variables, and how each function is called."""

from __future__ import annotations

from collections.abc import Iterator
from dataclasses import dataclass, field
from itertools import count

from .builder import NameTable
from .calls import CallOrder
from .intervals import Intervals
from .kinds import CType, Integer, Record, Void
from .regions import Layout, Regions, flat
from .scopes import Options
from .subset import MOST_PARAMETERS, Function, Local, Name, Outer
from .told import Notes, Refused
from .tree import FunctionText, Variable


def is_unsigned(kind: CType) -> bool:
    """A word of this type is `unsigned` in the lowered text. Short types without a sign fit into `int`."""
    return isinstance(kind, Integer) and not kind.signed and kind.bits >= 32


def leaf_names(kind: CType, name: str) -> Iterator[Local]:
    """The names of the words of a value that stands in variables."""
    match kind:
        case Record():
            for member in kind.fields or []:
                yield from leaf_names(member.type, f"{name}_{member.name}")
        case Integer(bits=64):
            yield Local(f"{name}_low", True)
            yield Local(f"{name}_high", not kind.signed)
        case _:
            yield Local(name, is_unsigned(kind))


@dataclass
class Called:
    """How a function is called: its name, the words that it takes and gives, and those that go through outer
    variables.
    """

    name: str
    parameters: list[Local]
    extra: list[Name]
    result: str
    more_results: list[Name]


@dataclass
class Context:
    """What is known of the whole program."""

    options: Options
    notes: Notes
    regions: Regions
    layout: Layout
    order: CallOrder
    intervals: Intervals
    names: NameTable = field(default_factory=NameTable)
    outers: list[Outer] = field(default_factory=list)
    functions: list[Function] = field(default_factory=list)
    effects: dict[str, set[str]] = field(default_factory=dict)
    called: dict[tuple[FunctionText, int], Called] = field(default_factory=dict)
    outer_names: dict[Variable, tuple[Name, ...]] = field(default_factory=dict)
    labels: count[int] = field(default_factory=lambda: count(1))

    def outer(self, name: str, unsigned: bool, function: FunctionText | Variable) -> Name:
        """A new variable outside functions."""
        made = self.names.fresh(name)
        self.outers.append(Outer(made, unsigned, None, [], function.at))
        return Name(made, unsigned)

    def helper(self, name: str) -> Called:
        """A function for 64 bits, by its name in C."""
        return next(
            called for (function, _), called in self.called.items() if function.name == name and function.helper
        )

    def helper_name(self, name: str) -> Name:
        """An outer variable of the functions for 64 bits."""
        return next(
            names[0] for variable, names in self.outer_names.items() if variable.name == name and variable.helper
        )

    def levels(self, function: FunctionText) -> range:
        return range(self.order.levels(function))

    def declare(self, function: FunctionText) -> None:
        """Gives a function its names, one for each level of its recursion."""
        words = [local for parameter in function.parameters for local in leaf_names(parameter.type, parameter.name)]
        extra = [
            self.outer(f"{function.name}_{local.name}", local.unsigned, function) for local in words[MOST_PARAMETERS:]
        ]
        kind, results = function.type.result, list(leaf_names(function.type.result, function.name))
        if isinstance(kind, Record) and not flat(kind):
            raise Refused(function.at, "a result with parts of parts: give the function a pointer to where it goes")
        more = [self.outer(f"{local.name}_given", local.unsigned, function) for local in results[1:]]
        result = "void" if isinstance(kind, Void) else "unsigned" if results and results[0].unsigned else "int"
        levels = self.levels(function)
        for level in levels:
            main = function.name == "main"
            wanted = function.name if len(levels) == 1 else f"{function.name}_{level + 1}"
            name = "main" if main else self.names.fresh(wanted)
            self.called[function, level] = Called(name, words[:MOST_PARAMETERS], extra, "int" if main else result, more)
