"""The variables and arrays outside functions: their names and their first values."""

from __future__ import annotations

from .context import Context, leaf_names
from .kinds import INT, Array, cells, is_wide
from .regions import HomeKind, Memory
from .subset import Name, Outer
from .told import Refused
from .tree import (
    AddressOf,
    Const,
    Convert,
    Decay,
    Deref,
    Expression,
    Initial,
    Member,
    PointerMove,
    Ref,
    Storage,
    Variable,
)

# Arrays that the platform has, with their lengths.
PLATFORM = {"shared": 4096, "comm": 512}
REPORTED = ("in", "out")


def declare_outers(context: Context) -> None:
    """Gives all lasting variables and all arrays their names and first values."""
    for memory in context.layout.memories:
        name_memory(context, memory)
    for variable in context.regions.used:
        if variable.storage.lasting and context.layout.homes[variable].kind is HomeKind.SCALARS:
            declare_scalars(context, variable)
    for memory in context.layout.memories:
        if not is_platform(memory):
            values = [0] * memory.length if any(variable.initial for variable in memory.objects) else []
            for variable in memory.objects:
                if variable.storage.lasting:
                    fill(context, values, memory.base[variable], variable)
            context.outers.append(Outer(memory.name, memory.unsigned, memory.length, values, memory.objects[0].at))


def is_platform(memory: Memory) -> bool:
    """An array that the platform has, which the program names alone."""
    first = memory.objects[0]
    own = len(memory.objects) == 1 and first.storage is Storage.GLOBAL and not first.initial
    return own and first.type == Array(INT, PLATFORM.get(first.name, -1))


def name_memory(context: Context, memory: Memory) -> None:
    """The name of an array: that of its only object, or one of its own."""
    first = memory.objects[0]
    reported = next((found for found in memory.objects if is_reported(found)), None)
    if reported is not None:
        if len(memory.objects) > 1 or memory.null:
            text = (
                f"`{reported.name}` has to be an array of its own, and a pointer reaches it and others, or none:"
                f" copy its words"
            )
            raise Refused(reported.at, text)
        memory.name = reported.name
    elif is_platform(memory):
        memory.name = first.name
    elif len(memory.objects) == 1 and first.storage is Storage.GLOBAL:
        memory.name = context.names.fresh(first.name)
    else:
        place = first.owner.name if first.owner is not None and len(memory.objects) == 1 else "memory"
        memory.name = context.names.fresh(f"{place}_{first.name}")


def is_reported(variable: Variable) -> bool:
    """The array `in`, which takes the input, or `out`, which the report shows."""
    return variable.storage is Storage.GLOBAL and variable.name in REPORTED and isinstance(variable.type, Array)


def declare_scalars(context: Context, variable: Variable) -> None:
    """A lasting variable of its own: a variable of the text for each of its words."""
    wanted = variable.name if variable.owner is None else f"{variable.owner.name}_{variable.name}"
    names = list(leaf_names(variable.type, wanted))
    values = [0] * len(names)
    fill(context, values, 0, variable)
    made = []
    for local, value in zip(names, values, strict=True):
        name = context.names.fresh(local.name)
        context.outers.append(Outer(name, local.unsigned, None, [value], variable.at))
        made.append(Name(name, local.unsigned))
    context.outer_names[variable] = tuple(made)


def fill(context: Context, values: list[int], base: int, variable: Variable) -> None:
    """Puts the first values of a variable where they stand."""
    for item in variable.initial:
        for at, word in enumerate(words_of(context, item)):
            values[base + item.word + at] = word


def words_of(context: Context, item: Initial) -> list[int]:
    """The words of a first value, which is a constant or an address."""
    value = item.value
    if isinstance(value, Const):
        return [value.value, value.value >> 32] if is_wide(item.type) else [value.value]
    return [address(context, value)]


def address(context: Context, pointer: Expression) -> int:
    """The index of a place that the text tells."""
    match pointer:
        case Const(_, _, 0):
            return 0
        case Decay(_, _, target) | AddressOf(_, _, target):
            return offset(context, target)
        case PointerMove(kind, _, sign, inner, Const(_, _, count)):
            by = cells(kind.to) * count
            return address(context, inner) + (by if sign == "+" else -by)
        case Convert(_, _, operand):
            return address(context, operand)
    raise Refused(pointer.at, "a first value outside functions is a constant: set it at the begin of `main`")


def offset(context: Context, target: Expression) -> int:
    """The index at which a place begins."""
    match target:
        case Ref(_, _, variable) if context.layout.homes[variable].memory is not None:
            memory = context.layout.homes[variable].memory
            assert memory is not None
            return memory.base[variable]
        case Member(_, _, record, member):
            return offset(context, record) + member.word
        case Deref(_, _, pointer):
            return address(context, pointer)
    raise Refused(target.at, "a first value outside functions is a constant: set it at the begin of `main`")
