"""Which objects one pointer may reach, by unification, and where each variable then lives.

Objects that one pointer may reach share an array of the lowered text, and a pointer is an index into it. An object
that is alone in its region keeps an array of its own, and a variable whose address nobody takes stays a variable.
"""

from __future__ import annotations

from dataclasses import dataclass, field
from enum import Enum

from .calls import CallOrder
from .expressions import is_null
from .kinds import Array, CType, Integer, Pointer, Record, Void, cells, leaves, shown
from .told import Notes, Place, Refused

from .tree import (
    AddressOf, Assign, Block, Call, Comma, Compare, Conditional, Const, Convert, Decay, Deref, Expression,
    FunctionText, If, Loop, Member, PointerGap, PointerMove, Ref, Return, Statement, Step, Switch, Update, Variable,
    expressions_in, walk,
)  # fmt: skip


@dataclass(eq=False)
class Region:
    """What one pointer may reach. `up` leads to the region that this one was joined with."""

    up: Region | None = None
    points: Region | None = None
    objects: list[Variable] = field(default_factory=list)
    null: bool = False
    cast: Place | None = None
    accesses: list[tuple[CType, Place]] = field(default_factory=list)


def root(region: Region) -> Region:
    """The region that stands for all that were joined."""
    while region.up is not None:
        region = region.up
    return region


def target_region(region: Region) -> Region:
    """What the pointers in a region may reach."""
    region = root(region)
    if region.points is None:
        region.points = Region()
    return root(region.points)


def join(one: Region, other: Region) -> None:
    """Two regions become one, and so do those that their pointers reach."""
    waiting = [(one, other)]
    while waiting:
        first, second = waiting.pop()
        first, second = root(first), root(second)
        if first is second:
            continue
        second.up = first
        first.objects += second.objects
        first.accesses += second.accesses
        first.null = first.null or second.null
        first.cast = first.cast or second.cast
        if second.points is not None:
            if first.points is not None:
                waiting.append((first.points, second.points))
            else:
                first.points = second.points


class Regions:
    """The regions of a program."""

    def __init__(self) -> None:
        self.of_variable: dict[Variable, Region] = {}
        self.of_result: dict[FunctionText, Region] = {}
        self.used: list[Variable] = []
        self.used_set: set[Variable] = set()

    def node(self, variable: Variable) -> Region:
        """The region in which a variable stands."""
        if variable not in self.of_variable:
            made = Region(objects=[variable])
            self.of_variable[variable] = made
        return root(self.of_variable[variable])

    def result(self, function: FunctionText) -> Region:
        """A region for what a function gives."""
        return root(self.of_result.setdefault(function, Region()))

    def use(self, variable: Variable) -> None:
        """A variable is in use, and with it what its first value names."""
        if variable in self.used_set:
            return
        self.used_set.add(variable)
        self.used.append(variable)
        if variable.storage.lasting:
            for item in variable.initial:
                self.visit(item.value)
        self.begin(variable)

    def begin(self, variable: Variable) -> None:
        """What flows into a variable at its beginning."""
        pointers = {word for word, kind in leaves(variable.type) if isinstance(kind, Pointer)}
        for item in variable.initial:
            pointers.discard(item.word)
            if isinstance(item.type, Pointer):
                self.flow(target_region(self.node(variable)), item.value)
            elif isinstance(item.type, Record):
                pointers -= {item.word + word for word, _ in leaves(item.type)}
                join(target_region(self.node(variable)), target_region(self.place(item.value)))
        if pointers and (variable.storage.lasting or variable.initial):
            target_region(self.node(variable)).null = True

    def visit_function(self, function: FunctionText) -> None:
        """What flows in a function."""
        for parameter in function.parameters:
            self.use(parameter)
        assert function.body is not None
        for expression in expressions_in(function.body):
            self.visit(expression)
        for variable in function.locals:
            if variable.initial:
                self.use(variable)
        self.visit_returns(function, function.body)

    def visit_returns(self, function: FunctionText, statement: Statement) -> None:
        for found in returns_in(statement):
            if found.value is None:
                continue
            if isinstance(function.type.result, Pointer):
                self.flow(target_region(self.result(function)), found.value)
            elif isinstance(function.type.result, Record):
                join(target_region(self.result(function)), target_region(self.place(found.value)))

    def visit(self, expression: Expression) -> None:
        """What flows in an expression."""
        for part in walk(expression):
            match part:
                case Ref():
                    self.use(part.variable)
                case Assign(Pointer(), _, target, value):
                    self.flow(target_region(self.place(target)), value)
                case Assign(Record(), _, target, value):
                    join(target_region(self.place(target)), target_region(self.place(value)))
                case Compare(_, _, _, left, right) | PointerGap(_, _, left, right) if isinstance(left.type, Pointer):
                    if not is_null(left) and not is_null(right):
                        join(self.target(left), self.target(right))
                case Conditional(Pointer()):
                    self.target(part)
                case Conditional(Record(), _, _, then, other):
                    join(target_region(self.place(then)), target_region(self.place(other)))
                case Call():
                    self.visit_call(part)
                case Convert(Pointer() as kind, at, operand) if isinstance(operand.type, Pointer):
                    if alike(kind.to) != alike(operand.type.to):
                        region = self.target(operand)
                        region.cast = region.cast or at
                case Deref(kind, at, pointer):
                    self.target(pointer).accesses.append((kind, at))

    def visit_call(self, call: Call) -> None:
        if call.function.body is None:
            return
        for value, parameter in zip(call.arguments, call.function.parameters, strict=True):
            if isinstance(parameter.type, Pointer):
                self.flow(target_region(self.node(parameter)), value)
            elif isinstance(parameter.type, Record):
                join(target_region(self.node(parameter)), target_region(self.place(value)))

    def flow(self, region: Region, value: Expression) -> None:
        """A pointer's value may be this one."""
        join(region, self.target(value))

    def target(self, value: Expression) -> Region:
        """The region that a pointer reaches."""
        match value:
            case Ref() | Deref() | Member():
                return target_region(self.place(value))
            case Decay(_, _, array):
                return self.place(array)
            case AddressOf(_, _, target):
                return self.place(target)
            case Step(_, _, target) | Assign(_, _, target) | Update(_, _, _, target):
                return self.target(target)
            case PointerMove(_, _, _, pointer):
                return self.target(pointer)
            case Convert(_, _, operand) if isinstance(operand.type, Pointer):
                return self.target(operand)
            case Conditional(_, _, _, then, other):
                join(self.target(then), self.target(other))
                return self.target(then)
            case Call(_, _, function):
                return target_region(self.result(function))
            case Comma(_, _, _, last):
                return self.target(last)
            case Const():
                return Region(null=True)
        raise Refused(value.at, "this pointer can't be followed")

    def place(self, target: Expression) -> Region:
        """The region in which a value stands."""
        match target:
            case Ref(_, _, variable):
                return self.node(variable)
            case Deref(_, _, pointer):
                return self.target(pointer)
            case Member(_, _, record):
                return self.place(record)
            case Call(_, _, function):
                return self.result(function)
            case Assign(_, _, inner):
                return self.place(inner)
            case Conditional(_, _, _, then, _):
                return self.place(then)
            case Comma(_, _, _, last):
                return self.place(last)
        raise Refused(target.at, "this value has no place in memory")


def returns_in(statement: Statement) -> list[Return]:
    """The returns of a statement and of all below it."""
    match statement:
        case Return():
            return [statement]
        case Block():
            return [found for inner in statement.statements for found in returns_in(inner)]
        case If():
            return returns_in(statement.then) + (returns_in(statement.other) if statement.other else [])
        case Loop():
            return returns_in(statement.body)
        case Switch():
            return [found for arm in statement.arms for inner in arm.statements for found in returns_in(inner)]
    return []


def alike(kind: CType) -> object:
    """What two kinds of elements must have in common so that a pointer may be used for both."""
    while isinstance(kind, Array):
        kind = kind.of
    if isinstance(kind, Integer):
        return (kind.bits, kind.boolean) if kind.bits > 31 else (kind.bits, kind.boolean, kind.signed)
    return kind


class HomeKind(Enum):
    """How a variable stands in the lowered text."""

    SCALARS = "variables"
    MEMORY = "a part of an array"


@dataclass(eq=False)
class Memory:
    """An array of the lowered text, for the objects of a region."""

    objects: list[Variable]
    null: bool
    name: str = ""
    length: int = 0
    unsigned: bool = False
    loose: bool = False
    base: dict[Variable, int] = field(default_factory=dict)


@dataclass
class Home:
    """Where a variable lives: in variables of its own, or in an array from its base on."""

    kind: HomeKind
    memory: Memory | None = None


class Layout:
    """The arrays of the lowered text, and where each variable lives."""

    def __init__(self, regions: Regions, order: CallOrder, notes: Notes) -> None:
        self.regions = regions
        self.homes: dict[Variable, Home] = {}
        self.memories: list[Memory] = []
        self.of_region: dict[Region, Memory] = {}
        self.order = order
        for variable in regions.used:
            if in_scalars(variable):
                self.homes[variable] = Home(HomeKind.SCALARS)
            else:
                self.put(variable)
        for region, memory in self.of_region.items():
            self.arrange(region, memory, notes)

    def put(self, variable: Variable) -> None:
        """A variable goes to the array of its region."""
        region = self.regions.node(variable)
        if region not in self.of_region:
            self.of_region[region] = Memory([], region.null)
            self.memories.append(self.of_region[region])
        self.of_region[region].objects.append(variable)
        self.homes[variable] = Home(HomeKind.MEMORY, self.of_region[region])

    def arrange(self, region: Region, memory: Memory, notes: Notes) -> None:
        """Where each object of an array begins. Word 0 stays free where a pointer may be null."""
        check_casts(region, memory)
        at = 1 if memory.null else 0
        for variable in memory.objects:
            memory.base[variable] = at
            at += cells(variable.type) * self.order.levels(variable.owner if not variable.storage.lasting else None)
        memory.length = max(at, 1)
        kinds = [kind for variable in memory.objects for _, kind in first_leaves(variable.type)]
        memory.unsigned = all(isinstance(kind, Integer) and not kind.signed and kind.bits >= 32 for kind in kinds)
        if len(memory.objects) > 1:
            names = ", ".join(f"`{variable.name}`" for variable in memory.objects[:6])
            more = ", .." if len(memory.objects) > 6 else ""
            text = (
                f"{names}{more} share one array, since one pointer may reach them: past the end of one stands the next"
            )
            notes.tell(memory.objects[0].at, text)

    def memory_of(self, region: Region, at: Place) -> Memory:
        """The array of a region; a pointer that points to nothing reaches none."""
        found = self.of_region.get(root(region))
        if found is None:
            raise Refused(at, "this pointer points to nothing that the program has")
        return found

    def has_memory(self, region: Region) -> bool:
        return root(region) in self.of_region


def first_leaves(kind: CType) -> list[tuple[int, CType]]:
    """The leaves of a type, of one element where it is an array."""
    while isinstance(kind, Array):
        kind = kind.of
    if isinstance(kind, Record) and not kind.union:
        return [leaf for member in kind.fields or [] for leaf in first_leaves(member.type)]
    return list(leaves(kind))


def in_scalars(variable: Variable) -> bool:
    """A variable of its own: nobody takes its address, and no part has an index."""
    return not variable.addressed and flat(variable.type)


def flat(kind: CType) -> bool:
    """A number, a pointer, or a record of those."""
    if isinstance(kind, Record):
        return not kind.union and all(flat(member.type) for member in kind.fields or [])
    return isinstance(kind, Integer | Pointer)


def check_casts(region: Region, memory: Memory) -> None:
    """A cast pointer reaches elements of one kind alone, so that an index means the same for all."""
    if region.cast is None:
        return
    kinds = {alike(variable.type) for variable in memory.objects}
    kinds |= {alike(kind) for kind, _ in region.accesses if not isinstance(kind, Void)}
    sizes = {kind[:2] if isinstance(kind, tuple) else kind for kind in kinds}
    if len(sizes) > 1:
        names = sorted({shown(strip(variable.type)) for variable in memory.objects})
        names += sorted({shown(strip(kind)) for kind, _ in region.accesses} - set(names))
        text = f"a cast looks at elements of one size as at another ({', '.join(names)}): use shifts and masks"
        raise Refused(region.cast, text)
    memory.loose = len(kinds) > 1


def strip(kind: CType) -> CType:
    while isinstance(kind, Array):
        kind = kind.of
    return kind
