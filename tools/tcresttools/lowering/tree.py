"""The tree of a program, with a type at each expression and each implied conversion written out."""

from __future__ import annotations

from dataclasses import dataclass, field
from enum import Enum
from typing import TypeAlias

from .kinds import CType, Field, Integer, Pointer, Signature
from .told import Place


class Storage(Enum):
    """Where a variable lives."""

    GLOBAL = "outside functions"
    STATIC = "static in a function"
    LOCAL = "local"
    PARAMETER = "parameter"

    @property
    def lasting(self) -> bool:
        return self in (Storage.GLOBAL, Storage.STATIC)


@dataclass(eq=False)
class Variable:
    """A variable. Those of the functions for 64 bits are helpers."""

    name: str
    type: CType
    storage: Storage
    at: Place
    owner: FunctionText | None = None
    initial: list[Initial] = field(default_factory=list)
    addressed: bool = False
    helper: bool = False


@dataclass
class Initial:
    """A first value: the word at which it stands in the variable, its type, and the value."""

    word: int
    type: CType
    value: Expression


@dataclass(eq=False)
class FunctionText:
    """A function with its text; without a body it is declared alone."""

    name: str
    type: Signature
    at: Place
    parameters: list[Variable] = field(default_factory=list)
    locals: list[Variable] = field(default_factory=list)
    body: Block | None = None
    calls: list[Call] = field(default_factory=list)
    helper: bool = False


# Expressions.


@dataclass(eq=False)
class Const:
    """A number; of a pointer type it is the null pointer."""

    type: CType
    at: Place
    value: int


@dataclass(eq=False)
class Ref:
    """A variable."""

    type: CType
    at: Place
    variable: Variable


@dataclass(eq=False)
class Deref:
    """What a pointer points to. `a[i]` is one of these as well."""

    type: CType
    at: Place
    pointer: Expression


@dataclass(eq=False)
class Member:
    """A member of a record."""

    type: CType
    at: Place
    record: Expression
    member: Field


@dataclass(eq=False)
class Decay:
    """An array as a pointer to its first element."""

    type: Pointer
    at: Place
    array: Expression


@dataclass(eq=False)
class AddressOf:
    """`&x`."""

    type: Pointer
    at: Place
    target: Expression


@dataclass(eq=False)
class Unary:
    """`-`, `~` or `!` before a number."""

    type: CType
    at: Place
    sign: str
    operand: Expression


@dataclass(eq=False)
class Binary:
    """Arithmetic on two numbers of the type of the result; the right side of a shift has its own type."""

    type: Integer
    at: Place
    sign: str
    left: Expression
    right: Expression


@dataclass(eq=False)
class Compare:
    """A comparison of two numbers of one type, or of two pointers."""

    type: CType
    at: Place
    sign: str
    left: Expression
    right: Expression


@dataclass(eq=False)
class Logic:
    """`&&` or `||`."""

    type: CType
    at: Place
    sign: str
    left: Expression
    right: Expression


@dataclass(eq=False)
class Conditional:
    """`c ? a : b`."""

    type: CType
    at: Place
    condition: Expression
    then: Expression
    other: Expression


@dataclass(eq=False)
class Assign:
    """`x = v`, with v of the type of x."""

    type: CType
    at: Place
    target: Expression
    value: Expression


@dataclass(eq=False)
class Update:
    """`x op= v`: x is read once, turned into `work`, worked on, and turned back."""

    type: CType
    at: Place
    sign: str
    target: Expression
    value: Expression
    work: CType


@dataclass(eq=False)
class Step:
    """`x++` and its kind. Before: the value is that before the step."""

    type: CType
    at: Place
    target: Expression
    down: bool
    before: bool


@dataclass(eq=False)
class PointerMove:
    """A pointer and a number of elements, added or subtracted."""

    type: Pointer
    at: Place
    sign: str
    pointer: Expression
    count: Expression


@dataclass(eq=False)
class PointerGap:
    """How many elements lie between two pointers."""

    type: CType
    at: Place
    left: Expression
    right: Expression


@dataclass(eq=False)
class Call:
    """A call of a function."""

    type: CType
    at: Place
    function: FunctionText
    arguments: list[Expression]


@dataclass(eq=False)
class Comma:
    """One expression after another."""

    type: CType
    at: Place
    first: Expression
    last: Expression


@dataclass(eq=False)
class Convert:
    """A value as one of another type."""

    type: CType
    at: Place
    operand: Expression


Expression: TypeAlias = (
    Const | Ref | Deref | Member | Decay | AddressOf | Unary | Binary | Compare | Logic | Conditional | Assign | Update
    | Step | PointerMove | PointerGap | Call | Comma | Convert
)  # fmt: skip


def operands(expression: Expression) -> list[Expression]:
    """The expressions right below one."""
    match expression:
        case Const() | Ref():
            return []
        case Deref():
            return [expression.pointer]
        case Member():
            return [expression.record]
        case Decay():
            return [expression.array]
        case AddressOf() | Step():
            return [expression.target]
        case Unary() | Convert():
            return [expression.operand]
        case Binary() | Compare() | Logic() | PointerGap():
            return [expression.left, expression.right]
        case Conditional():
            return [expression.condition, expression.then, expression.other]
        case Assign() | Update():
            return [expression.target, expression.value]
        case PointerMove():
            return [expression.pointer, expression.count]
        case Call():
            return expression.arguments
        case Comma():
            return [expression.first, expression.last]


# Statements.


@dataclass(frozen=True)
class Bound:
    """How often a loop iterates, at least and at most."""

    least: int
    most: int


@dataclass(eq=False)
class Do:
    """An expression as a statement."""

    at: Place
    expression: Expression


@dataclass(eq=False)
class Declare:
    """A local variable with what it begins with."""

    at: Place
    variable: Variable


@dataclass(eq=False)
class Block:
    """Statements in braces."""

    at: Place
    statements: list[Statement]


@dataclass(eq=False)
class If:
    at: Place
    condition: Expression
    then: Statement
    other: Statement | None


@dataclass(eq=False)
class Loop:
    """`while`, `do` and `for`."""

    at: Place
    begin: list[Statement]
    condition: Expression | None
    step: Expression | None
    body: Statement
    bound: Bound | None
    test_last: bool = False


@dataclass
class Arm:
    """A part of a switch: its labels, whether `default` is one of them, and its statements."""

    at: Place
    labels: list[int]
    default: bool
    statements: list[Statement]


@dataclass(eq=False)
class Switch:
    at: Place
    value: Expression
    arms: list[Arm]


@dataclass(eq=False)
class Break:
    at: Place


@dataclass(eq=False)
class Continue:
    at: Place


@dataclass(eq=False)
class Return:
    at: Place
    value: Expression | None


@dataclass(eq=False)
class Goto:
    at: Place
    label: str


@dataclass(eq=False)
class Label:
    at: Place
    name: str
    bound: Bound | None = None


Statement: TypeAlias = Do | Declare | Block | If | Loop | Switch | Break | Continue | Return | Goto | Label


def expressions_in(statement: Statement) -> list[Expression]:
    """The expressions of a statement and of all below it, in the order of the text."""
    match statement:
        case Do():
            return [statement.expression]
        case Declare():
            return [item.value for item in statement.variable.initial]
        case Block():
            return [found for inner in statement.statements for found in expressions_in(inner)]
        case If():
            other = expressions_in(statement.other) if statement.other else []
            return [statement.condition, *expressions_in(statement.then), *other]
        case Loop():
            begin = [found for inner in statement.begin for found in expressions_in(inner)]
            heads = [head for head in (statement.condition, statement.step) if head is not None]
            return [*begin, *heads, *expressions_in(statement.body)]
        case Switch():
            inner = [found for arm in statement.arms for line in arm.statements for found in expressions_in(line)]
            return [statement.value, *inner]
        case Return():
            return [statement.value] if statement.value is not None else []
    return []


def walk(expression: Expression) -> list[Expression]:
    """An expression and all below it."""
    return [expression, *(found for part in operands(expression) for found in walk(part))]


@dataclass
class Program:
    """All files of a program together."""

    functions: list[FunctionText]
    globals: list[Variable]
    main: FunctionText | None = None
