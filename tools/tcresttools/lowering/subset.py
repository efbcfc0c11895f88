"""The text of the subset as a tree: expressions without effects, statements, and what both weigh.

Depth, weight and frame are those that docs/SUBSET_C.md defines. Beside the statements of the subset there are blocks
with a label that can be left from inside (`Labelled`, `Leave`) and loops that can be gone on with (`GoOn`); `exits`
turns them into `break`, `continue` and flags.
"""

from __future__ import annotations

from collections.abc import Iterator
from dataclasses import dataclass, field, replace
from typing import TypeAlias

from .told import Place

LEVELS = {"||": 1, "&&": 2, "|": 3, "^": 4, "&": 5, "==": 6, "!=": 6, "<": 7, ">": 7, "<=": 7, ">=": 7,
          "<<": 8, ">>": 8,
          "+": 9, "-": 9, "*": 10, "/": 10, "%": 10}  # fmt: skip
WORD = 1 << 32
MOST_DEPTH = 12
MOST_FRAME = 120
MOST_FUNCTION = 4096
MOST_TASK = 32768
MOST_FUNCTIONS = 16
MOST_PARAMETERS = 6


@dataclass(frozen=True)
class Number:
    """A number as its word."""

    word: int
    unsigned: bool = False

    @property
    def value(self) -> int:
        """The number with its sign, where it is an `int`."""
        return self.word if self.unsigned or self.word < WORD // 2 else self.word - WORD


@dataclass(frozen=True)
class Name:
    """A variable."""

    name: str
    unsigned: bool = False


@dataclass(frozen=True)
class Element:
    """An element of an array."""

    array: str
    index: Expr
    unsigned: bool = False


@dataclass(frozen=True)
class Sign:
    """`-`, `~` or `!` before an operand."""

    sign: str
    operand: Expr

    @property
    def unsigned(self) -> bool:
        return self.sign != "!" and self.operand.unsigned


@dataclass(frozen=True)
class Chain:
    """An operator between two operands."""

    sign: str
    left: Expr
    right: Expr

    @property
    def unsigned(self) -> bool:
        if LEVELS[self.sign] in (1, 2, 6, 7):
            return False
        return self.left.unsigned or (self.right.unsigned and LEVELS[self.sign] != 8)


Expr: TypeAlias = Number | Name | Element | Sign | Chain
ZERO, ONE = Number(0), Number(1)


def number(value: int, unsigned: bool = False) -> Number:
    """The number of a value, which is taken modulo 2^32."""
    return Number(value % WORD, unsigned)


def names_in(expr: Expr) -> set[str]:
    """The variables and arrays that an expression reads."""
    found: set[str] = set()
    waiting = [expr]
    while waiting:
        part = waiting.pop()
        if isinstance(part, Name):
            found.add(part.name)
        elif isinstance(part, Element):
            found.add(part.array)
            waiting.append(part.index)
        elif isinstance(part, Sign):
            waiting.append(part.operand)
        elif isinstance(part, Chain):
            waiting += (part.left, part.right)
    return found


def rebuilt(expr: Expr, names: dict[str, str]) -> Expr:
    """An expression with other names."""
    match expr:
        case Name(name, unsigned):
            return Name(names.get(name, name), unsigned)
        case Element(array, index, unsigned):
            return Element(names.get(array, array), rebuilt(index, names), unsigned)
        case Sign(sign, operand):
            return Sign(sign, rebuilt(operand, names))
        case Chain(sign, left, right):
            return Chain(sign, rebuilt(left, names), rebuilt(right, names))
    return expr


def printed_value(expr: Number) -> Expr:
    """A number as it is written: a negative one has a sign, and the least of all is a difference."""
    if expr.unsigned or expr.word < WORD // 2:
        return expr
    if expr.word == WORD // 2:
        return Chain("-", Sign("-", Number(WORD // 2 - 1)), ONE)
    return Sign("-", Number(WORD - expr.word))


def depth(expr: Expr) -> int:
    """How many operands wait at once while an expression is worked out."""
    match expr:
        case Number() | Name():
            written = printed_value(expr) if isinstance(expr, Number) else expr
            return 1 if written is expr or isinstance(written, Sign) else depth(written)
        case Element():
            return depth(expr.index)
        case Sign():
            return depth(expr.operand)
        case Chain():
            return max(depth(expr.left), 1 + depth(expr.right))


def weight(expr: Expr) -> int:
    """The most words that the code of an expression takes."""
    match expr:
        case Number():
            written = printed_value(expr)
            return 4 if written is expr else weight(written)
        case Name():
            return 4
        case Element():
            return 16 + weight(expr.index)
        case Sign():
            return 6 + weight(expr.operand)
        case Chain(sign, left, right):
            own = 10 if sign == "*" else 64 if sign in "/%" else 8
            return own + weight(left) + weight(right)


# Statements.


@dataclass(frozen=True)
class Local:
    """A variable of a function."""

    name: str
    unsigned: bool


@dataclass(eq=False)
class Set:
    """`x = e;`, or with its declaration `int x = e;`."""

    at: Place
    target: Name
    value: Expr
    declares: bool = False


@dataclass(eq=False)
class Put:
    """`a[i] = e;`."""

    at: Place
    target: Element
    value: Expr


@dataclass(eq=False)
class Invoke:
    """A call, alone or as a whole right side."""

    at: Place
    function: str
    arguments: list[Expr]
    target: Name | Element | None = None
    declares: bool = False


@dataclass(eq=False)
class Declaration:
    """A declaration without a value."""

    at: Place
    local: Local


@dataclass(eq=False)
class Branch:
    """`if` and `else`."""

    at: Place
    condition: Expr
    then: list[Stmt]
    other: list[Stmt] = field(default_factory=list)


@dataclass(eq=False)
class Iterations:
    """A loop. With a first assignment and a step it is a `for`, else a `while`."""

    at: Place
    condition: Expr
    body: list[Stmt]
    least: int
    most: int
    label: int
    first: Set | None = None
    step: Set | None = None


@dataclass(eq=False)
class Labelled:
    """A block that can be left from inside."""

    at: Place
    label: int
    body: list[Stmt]


@dataclass(eq=False)
class Leave:
    """Leaves the loop or the block of a label."""

    at: Place
    label: int


@dataclass(eq=False)
class GoOn:
    """Begins the next iteration of the loop of a label."""

    at: Place
    label: int


@dataclass(eq=False)
class GiveBack:
    """`return`."""

    at: Place
    value: Expr | None


Stmt: TypeAlias = Set | Put | Invoke | Declaration | Branch | Iterations | Labelled | Leave | GoOn | GiveBack


@dataclass
class Function:
    """A function of the lowered text. Its temporaries are set before they are read, in each statement of the source."""

    name: str
    at: Place
    result: str
    parameters: list[Local]
    locals: list[Local]
    body: list[Stmt]
    temporaries: frozenset[str] = frozenset()


@dataclass
class Outer:
    """A variable or an array outside functions."""

    name: str
    unsigned: bool
    length: int | None
    values: list[int]
    at: Place


@dataclass
class Text:
    """A whole text of the subset."""

    outers: list[Outer]
    functions: list[Function]


def parts(statement: Stmt) -> list[list[Stmt]]:
    """The lists of statements right below one."""
    match statement:
        case Branch():
            return [statement.then, statement.other]
        case Iterations() | Labelled():
            return [statement.body]
    return []


def each(statements: list[Stmt]) -> Iterator[Stmt]:
    """All statements of a list and below it."""
    for statement in statements:
        yield statement
        if isinstance(statement, Iterations):
            yield from (head for head in (statement.first, statement.step) if head is not None)
        for inner in parts(statement):
            yield from each(inner)


def expressions_of(statement: Stmt) -> list[Expr]:
    """The expressions of a statement itself. An element that is set counts with its index alone."""
    match statement:
        case Set():
            return [statement.value]
        case Put():
            return [statement.value, statement.target.index]
        case Invoke():
            index = [statement.target.index] if isinstance(statement.target, Element) else []
            return [*statement.arguments, *index]
        case Branch() | Iterations():
            return [statement.condition]
        case GiveBack():
            return [statement.value] if statement.value is not None else []
    return []


def written_by(statement: Stmt) -> str | None:
    """The variable or the array that a statement itself sets."""
    match statement:
        case Set():
            return statement.target.name
        case Put():
            return statement.target.array
        case Invoke(target=Name(name, _)):
            return name
        case Invoke(target=Element(array, _, _)):
            return array
        case Declaration():
            return statement.local.name
    return None


def own_mentions(statement: Stmt) -> set[str]:
    """The names that a statement itself mentions, and not those below it."""
    found: set[str] = set()
    for expr in expressions_of(statement):
        found |= names_in(expr)
    written = written_by(statement)
    if written is not None:
        found.add(written)
    if isinstance(statement, Iterations):
        for head in (statement.first, statement.step):
            if head is not None:
                found |= own_mentions(head)
    return found


class Mentions:
    """All names that statements and those below them mention, each found once."""

    def __init__(self) -> None:
        self.known: dict[int, set[str]] = {}

    def of(self, statement: Stmt) -> set[str]:
        found = self.known.get(id(statement))
        if found is None:
            found = own_mentions(statement)
            for part in parts(statement):
                for inner in part:
                    found |= self.of(inner)
            self.known[id(statement)] = found
        return found


def mentioned(statement: Stmt) -> set[str]:
    """All names that a statement and those below it mention."""
    return Mentions().of(statement)


def statement_weight(statement: Stmt) -> int:
    """The most words that the code of a statement takes."""
    match statement:
        case Set(value=value):
            return 12 + weight(value)
        case Put(target=target, value=value):
            return 28 + weight(target.index) + weight(value)
        case Invoke(arguments=arguments, target=target):
            own = 48 + sum(6 + weight(argument) for argument in arguments)
            if isinstance(target, Element):
                return own + 28 + weight(target.index)
            return own + (12 if target is not None else 0)
        case Declaration():
            return 16
        case Branch(condition=condition, then=then, other=other):
            return 24 + weight(condition) + weight_of(then) + weight_of(other)
        case Iterations(condition=condition, body=body, first=first, step=step):
            heads = sum(statement_weight(head) for head in (first, step) if head is not None)
            return 48 + 2 * weight(condition) + weight_of(body) + heads
        case Labelled(body=body):
            return 40 + weight_of(body)
        case GiveBack(value=value):
            return 16 + (weight(value) if value is not None else 0)
    return 16


def weight_of(statements: list[Stmt]) -> int:
    return sum(statement_weight(statement) for statement in statements)


def function_weight(function: Function) -> int:
    """The weight of a function whose variables are declared in their places, or all at its begin."""
    declared = {local.name for local in function.locals} - declared_in(function.body)
    return 64 + weight_of(function.body) + 16 * len(declared)


def declared_in(statements: list[Stmt]) -> set[str]:
    """The variables that statements declare."""
    found = set()
    for inner in each(statements):
        if isinstance(inner, Declaration):
            found.add(inner.local.name)
        elif isinstance(inner, Set) and inner.declares:
            found.add(inner.target.name)
        elif isinstance(inner, Invoke) and inner.declares and isinstance(inner.target, Name):
            found.add(inner.target.name)
    return found


def rooms(statements: list[Stmt]) -> int:
    """The words of a frame for loops and arms."""
    return sum(2 if isinstance(one, Iterations) else 1 if isinstance(one, Branch) else 0 for one in each(statements))


def declarations(statements: list[Stmt]) -> int:
    """How many declarations there are."""
    return sum(
        isinstance(inner, Declaration) or (isinstance(inner, Set | Invoke) and inner.declares)
        for inner in each(statements)
    )


def frame(function: Function) -> int:
    """The words that a function keeps on the stack."""
    declared = {local.name for local in function.locals} - declared_in(function.body)
    own = len(function.parameters) + len(declared) + declarations(function.body)
    return 24 + own + rooms(function.body)


def text_weight(text: Text) -> int:
    return sum(function_weight(function) for function in text.functions)


def completes(statements: list[Stmt]) -> bool:
    """Whether the end of these statements may be reached."""
    if not statements:
        return True
    last = statements[-1]
    if isinstance(last, Leave | GoOn | GiveBack):
        return False
    if isinstance(last, Branch):
        return completes(last.then) or completes(last.other)
    return True


def negated(condition: Expr) -> Expr:
    """The opposite of a condition."""
    opposite = {"==": "!=", "!=": "==", "<": ">=", ">=": "<", ">": "<=", "<=": ">"}
    if isinstance(condition, Number):
        return number(int(condition.word == 0))
    if isinstance(condition, Sign) and condition.sign == "!":
        return condition.operand
    if isinstance(condition, Chain) and condition.sign in opposite:
        return replace(condition, sign=opposite[condition.sign])
    return Sign("!", condition)


def copied(statements: list[Stmt], names: dict[str, str] | None = None) -> list[Stmt]:
    """Statements once more, with other names where some are given."""
    return [copy_of(statement, names or {}) for statement in statements]


def copy_of(statement: Stmt, names: dict[str, str]) -> Stmt:
    """A statement once more."""
    match statement:
        case Set(at, target, value, declares):
            return Set(at, Name(names.get(target.name, target.name), target.unsigned), rebuilt(value, names), declares)
        case Put(at, target, value):
            return Put(at, element(target, names), rebuilt(value, names))
        case Invoke(at, function, arguments, target, declares):
            made = [rebuilt(argument, names) for argument in arguments]
            return Invoke(at, function, made, None if target is None else target_of(target, names), declares)
        case Declaration(at, local):
            return Declaration(at, replace(local, name=names.get(local.name, local.name)))
        case Branch(at, condition, then, other):
            return Branch(at, rebuilt(condition, names), copied(then, names), copied(other, names))
        case Iterations(at, condition, body, least, most, label, first, step):
            heads = [copy_of(head, names) if head is not None else None for head in (first, step)]
            assert all(head is None or isinstance(head, Set) for head in heads)
            made_iterations = Iterations(at, rebuilt(condition, names), copied(body, names), least, most, label)
            made_iterations.first = heads[0] if isinstance(heads[0], Set) else None
            made_iterations.step = heads[1] if isinstance(heads[1], Set) else None
            return made_iterations
        case Labelled(at, label, body):
            return Labelled(at, label, copied(body, names))
        case GiveBack(at, value):
            return GiveBack(at, None if value is None else rebuilt(value, names))
    return replace(statement)


def element(target: Element, names: dict[str, str]) -> Element:
    found = rebuilt(target, names)
    assert isinstance(found, Element)
    return found


def target_of(target: Name | Element, names: dict[str, str]) -> Name | Element:
    found = rebuilt(target, names)
    assert isinstance(found, Name | Element)
    return found
