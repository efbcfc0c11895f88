"""Makes one function of statements that are the same but for their numbers, where a text would be too heavy without
that.
"""

from __future__ import annotations

from collections import Counter
from dataclasses import dataclass, replace

from .builder import NameTable
from .declaring import first_set
from .exits import escapes

from .subset import (
    MOST_PARAMETERS, Branch, Chain, Element, Expr, Function, GiveBack, Invoke, Iterations, Local, Mentions, Name,
    Number, Put, Set, Sign, Stmt, Text, each, own_mentions, parts, weight_of,
)  # fmt: skip

LEAST_WEIGHT = 150
LEAST_COUNT = 3


@dataclass
class Shape:
    """What two statements must have in common: their text with numbers and own variables left out."""

    text: list[str]
    numbers: list[Number]
    names: dict[str, str]


class Shaper:
    """Reads the shape of a statement. Own variables are numbered in the order in which they are met."""

    def __init__(self, own: set[str]) -> None:
        self.own = own
        self.shape = Shape([], [], {})

    def name(self, name: str) -> None:
        if name in self.own:
            name = self.shape.names.setdefault(name, f"own{len(self.shape.names)}")
        self.shape.text.append(name)

    def expr(self, expr: Expr) -> None:
        match expr:
            case Number():
                self.shape.text.append("u" if expr.unsigned else "n")
                self.shape.numbers.append(expr)
            case Name(name, _):
                self.name(name)
            case Element(array, index, _):
                self.shape.text.append(f"{array}[")
                self.expr(index)
            case Sign(sign, operand):
                self.shape.text.append(f"sign {sign}")
                self.expr(operand)
            case Chain(sign, left, right):
                self.shape.text.append(f"chain {sign}")
                self.expr(left)
                self.expr(right)

    def statement(self, statement: Stmt) -> None:
        text = self.shape.text
        text.append(type(statement).__name__)
        match statement:
            case Set(_, target, value, _):
                self.expr(target)
                self.expr(value)
            case Put(_, target, value):
                self.expr(target)
                self.expr(value)
            case Invoke(_, function, arguments, target, _):
                text.append(f"{function} {len(arguments)}")
                for argument in arguments:
                    self.expr(argument)
                if target is not None:
                    self.expr(target)
            case Branch(_, condition, then, other):
                self.expr(condition)
                self.statements(then)
                self.statements(other)
            case Iterations():
                text.append(f"{statement.least} {statement.most}")
                for head in (statement.first, statement.step):
                    if head is not None:
                        self.statement(head)
                self.expr(statement.condition)
                self.statements(statement.body)
            case GiveBack(_, value) if value is not None:
                self.expr(value)

    def statements(self, statements: list[Stmt]) -> None:
        self.shape.text.append("{")
        for statement in statements:
            self.statement(statement)
        self.shape.text.append("}")


@dataclass
class Found:
    """A statement that may be folded: where it stands, and its shape."""

    around: list[Stmt]
    statement: Stmt
    shape: Shape
    function: Function


def counted(statements: list[Stmt]) -> Counter[str]:
    """How often each name is mentioned."""
    return Counter(name for line in each(statements) for name in own_mentions(line))


def candidates(function: Function) -> list[Found]:
    """The statements of a function that may be folded: they mention no variable of the function that others mention
    too.
    """
    own = {local.name for local in [*function.parameters, *function.locals]}
    lists = [function.body, *(part for line in each(function.body) for part in parts(line))]
    uses, mentions = counted(function.body), Mentions()
    found = []
    for around in lists:
        for line in around:
            if weight_of([line]) < LEAST_WEIGHT or not isinstance(line, Branch | Iterations) or escapes([line]):
                continue
            inside = counted([line])
            inner = {name for name in inside if name in own}
            alone = all(name in function.temporaries or inside[name] == uses[name] for name in inner)
            if alone and all(first_set([line], name, mentions) is not None for name in inner):
                shaper = Shaper(inner)
                shaper.statement(line)
                found.append(Found(around, line, shaper.shape, function))
    return found


def columns(group: list[Found]) -> list[int]:
    """For each number of a shape the parameter that it is: -1 where it is the same in all."""
    vectors: dict[tuple[Number, ...], int] = {}
    result = []
    for at in range(len(group[0].shape.numbers)):
        vector = tuple(found.shape.numbers[at] for found in group)
        if len(set(vector)) == 1:
            result.append(-1)
        else:
            result.append(vectors.setdefault(vector, len(vectors)))
    return result


class Substitution:
    """Puts parameters in place of numbers, and new names in place of own variables."""

    def __init__(self, numbers: list[int], names: dict[str, str]) -> None:
        self.numbers = iter(numbers)
        self.names = names

    def expr(self, expr: Expr) -> Expr:
        match expr:
            case Number():
                parameter = next(self.numbers)
                return expr if parameter < 0 else Name(f"n{parameter + 1}", expr.unsigned)
            case Name(name, unsigned):
                return Name(self.names.get(name, name), unsigned)
            case Element(array, index, unsigned):
                return Element(array, self.expr(index), unsigned)
            case Sign(sign, operand):
                return Sign(sign, self.expr(operand))
            case Chain(sign, left, right):
                return Chain(sign, self.expr(left), self.expr(right))

    def target(self, target: Name | Element) -> Name | Element:
        found = self.expr(target)
        assert isinstance(found, Name | Element)
        return found

    def statement(self, line: Stmt) -> Stmt:
        match line:
            case Set(at, target, value, _):
                made = self.target(target)
                assert isinstance(made, Name)
                return Set(at, made, self.expr(value))
            case Put(at, target, value):
                place = self.target(target)
                assert isinstance(place, Element)
                return Put(at, place, self.expr(value))
            case Invoke(at, function, arguments, target, _):
                words = [self.expr(argument) for argument in arguments]
                return Invoke(at, function, words, None if target is None else self.target(target))
            case Branch(at, condition, then, other):
                first = self.expr(condition)
                return Branch(at, first, self.statements(then), self.statements(other))
            case Iterations():
                heads = [self.statement(head) if head is not None else None for head in (line.first, line.step)]
                condition = self.expr(line.condition)
                made_iterations = replace(line, condition=condition, body=self.statements(line.body))
                made_iterations.first = heads[0] if isinstance(heads[0], Set) else None
                made_iterations.step = heads[1] if isinstance(heads[1], Set) else None
                return made_iterations
        return replace(line)

    def statements(self, statements: list[Stmt]) -> list[Stmt]:
        return [self.statement(line) for line in statements]


def folded(text: Text, names: NameTable) -> Text:
    """A text in which statements that are alike are calls of one function."""
    groups: dict[tuple[str, ...], list[Found]] = {}
    for function in text.functions:
        for found in candidates(function):
            groups.setdefault(tuple(found.shape.text), []).append(found)
    made: list[Function] = []
    gone: set[int] = set()
    for group in sorted(groups.values(), key=lambda group: -len(group) * weight_of([group[0].statement])):
        group = [found for found in group if id(found.statement) not in gone]
        one = one_function(group, names) if len(group) >= LEAST_COUNT else None
        if one is not None:
            gone |= {id(inner) for found in group for inner in each([found.statement])}
            made.append(one)
    text.functions = [*made, *text.functions]
    return text


def one_function(group: list[Found], names: NameTable) -> Function | None:
    """The function of a group of statements, which become its calls; none where that gains nothing."""
    numbers = columns(group)
    count = max(numbers, default=-1) + 1
    first = group[0]
    weight = weight_of([first.statement])
    if count > MOST_PARAMETERS or len(group) * (48 + 10 * count) + weight + 64 >= len(group) * weight:
        return None
    name = names.fresh(f"{first.function.name}_like")
    own = {local.name: local for local in first.function.locals}
    body = Substitution(numbers, first.shape.names).statement(first.statement)
    locals_of = [Local(new, own[old].unsigned) for old, new in first.shape.names.items()]
    kinds = {parameter: first.shape.numbers[at].unsigned for at, parameter in enumerate(numbers) if parameter >= 0}
    parameters = [Local(f"n{number + 1}", kinds[number]) for number in range(count)]
    for found in group:
        words: list[Expr] = [Number(0)] * count
        for at, parameter in enumerate(numbers):
            if parameter >= 0:
                words[parameter] = found.shape.numbers[at]
        at = next(number for number, line in enumerate(found.around) if line is found.statement)
        found.around[at] = Invoke(found.statement.at, name, words)
    return Function(name, first.statement.at, "void", parameters, locals_of, [body])
