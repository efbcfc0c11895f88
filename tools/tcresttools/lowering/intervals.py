"""Between which numbers each variable stays, whatever the order of the program is.

Each place that sets a variable is one source of its range. The ranges grow until no source adds anything; what keeps
growing is taken for the whole type. A counter of a loop stays below what its condition compares it with.
"""

from __future__ import annotations

from collections.abc import Callable
from dataclasses import dataclass, field
from functools import partial

from .arithmetic import MIRRORED
from .calls import CallOrder
from .kinds import INT, Integer, Pointer
from .ranges import TRUTH, Range, converted, full, of_binary, of_unary
from .regions import in_scalars

from .tree import (
    Assign, Binary, Block, Call, Comma, Compare, Conditional, Const, Convert, Declare, Expression, FunctionText, If,
    Logic, Loop, Ref, Return, Statement, Step, Storage, Switch, Unary, Update, Variable, expressions_in, walk,
)  # fmt: skip

Source = Callable[[], Range | None]
SLOW_ROUNDS = 4


def tracked(variable: Variable) -> bool:
    """A number in a variable that only its name sets."""
    return isinstance(variable.type, Integer) and variable.type.bits <= 32 and in_scalars(variable)


@dataclass
class Counter:
    """A variable that only the head of a loop steps: by how much, and the comparison that it obeys."""

    variable: Variable
    by: int
    compare: Compare
    step: Expression


@dataclass
class Intervals:
    """The ranges of variables and of results."""

    ranges: dict[Variable, Range] = field(default_factory=dict)
    results: dict[FunctionText, Range] = field(default_factory=dict)
    sources: list[tuple[Variable | FunctionText, Source]] = field(default_factory=list)
    counted: dict[int, Counter] = field(default_factory=dict)

    def of(self, variable: Variable) -> Range | None:
        """The range of a variable; none where nothing is known."""
        return self.ranges.get(variable) if tracked(variable) else None

    def result(self, function: FunctionText) -> Range | None:
        return self.results.get(function)

    # Ranges of expressions.

    def range(self, expression: Expression) -> Range | None:
        """The range of an expression; none where no value comes about."""
        kind = expression.type
        if not isinstance(kind, Integer):
            return Range(INT.low, INT.high) if isinstance(kind, Pointer) else None
        match expression:
            case Const(_, _, value):
                return Range(value, value)
            case Ref(_, _, variable) if tracked(variable):
                return self.ranges.get(variable)
            case Compare() | Logic() | Unary(_, _, "!"):
                return TRUTH
            case Unary(_, _, sign, operand):
                found = self.range(operand)
                return None if found is None else of_unary(sign, found, kind)
            case Binary(_, _, sign, left, right):
                return self.binary(sign, self.range(left), self.range(right), kind)
            case Conditional(_, _, _, then, other):
                return joined(self.range(then), self.range(other))
            case Convert(_, _, operand) if isinstance(operand.type, Integer):
                found = self.range(operand)
                return None if found is None else converted(found, kind)
            case Assign(_, _, _, value):
                return self.range(value)
            case Update() | Step():
                return self.changed(expression)
            case Call(_, _, function) if function.body is not None:
                return self.results.get(function)
            case Comma(_, _, _, last):
                return self.range(last)
        return full(kind)

    def binary(self, sign: str, left: Range | None, right: Range | None, kind: Integer) -> Range | None:
        if left is None or right is None:
            return None
        return of_binary(sign, left, right, kind)

    def changed(self, expression: Expression) -> Range | None:
        """What a variable is set to by an update or a step. A step's value may also be the one before."""
        assert isinstance(expression, Update | Step)
        kind = expression.type
        old = self.range(expression.target)
        if not isinstance(kind, Integer) or old is None:
            return None
        if isinstance(expression, Step):
            by = -1 if expression.down else 1
            return joined(old, converted(Range(old.low + by, old.high + by), kind))
        assert isinstance(expression.work, Integer)
        value = self.range(expression.value)
        found = self.binary(expression.sign, converted(old, expression.work), value, expression.work)
        return None if found is None else converted(found, kind)

    # Sources.

    def source(self, variable: Variable, source: Source) -> None:
        if tracked(variable):
            self.sources.append((variable, source))

    def collect(self, order: CallOrder, used: list[Variable]) -> None:
        """Finds all that sets a variable."""
        for variable in used:
            if tracked(variable) and variable.storage.lasting:
                self.source(variable, partial(self.begin_range, variable))
        for function in order.functions:
            assert function.body is not None
            if function.helper:
                self.collect_any(function)
            self.collect_counters(function.body)
            for expression in expressions_in(function.body):
                for part in walk(expression):
                    self.collect_from(part)
            self.collect_statements(function, function.body)

    def collect_any(self, function: FunctionText) -> None:
        """A function for 64 bits is called by the lowered text, with any words."""
        for parameter in function.parameters:
            if isinstance(parameter.type, Integer):
                self.source(parameter, partial(full, parameter.type))

    def begin_range(self, variable: Variable) -> Range | None:
        """The range of the first value of a variable outside functions."""
        return self.range(variable.initial[0].value) if variable.initial else Range(0, 0)

    def collect_from(self, expression: Expression) -> None:
        match expression:
            case Assign(_, _, Ref(_, _, variable), value):
                counter = self.counted.get(id(expression))
                self.source(variable, partial(self.stepped, counter) if counter else partial(self.range, value))
            case Update(_, _, _, Ref(_, _, variable)) | Step(_, _, Ref(_, _, variable)):
                counter = self.counted.get(id(expression))
                self.source(variable, partial(self.stepped, counter) if counter else partial(self.changed, expression))
            case Call(_, _, function) if function.body is not None:
                for value, parameter in zip(expression.arguments, function.parameters, strict=True):
                    self.source(parameter, partial(self.range, value))

    def collect_statements(self, function: FunctionText, statement: Statement) -> None:
        """Declarations with a value, and what the function returns."""
        match statement:
            case Declare(_, variable) if variable.initial:
                self.source(variable, partial(self.range, variable.initial[0].value))
            case Return(_, value) if value is not None and isinstance(function.type.result, Integer):
                self.sources.append((function, partial(self.range, value)))
        for inner in below(statement):
            self.collect_statements(function, inner)

    def collect_counters(self, statement: Statement) -> None:
        """The counters of the loops."""
        if isinstance(statement, Loop):
            for counter in counters_of(statement):
                self.counted[id(counter.step)] = counter
        for inner in below(statement):
            self.collect_counters(inner)

    def stepped(self, counter: Counter) -> Range | None:
        """What the step of a counter sets: it was below the limit before."""
        old, limit = self.ranges.get(counter.variable), self.range(counter.compare.right)
        kind = counter.variable.type
        assert isinstance(kind, Integer)
        if old is None or limit is None:
            return None
        edge = 0 if counter.compare.sign in ("<=", ">=") else 1
        if counter.by > 0:
            before = Range(old.low, min(old.high, limit.high - edge))
        else:
            before = Range(max(old.low, limit.low + edge), old.high)
        if before.low > before.high:
            return None
        return converted(Range(before.low + counter.by, before.high + counter.by), kind)

    # The ranges.

    def settle(self) -> None:
        """Lets the ranges grow until nothing is added."""
        rounds, changed = 0, True
        while changed:
            changed = False
            rounds += 1
            for target, source in self.sources:
                found = source()
                if found is not None and self.grow(target, found, rounds > SLOW_ROUNDS):
                    changed = True

    def grow(self, target: Variable | FunctionText, found: Range, widen: bool) -> bool:
        """Adds a range; whether it added anything."""
        kind = target.type if isinstance(target, Variable) else target.type.result
        assert isinstance(kind, Integer)
        found = converted(found, kind)
        old = self.ranges.get(target) if isinstance(target, Variable) else self.results.get(target)
        new = found if old is None else old.with_other(found)
        if new == old:
            return False
        if widen and old is not None:
            new = Range(kind.low if new.low < old.low else new.low, kind.high if new.high > old.high else new.high)
        if isinstance(target, Variable):
            self.ranges[target] = new
        else:
            self.results[target] = new
        return True


def joined(one: Range | None, other: Range | None) -> Range | None:
    if one is None or other is None:
        return one or other
    return one.with_other(other)


def below(statement: Statement) -> list[Statement]:
    """The statements right below one."""
    match statement:
        case Block(_, statements):
            return statements
        case If(_, _, then, other):
            return [then, *([other] if other is not None else [])]
        case Loop():
            return [*statement.begin, statement.body]
        case Switch(_, _, arms):
            return [inner for arm in arms for inner in arm.statements]
    return []


def conjuncts(condition: Expression | None) -> list[Expression]:
    """The parts of a condition that all hold."""
    if isinstance(condition, Logic) and condition.sign == "&&":
        return conjuncts(condition.left) + conjuncts(condition.right)
    return [] if condition is None else [condition]


def steps_in(expression: Expression | None) -> list[Expression]:
    """The expressions of a step, one after another."""
    if isinstance(expression, Comma):
        return steps_in(expression.first) + steps_in(expression.last)
    return [] if expression is None else [expression]


def step_size(expression: Expression) -> tuple[Variable, int] | None:
    """The variable that a step moves, and by how much."""
    match expression:
        case Step(_, _, Ref(_, _, variable)):
            return variable, -1 if expression.down else 1
        case Update(_, _, sign, Ref(_, _, variable), Const(_, _, value)) if sign in ("+", "-"):
            return variable, value if sign == "+" else -value
        case Assign(_, _, Ref(_, _, variable), Binary(_, _, sign, Ref(_, _, same), Const(_, _, value))):
            if same is variable and sign in ("+", "-"):
                return variable, value if sign == "+" else -value
    return None


def sets(expression: Expression, variable: Variable) -> bool:
    """Whether an expression sets a variable by its name."""
    return any(
        isinstance(part, Assign | Update | Step) and isinstance(part.target, Ref) and part.target.variable is variable
        for part in walk(expression)
    )


def declares(statement: Statement, variable: Variable) -> bool:
    own = isinstance(statement, Declare) and statement.variable is variable
    return own or any(declares(inner, variable) for inner in below(statement))


def counters_of(loop: Loop) -> list[Counter]:
    """The counters of a loop: its step moves them, its condition limits them, and nothing else in it sets them."""
    found: list[Counter] = []
    if loop.test_last:
        return found
    for step in steps_in(loop.step):
        moved = step_size(step)
        if moved is None or moved[1] == 0 or moved[0].storage not in (Storage.LOCAL, Storage.PARAMETER):
            continue
        variable, by = moved
        others = [other for other in steps_in(loop.step) if other is not step]
        if loop.condition is not None:
            others.append(loop.condition)
        if variable.addressed or any(sets(other, variable) for other in [*others, *expressions_in(loop.body)]):
            continue
        if declares(loop.body, variable):
            continue
        for part in conjuncts(loop.condition):
            compare = limit_of(part, variable, by)
            if compare is not None:
                found.append(Counter(variable, by, compare, step))
                break
    return found


def limit_of(condition: Expression, variable: Variable, by: int) -> Compare | None:
    """The comparison of a counter with its limit, the counter on the left."""
    if not isinstance(condition, Compare):
        return None
    sign, left, right = condition.sign, condition.left, condition.right
    if not is_variable(left, variable):
        sign, left, right = MIRRORED[sign], right, left
    if not is_variable(left, variable):
        return None
    if sign in (("<", "<=") if by > 0 else (">", ">=")):
        return Compare(condition.type, condition.at, sign, left, right)
    return None


def is_variable(expression: Expression, variable: Variable) -> bool:
    """A variable, or one of a short type as an `int`."""
    if (
        isinstance(expression, Convert)
        and isinstance(expression.operand.type, Integer)
        and expression.operand.type.bits < 32
    ):
        expression = expression.operand
    return isinstance(expression, Ref) and expression.variable is variable


def find_intervals(order: CallOrder, used: list[Variable]) -> Intervals:
    """The ranges of a program."""
    found = Intervals()
    found.collect(order, used)
    found.settle()
    return found
