"""Statements of C as statements of the subset."""

from __future__ import annotations

from collections.abc import Callable
from dataclasses import dataclass, field
from functools import partial

from .around import Around
from .bounds import bound_of_loop
from .context import Context, leaf_names
from .evaluator import Evaluator
from .exits import resolved
from .jumps import Jumps
from .kinds import INT, Array, Record, Void, cells, is_wide, leaves
from .regions import HomeKind
from .spots import CellSpot, Spot, part_of, plus

from .subset import (
    MOST_PARAMETERS, ONE, ZERO, Chain, Element, Expr, Function, GiveBack, GoOn, Iterations, Labelled, Leave, Local,
    Name, Outer, Put, Set, Stmt, number,
)  # fmt: skip
from .switches import Switches
from .told import Place, Refused

from .tree import (
    Block, Break, Conditional, Const, Continue, Declare, Do, Expression, FunctionText, Goto, If, Initial, Label, Loop,
    Return, Statement, Switch, Variable,
)  # fmt: skip
from .words import Value, any_word, chain, constant

LONG_LIST = 8


@dataclass
class Control:
    """Makes the statements of a function."""

    context: Context
    function: FunctionText
    level: int
    around: list[Around] = field(default_factory=list)

    def __post_init__(self) -> None:
        self.to = Evaluator(self.context, self.function, self.level)
        self.builder = self.to.builder
        self.switches = Switches(self)
        self.jumps = Jumps(self)

    # The function.

    def made(self) -> Function:
        """The function with its text."""
        called = self.context.called[self.function, self.level]
        names = [name for parameter in self.function.parameters for name in self.parameter_names(parameter)]
        parameters = [Local(name.name, name.unsigned) for name in names[:MOST_PARAMETERS]]
        inside = {local.name for local in parameters}
        self.builder.locals = [local for local in self.builder.locals if local.name not in inside]
        self.builder.begin_statement(self.function.at)
        for name, extra in zip(names[MOST_PARAMETERS:], called.extra, strict=True):
            self.builder.assign(name, extra)
        self.keep_parameters(names)
        assert self.function.body is not None
        self.statements(self.function.body.statements)
        body = resolved(self.builder.out, lambda: self.builder.local("left", False))
        temporaries = frozenset(name.name for names in self.builder.temporaries.values() for name in names)
        found = Function(
            called.name, self.function.at, called.result, parameters, self.builder.locals, body, temporaries
        )
        if called.result != "void" and self.function.name == "main" and isinstance(self.function.type.result, Void):
            found.body.append(GiveBack(self.function.at, ZERO))
        return found

    def parameter_names(self, parameter: Variable) -> list[Name]:
        """The names in which a parameter comes."""
        if self.context.layout.homes[parameter].kind is HomeKind.SCALARS:
            return list(self.to.names_of(parameter))
        given = leaf_names(parameter.type, f"{parameter.name}_given")
        return [self.builder.local(local.name, local.unsigned) for local in given]

    def keep_parameters(self, names: list[Name]) -> None:
        """Parameters that stand in an array are put there."""
        at = 0
        for parameter in self.function.parameters:
            words = len(list(leaf_names(parameter.type, "")))
            home = self.context.layout.homes[parameter]
            if home.kind is HomeKind.MEMORY:
                spot = self.to.spots.variable_spot(parameter, parameter.type)
                assert isinstance(spot, CellSpot)
                if words != cells(parameter.type):
                    raise Refused(parameter.at, "a struct with an array as parameter: give a pointer to it")
                for word in range(words):
                    self.put(spot, word, names[at + word])
            at += words

    def put(self, spot: CellSpot, word: int, value: Expr) -> None:
        index = plus(spot.index, word)
        self.builder.emit(Put(self.builder.at, Element(spot.memory.name, index.expr, spot.memory.unsigned), value))

    # Statements.

    def statements(self, statements: list[Statement]) -> None:
        """Statements one after another; labels among them make blocks and loops."""
        if any(isinstance(statement, Label) for statement in statements):
            self.jumps.statements(statements)
            return
        for statement in statements:
            self.statement(statement)

    def block(self, statement: Statement | None) -> list[Stmt]:
        """The statements of an arm or a body."""
        return self.builder.block(partial(self.statement, statement)) if statement is not None else []

    def full(self, make: Callable[[], object]) -> None:
        """A whole expression: what waits is done at its end."""
        make()
        self.builder.settled([])

    def statement(self, statement: Statement) -> None:
        self.builder.begin_statement(statement.at)
        match statement:
            case Block(_, statements):
                self.statements(statements)
            case Do(_, expression):
                self.full(lambda: self.to.effect(expression))
            case Declare(_, variable):
                self.declare(variable)
            case If():
                self.branch(statement)
            case Loop():
                self.loop(statement)
            case Switch():
                self.switches.switch(statement)
            case Return():
                self.give_back(statement)
            case Break(at):
                self.leave_around(at)
            case Continue(at):
                self.go_on_around(at)
            case Goto():
                self.jumps.jump(statement)
            case Label():
                pass

    def condition(self, expression: Expression) -> Expr:
        """The condition of a statement, behind which all its effects are done."""
        found = any_word(self.to.words.condition(expression))
        return self.builder.settled([found])[0].expr

    def branch(self, statement: If) -> None:
        condition, at = self.condition(statement.condition), self.builder.at
        then, other = self.block(statement.then), self.block(statement.other)
        self.builder.at = at
        self.builder.branch(condition, then, other)

    def leave_around(self, at: Place) -> None:
        if not self.around:
            raise Refused(at, "`break` outside a loop or a switch")
        self.builder.emit(Leave(at, self.around[-1].leave))

    def go_on_around(self, at: Place) -> None:
        inner = next((around for around in reversed(self.around) if around.go_on is not None), None)
        if inner is None or inner.go_on is None:
            raise Refused(at, "`continue` outside a loop")
        self.builder.emit(GoOn(at, inner.go_on) if inner.own_iteration else Leave(at, inner.go_on))

    # `return`.

    def give_back(self, statement: Return) -> None:
        """`return`, with a value of one word, of two or of a record."""
        builder, value, kind = self.builder, statement.value, self.function.type.result
        called = self.context.called[self.function, self.level]
        if value is None or isinstance(kind, Void):
            if value is not None:
                self.full(partial(self.to.effect, value))
            builder.emit(GiveBack(builder.at, ZERO if called.result != "void" else None))
        elif isinstance(kind, Record):
            self.give_record(value, kind, called.more_results)
        elif is_wide(kind):
            found = self.to.pair(value)
            low, high = builder.settled(found.values)
            kept, _ = builder.after([low], lambda: builder.assign(called.more_results[0], high.expr))
            builder.emit(GiveBack(builder.at, kept[0].expr))
        else:
            self.give_word(value)

    def give_word(self, value: Expression) -> None:
        """`return` of a word. Each arm of a choice returns its own."""
        builder = self.builder
        if isinstance(value, Conditional) and not isinstance(value.type, Record):
            condition = self.to.assigning.condition(value)
            then, other = (builder.block(partial(self.give_word, arm)) for arm in (value.then, value.other))
            builder.branch(condition, then, [])
            builder.out += other
            return
        found = self.to.word(value)
        builder.drop_own_steps()
        found = builder.settled([found])[0]
        builder.emit(GiveBack(builder.at, found.expr))

    def give_record(self, value: Expression, kind: Record, names: list[Name]) -> None:
        """`return` of a record: all words but the first go through outer variables."""
        builder = self.builder
        source = self.to.spots.spot(value)
        words: list[Value] = []
        for word, leaf in leaves(kind):
            part = part_of(source, word, 4 * word, leaf)
            words += self.to.spots.load_pair(part).values if is_wide(leaf) else [self.to.spots.load(part)]
        words = builder.settled(words)
        words = [builder.fixed(words[0]), *words[1:]] if names else words
        for name, more in zip(names, words[1:], strict=True):
            builder.assign(name, more.expr)
        builder.emit(GiveBack(builder.at, words[0].expr))

    # Declarations.

    def declare(self, variable: Variable) -> None:
        """A local variable with its first value."""
        if not variable.initial:
            return
        spot = self.to.spots.variable_spot(variable, variable.type)
        if isinstance(variable.type, Array | Record):
            self.begin_parts(spot, variable)
            return
        value = variable.initial[0].value
        if is_wide(variable.type):
            pair = self.to.pair(value)
            self.to.spots.store_pair(spot, pair)
        else:
            self.to.assigning.into(spot, value)
        self.builder.settled([])

    def begin_parts(self, spot: Spot, variable: Variable) -> None:
        """The first values of an array or a record; what has none is 0."""
        items = {item.word: item for item in variable.initial}
        covered = {item.word + word for item in variable.initial for word in range(cells(item.type))}
        fixed = {word for word, item in items.items() if isinstance(item.value, Const)}
        empty = [word for word in range(cells(variable.type)) if word not in covered]
        if isinstance(spot, CellSpot) and len(empty) + len(fixed) > LONG_LIST:
            self.copy_table(spot, variable, items, fixed)
        else:
            for word, leaf in ((word, INT) for word in empty):
                self.to.spots.store(part_of(spot, word, 4 * word, leaf), constant(0))
            fixed = set()
        for item in variable.initial:
            if item.word not in fixed:
                self.begin_part(part_of(spot, item.word, 4 * item.word, item.type), item)

    def begin_part(self, spot: Spot, item: Initial) -> None:
        """The first value of a part."""
        if isinstance(item.type, Record):
            self.to.spots.copy(spot, self.to.spots.spot(item.value))
        elif is_wide(item.type):
            self.to.spots.store_pair(spot, self.to.pair(item.value))
        else:
            self.to.assigning.into(spot, item.value)
        self.builder.settled([])

    def copy_table(self, spot: CellSpot, variable: Variable, items: dict[int, Initial], fixed: set[int]) -> None:
        """Many constants come from a table, by a loop; where all are 0 there is no table."""
        values = [0] * cells(variable.type)
        for word in fixed:
            for at, part in enumerate(words_of(items[word])):
                values[word + at] = part
        source: Expr = ZERO
        counter = self.builder.local("at", False)
        if any(values):
            table = self.context.names.fresh(f"{variable.name}_begin")
            self.context.outers.append(Outer(table, False, len(values), values, variable.at))
            source = Element(table, counter)
        index = chain("+", counter, spot.index.expr)
        body: list[Stmt] = [Put(self.builder.at, Element(spot.memory.name, index, spot.memory.unsigned), source)]
        first, step = Set(self.builder.at, counter, ZERO), Set(self.builder.at, counter, chain("+", counter, ONE))
        count, condition = len(values), Chain("<", counter, number(len(values)))
        self.builder.emit(Iterations(self.builder.at, condition, body, count, count, self.builder.label(), first, step))

    # Loops.

    def loop(self, loop: Loop) -> None:
        """A loop: with its test at the end, with effects in its condition, or as it stands."""
        at = self.builder.at
        for statement in loop.begin:
            self.statement(statement)
        if loop.test_last and isinstance(loop.condition, Const) and loop.condition.value == 0:
            self.once(loop)
            return
        bound = bound_of_loop(loop, self.context.intervals, self.context.notes)
        self.builder.begin_statement(at)
        condition, statements = self.builder.capture(lambda: self.test(loop))
        if loop.test_last or statements:
            self.flagged(loop, condition, statements, bound.least, bound.most)
        elif condition == ZERO:
            return
        else:
            self.plain(loop, condition, bound.least, bound.most)

    def test(self, loop: Loop) -> Expr:
        """The condition of a loop."""
        self.builder.begin_statement(loop.at)
        return self.condition(loop.condition) if loop.condition is not None else ONE

    def once(self, loop: Loop) -> None:
        """`do { .. } while (0)`: a block."""
        label = self.builder.label()
        body = self.inside(Around(label, label), loop.body)
        self.builder.emit(Labelled(loop.at, label, body))

    def inside(self, around: Around, body: Statement) -> list[Stmt]:
        """The statements of a body, with what `break` and `continue` mean there."""
        self.around.append(around)
        try:
            return self.block(body)
        finally:
            self.around.pop()

    def flagged(self, loop: Loop, condition: Expr, statements: list[Stmt], least: int, most: int) -> None:
        """A loop whose condition is worked out before it and at the end of each iteration, into a flag."""
        builder = self.builder
        flag = builder.local("go", False)
        if loop.test_last:
            builder.assign(flag, ONE)
        else:
            builder.out += statements
            builder.assign(flag, condition)
        label, inner = builder.label(), builder.label()
        body: list[Stmt] = [Labelled(loop.at, inner, self.inside(Around(label, inner), loop.body))]
        body += self.step(loop)
        again, more = builder.capture(lambda: self.test(loop))
        body += more + builder.block(lambda: builder.assign(flag, again))
        builder.emit(Iterations(loop.at, flag, body, least, most, label))

    def step(self, loop: Loop) -> list[Stmt]:
        """The step of a loop as statements."""
        step = loop.step
        if step is None:
            return []
        self.builder.begin_statement(step.at)
        return self.builder.block(partial(self.full, partial(self.to.effect, step)))

    def plain(self, loop: Loop, condition: Expr, least: int, most: int) -> None:
        """A loop whose condition has no effect: `for` where its head is simple, else `while`."""
        builder = self.builder
        label, inner = builder.label(), builder.label()
        step = self.step(loop)
        head = step[0] if len(step) == 1 and isinstance(step[0], Set) else None
        first = builder.out[-1] if builder.out else None
        if head is not None and loop.begin and isinstance(first, Set):
            builder.out.pop()
            body = self.inside(Around(label, label, own_iteration=True), loop.body)
            builder.emit(Iterations(loop.at, condition, body, least, most, label, first, head))
        elif not step:
            body = self.inside(Around(label, label, own_iteration=True), loop.body)
            builder.emit(Iterations(loop.at, condition, body, least, most, label))
        else:
            iteration: list[Stmt] = [Labelled(loop.at, inner, self.inside(Around(label, inner), loop.body)), *step]
            builder.emit(Iterations(loop.at, condition, iteration, least, most, label))


def words_of(item: Initial) -> list[int]:
    """The words of a constant."""
    assert isinstance(item.value, Const)
    value = item.value.value
    return [value, value >> 32] if is_wide(item.type) else [value]
