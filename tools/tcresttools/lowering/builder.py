"""Collects the statements of a function while its text is made: temporaries, captured statements and steps that wait.
"""

from __future__ import annotations

from collections.abc import Callable
from dataclasses import dataclass, field, replace
from itertools import count
from typing import TypeVar

from .subset import Branch, Expr, Invoke, Local, Name, Number, Set, Stmt, each, names_in, negated, written_by
from .told import NOWHERE, Notes, Place
from .words import Value

Result = TypeVar("Result")
KEYWORDS = frozenset(
    "int unsigned void if else while for break continue return send _SPM auto case char const default do double"
    " enum extern"
    " float goto inline long register restrict short signed sizeof static struct switch typedef union volatile _Bool"
    " _Complex _Imaginary _Pragma main shared comm in out".split()
)
OPEN_ORDER = "C leaves open which comes first here: what is read on the left, or the call on the right that sets it"


@dataclass
class NameTable:
    """The names that are taken outside functions."""

    taken: set[str] = field(default_factory=lambda: set(KEYWORDS))

    def fresh(self, wanted: str, besides: set[str] | None = None) -> str:
        """A name that is not taken, as near to the wanted one as can be."""
        name, number = wanted, 1
        while name in self.taken or (besides is not None and name in besides):
            number += 1
            name = f"{wanted}_{number}"
        (self.taken if besides is None else besides).add(name)
        return name


class Builder:
    """The statements of a function, while they are made."""

    def __init__(self, names: NameTable, effects: dict[str, set[str]], notes: Notes, labels: count[int]) -> None:
        self.names = names
        self.effects = effects
        self.notes = notes
        self.labels = labels
        self.own_names: set[str] = set()
        self.locals: list[Local] = []
        self.out: list[Stmt] = []
        self.at: Place = NOWHERE
        self.waiting: list[Stmt] = []
        self.steps: set[int] = set()
        self.temporaries: dict[bool, list[Name]] = {False: [], True: []}
        self.used: dict[bool, int] = {False: 0, True: 0}

    # Names.

    def local(self, wanted: str, unsigned: bool) -> Name:
        """A new variable of the function."""
        name = self.names.fresh(wanted, self.own_names)
        self.locals.append(Local(name, unsigned))
        return Name(name, unsigned)

    def temporary(self, unsigned: bool) -> Name:
        """A variable for the statement that is made; the next one may take it again."""
        known = self.temporaries[unsigned]
        if self.used[unsigned] == len(known):
            known.append(self.local("u1" if unsigned else "t1", unsigned))
        self.used[unsigned] += 1
        return known[self.used[unsigned] - 1]

    def begin_statement(self, at: Place) -> None:
        """A statement of the source begins: its temporaries are free."""
        self.at = at
        self.used = {False: 0, True: 0}

    def label(self) -> int:
        return next(self.labels)

    # Statements.

    def emit(self, statement: Stmt) -> None:
        self.out.append(statement)

    def assign(self, target: Name, value: Expr) -> None:
        """`x = e;`, unless that is `x = x;`."""
        if value != target:
            self.emit(Set(self.at, target, value))

    def capture(self, make: Callable[[], Result]) -> tuple[Result, list[Stmt]]:
        """What is made, and the statements that it takes, which are not put into the text yet."""
        before, self.out = self.out, []
        try:
            result = make()
            return result, self.out
        finally:
            self.out = before

    def block(self, make: Callable[[], object]) -> list[Stmt]:
        """The statements of an arm or a body."""
        return self.capture(make)[1]

    def branch(self, condition: Expr, then: list[Stmt], other: list[Stmt]) -> None:
        """`if`, without arms that do nothing and with what is known decided."""
        if isinstance(condition, Number):
            self.out += then if condition.word else other
        elif then:
            self.emit(Branch(self.at, condition, then, other))
        elif other:
            self.emit(Branch(self.at, negated(condition), other))

    # Values that are at hand while more statements come.

    def fixed(self, value: Value) -> Value:
        """A value in a temporary, which nothing changes."""
        if isinstance(value.expr, Number):
            return value
        made = self.temporary(value.expr.unsigned)
        self.assign(made, value.expr)
        return replace(value, expr=made)

    def writes(self, statements: list[Stmt]) -> set[str]:
        """The variables and arrays that statements may set, in calls as well."""
        found: set[str] = set()
        for inner in each(statements):
            if (name := written_by(inner)) is not None:
                found.add(name)
            if isinstance(inner, Invoke):
                found |= self.effects.get(inner.function, set())
        return found

    def kept(self, values: list[Value], statements: list[Stmt], ordered: bool = True) -> list[Value]:
        """Values that stay as they are while these statements are done, and then the statements."""
        writes = self.writes(statements)
        open_writes = self.writes([line for line in statements if id(line) not in self.steps]) if not ordered else set()
        found = []
        for value in values:
            reads = names_in(value.expr)
            if reads & open_writes and any(isinstance(line, Invoke) for line in each(statements)):
                self.notes.warn(self.at, OPEN_ORDER)
            found.append(self.fixed(value) if reads & writes else value)
        self.out += statements
        return found

    def after(
        self, values: list[Value], make: Callable[[], Result], ordered: bool = True
    ) -> tuple[list[Value], Result]:
        """Makes something more while values are at hand."""
        result, statements = self.capture(make)
        return self.kept(values, statements, ordered), result

    # Steps (`x++`) whose effect waits for the end of the expression.

    def wait(self, step: Set) -> None:
        """A step is done at the next sequence point."""
        self.waiting.append(step)
        self.steps.add(id(step))

    def settled(self, values: list[Value]) -> list[Value]:
        """A sequence point: what waits is done, and the values at hand stay."""
        steps, self.waiting = self.waiting, []
        return self.kept(values, steps)

    def settle_for_call(self, values: list[Value]) -> list[Value]:
        """The sequence point before a call: what the called function could see is done."""
        seen = [step for step in self.waiting if (written_by(step) or "") not in self.own_names]
        self.waiting = [step for step in self.waiting if step not in seen]
        return self.kept(values, seen)

    def drop_own_steps(self) -> None:
        """Before a return: steps of the function's own variables say nothing any more."""
        self.waiting = [step for step in self.waiting if (written_by(step) or "") not in self.own_names]
