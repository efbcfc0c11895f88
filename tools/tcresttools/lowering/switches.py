"""`switch` as a chain of branches. Arms that say the same are joined; what falls through is told by its number."""

from __future__ import annotations

from dataclasses import dataclass
from typing import TYPE_CHECKING

from .around import Around
from .kinds import INT, is_wide
from .printing import plain_lines

from .subset import (
    Branch, Chain, Expr, Labelled, Leave, Name, Number, Set, Stmt, completes, each, number, weight_of, written_by,
)  # fmt: skip
from .told import Place, Refused
from .tree import Arm, Switch
from .words import chain

if TYPE_CHECKING:
    from .control import Control

SHORT_ARM = 240


@dataclass
class Case:
    """The labels of an arm, and what it does."""

    labels: list[int]
    default: bool
    body: list[Stmt]


class Switches:
    """Makes the switches of a function."""

    def __init__(self, control: Control) -> None:
        self.control = control

    def switch(self, statement: Switch) -> None:
        """A switch. `break` leaves a block with a label."""
        builder, at = self.control.builder, statement.at
        if is_wide(statement.value.type):
            raise Refused(at, "a `switch` over 64 bits: compare with `if`")
        value = builder.settled([self.control.to.word(statement.value)])[0]
        label = builder.label()
        bodies = [self.body(arm, label) for arm in statement.arms]
        choice = self.choice(value.expr, bodies)
        short = self.unrolled(statement.arms, bodies, label)
        inner = self.chain(choice, short) if short is not None else self.staged(choice, statement.arms, bodies)
        builder.at = at
        builder.emit(Labelled(at, label, inner))

    def body(self, arm: Arm, label: int) -> list[Stmt]:
        """What an arm does, up to where it leaves the switch or comes to the next arm."""
        control = self.control
        control.around.append(Around(label, None))
        try:
            return control.builder.block(lambda: control.statements(arm.statements))
        finally:
            control.around.pop()

    def choice(self, value: Expr, bodies: list[list[Stmt]]) -> Expr:
        """The value in a variable that no arm sets."""
        writes = {written_by(inner) for body in bodies for inner in each(body)}
        own = isinstance(value, Name) and value.name in self.control.builder.own_names and value.name not in writes
        if isinstance(value, Number) or (own and not value.unsigned and not is_temporary(self.control, value)):
            return value
        made = self.control.builder.local("choice", False)
        self.control.builder.assign(made, value)
        return made

    def unrolled(self, arms: list[Arm], bodies: list[list[Stmt]], label: int) -> list[Case] | None:
        """Each arm with what it falls into, where that is short; none where it is long."""
        cases = []
        for number_of_arm, arm in enumerate(arms):
            body = list(bodies[number_of_arm])
            for following in range(number_of_arm + 1, len(arms)):
                if not completes(body):
                    break
                if weight_of(bodies[following]) > SHORT_ARM:
                    return None
                body += self.body(arms[following], label)
            while body and isinstance(body[-1], Leave) and body[-1].label == label:
                body.pop()
            cases.append(Case(arm.labels, arm.default, body))
        return cases

    def chain(self, choice: Expr, cases: list[Case]) -> list[Stmt]:
        """`if`, `else if` and so on, for arms that do not fall through."""
        known = merged([case for case in cases if not case.default])
        inner: list[Stmt] = next((case.body for case in cases if case.default), [])
        names = [label for case in cases if case.default for label in case.labels]
        known = [case for case in known if case.body or inner]
        if any(len(case.labels) > 2 for case in known) and not names:
            known.sort(key=lambda case: len(case.labels))
        passed: set[int] = set()
        tests = []
        for case in known:
            tests.append(test(choice, case.labels, passed))
            passed |= set(case.labels)
        for case, condition in reversed(list(zip(known, tests, strict=True))):
            inner = [Branch(place_of_body(case.body, self.control), condition, case.body, inner)]
        return inner

    def staged(self, choice: Expr, arms: list[Arm], bodies: list[list[Stmt]]) -> list[Stmt]:
        """Arms that fall through: a number says from which one on they are done."""
        builder = self.control.builder
        stage = builder.local("stage", False)
        begin = next((at for at, arm in enumerate(arms) if arm.default), len(arms))
        found: list[Stmt] = [Set(builder.at, stage, number(begin))]
        inner: list[Stmt] = []
        for at in reversed(range(len(arms))):
            if arms[at].labels:
                inner = [
                    Branch(
                        builder.at, test(choice, arms[at].labels, set()), [Set(builder.at, stage, number(at))], inner
                    )
                ]
        found += inner
        for at, body in enumerate(bodies):
            found.append(Branch(arms[at].at, Chain("<=", stage, number(at)), body))
        return found


def is_temporary(control: Control, value: Expr) -> bool:
    """The value stands in a temporary, which the arms may take."""
    return any(value == name for names in control.builder.temporaries.values() for name in names)


def place_of_body(body: list[Stmt], control: Control) -> Place:
    return body[0].at if body else control.builder.at


def merged(cases: list[Case]) -> list[Case]:
    """Cases that do the same are one."""
    found: dict[tuple[str, ...], Case] = {}
    for case in cases:
        key = tuple(plain_lines(case.body))
        if key in found:
            found[key].labels = found[key].labels + case.labels
        else:
            found[key] = Case(list(case.labels), False, case.body)
    return list(found.values())


def test(choice: Expr, labels: list[int], passed: set[int]) -> Expr:
    """Whether the value is one of the labels. What was tested before may lie between them."""
    condition: Expr | None = None
    for low, high in spans(sorted(INT.wrapped(label) for label in labels), {INT.wrapped(label) for label in passed}):
        if high - low < 2:
            part: Expr = chain("==", choice, number(low))
            if high > low:
                part = Chain("||", part, chain("==", choice, number(high)))
        else:
            part = Chain("&&", Chain(">=", choice, number(low)), Chain("<=", choice, number(high)))
        condition = part if condition is None else Chain("||", condition, part)
    return condition if condition is not None else number(0)


def spans(labels: list[int], passed: set[int]) -> list[tuple[int, int]]:
    """Labels as spans of numbers."""
    found: list[tuple[int, int]] = []
    for label in labels:
        if found and all(between in passed for between in range(found[-1][1] + 1, label)):
            found[-1] = (found[-1][0], label)
        else:
            found.append((label, label))
    return found
