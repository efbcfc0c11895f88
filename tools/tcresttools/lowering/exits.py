"""Turns blocks that are left from inside, and loops that are left from a loop inside, into branches and flags."""

from __future__ import annotations

from collections.abc import Callable
from functools import partial

from .subset import (
    ONE, ZERO, Branch, Chain, GiveBack, GoOn, Iterations, Labelled, Leave, Name, Set, Sign, Stmt, completes, copied,
    each, negated, parts, weight_of,
)  # fmt: skip
from .told import Place

MOST_NESTED = 24
SHORT_REST = 60


def exits_of(statements: list[Stmt], label: int, go_on: bool = False) -> bool:
    """Whether statements leave a label, or go on with it."""
    return any(is_exit(inner, label, go_on) for inner in each(statements))


def is_exit(statement: Stmt, label: int, go_on: bool) -> bool:
    """Whether a statement leaves a label, or goes on with it."""
    return isinstance(statement, GoOn if go_on else Leave) and statement.label == label  # type: ignore[union-attr]


def exit_at(at: Place, label: int, go_on: bool) -> Stmt:
    return GoOn(at, label) if go_on else Leave(at, label)


def resolved(statements: list[Stmt], flag: Callable[[], Name]) -> list[Stmt]:
    """Statements in which only the innermost loop is left or gone on with. `flag` makes a variable."""
    found: list[Stmt] = []
    for statement in statements:
        match statement:
            case Branch(at, condition, then, other):
                found.append(Branch(at, condition, resolved(then, flag), resolved(other, flag)))
            case Iterations():
                found += loop(statement, flag)
            case Labelled(at, label, body):
                found += opened(resolved(body, flag), label, at, flag)
            case _:
                found.append(statement)
        if not completes(found[-1:]):
            break
    return found


def loop(statement: Iterations, flag: Callable[[], Name]) -> list[Stmt]:
    """A loop whose own exits stand in no other loop."""
    body = resolved(statement.body, flag)
    label, at = statement.label, statement.at
    for go_on in (False, True):
        if inside_loops(body, label, go_on):
            mark = flag()
            body = [Set(at, mark, ZERO), *guarded(body, label, go_on, mark, partial(exit_at, at, label, go_on))]
    statement.body = trimmed(body, label)
    return [statement]


def trimmed(body: list[Stmt], label: int) -> list[Stmt]:
    """A body without a `continue` at its end."""
    while body and isinstance(body[-1], GoOn) and body[-1].label == label:
        body = body[:-1]
    return body


def inside_loops(statements: list[Stmt], label: int, go_on: bool) -> bool:
    """Whether the label is left, or gone on with, from inside a loop among the statements."""
    for statement in statements:
        if isinstance(statement, Iterations):
            if exits_of(statement.body, label, go_on):
                return True
        elif any(inside_loops(inner, label, go_on) for inner in parts(statement)):
            return True
    return False


def opened(body: list[Stmt], label: int, at: Place, flag: Callable[[], Name]) -> list[Stmt]:
    """A block with a label as statements without it."""
    if not exits_of(body, label):
        return body
    if not inside_loops(body, label, go_on=False):
        found = tail(body, label, 0)
        if found is not None:
            return found
    mark = flag()
    return [Set(at, mark, ZERO), *guarded(body, label, False, mark, None)]


def tail(statements: list[Stmt], label: int, nested: int) -> list[Stmt] | None:
    """Statements at the end of a block, where leaving it is doing nothing more; none where that takes a flag."""
    for number, statement in enumerate(statements):
        if isinstance(statement, Leave) and statement.label == label:
            return statements[:number]
        if not isinstance(statement, Branch) or not exits_of([statement], label):
            continue
        rest = statements[number + 1 :]
        ends_then, ends_other = completes(statement.then), completes(statement.other)
        if nested > MOST_NESTED:
            return None
        if ends_then and ends_other and rest and weight_of(rest) > SHORT_REST:
            return None
        if any(isinstance(inner, Iterations) for inner in each(rest)) and ends_then and ends_other:
            return None
        then = tail(statement.then + (rest if ends_then else []), label, nested + 1)
        other = tail(statement.other + (copied(rest) if ends_other else []), label, nested + 1)
        if then is None or other is None:
            return None
        return [*statements[:number], *branch(statement, then, other)]
    return statements


def branch(statement: Branch, then: list[Stmt], other: list[Stmt]) -> list[Stmt]:
    """A branch with these arms, the empty one as `else`."""
    if then:
        return [Branch(statement.at, statement.condition, then, other)]
    return [Branch(statement.at, negated(statement.condition), other)] if other else []


def guarded(
    statements: list[Stmt], label: int, go_on: bool, mark: Name, leave: Callable[[], Stmt] | None
) -> list[Stmt]:
    """Statements that set a flag in place of an exit, and do nothing more then.

    `leave` is done behind a loop that was left.
    """
    found: list[Stmt] = []
    for number, statement in enumerate(statements):
        if is_exit(statement, label, go_on):
            found.append(Set(statement.at, mark, ONE) if leave is None else leave())
            return found
        if not exits_of([statement], label, go_on):
            found.append(statement)
            continue
        rest = statements[number + 1 :]
        found.append(marked(statement, label, go_on, mark, leave))
        if leave is not None:
            if isinstance(statement, Iterations):
                found.append(Branch(statement.at, Chain("!=", mark, ZERO), [leave()]))
            return found + guarded(rest, label, go_on, mark, leave)
        if rest:
            inner = guarded(rest, label, go_on, mark, leave)
            found.append(Branch(rest[0].at, Sign("!", mark), inner))
        return found
    return found


def marked(statement: Stmt, label: int, go_on: bool, mark: Name, leave: Callable[[], Stmt] | None) -> Stmt:
    """A statement with exits inside it, which set the flag."""
    if isinstance(statement, Branch):
        arms = [guarded(arm, label, go_on, mark, leave) for arm in (statement.then, statement.other)]
        return Branch(statement.at, statement.condition, *arms)
    if isinstance(statement, Iterations):
        statement.body = left(statement.body, label, go_on, mark, statement.label)
    return statement


def left(statements: list[Stmt], label: int, go_on: bool, mark: Name, own: int) -> list[Stmt]:
    """The body of a loop inside: an exit of the outer label sets the flag and leaves the loop."""
    found: list[Stmt] = []
    for statement in statements:
        if is_exit(statement, label, go_on):
            return [*found, Set(statement.at, mark, ONE), Leave(statement.at, own)]
        if isinstance(statement, Branch):
            arms = [left(arm, label, go_on, mark, own) for arm in (statement.then, statement.other)]
            found.append(Branch(statement.at, statement.condition, *arms))
        elif isinstance(statement, Iterations) and exits_of(statement.body, label, go_on):
            statement.body = left(statement.body, label, go_on, mark, statement.label)
            found += [statement, Branch(statement.at, Chain("!=", mark, ZERO), [Leave(statement.at, own)])]
        else:
            found.append(statement)
    return found


def escapes(statements: list[Stmt], inside: frozenset[int] = frozenset()) -> bool:
    """Whether statements return, or leave or go on with a loop around them."""
    for line in statements:
        if isinstance(line, GiveBack):
            return True
        if isinstance(line, Leave | GoOn) and line.label not in inside:
            return True
        within = inside | {line.label} if isinstance(line, Iterations | Labelled) else inside
        if any(escapes(part, within) for part in parts(line)):
            return True
    return False
