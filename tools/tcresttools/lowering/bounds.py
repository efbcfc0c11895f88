"""How often a loop iterates: as the text says, as the command line says, or as a counter shows."""

from __future__ import annotations

from .intervals import Intervals, counters_of
from .kinds import Integer, Pointer
from .ranges import Range
from .scopes import Options
from .told import Notes, Place, Refused

from .tree import (
    Assign, Bound, Comma, Const, Convert, Decay, Declare, Do, Expression, Loop, PointerMove, Ref, Variable,
)  # fmt: skip

MOST_ITERATIONS = 65_535


def bound_of_loop(loop: Loop, intervals: Intervals, notes: Notes) -> Bound:
    """The bound of a loop; it is asked for where it can't be inferred."""
    if loop.bound is not None:
        return checked(loop.at, loop.bound)
    found = counted(loop, intervals)
    if found is None:
        text = 'this loop needs a bound: write `_Pragma("loopbound min A max B")` before it'
        raise Refused(loop.at, f"{text}, or tell it with --bound {loop.at}=B")
    notes.tell(loop.at, f"this loop iterates at most {found} times")
    return checked(loop.at, Bound(0, found))


def bound_of_label(at: Place, told: Bound | None, options: Options) -> Bound:
    """The bound of a loop that a `goto` back makes."""
    number = options.bounds.get((at.file, at.line))
    if number is not None:
        return checked(at, Bound(0, number))
    if told is not None:
        return checked(at, told)
    raise Refused(at, f"a `goto` back to this label is a loop, and needs a bound: tell it with --bound {at}=B")


def checked(at: Place, bound: Bound) -> Bound:
    if bound.most > MOST_ITERATIONS:
        raise Refused(at, f"a bound is at most {MOST_ITERATIONS}, and this loop has {bound.most}: make two loops of it")
    return Bound(min(bound.least, bound.most), bound.most)


def counted(loop: Loop, intervals: Intervals) -> int | None:
    """How often a loop with a counter iterates at most."""
    if loop.condition is not None and isinstance(loop.condition, Const) and loop.condition.value == 0:
        return 0
    found: list[int] = []
    for counter in counters_of(loop):
        begin = begin_of(loop, counter.variable)
        start = intervals.range(begin) if begin is not None else intervals.of(counter.variable)
        limit = intervals.range(counter.compare.right)
        if start is not None and limit is not None:
            iterations = iterations_between(start, limit, counter.by, counter.compare.sign in ("<=", ">="))
            kind = counter.variable.type
            if isinstance(kind, Integer) and stays(kind, limit, counter.by):
                found.append(iterations)
    found += pointer_iterations(loop)
    return min(found) if found else None


def stays(kind: Integer, limit: Range, by: int) -> bool:
    """The counter does not wrap before its limit ends it."""
    return limit.high + by <= kind.high if by > 0 else limit.low + by >= kind.low


def iterations_between(start: Range, limit: Range, by: int, with_edge: bool) -> int:
    """How often a counter steps from its start to its limit."""
    gap = limit.high - start.low if by > 0 else start.high - limit.low
    return max(0, -(-(gap + (1 if with_edge else 0)) // abs(by)))


def begin_of(loop: Loop, variable: Variable) -> Expression | None:
    """The value with which a counter begins."""
    for statement in loop.begin:
        if isinstance(statement, Declare) and statement.variable is variable and variable.initial:
            return variable.initial[0].value
        if isinstance(statement, Do) and (value := assigned(statement.expression, variable)) is not None:
            return value
    return None


def assigned(expression: Expression, variable: Variable) -> Expression | None:
    """The value that an expression sets a variable to, at last."""
    if isinstance(expression, Comma):
        return assigned(expression.last, variable) or assigned(expression.first, variable)
    if isinstance(expression, Assign):
        if isinstance(expression.target, Ref) and expression.target.variable is variable:
            return expression.value
        value = expression.value
        while isinstance(value, Convert):
            value = value.operand
        return assigned(value, variable)
    return None


def pointer_iterations(loop: Loop) -> list[int]:
    """How often a pointer steps through an array up to a constant place."""
    found = []
    for counter in counters_of(loop):
        if not isinstance(counter.variable.type, Pointer):
            continue
        begin = begin_of(loop, counter.variable)
        start, end = place_in(begin), place_in(counter.compare.right)
        if start is None or end is None or start[0] is not end[0]:
            continue
        gap = end[1] - start[1] if counter.by > 0 else start[1] - end[1]
        edge = 1 if counter.compare.sign in ("<=", ">=") else 0
        found.append(max(0, -(-(gap + edge) // abs(counter.by))))
    return found


def place_in(pointer: Expression | None) -> tuple[Variable, int] | None:
    """An array and the number of an element, where a pointer says both."""
    match pointer:
        case Decay(_, _, Ref(_, _, variable)):
            return variable, 0
        case PointerMove(_, _, sign, inner, Const(_, _, value)):
            found = place_in(inner)
            return None if found is None else (found[0], found[1] + (value if sign == "+" else -value))
        case Convert(_, _, inner) if isinstance(inner.type, Pointer):
            return place_in(inner)
    return None
