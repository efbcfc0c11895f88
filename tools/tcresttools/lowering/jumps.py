"""`goto`: forward out of a block, which is a block that is left, and back to a label, which is a loop with a bound."""

from __future__ import annotations

from dataclasses import dataclass
from functools import partial
from typing import TYPE_CHECKING

from .bounds import bound_of_label
from .subset import ONE, GoOn, Iterations, Labelled, Leave, Stmt
from .told import Place, Refused
from .tree import Block, Goto, If, Label, Loop, Statement, Switch

if TYPE_CHECKING:
    from .control import Control


@dataclass
class Span:
    """Statements from `begin` to `end` that a label has: left by a jump forward, or gone on with by a jump back."""

    begin: int
    end: int
    label: Label
    back: bool


def jumps_in(statement: Statement) -> list[Goto]:
    """The jumps of a statement and of all below it."""
    match statement:
        case Goto():
            return [statement]
        case Block():
            return [found for inner in statement.statements for found in jumps_in(inner)]
        case If():
            return jumps_in(statement.then) + (jumps_in(statement.other) if statement.other is not None else [])
        case Loop():
            return jumps_in(statement.body)
        case Switch():
            return [found for arm in statement.arms for inner in arm.statements for found in jumps_in(inner)]
    return []


class Jumps:
    """Makes the jumps of a function."""

    def __init__(self, control: Control) -> None:
        self.control = control
        self.targets: dict[str, tuple[int, bool]] = {}

    def jump(self, statement: Goto) -> None:
        """A jump, to a label of a block around it."""
        found = self.targets.get(statement.label)
        if found is None:
            text = (
                f"`goto {statement.label}` goes into a block or to a place that is not reached so: use a loop and `if`"
            )
            raise Refused(statement.at, text)
        label, back = found
        self.control.builder.emit(GoOn(statement.at, label) if back else Leave(statement.at, label))

    def statements(self, statements: list[Statement]) -> None:
        """Statements with labels among them."""
        spans = spans_of(statements)
        nest(spans)
        self.control.builder.out += self.part(statements, 0, len(statements), spans)

    def part(self, statements: list[Statement], begin: int, end: int, spans: list[Span]) -> list[Stmt]:
        """The statements from one place to another; a span among them is a block or a loop."""
        control = self.control
        found: list[Stmt] = []
        at = begin
        while at < end:
            here = [span for span in spans if span.begin == at and span.end <= end]
            if not here:
                found += control.builder.block(partial(control.statement, statements[at]))
                at += 1
                continue
            outer = max(here, key=lambda span: (span.end, not span.back))
            rest = [span for span in spans if span is not outer]
            found.append(self.span(statements, outer, rest))
            at = outer.end
        return found

    def span(self, statements: list[Statement], span: Span, rest: list[Span]) -> Stmt:
        """A block that jumps forward leave, or a loop that jumps back go on with."""
        label = self.control.builder.label()
        name, at = span.label.name, span.label.at
        before = self.targets.get(name)
        self.targets[name] = (label, span.back)
        inner = self.part(statements, span.begin, span.end, rest)
        if before is None:
            del self.targets[name]
        else:
            self.targets[name] = before
        if not span.back:
            return Labelled(at, label, inner)
        bound = bound_of_label(at, span.label.bound, self.control.context.options)
        return Iterations(at, ONE, [*inner, Leave(at, label)], bound.least, bound.most, label)


def spans_of(statements: list[Statement]) -> list[Span]:
    """What the labels of a block make of its statements."""
    found: list[Span] = []
    for place, label in enumerate(statements):
        if not isinstance(label, Label):
            continue
        sources = [at for at, line in enumerate(statements) if any(jump.label == label.name for jump in jumps_in(line))]
        before = [at for at in sources if at < place]
        behind = [at for at in sources if at >= place]
        if before:
            found.append(Span(before[0], place, label, back=False))
        if behind:
            found.append(Span(place, behind[-1] + 1, label, back=True))
    return found


def nest(spans: list[Span]) -> None:
    """Makes spans that overlap stand in one another: a block may begin earlier, and a loop end later."""
    changed = True
    while changed:
        changed = False
        for one in spans:
            for other in spans:
                if one.begin < other.begin < one.end < other.end:
                    resolve(one, other)
                    changed = True


def resolve(one: Span, other: Span) -> None:
    """Two spans that overlap, the first of which begins first."""
    if not other.back:
        other.begin = one.begin
    elif one.back:
        one.end = other.end
    else:
        raise Refused(
            place_of(other), f"`goto` goes into the loop of the label `{other.label.name}`: use a loop and `if`"
        )


def place_of(span: Span) -> Place:
    return span.label.at
