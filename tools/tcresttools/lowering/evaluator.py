"""A function while its text is made: what makes words, pairs, places, assignments and calls, and the names of its
variables.
"""

from __future__ import annotations

from functools import partial

from .assigning import Assigning
from .builder import Builder
from .calling import Calls
from .context import Context, leaf_names
from .kinds import CType, Pointer, Record, is_wide
from .pairing import Pairs
from .regions import Memory
from .spots import NameSpot, Spots
from .subset import Name

from .tree import (
    Assign, Call, Comma, Conditional, Const, Convert, Expression, FunctionText, Logic, Step, Update, Variable,
    operands,
)  # fmt: skip
from .words import Pair, Value
from .wording import Words


class Evaluator:
    """What a function needs to make its expressions."""

    def __init__(self, context: Context, function: FunctionText, level: int) -> None:
        self.context = context
        self.function = function
        self.level = level
        self.builder = Builder(context.names, context.effects, context.notes, context.labels)
        self.spots = Spots(self)
        self.words = Words(self)
        self.pairs = Pairs(self)
        self.calls = Calls(self)
        self.assigning = Assigning(self)
        self.own: dict[Variable, tuple[Name, ...]] = {}

    def word(self, expression: Expression) -> Value:
        """The word of a number of at most 32 bits, or of a pointer."""
        return self.words.word(expression)

    def pair(self, expression: Expression) -> Pair:
        """The words of a number of 64 bits."""
        return self.pairs.pair(expression)

    def settled_word(self, expression: Expression) -> Value:
        """The word of a whole expression, behind which all its effects are done."""
        return self.builder.settled([self.word(expression)])[0]

    def names_of(self, variable: Variable) -> tuple[Name, ...]:
        """The names of a variable's words."""
        if variable.storage.lasting:
            return self.context.outer_names[variable]
        if variable not in self.own:
            made = [
                self.builder.local(local.name, local.unsigned) for local in leaf_names(variable.type, variable.name)
            ]
            self.own[variable] = tuple(made)
        return self.own[variable]

    def record_of_temporaries(self, kind: CType) -> NameSpot:
        """Variables for a record."""
        made = [self.builder.local(local.name, local.unsigned) for local in leaf_names(kind, "chosen")]
        return NameSpot(tuple(made), kind)

    def memory_behind(self, pointer: Expression) -> Memory | None:
        """The array that a pointer reaches; none where it reaches none."""
        if isinstance(pointer, Const) or not isinstance(pointer.type, Pointer):
            return None
        region = self.context.regions.target(pointer)
        return self.context.layout.memory_of(region, pointer.at) if self.context.layout.has_memory(region) else None

    def effect(self, expression: Expression) -> None:
        """An expression for its effects alone."""
        wide = is_wide(expression.type)
        match expression:
            case Assign():
                self.assigning.assign_pair(expression) if wide else self.assigning.assign(expression, used=False)
            case Update():
                self.assigning.update_pair(expression) if wide else self.assigning.update(expression, used=False)
            case Step():
                self.assigning.step_pair(expression) if wide else self.assigning.step(expression, used=False)
            case Call():
                self.calls.effect(expression)
            case Comma(_, _, first, last):
                self.effect(first)
                self.builder.settled([])
                self.effect(last)
            case Convert(_, _, operand):
                self.effect(operand)
            case Logic(_, _, sign, left, right):
                condition = self.builder.settled([self.words.truth_value(left)])[0].expr
                inner = self.assigning.arm(lambda: self.effect(right))
                self.builder.branch(condition, inner if sign == "&&" else [], [] if sign == "&&" else inner)
            case Conditional(_, _, _, then, other):
                condition = self.assigning.condition(expression)
                arms = [self.assigning.arm(partial(self.effect, part)) for part in (then, other)]
                self.builder.branch(condition, *arms)
            case _:
                self.pair(expression) if wide else self.unused(expression)

    def unused(self, expression: Expression) -> None:
        """An expression without an effect of its own: those inside it count."""
        if isinstance(expression.type, Record):
            self.spots.spot(expression)
            return
        for part in operands(expression):
            self.effect(part)
