"""Writes a text of the subset, each line with the line of the source that it comes from."""

from __future__ import annotations

from collections.abc import Iterator
from dataclasses import dataclass, field

from .subset import (
    LEVELS, Branch, Chain, Declaration, Element, Expr, Function, GiveBack, GoOn, Invoke, Iterations, Labelled, Leave,
    Name, Number, Outer, Put, Set, Sign, Stmt, Text, number, printed_value,
)  # fmt: skip
from .told import NOWHERE, Place

WIDTH = 100
VALUES_A_LINE = 12


def shown(expr: Expr, around: int = 0, right: bool = False) -> str:
    """An expression inside a sign of a level, with brackets where C or its reader needs them."""
    match expr:
        case Number():
            written = printed_value(expr)
            if written is not expr:
                return f"({shown(written)})" if around > 0 else shown(written)
            return f"{expr.word}u" if expr.unsigned else str(expr.word)
        case Name(name, _):
            return name
        case Element(array, index, _):
            return f"{array}[{shown(index)}]"
        case Sign(sign, operand):
            inner = shown(operand)
            alone = isinstance(operand, Name | Element) or (isinstance(operand, Number) and not inner.startswith("-"))
            return f"{sign}{inner}" if alone else f"{sign}({inner})"
        case Chain(sign, left, other):
            own = LEVELS[sign]
            text = f"{shown(left, own)} {sign} {shown(other, own, True)}"
            return f"({text})" if own < around or (own == around and right) or mixed(own, around) else text


def mixed(own: int, around: int) -> bool:
    """Brackets that C does not need and people want: a sum in a shift, anything in a mask, `&&` in `||`."""
    if own <= around:
        return False
    return around in (3, 4, 5, 8) or (around == 1 and own == 2)


@dataclass
class Printer:
    """The lines of a text, each with the place in the source."""

    lines: list[tuple[str, Place]] = field(default_factory=list)
    named: dict[str, int] = field(default_factory=dict)

    def line(self, indent: int, text: str, at: Place) -> None:
        self.lines.append(("  " * indent + text, at))

    def statements(self, statements: list[Stmt], indent: int) -> None:
        for statement in statements:
            self.statement(statement, indent)

    def statement(self, statement: Stmt, indent: int) -> None:
        match statement:
            case Set(at, _, _, _):
                self.line(indent, f"{set_text(statement)};", at)
            case Put(at, target, value):
                self.line(indent, f"{shown(target)} = {shown(value)};", at)
            case Invoke():
                self.line(indent, f"{call_text(statement)};", statement.at)
            case Declaration(at, local):
                self.line(indent, f"{kind(local.unsigned)} {local.name};", at)
            case Branch():
                self.branch(statement, indent)
            case Iterations():
                self.loop(statement, indent)
            case Labelled(at, label, body):
                self.line(indent, f"block {label} {{", at)
                self.statements(body, indent + 1)
                self.line(indent, "}", NOWHERE)
            case Leave(at, label):
                self.line(indent, "break;" if not self.named else f"leave {label};", at)
            case GoOn(at, label):
                self.line(indent, "continue;" if not self.named else f"go on {label};", at)
            case GiveBack(at, value):
                self.line(indent, "return;" if value is None else f"return {shown(value)};", at)

    def branch(self, statement: Branch, indent: int) -> None:
        """`if`, `else if` and `else`."""
        self.line(indent, f"if ({shown(statement.condition)}) {{", statement.at)
        self.statements(statement.then, indent + 1)
        other = statement.other
        while len(other) == 1 and isinstance(other[0], Branch):
            inner = other[0]
            self.line(indent, f"}} else if ({shown(inner.condition)}) {{", inner.at)
            self.statements(inner.then, indent + 1)
            other = inner.other
        if other:
            self.line(indent, "} else {", NOWHERE)
            self.statements(other, indent + 1)
        self.line(indent, "}", NOWHERE)

    def loop(self, statement: Iterations, indent: int) -> None:
        """A loop with its bound."""
        at = statement.at
        self.line(indent, f'_Pragma("loopbound min {statement.least} max {statement.most}")', at)
        condition = shown(statement.condition)
        if statement.first is not None and statement.step is not None:
            self.line(indent, f"for ({set_text(statement.first)}; {condition}; {set_text(statement.step)}) {{", at)
        else:
            self.line(indent, f"while ({condition}) {{", at)
        self.statements(statement.body, indent + 1)
        self.line(indent, "}", NOWHERE)

    def function(self, function: Function) -> None:
        parameters = ", ".join(f"{kind(local.unsigned)} {local.name}" for local in function.parameters)
        self.line(0, "", NOWHERE)
        self.line(0, f"{function.result} {function.name}({parameters})", function.at)
        self.line(0, "{", function.at)
        self.statements(function.body, 1)
        self.line(0, "}", NOWHERE)

    def outer(self, outer: Outer) -> None:
        """A variable or an array with its first values; zeros at the end are left out."""
        values = [value for value in outer.values]
        while values and values[-1] % (1 << 32) == 0:
            values.pop()
        texts = [first_value(value) for value in values]
        head = f"{kind(outer.unsigned)} {outer.name}"
        if outer.length is None:
            self.line(0, f"{head} = {texts[0]};" if texts else f"{head};", outer.at)
            return
        head = f"{head}[{outer.length}]"
        if not texts:
            self.line(0, f"{head};", outer.at)
            return
        whole = f"{head} = {{{', '.join(texts)}}};"
        if len(whole) <= WIDTH:
            self.line(0, whole, outer.at)
            return
        self.line(0, f"{head} = {{", outer.at)
        for at in range(0, len(texts), VALUES_A_LINE):
            comma = "," if at + VALUES_A_LINE < len(texts) else ""
            self.line(1, ", ".join(texts[at : at + VALUES_A_LINE]) + comma, outer.at)
        self.line(0, "};", outer.at)

    def text(self, text: Text) -> None:
        for outer in text.outers:
            self.outer(outer)
        for function in text.functions:
            self.function(function)

    def mapped(self) -> Iterator[str]:
        """The lines, each that begins another line of the source with its place in a comment."""
        last = NOWHERE
        for line, at in self.lines:
            if at.line and at != last:
                yield f"{line} // {at}"
                last = at
            else:
                yield line


def kind(unsigned: bool) -> str:
    return "unsigned" if unsigned else "int"


def first_value(value: int) -> str:
    """A first value, which is a number with at most a sign."""
    found = number(value)
    return str(found.word) if found.word == 1 << 31 else str(found.value)


def set_text(statement: Set) -> str:
    declares = f"{kind(statement.target.unsigned)} " if statement.declares else ""
    return f"{declares}{statement.target.name} = {shown(statement.value)}"


def call_text(statement: Invoke) -> str:
    """A call, with what takes its result."""
    arguments = ", ".join(shown(argument) for argument in statement.arguments)
    call = f"{statement.function}({arguments})"
    if statement.target is None:
        return call
    declares = f"{kind(statement.target.unsigned)} " if statement.declares else ""
    return f"{declares}{shown(statement.target)} = {call}"


def plain_lines(statements: list[Stmt]) -> list[str]:
    """Statements as lines, without places, to compare them."""
    printer = Printer(named={"": 0})
    printer.statements(statements, 0)
    return [line for line, _ in printer.lines]
