"""Reads statements and whole files."""

from __future__ import annotations

import re
from collections.abc import Sequence
from typing import Any

from .declarations import Declarations
from .kinds import Array, Integer, Pointer, Signature, Void
from .scopes import Names, Options, Shared, kind_of, place_of
from .told import Notes, Place, Refused

from .tree import (
    Arm, Block, Bound, Break, Continue, Declare, Do, FunctionText, Goto, If, Label, Loop, Program, Return, Statement,
    Storage, Switch, Variable,
)  # fmt: skip

LOOP_BOUND = re.compile(r'"?\s*loopbound\s+min\s+(\d+)\s+max\s+(\d+)\s*"?')
LOOPS = ("While", "DoWhile", "For")


class Statements:
    """Reads the functions of a file."""

    def __init__(self, shared: Shared) -> None:
        self.names = Names(shared)
        self.shared = shared
        self.declarations = Declarations(self.names)
        self.expressions = self.declarations.expressions

    # A file.

    def read_file(self, tree: Any) -> None:
        """Everything that a file declares."""
        for node in tree.ext:
            match kind_of(node):
                case "Pragma":
                    continue
                case "Typedef":
                    self.declarations.typedef(node)
                case "Decl":
                    self.declarations.variable(node, Storage.GLOBAL)
                case "FuncDef":
                    self.read_function(node)
                case other:
                    raise Refused(place_of(node), f"`{other}` can't stand outside functions")

    def read_function(self, node: Any) -> None:
        """A function with its text."""
        kind, at = self.declarations.type_of(node.decl.type), place_of(node.decl)
        assert isinstance(kind, Signature)
        function = self.declarations.function(node.decl.name, kind, at, "static" in node.decl.storage)
        if function.body is not None:
            raise Refused(at, f"`{function.name}` has two texts")
        function.type, function.at = kind, at
        self.names.function = function
        self.names.open()
        self.read_parameters(node, function)
        statements = self.items(node.body.block_items)
        function.body = Block(at, statements)
        self.names.close()
        self.names.function = None

    def read_parameters(self, node: Any, function: FunctionText) -> None:
        """The parameters, with types at their names or, in the old way, behind the brackets."""
        given = [entry for entry in (node.decl.type.args.params if node.decl.type.args else [])]
        old = {entry.name: entry for entry in (node.param_decls or [])}
        kinds = []
        for entry in given:
            entry = old.get(entry.name, entry) if kind_of(entry) == "ID" else entry
            kind = self.declarations.type_of(entry.type) if kind_of(entry) != "ID" else Integer(32, True, 4)
            kind = Pointer(kind.of) if isinstance(kind, Array) else kind
            if isinstance(kind, Void):
                continue
            kinds.append(kind)
            made = Variable(entry.name or f"unnamed{len(kinds)}", kind, Storage.PARAMETER, place_of(entry), function)
            function.parameters.append(made)
            self.names.inner.names[made.name] = made
        function.type = Signature(function.type.result, tuple(kinds))

    # Statements.

    def items(self, nodes: Sequence[Any] | None) -> list[Statement]:
        """The statements of a block, each loop with the bound that stands before it."""
        found: list[Statement] = []
        bound: Bound | None = None
        for node in nodes or []:
            if kind_of(node) == "Pragma":
                bound = bound_of(node) or bound
                continue
            found += self.statement(node, bound)
            if kind_of(node) != "EmptyStatement":
                bound = None
        return found

    def block(self, node: Any, bound: Bound | None = None) -> Block:
        """A statement with a scope of its own."""
        if node is None:
            return Block(Place("", 0), [])
        self.names.open()
        nodes = node.block_items if kind_of(node) == "Compound" else [node]
        found = self.items(nodes) if bound is None else self.statement(node, bound)
        self.names.close()
        return Block(place_of(node), found)

    def statement(self, node: Any, bound: Bound | None = None) -> list[Statement]:
        """A statement; a declaration of several names is several."""
        at, name = place_of(node), kind_of(node)
        if name in LOOPS:
            return [self.loop(node, bound)]
        match name:
            case "Compound":
                if bound is not None and node.block_items and kind_of(node.block_items[0]) in LOOPS:
                    return [self.loop(node.block_items[0], bound), *self.items(node.block_items[1:])]
                return [self.block(node)]
            case "EmptyStatement" | "Pragma":
                return []
            case "Typedef":
                self.declarations.typedef(node)
                return []
            case "Decl":
                return self.declaration(node)
            case "DeclList":
                return [found for entry in node.decls for found in self.declaration(entry)]
            case "If":
                other = self.block(node.iffalse) if node.iffalse is not None else None
                return [If(at, self.expressions.condition(node.cond), self.block(node.iftrue), other)]
            case "Switch":
                return [self.switch(node)]
            case "Return":
                return [self.returned(node)]
            case "Break":
                return [Break(at)]
            case "Continue":
                return [Continue(at)]
            case "Goto":
                return [Goto(at, node.name)]
            case "Label":
                return [Label(at, node.name, bound), *self.statement(node.stmt, bound)]
            case "Case" | "Default":
                text = "a `case` inside a loop or an arm of its `switch`: write the loop inside the arm"
                raise Refused(at, text)
        return [Do(at, self.expressions.value(node))]

    def declaration(self, node: Any) -> list[Statement]:
        """A declaration in a function; one outside the order of time says nothing here."""
        made = self.declarations.variable(node, Storage.LOCAL)
        if made is None or made.storage.lasting:
            return []
        if isinstance(made.type, Array) and made.type.length is None:
            raise Refused(made.at, f"`{made.name}` has no length")
        return [Declare(made.at, made)]

    def returned(self, node: Any) -> Return:
        """`return`, with the value as one of the function's type."""
        function = self.names.function
        assert function is not None
        result = function.type.result
        if node.expr is None or isinstance(result, Void):
            return Return(place_of(node), self.expressions.value(node.expr) if node.expr is not None else None)
        value = self.expressions.value(node.expr)
        return Return(place_of(node), self.expressions.converted(value, result))

    def loop(self, node: Any, bound: Bound | None) -> Loop:
        """A loop of one of the three kinds."""
        at, name = place_of(node), kind_of(node)
        self.names.open()
        begin: list[Statement] = []
        step = None
        if name == "For":
            if kind_of(node.init) == "DeclList":
                begin = self.statement(node.init)
            elif node.init is not None:
                begin = [Do(place_of(node.init), self.expressions.value(node.init))]
            step = self.expressions.value(node.next) if node.next is not None else None
        condition = self.expressions.condition(node.cond) if node.cond is not None else None
        bound = bound or self.inner_bound(node)
        body = self.block(node.stmt)
        self.names.close()
        told = self.shared.options.bounds.get((at.file, at.line))
        bound = Bound(0, told) if told is not None else bound
        return Loop(at, begin, condition, step, body, bound, name == "DoWhile")

    def inner_bound(self, node: Any) -> Bound | None:
        """A bound that stands as the first thing in the body."""
        items = node.stmt.block_items if kind_of(node.stmt) == "Compound" else None
        if not items or kind_of(items[0]) != "Pragma" or (len(items) > 1 and kind_of(items[1]) in LOOPS):
            return None
        return bound_of(items[0])

    def switch(self, node: Any) -> Switch:
        """A switch: what stands behind each label."""
        at = place_of(node)
        value = self.expressions.number(node.cond)
        self.names.open()
        arms: list[Arm] = []
        for entry in node.stmt.block_items or [] if kind_of(node.stmt) == "Compound" else [node.stmt]:
            if kind_of(entry) in ("Case", "Default"):
                self.arm(entry, value.type, arms)
            elif kind_of(entry) == "Decl" and entry.init is None:
                self.declaration(entry)
            elif kind_of(entry) != "Pragma":
                raise Refused(place_of(entry), "a statement before the first `case`, which is never done: take it out")
        self.names.close()
        return Switch(at, value, joined(arms))

    def arm(self, node: Any, kind: Any, arms: list[Arm]) -> None:
        """A label with what stands behind it, up to the next label."""
        at = place_of(node)
        label = None
        if kind_of(node) == "Case":
            promoted = kind if kind.bits >= 32 else Integer(32, True, 4)
            label = promoted.wrapped(self.expressions.constant(node.expr))
            if any(label in arm.labels for arm in arms):
                raise Refused(at, f"two labels of {label}")
        made = Arm(at, [] if label is None else [label], label is None, [])
        arms.append(made)
        inner = list(node.stmts or [])
        if len(inner) == 1 and kind_of(inner[0]) in ("Case", "Default"):
            self.arm(inner[0], kind, arms)
            return
        made.statements = self.items(inner)


def joined(arms: list[Arm]) -> list[Arm]:
    """Labels one after another with nothing between them are one arm."""
    found: list[Arm] = []
    for arm in arms:
        if found and not found[-1].statements:
            before = found[-1]
            found[-1] = Arm(before.at, before.labels + arm.labels, before.default or arm.default, arm.statements)
        else:
            found.append(arm)
    return found


def bound_of(node: Any) -> Bound | None:
    """The bound that a pragma tells; none where it tells something else."""
    text = node.string if isinstance(node.string, str) else getattr(node.string, "value", "")
    found = LOOP_BOUND.fullmatch(text.strip())
    return Bound(int(found.group(1)), int(found.group(2))) if found else None


def read_program(trees: Sequence[Any], options: Options, notes: Notes) -> Program:
    """The program of some files."""
    shared = Shared(options, notes)
    for tree in trees:
        Statements(shared).read_file(tree)
    finish_calls(shared)
    main = shared.names.get("main")
    if not isinstance(main, FunctionText) or main.body is None:
        raise Refused(None, "there is no function `main`, with which a task begins")
    if main.parameters:
        raise Refused(main.at, "`main` has parameters: a task has none, and reads its input from an array `in`")
    return Program(shared.functions, shared.globals, main)


def finish_calls(shared: Shared) -> None:
    """The arguments of each call as its parameters take them, now that all functions are known."""
    expressions = Statements(shared).expressions
    for call in shared.undeclared:
        found = shared.names.get(call.function.name)
        if isinstance(found, FunctionText) and found.body is not None:
            call.function = found
            if found.type.result != call.type and not isinstance(found.type.result, Void):
                raise Refused(
                    call.at, f"`{found.name}` is called before it is declared, and gives no `int`: declare it first"
                )
            shared.notes.warn(call.at, f"`{found.name}` is called before it is declared")
    for call in shared.calls + shared.undeclared:
        function = call.function
        if function.body is None:
            continue
        if len(call.arguments) != len(function.parameters):
            text = f"`{function.name}` takes {len(function.parameters)} arguments, and gets {len(call.arguments)}"
            raise Refused(call.at, text)
        pairs = zip(call.arguments, function.parameters, strict=True)
        call.arguments = [expressions.converted(value, parameter.type) for value, parameter in pairs]
