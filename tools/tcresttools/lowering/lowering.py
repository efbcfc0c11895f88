"""The whole way from C files to a text of the subset."""

from __future__ import annotations

import re
import sys
from collections.abc import Sequence
from dataclasses import dataclass
from pathlib import Path

from .builder import Builder
from .calls import CallOrder, call_order
from .context import Context
from .control import Control
from .intervals import find_intervals
from .limits import Limits
from .outers import declare_outers
from .pairing import needed_helpers
from .printing import Printer
from .regions import Layout, Regions
from .scopes import Options, Shared
from .source import parsed, read_source
from .statements import Statements, finish_calls, read_program
from .subset import Text
from .told import Notes, Refused
from .tree import FunctionText, Program, expressions_in, walk

HELPERS = Path(__file__).resolve().parent / "helpers.c"
MOST_DEPTH_OF_PYTHON = 20_000
MOST_BRACKETS = 64


@dataclass
class Lowered:
    """A lowered text, and what there is to tell."""

    text: Text
    lines: list[str]
    notes: Notes


def lower(paths: Sequence[str], options: Options, defines: Sequence[str] = (), folders: Sequence[str] = ()) -> Lowered:
    """The text of the subset that means what some C files mean."""
    sys.setrecursionlimit(max(sys.getrecursionlimit(), MOST_DEPTH_OF_PYTHON))
    notes = Notes()
    program = read_program([read_source(path, defines, folders) for path in paths], options, notes)
    order = call_order(program, options.depths, notes)
    add_helpers(order)
    context = analysed(program, order, options, notes)
    for function in order.functions:
        context.declare(function)
    make_functions(context)
    text = Text(context.outers, context.functions)
    text = Limits(text, context.names, context.labels, notes).applied()
    printer = Printer()
    printer.text(text)
    check_brackets(printer)
    return Lowered(text, list(printer.mapped()), notes)


def check_brackets(printer: Printer) -> None:
    """At most 64 brackets are open at once."""
    opened = 0
    for line, at in printer.lines:
        for sign in line.partition("//")[0]:
            opened += (sign in "([{") - (sign in ")]}")
            if opened > MOST_BRACKETS:
                raise Refused(at, "what stands here is nested too deep: make a function of the inner part")


def add_helpers(order: CallOrder) -> None:
    """Puts the functions for 64 bits that the program needs before its own."""
    needed: set[str] = set()
    for function in order.functions:
        assert function.body is not None
        for expression in expressions_in(function.body):
            for part in walk(expression):
                needed |= needed_helpers(part)
    if not needed:
        return
    if "wide_quotient_signed" in needed:
        needed.add("wide_quotient")
    shared = Shared(Options(), Notes())
    text = re.sub(r"/\*.*?\*/", "", HELPERS.read_text(encoding="utf-8"), flags=re.S)
    Statements(shared).read_file(parsed(HELPERS.name, text))
    finish_calls(shared)
    for variable in shared.globals:
        variable.helper = True
    found = [function for function in shared.functions if function.name in needed]
    for number, function in enumerate(found):
        function.helper = True
        order.ring[function] = -1 - number
    order.functions[:0] = found


def analysed(program: Program, order: CallOrder, options: Options, notes: Notes) -> Context:
    """What is known of a program before its text is made."""
    regions = Regions()
    for function in order.functions:
        regions.visit_function(function)
    layout = Layout(regions, order, notes)
    intervals = find_intervals(order, regions.used)
    context = Context(options, notes, regions, layout, order, intervals)
    declare_outers(context)
    return context


def make_functions(context: Context) -> None:
    """The text of each function, those that are called first, and of recursion the deepest level first."""
    rings: dict[int, list[FunctionText]] = {}
    for function in context.order.functions:
        rings.setdefault(context.order.ring[function], []).append(function)
    for number, ring in rings.items():
        head = context.order.head.get(number)
        for level in reversed(range(context.order.depth.get(number, 1))):
            for function in level_order(ring, head):
                make_function(context, function, level)


def level_order(ring: list[FunctionText], head: FunctionText | None) -> list[FunctionText]:
    """The functions of a level, each behind those that it calls there; the head is called from the level above."""
    found: list[FunctionText] = []

    def visit(function: FunctionText) -> None:
        if function in found or function not in ring:
            return
        for call in function.calls:
            if call.function is not head and call.function is not function:
                visit(call.function)
        if function not in found:
            found.append(function)

    for function in ring:
        visit(function)
    return found


def make_function(context: Context, function: FunctionText, level: int) -> None:
    made = Control(context, function, level).made()
    context.functions.append(made)
    builder = Builder(context.names, context.effects, context.notes, context.labels)
    own = {local.name for local in [*made.parameters, *made.locals]}
    context.effects[made.name] = builder.writes(made.body) - own
