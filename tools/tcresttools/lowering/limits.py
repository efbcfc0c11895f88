"""Brings a text into the limits of the program: functions that are too heavy are split, and those called once are
taken in.
"""

from __future__ import annotations

from collections.abc import Callable
from dataclasses import dataclass, field
from itertools import count

from .builder import NameTable
from .declaring import declared
from .exits import escapes, resolved
from .folding import folded

from .subset import (
    MOST_FRAME, MOST_FUNCTION, MOST_FUNCTIONS, MOST_TASK, Branch, Function, GiveBack, Invoke, Iterations, Labelled,
    Leave, Local, Name, Outer, Put, Set, Stmt, Text, copied, each, expressions_of, frame, function_weight, mentioned,
    names_in, parts, rooms, text_weight, weight_of,
)  # fmt: skip
from .told import Notes, Refused

PART = 2600
PART_ROOMS = 60
MOST_PART = 3600
LEAST_PART = 200
MOST_WORDS = 49_148


def fits(function: Function) -> bool:
    """Whether a function with its declarations is within the limits."""
    return function_weight(function) <= MOST_FUNCTION and frame(function) <= MOST_FRAME


def copy_function(function: Function) -> Function:
    made = Function(function.name, function.at, function.result, list(function.parameters), list(function.locals), [])
    made.body, made.temporaries = copied(function.body), function.temporaries
    return made


@dataclass
class Limits:
    """What brings a text into its limits."""

    text: Text
    names: NameTable
    labels: count[int]
    notes: Notes
    parts: list[Function] = field(default_factory=list)

    def applied(self) -> Text:
        """The text with declarations, within the limits."""
        if text_weight(self.text) > MOST_TASK and weight_after(self.text) > MOST_TASK:
            self.text = folded(self.text, self.names)
        self.take_in()
        functions: list[Function] = []
        for function in self.text.functions:
            whole = declared(copy_function(function))
            if fits(whole):
                functions.append(whole)
                continue
            self.parts = []
            rest = self.split(function)
            functions += [*self.parts, rest]
        self.text.functions = functions
        self.check()
        return self.text

    def check(self) -> None:
        """Says by how much the text is too heavy, and which part weighs most."""
        for function in self.text.functions:
            if not fits(function):
                weight, words = function_weight(function), frame(function)
                told = (
                    f"weighs {weight} of at most {MOST_FUNCTION}"
                    if weight > MOST_FUNCTION
                    else (f"keeps {words} words on the stack, of at most {MOST_FRAME}")
                )
                raise Refused(
                    function.at, f"`{function.name}` {told}, and can't be split further: make several statements"
                )
        self.check_words()
        total = text_weight(self.text)
        if total > MOST_TASK:
            heavy = max(self.text.functions, key=function_weight)
            share = f"`{heavy.name}` weighs most, {function_weight(heavy)}"
            text = f"the program weighs {total}, {total - MOST_TASK} more than a task may; {share}"
            raise Refused(heavy.at, f"{text}: leave out what the task does not need, or make two tasks of it")

    def check_words(self) -> None:
        """Says by how much the arrays are too long, and which one is the longest."""
        words = sum(1 if outer.length is None else outer.length for outer in self.text.outers)
        if words > MOST_WORDS:
            longest = max(self.text.outers, key=lambda outer: outer.length or 1)
            text = (
                f"the variables take {words} words, {words - MOST_WORDS} more than a task has; `{longest.name}` is"
                f" the longest"
            )
            raise Refused(longest.at, f"{text}, with {longest.length}")

    # Taking in functions that are called once.

    def take_in(self) -> None:
        """While there are more than 16 functions, one that is called once is put into the one that calls it."""
        while len(self.text.functions) > MOST_FUNCTIONS:
            found = self.once_called()
            if found is None:
                return
            inner, outer, call = found
            self.put_in(inner, outer, call)
            self.text.functions.remove(inner)

    def once_called(self) -> tuple[Function, Function, Invoke] | None:
        """The lightest function that is called at one place, where there is room for it."""
        best: tuple[Function, Function, Invoke] | None = None
        for inner in self.text.functions:
            calls = [
                (outer, line)
                for outer in self.text.functions
                for line in each(outer.body)
                if isinstance(line, Invoke) and line.function == inner.name
            ]
            if len(calls) != 1 or calls[0][0] is inner:
                continue
            outer, call = calls[0]
            room = function_weight(outer) + function_weight(inner) < MOST_FUNCTION
            words = frame(outer) + frame(inner) - 24 < MOST_FRAME
            lighter = best is None or function_weight(inner) < function_weight(best[0])
            if room and words and lighter:
                best = (inner, outer, call)
        return best

    def put_in(self, inner: Function, outer: Function, call: Invoke) -> None:
        """The text of a function in place of its only call."""
        taken = {local.name for local in [*outer.parameters, *outer.locals]}
        names: dict[str, str] = {}
        for local in [*inner.parameters, *inner.locals]:
            names[local.name] = self.names.fresh(local.name, taken)
            outer.locals.append(Local(names[local.name], local.unsigned))
        outer.temporaries |= {names[name] for name in inner.temporaries}
        begin: list[Stmt] = [
            Set(call.at, Name(names[local.name], local.unsigned), value)
            for local, value in zip(inner.parameters, call.arguments, strict=True)
        ]
        label = next(self.labels)
        body = self.without_returns(copied(inner.body, names), label, call)
        body = resolved([Labelled(call.at, label, body)], self.flag_of(outer))
        replace_call(outer.body, call, [*begin, *body])

    def flag_of(self, function: Function) -> Callable[[], Name]:
        """Makes a new variable of a function."""

        def flag() -> Name:
            taken = {local.name for local in [*function.parameters, *function.locals]}
            made = Local(self.names.fresh("left", taken), False)
            function.locals.append(made)
            return Name(made.name)

        return flag

    def without_returns(self, statements: list[Stmt], label: int, call: Invoke) -> list[Stmt]:
        """Statements in which a return sets what the call gives, and leaves a block."""
        found: list[Stmt] = []
        for line in statements:
            if isinstance(line, GiveBack):
                if isinstance(call.target, Name) and line.value is not None:
                    found.append(Set(line.at, call.target, line.value))
                elif call.target is not None and line.value is not None:
                    assert not isinstance(call.target, Name)
                    found.append(Put(line.at, call.target, line.value))
                found.append(Leave(line.at, label))
                continue
            if isinstance(line, Branch):
                line.then = self.without_returns(line.then, label, call)
                line.other = self.without_returns(line.other, label, call)
            elif isinstance(line, Iterations | Labelled):
                line.body = self.without_returns(line.body, label, call)
            found.append(line)
        return found

    # Splitting.

    def split(self, function: Function) -> Function:
        """The rest of a function; runs of its statements become functions of their own, in `parts`."""
        self.notes.tell(function.at, f"`{function.name}` is too heavy for one function, and is split")
        result = self.one_return(function)
        body = self.lightened(function, function.body, PART)
        if weight_of(body) > MOST_PART or rooms(body) > PART_ROOMS:
            body = self.lightened(function, body, PART // 2)
        begin: list[Stmt] = []
        if result is not None:
            body = [*body, GiveBack(function.at, result)]
        made = Function(function.name, function.at, function.result, function.parameters, [], body)
        made.locals = list(function.locals)
        names = self.move_outside(made, begin)
        made.body = [*begin, *copied(body, names)]
        for number, part in enumerate(self.parts):
            part.body = copied(part.body, names)
            self.parts[number] = declared(part)
        return declared(made)

    def one_return(self, function: Function) -> Name | None:
        """Leaves one return at the end; the variable that it gives back."""
        last = function.body[-1] if function.body else None
        inside = [line for line in each(function.body) if isinstance(line, GiveBack) and line is not last]
        if not inside and isinstance(last, GiveBack):
            function.body = function.body[:-1]
            return self.kept_result(function, last) if last.value is not None else None
        if not inside and function.result == "void":
            return None
        label = next(self.labels)
        result = None
        if function.result != "void":
            result = Name(
                self.local_of(function, "result", function.result == "unsigned"), function.result == "unsigned"
            )
        call = Invoke(function.at, function.name, [], result)
        body = self.without_returns(copied(function.body), label, call)
        function.body = resolved([Labelled(function.at, label, body)], self.flag_of(function))
        return result

    def kept_result(self, function: Function, last: GiveBack) -> Name:
        """The value of the last return in a variable."""
        unsigned = function.result == "unsigned"
        assert last.value is not None
        result = Name(self.local_of(function, "result", unsigned), unsigned)
        function.body.append(Set(last.at, result, last.value))
        return result

    def local_of(self, function: Function, wanted: str, unsigned: bool) -> str:
        taken = {local.name for local in [*function.parameters, *function.locals]}
        made = Local(self.names.fresh(wanted, taken), unsigned)
        function.locals.append(made)
        return made.name

    def lightened(self, function: Function, statements: list[Stmt], limit: int) -> list[Stmt]:
        """Statements with runs of them moved out, until they are light."""
        for line in statements:
            inner = limit
            while inner >= LEAST_PART and (weight_of([line]) > limit or rooms([line]) > PART_ROOMS):
                self.lighten_parts(function, line, inner)
                inner //= 2
        if weight_of(statements) <= limit and rooms(statements) <= PART_ROOMS:
            return statements
        found: list[Stmt] = []
        run: list[Stmt] = []
        for line in statements:
            if escapes([line]):
                found += [*self.moved_out(function, run), line]
                run = []
                continue
            longer = [*run, line]
            if run and (
                weight_of(longer) > MOST_PART or rooms(longer) > PART_ROOMS or len(mentioned_locals(longer)) > 60
            ):
                found += self.moved_out(function, run)
                longer = [line]
            run = longer
        return found + self.moved_out(function, run)

    def lighten_parts(self, function: Function, line: Stmt, limit: int) -> None:
        """What stands inside a heavy statement."""
        if isinstance(line, Branch):
            line.then = self.lightened(function, line.then, limit)
            line.other = self.lightened(function, line.other, limit)
        elif isinstance(line, Iterations):
            line.body = self.lightened(function, line.body, limit)

    def moved_out(self, function: Function, run: list[Stmt]) -> list[Stmt]:
        """A run of statements as a function, and its call."""
        if not run or (len(run) == 1 and weight_of(run) < LEAST_PART):
            return run
        name = self.names.fresh(f"{function.name}_part")
        self.parts.append(Function(name, run[0].at, "void", [], [], run))
        return [Invoke(run[0].at, name, [])]

    def move_outside(self, function: Function, begin: list[Stmt]) -> dict[str, str]:
        """Variables that several parts mention go outside; one that a part sets before it reads it stays there."""
        names: dict[str, str] = {}
        users: list[Function] = [*self.parts, function]
        parameters = {local.name for local in function.parameters}
        kept: list[Local] = []
        mentions = [mentioned_locals(user.body) for user in users]
        for local in [*function.parameters, *function.locals]:
            using = [user for user, found in zip(users, mentions, strict=True) if local.name in found]
            own = local.name in parameters
            if using == [function] and (own or local in function.locals):
                kept += [] if own else [local]
                continue
            if not own and len(using) == 1 and set_first(using[0].body, local.name):
                using[0].locals.append(local)
                continue
            if not using:
                continue
            outer = self.names.fresh(f"{function.name}_{local.name}")
            self.text.outers.append(Outer(outer, local.unsigned, None, [], function.at))
            names[local.name] = outer
            if own:
                begin.append(Set(function.at, Name(outer, local.unsigned), Name(local.name, local.unsigned)))
        function.locals = kept
        return names


def weight_after(text: Text) -> int:
    """The weight of a text whose variables are declared."""
    return sum(function_weight(declared(copy_function(function))) for function in text.functions)


def mentioned_locals(statements: list[Stmt]) -> set[str]:
    found: set[str] = set()
    for line in statements:
        found |= mentioned(line)
    return found


def set_first(statements: list[Stmt], name: str) -> bool:
    """A variable is set by the first of these statements that mentions it, before anything reads it."""
    for line in statements:
        if name not in mentioned(line):
            continue
        if isinstance(line, Set | Invoke) and isinstance(line.target, Name) and line.target.name == name:
            return all(name not in names_in(expr) for expr in expressions_of(line))
        if isinstance(line, Iterations) and line.first is not None and line.first.target.name == name:
            return name not in names_in(line.first.value)
        return False
    return False


def replace_call(statements: list[Stmt], call: Invoke, by: list[Stmt]) -> bool:
    """Puts statements in place of a call."""
    for number, line in enumerate(statements):
        if line is call:
            statements[number : number + 1] = by
            return True
        if any(replace_call(part, call, by) for part in parts(line)):
            return True
    return False
