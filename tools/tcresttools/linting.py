"""What the program takes and people seldom mean: looked for in a task's text, without running anything."""

from __future__ import annotations

import re
from dataclasses import dataclass
from itertools import pairwise

from .assembly import Instruction, Statement, instructions_of, statements_of
from .c_indexes import arrays_of, past_elements
from .c_text import NoTokens, tokens_of
from .job import Job, Task
from .places import Place

SLOTS = {"br": 2, "call": 3, "brcf": 3, "ret": 3}
LOAD = re.compile(r"l(w|hu?|bu?)[slcm]")
STORE = re.compile(r"s(w|h|b)[slcm]")
REGISTER = re.compile(r"r(0[xX][0-9A-Fa-f]+|[0-9]+)(?![A-Za-z0-9_])")


@dataclass(frozen=True)
class Found:
    """What was found, and the byte of the source at which it is, or the key of the task that it is about."""

    at: int
    text: str
    key: str = ""


@dataclass(frozen=True)
class Bundle:
    """A bundle with its instructions."""

    statement: Statement
    parts: list[Instruction]

    @property
    def flow(self) -> Instruction | None:
        return next((part for part in self.parts if part.mnemonic in SLOTS), None)


@dataclass
class Function:
    """A function: its name, and its bundles and labels in their order."""

    name: str
    statement: Statement
    items: list[Bundle | Statement]

    @property
    def bundles(self) -> list[Bundle]:
        return [item for item in self.items if isinstance(item, Bundle)]


def functions_of(source: bytes) -> list[Function]:
    """The functions of an assembly text."""
    functions: list[Function] = []
    for statement in statements_of(source):
        if statement.kind == "function":
            functions.append(Function(statement.name, statement, []))
        elif functions:
            is_bundle = statement.kind == "bundle"
            functions[-1].items.append(Bundle(statement, instructions_of(statement)) if is_bundle else statement)
    return functions


def registers(text: str) -> set[int]:
    return {int(number, 0) if number[:2].lower() == "0x" else int(number) for number in REGISTER.findall(text)}


def loaded(part: Instruction) -> set[int]:
    """The register whose value a load brings late; r0 is none."""
    if not LOAD.fullmatch(part.mnemonic):
        return set()
    return registers(part.operands.partition("=")[0]) - {0}


def read(part: Instruction) -> set[int]:
    """The registers that an instruction reads."""
    if STORE.fullmatch(part.mnemonic) or part.mnemonic in ("mul", "mulu"):
        return registers(part.operands)
    return registers(part.operands.partition("=")[2])


def opposite(one: Instruction, other: Instruction) -> bool:
    """The one guard is the other's negation: only one of the two is done."""
    return one.guard != other.guard and one.guard.lstrip("!") == other.guard.lstrip("!") and one.guard.lstrip("!") != ""


def late_values(function: Function) -> list[Found]:
    """A load's value or a product that the next bundle reads."""
    found = []
    for first, second in pairwise(function.bundles):
        for part in first.parts:
            for user in second.parts:
                if opposite(part, user):
                    continue
                for register in sorted(loaded(part) & read(user)):
                    text = f"r{register} is not loaded yet: the bundle still reads its old value"
                    found.append(Found(second.statement.at, text))
                if (
                    part.mnemonic in ("mul", "mulu")
                    and user.mnemonic == "mfs"
                    and re.search(r"=\s*s[lh]\b", user.operands)
                ):
                    text = "the product is not there yet: the bundle still reads the old one"
                    found.append(Found(second.statement.at, text))
    return found


def slots(function: Function) -> list[Found]:
    """Flows with fewer delay slots than they have, with a flow in one, or with a label among them."""
    found = []
    for number, item in enumerate(function.items):
        if isinstance(item, Statement) or (flow := item.flow) is None:
            continue
        behind, left = function.items[number + 1 :], SLOTS[flow.mnemonic]
        for other in behind:
            if left == 0:
                break
            if isinstance(other, Statement):
                found.append(
                    Found(other.at, f"the label `{other.name}` stands in a delay slot of `{flow.mnemonic}` above")
                )
                continue
            left -= 1
            if other.flow is not None and not opposite(flow, other.flow):
                text = (
                    f"`{other.flow.mnemonic}` stands in a delay slot of `{flow.mnemonic}` above: a trap, where both are"
                    " done"
                )
                found.append(Found(other.statement.at, text))
        if left:
            some = SLOTS[flow.mnemonic]
            text = f"`{flow.mnemonic}` has {some} delay slots, and {some - left} bundles follow"
            found.append(Found(item.statement.at, text))
    return found


def returns(function: Function, entry: bool) -> list[Found]:
    """A return behind a call, where the place to return to was not given back."""
    found: list[Found] = []
    called = False
    kept: set[str] = set()
    for bundle in function.bundles:
        for part in bundle.parts:
            if part.mnemonic == "call":
                called, kept = True, set()
            elif part.mnemonic == "mts":
                kept.add(part.operands.split("=")[0].strip())
            elif part.mnemonic == "ret" and called and not {"srb"} <= kept:
                text = (
                    "goes back to the bundle after that call, for ever: put `mts srb = r0` before it"
                    if entry
                    else (
                        "goes back to the bundle after that call: keep `srb` and `sro` before the call, and give them"
                        " back after it"
                    )
                )
                found.append(Found(bundle.statement.at, f"`ret` after a call {text}"))
            elif part.mnemonic == "ret" and called and not entry and "sro" not in kept:
                found.append(Found(bundle.statement.at, "`ret` after a call: `srb` is given back, and `sro` is not"))
    return found


def written_by(part: Instruction) -> set[int]:
    """The registers that an instruction sets."""
    if STORE.fullmatch(part.mnemonic) or part.mnemonic == "mts" or "=" not in part.operands:
        return set()
    return registers(part.operands.partition("=")[0])


def waiting_loops(function: Function) -> list[list[Bundle]]:
    """The bundles of each loop: from a label up to a branch that goes back to it, with its delay slots."""
    found = []
    labels = {item.name: number for number, item in enumerate(function.items) if isinstance(item, Statement)}
    for number, item in enumerate(function.items):
        goal = item.flow.operands if isinstance(item, Bundle) and item.flow is not None else ""
        if item_is_branch(item) and labels.get(goal, number) < number:
            behind = function.items[labels[goal] : number + 1 + SLOTS["br"]]
            found.append([one for one in behind if isinstance(one, Bundle)])
    return found


def item_is_branch(item: Bundle | Statement) -> bool:
    return isinstance(item, Bundle) and item.flow is not None and item.flow.mnemonic == "br"


def polls(function: Function) -> list[Found]:
    """A loop that waits for a word by a load through the data cache, and changes nothing itself."""
    found = []
    for loop in waiting_loops(function):
        parts = [part for bundle in loop for part in bundle.parts]
        if any(STORE.fullmatch(part.mnemonic) or part.mnemonic in ("call", "brcf") for part in parts):
            continue
        set_here = {register for part in parts for register in written_by(part)}
        compared = {r for part in parts if part.mnemonic.startswith(("cmp", "btest")) for r in read(part)}
        for bundle in loop:
            for part in bundle.parts:
                cached = LOAD.fullmatch(part.mnemonic) and part.mnemonic.endswith("c")
                if cached and loaded(part) & compared and not read(part) & set_here:
                    other = part.mnemonic[:-1] + "m"
                    text = (
                        f"the loop waits for a word by `{part.mnemonic}`: the data cache keeps it, and no other core's"
                        f" store reaches it: write `{other}`"
                    )
                    found.append(Found(bundle.statement.at, text))
    return found


def lint_assembly(task: Task) -> list[Found]:
    found = []
    for number, function in enumerate(functions_of(task.source)):
        found += late_values(function) + slots(function) + returns(function, number == 0) + polls(function)
    return found


def lint(task: Task) -> list[Found]:
    """What is found in a task's text, in the order of its places."""
    found = lint_assembly(task) if task.lang == "asm" else lint_c(task)
    return sorted(dict.fromkeys(found), key=lambda one: one.at)


def place_of(job: Job, task: Task, found: Found) -> Place | None:
    """Where in the job's file it is."""
    if not found.key:
        return job.source_place(task, found.at)
    member = job.member(found.key, task.number)
    return None if member is None else job.place(member.key_at)


def warning_lines(job: Job, task: Task) -> list[str]:
    """What is found in a task's text, as it is printed."""
    lines = []
    for found in lint(task):
        place = place_of(job, task, found)
        lines.append(f"{job.named(place)}: {found.text}")
        if place is not None:
            lines += ["    " + line for line in place.caret().split("\n")]
    return lines


def lint_c(task: Task) -> list[Found]:
    try:
        tokens = tokens_of(task.source)
    except NoTokens:
        return []
    found = [Found(past.at, past.text) for past in past_elements(tokens, task.source)]
    if task.input:
        array = arrays_of(tokens).get("in")
        if array is None or not array.private:
            where = "no array `in`" if array is None else "its array `in` in the scratchpad"
            found.append(Found(0, f"the task has an input, and its text has {where}: nothing takes the input", "input"))
        elif len(task.input) > array.length:
            found.append(Found(0, f"the input has {len(task.input)} words, and `in` takes {array.length}", "input"))
    return found
