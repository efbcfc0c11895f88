"""The code of C tasks as `tccode` writes it (docs/CODE.md): functions, loops, calls, bundles. No other reader is here.

Single-path code is a tree: a function has bundles, loops and calls in their order, and a loop has them too. A loop is
executed as often as its line says, and a call comes behind the delay slots of its bundle.
"""

from __future__ import annotations

import re
from collections.abc import Iterator
from dataclasses import dataclass, field

from .cli import BadInput
from .events import NoSequence
from .job import MOST_CYCLES, Task, toml_string
from .method_cache import WORDS_OF_TRANSACTION, fetch_words
from .program import accepted, run_code
from .report import bad_line
from .sends import targets_of
from .slot_tables import LEAST_SLOT, MOST_ENTRIES

TASK = re.compile(
    r"# core (\d+) words (\d+) bundles (\d+) transactions (\d+) bound (\d+) persist (\d+)",
)
FUNCTION = re.compile(r"# function (\S+) words (\d+) stack (\d+) (?:bundles (\d+) transactions (\d+)|long)")
LOOP = re.compile(r"# loop (L\d+) iterations (\d+)")
LOOP_END = re.compile(r"# end (L\d+)")
NAME = re.compile(r"\.func (\S+)")
LABEL = re.compile(r"(L\d+):")
BUNDLE = re.compile(r"  (.+);  # (\d+) ([0-9a-f]{8})(?: ([0-9a-f]{8}))?")
FIRST = re.compile(r"(?:\{ )?(?:\(!?p\d+\) )?([a-z0-9]+)(?: (\d+)| (\S+))?")
FLOW = re.compile(r"(?:\(!?p\d+\) )?(call|br) (\S+)")
# The delay slots of a call. They are executed before the function that is called.
CALL_SLOTS = 3
# What moves words of main memory: loads and stores that name it, and the reserving and ensuring of stack words.
MEMORY = re.compile(r"[ls][whb]u?[cm]")
STACK = ("sres", "sens")
STACK_CACHE_WORDS = 128
MOST_CORES = 16


@dataclass(frozen=True)
class CodeBundle:
    """A bundle: its offset in its function, its words, its text, and the most transactions for data and the stack.

    `moves` says what may move words of main memory: its first instruction, with its stack words; else it is empty.
    """

    offset: int
    words: tuple[int, ...]
    text: str
    data: int
    stack: int
    moves: str

    @property
    def may_move(self) -> bool:
        """It may move words of main memory."""
        return bool(self.moves)


@dataclass(frozen=True, eq=False)
class CodeLoop:
    """A loop: its number among the parts of the task's code, its label, its iterations, and what it has."""

    number: int
    label: str
    iterations: int
    items: list[CodeItem] = field(default_factory=list)

    @property
    def first(self) -> int:
        """The offset of its first bundle."""
        return next(bundles_of(self.items)).offset

    @property
    def last(self) -> int:
        """The offset of its last bundle."""
        return max(bundle.offset for bundle in bundles_of(self.items))


@dataclass(frozen=True)
class CodeCall:
    """A call of a function, behind its delay slots."""

    name: str


CodeItem = CodeBundle | CodeLoop | CodeCall


@dataclass(frozen=True, eq=False)
class CodeFunction:
    """A function: its number among the parts of the task's code, its name, and the place of its first word.

    `bundles` and `transactions` are those of one call with all that it calls; none where that would be too long.
    """

    number: int
    name: str
    start: int
    words: int
    stack: int
    bundles: int | None
    transactions: int | None
    items: list[CodeItem] = field(default_factory=list)

    @property
    def last(self) -> int:
        """The place of its last bundle."""
        return self.start + max(bundle.offset for bundle in bundles_of(self.items))

    @property
    def fetches(self) -> int:
        """The transactions that fetch it, with its size word."""
        return len(fetch_words(self.words))


@dataclass(frozen=True)
class TaskCode:
    """The code of a C task, with what its first line says of it. The first function is `main`."""

    core: int
    words: int
    bundles: int
    transactions: int
    bound: int
    persist: int
    functions: list[CodeFunction] = field(default_factory=list)

    def function(self, name: str) -> CodeFunction:
        return next(one for one in self.functions if one.name == name)


def bundles_of(items: list[CodeItem]) -> Iterator[CodeBundle]:
    """The bundles of items, each once, in the order of their offsets."""
    for item in items:
        if isinstance(item, CodeBundle):
            yield item
        elif isinstance(item, CodeLoop):
            yield from bundles_of(item.items)


def stack_transactions(words: int) -> int:
    """The most transactions of an instruction that reserves or ensures so many words of the stack."""
    return -(-min(words, STACK_CACHE_WORDS) // WORDS_OF_TRANSACTION)


def bundle_of(found: re.Match[str]) -> CodeBundle:
    """The bundle of a line. Only its first instruction can move words of main memory."""
    text, offset, *words = found.groups()
    first = FIRST.match(text)
    word, count = (first.group(1), first.group(2)) if first else ("", None)
    stack = stack_transactions(int(count or 0)) if word in STACK else 0
    data = int(MEMORY.fullmatch(word) is not None)
    moves = f"{word} {count}" if word in STACK else word if data else ""
    return CodeBundle(int(offset), tuple(int(one, 16) for one in words if one), text, data, stack, moves)


class CodeReader:
    """Reads what `tccode` wrote, line by line."""

    def __init__(self) -> None:
        self.tasks: list[TaskCode] = []
        self.open: list[list[CodeItem]] = []  # where the next item goes: the function's items, and those of open loops
        self.labels: list[str] = []
        self.parts = 0
        self.call: tuple[str, int] | None = None  # a call, and how many of its delay slots are still to come

    def read(self, text: str) -> list[TaskCode]:
        for number, line in enumerate(text.splitlines(), 1):
            if not self.takes(line):
                raise bad_line("the code", number, line)
        for task in self.tasks:
            check(task)
        return self.tasks

    def takes(self, line: str) -> bool:
        """Takes a line; not where it is none that comes here."""
        if found := BUNDLE.fullmatch(line):
            return self.bundle(bundle_of(found))
        if found := TASK.fullmatch(line):
            core, words, bundles, transactions, bound, persist = (int(text) for text in found.groups())
            self.tasks.append(TaskCode(core, words, bundles, transactions, bound, persist))
            self.parts = 0
            return True
        if found := FUNCTION.fullmatch(line):
            return self.function(found)
        if found := LOOP.fullmatch(line):
            return self.loop(found.group(1), int(found.group(2)))
        if found := LOOP_END.fullmatch(line):
            return self.end(found.group(1))
        if found := LABEL.fullmatch(line):
            return bool(self.labels) and self.labels[-1] == found.group(1)
        if found := NAME.fullmatch(line):
            return bool(self.tasks and self.tasks[-1].functions) and self.tasks[-1].functions[-1].name == found.group(1)
        return False

    def function(self, found: re.Match[str]) -> bool:
        if not self.tasks or self.labels or self.call:
            return False
        functions = self.tasks[-1].functions
        start = functions[-1].start + functions[-1].words + 1 if functions else 1
        name, words, stack, bundles, transactions = found.groups()
        numbers = (None, None) if bundles is None else (int(bundles), int(transactions))
        functions.append(CodeFunction(self.parts, name, start, int(words), int(stack), *numbers))
        self.parts += 1
        self.open = [functions[-1].items]
        return True

    def loop(self, label: str, iterations: int) -> bool:
        if not self.open or self.call:
            return False
        made = CodeLoop(self.parts, label, iterations)
        self.parts += 1
        self.open[-1].append(made)
        self.open.append(made.items)
        self.labels.append(label)
        return True

    def end(self, label: str) -> bool:
        if not self.labels or self.labels.pop() != label or self.call:
            return False
        self.open.pop()
        return True

    def bundle(self, bundle: CodeBundle) -> bool:
        if not self.open:
            return False
        self.open[-1].append(bundle)
        flow = FLOW.fullmatch(bundle.text)
        if flow is not None and flow.group(1) == "call":
            self.call = (flow.group(2), CALL_SLOTS)
        elif self.call is not None:
            name, slots = self.call
            self.call = (name, slots - 1) if slots > 1 else None
            if self.call is None:
                self.open[-1].append(CodeCall(name))
        return True


def check(task: TaskCode) -> None:
    """Holds a task's text against its own numbers: the words of its functions and of all, and its bundles."""
    names = {one.name for one in task.functions}
    for function in task.functions:
        at = 0
        for bundle in bundles_of(function.items):
            if bundle.offset != at:
                raise BadInput(f"the code of {function.name} has a bundle at {bundle.offset} in place of {at}")
            at += len(bundle.words)
        if at != function.words or not calls_of(function.items) <= names:
            raise BadInput(f"the code of {function.name} is not whole")
    if task.words != sum(one.words + 1 for one in task.functions):
        raise BadInput(f"the code of core {task.core} has not the words that its first line tells")


def calls_of(items: list[CodeItem]) -> set[str]:
    """The names of the functions that items call."""
    found: set[str] = set()
    for item in items:
        if isinstance(item, CodeCall):
            found.add(item.name)
        elif isinstance(item, CodeLoop):
            found |= calls_of(item.items)
    return found


def read_code(text: str) -> list[TaskCode]:
    """The code of each C task, as `tccode` writes it."""
    return CodeReader().read(text)


def codes_of(program: str | None, job: bytes, path: str) -> dict[int, TaskCode]:
    """The code of each C task of a job, by core."""
    return {one.core: one for one in read_code(accepted(run_code(program, job), path).text)}


def platform_of(task: Task) -> bytes:
    """A job of this task alone, with all cores to which it sends and nearly all slots its own."""
    cores = max(task.core, *targets_of(task.source), 0) + 1
    table = [task.core] * (MOST_ENTRIES - cores + 1) + [core for core in range(cores) if core != task.core]
    head = f"version = 2\ncores = {cores}\nslot = {LEAST_SLOT}\ntable = {table}\ncycles = {MOST_CYCLES}\n"
    return (head + f'[[task]]\ncore = {task.core}\nlang = "c"\nsource = {toml_string(task.source)}\n').encode()


def code_of_task(task: Task, program: str | None) -> TaskCode:
    """The code of one C task, which is the same on every platform. `NoSequence` where it is refused when alone."""
    if max([task.core, *targets_of(task.source)]) >= MOST_CORES:
        raise NoSequence(f"it sends to a core that no platform has: {MOST_CORES} are the most")
    found = run_code(program, platform_of(task))
    if found.refusal is not None:
        raise NoSequence(f"alone it is refused with `{found.refusal}`")
    return read_code(found.text)[0]
