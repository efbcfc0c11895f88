"""What the bound of a C task consists of, part by part of its code: bundles, and the transactions that it counts.

The rules are those of docs/CODE.md and docs/COMPILER.md. At a call the bound counts the fetch of the function that is
called, which is counted there, and behind it the fetch of the calling one, which is counted where the call is. The
persistent bound counts the fetch of each function once, where all that are run fit into the method cache together.
"""

from __future__ import annotations

from dataclasses import dataclass

from .attribution import CodePart, parts_of
from .cli import BadInput
from .code_text import CodeBundle, CodeCall, CodeFunction, CodeItem, CodeLoop, TaskCode
from .job import Job, Task
from .method_cache import MOST_FUNCTIONS, MOST_WORDS
from .naming import named_parts
from .slot_tables import gap
from .task_time import InlinedCall, PartRow, inlined_calls, part_rows


class Unequal(BadInput):
    """A sum that is not the bound that the program reports."""

    status = 1


@dataclass
class BoundCost:
    """Bundles, and transactions for fetches, for data and for the stack."""

    bundles: int = 0
    fetches: int = 0
    data: int = 0
    stack: int = 0

    @property
    def transactions(self) -> int:
        return self.fetches + self.data + self.stack

    def cycles(self, each: int) -> int:
        """The cycles where a transaction takes so many at most."""
        return self.bundles + self.transactions * each

    def add(self, other: BoundCost, times: int = 1) -> None:
        """Counts what is executed so often."""
        self.bundles += other.bundles * times
        self.fetches += other.fetches * times
        self.data += other.data * times
        self.stack += other.stack * times


@dataclass(frozen=True)
class BoundRow(PartRow):
    """A function, a loop or a division with what of the bound is its own: without inner loops and called functions."""

    cost: BoundCost


@dataclass(frozen=True)
class TaskBound:
    """The bound of a task: its rows, the greatest first, their sum, and what a transaction takes at most."""

    task: Task
    gap: int
    slot: int
    is_persistent: bool
    rows: list[BoundRow]
    inlined: list[InlinedCall]

    @property
    def each(self) -> int:
        return self.gap + self.slot - 1

    @property
    def total(self) -> BoundCost:
        total = BoundCost()
        for row in self.rows:
            total.add(row.cost)
        return total

    @property
    def cycles(self) -> int:
        return self.total.cycles(self.each)


class Counter:
    """Counts what each part of a code adds to the bound, by their numbers."""

    def __init__(self, code: TaskCode, parts: list[CodePart], fetched_once: bool) -> None:
        self.parts = parts
        self.fetched_once = fetched_once
        self.costs = [BoundCost() for _ in parts]
        self.functions = {one.name: one for one in code.functions}
        self.costs[0].fetches += code.functions[0].fetches
        for function in code.functions:
            if self.parts[function.number].iterations:
                self.items(function, function.items, function.number)

    def items(self, function: CodeFunction, items: list[CodeItem], part: int) -> None:
        """Items of a part, which are executed as often as it iterates."""
        times = self.parts[part].iterations
        for item in items:
            if isinstance(item, CodeBundle):
                self.costs[part].add(BoundCost(1, 0, item.data, item.stack), times)
            elif isinstance(item, CodeLoop):
                self.items(function, item.items, item.number)
            else:
                self.call(function, item, part, times)

    def call(self, function: CodeFunction, call: CodeCall, part: int, times: int) -> None:
        called = self.functions[call.name]
        if self.fetched_once:
            self.costs[called.number].fetches = called.fetches
        else:
            self.costs[called.number].fetches += called.fetches * times
            self.costs[part].fetches += function.fetches * times


def stays(code: TaskCode, parts: list[CodePart]) -> bool:
    """All functions that are run fit into the method cache together."""
    run = [one.words for one in code.functions if parts[one.number].iterations]
    return len(run) <= MOST_FUNCTIONS and sum(run) <= MOST_WORDS


def bound_of(job: Job, task: Task, code: TaskCode, persistent: bool) -> TaskBound:
    """What the bound of a task consists of, or its persistent bound."""
    parts = parts_of(code)
    costs = Counter(code, parts, persistent and stays(code, parts)).costs
    named = named_parts(code, task.source)
    apart = gap(job.table, task.core) * job.slot
    each = apart + job.slot - 1
    rows = [
        BoundRow(one.number, one.named, one.place, one.part, costs[one.number])
        for one in part_rows(job, task, named, parts)
    ]
    rows.sort(key=lambda row: -row.cost.cycles(each))
    return TaskBound(task, apart, job.slot, persistent, rows, inlined_calls(job, task, named))


def equal(bound: TaskBound, code: TaskCode, reported: tuple[int, int | None]) -> TaskBound:
    """The bound, where its sum is the one that the program reports; `Unequal` where it is another."""
    told = reported[0] if not bound.is_persistent or reported[1] is None else reported[1]
    of_code = code.persist if bound.is_persistent else code.bound
    for name, cycles in (("the program", told), ("`tccode`", of_code)):
        if cycles != bound.cycles:
            raise Unequal(f"core {bound.task.core}: the parts add up to {bound.cycles}, and {name} reports {cycles}")
    return bound
