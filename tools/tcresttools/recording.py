"""Records what a task does in order, from `pipe` and `run` of the task alone on one core."""

from __future__ import annotations

from collections.abc import Callable
from dataclasses import dataclass

from .assembly import Code, code_of
from .cli import BadInput
from .code_text import TaskCode, code_of_task
from .events import Bundle, Cause, Event, NoSequence, Sequence, Transaction
from .job import MOST_CYCLES, MOST_TRACE, Task, toml_string
from .method_cache import MethodCache, fetch_words
from .program import run_program
from .report import Access, Report, Step, read_listing, read_report
from .trail import Walk

ALONE_SLOT = 6
INTERFACE_TRAP = 6
SENDS = "it sends to another core, and `pipe` lists the bundles of a core that is alone"


@dataclass(frozen=True)
class Layout:
    """For each bundle the first place of its function; and the size of each function in words."""

    functions: list[int]
    sizes: dict[int, int]


def alone_job(task: Task) -> bytes:
    """The job of this task alone on one core, with all steps and transactions that can be listed."""
    head = f"version = 1\ncores = 1\nslot = {ALONE_SLOT}\ncycles = {MOST_CYCLES}\ntrace = {MOST_TRACE}\n"
    keys = f'[[task]]\ncore = 0\nlang = "{task.lang}"\ninput = {task.input}\nsource = {toml_string(task.source)}\n'
    return (head + keys).encode()


def alone_report(task: Task, command: str, program: str | None) -> Report:
    """What `pipe` or `run` writes of the task alone; `NoSequence` where it is refused or does not end there."""
    found = run_program(program, command, alone_job(task))
    if found.refusal is not None:
        raise NoSequence(f"alone on one core it is refused with `{found.refusal}`")
    report = read_report(found.text)
    core = report.cores[0]
    if core.trap == INTERFACE_TRAP:
        raise NoSequence(SENDS)
    if core.ended != "done":
        raise NoSequence(f"alone on one core it does not end: {core.line.removeprefix('core 0 ')}")
    return report


def recorded(task: Task, program: str | None) -> Sequence | None:
    """What the task does in order when it is alone on one core; none where that is more than can be listed.

    `NoSequence` where it can't be had at all.
    """
    steps = alone_report(task, "pipe", program).steps
    core = alone_report(task, "run", program).cores[0]
    is_cut = len(steps) == MOST_TRACE and steps[-1].decode is not None
    if is_cut or len(core.accesses) == MOST_TRACE:
        return None
    layout = layout_of(task, [place_of(step) for step in steps], program)
    events = events_of(steps, core.accesses, layout)
    return Sequence(events, layout.functions, layout.sizes, core.value or 0)


def place_of(step: Step) -> int:
    """The place of the bundle that a step does."""
    if step.execute is None:
        raise BadInput(f"the step at {step.cycle} executes nothing")
    return step.execute


def layout_of(task: Task, places: list[int], program: str | None) -> Layout:
    """The functions of a task's code: as `asm` lists its words for assembly, and as `tccode` writes it for C."""
    if task.lang == "c":
        return compiled_layout(code_of_task(task, program), places)
    words = read_listing(run_program(program, "asm", alone_job(task)).text)[0]
    return assembly_layout(code_of(task.source, words), places)


def assembly_layout(code: Code, places: list[int]) -> Layout:
    """The functions of bundles at these places, and their sizes, as the words of the code have them."""
    rows = code.rows
    starts = {row.function: row.place + 1 for row in rows if row.offset is None}
    sizes = {row.place + 1: row.words[0] for row in rows if row.offset is None}
    owners = {row.place: starts[row.function] for row in rows if row.statement.kind == "bundle"}
    if (other := next((place for place in places if place not in owners), None)) is not None:
        raise BadInput(f"a step is at place {other}, where this text has no bundle")
    return Layout([owners[place] for place in places], sizes)


def compiled_layout(code: TaskCode, places: list[int]) -> Layout:
    """The functions of compiled C, whose bundles are executed in the order that its code says."""
    steps = list(Walk(code).steps())
    if [step.place for step in steps] != places:
        raise BadInput("the steps that `pipe` lists are not those of the code that `tccode` writes")
    return Layout([step.here.function.start for step in steps], {one.start: one.words for one in code.functions})


def events_of(steps: list[Step], accesses: list[Access], layout: Layout) -> list[Event]:
    """The steps and accesses of a run as one sequence of events with their causes."""
    take = taker(accesses)
    causes = Causes(layout.sizes)
    events: list[Event] = [*causes.entering(take(steps[0].cycle), layout.functions[0])]
    for number, step in enumerate(steps):
        events.append(Bundle(place_of(step)))
        ends = number + 1 == len(steps)
        moved = take(None if ends else steps[number + 1].cycle)
        changes = not ends and layout.functions[number + 1] != layout.functions[number]
        events += causes.entering(moved, layout.functions[number + 1]) if changes else data_of(moved)
    return events


def taker(accesses: list[Access]) -> Callable[[int | None], list[Access]]:
    """A call that takes, from the front, the accesses before a cycle; all that are left where no cycle is given."""
    at = 0

    def take(before: int | None) -> list[Access]:
        nonlocal at
        begin = at
        while at < len(accesses) and (before is None or accesses[at].cycle < before):
            at += 1
        return accesses[begin:at]

    return take


def data_of(accesses: list[Access]) -> list[Transaction]:
    """The transactions that a bundle asks for."""
    return [Transaction(access.kind, access.words, Cause.DATA) for access in accesses]


class Causes:
    """Tells the fetch of a function from what the bundle before it moves, by the functions that the cache holds."""

    def __init__(self, sizes: dict[int, int]) -> None:
        self.sizes = sizes
        self.cache = MethodCache()

    def entering(self, accesses: list[Access], function: int) -> list[Transaction]:
        """The transactions between a bundle and the first one of the function that is entered next."""
        if self.cache.holds(function):
            return data_of(accesses)
        words = fetch_words(self.sizes[function])
        fetched = accesses[-len(words) :]
        if [access.words for access in fetched] != words or any(access.kind != "read" for access in fetched):
            raise NoSequence(f"the function at place {function} is entered without the transactions of its fetch")
        self.cache.fetch(function, self.sizes[function])
        moved = data_of(accesses[: -len(words)])
        return moved + [Transaction(access.kind, access.words, Cause.FETCH) for access in fetched]
