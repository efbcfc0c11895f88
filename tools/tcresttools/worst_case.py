"""The worst and the best case of a C task over all starts of a period.

What a C task does in order is the same from every start, so its cycles depend on the slots alone. It begins with a
fetch, so all starts after one own slot and up to the next have the same transactions: the first is served in that next
slot. The cycles from there on are worked out once for each own slot of the table, and each start adds its wait.
"""

from __future__ import annotations

from collections.abc import Callable
from dataclasses import dataclass

from .job import Job, Task, toml_string
from .program import accepted, run_program
from .replay import Differs, Slots, pace_of
from .report import Core, read_report
from .sequence import MOST_CYCLES, NoSequence, sequence_of

End = Callable[[int], int]


@dataclass(frozen=True)
class Case:
    """A start, and how many cycles the task takes from there."""

    start: int
    cycles: int


@dataclass(frozen=True)
class Cases:
    """The worst and the best case of a task over all starts of a period, and whether they come from a replay."""

    task: Task
    worst: Case
    best: Case
    own: Case
    replayed: bool


def platform_job(job: Job, task: Task, start: int) -> bytes:
    """The job of this task with the platform of its job, from another start, and with no other task."""
    head = f"version = 2\ncores = {job.cores}\nslot = {job.slot}\ntable = {job.table}\ncycles = {MOST_CYCLES}\n"
    keys = f'[[task]]\ncore = {task.core}\nlang = "c"\nstart = {start}\nsource = {toml_string(task.source)}\n'
    return (head + keys).encode()


def cycles_from(job: Job, task: Task, start: int, program: str | None) -> int:
    """How many cycles the program reports from this start. The input makes no difference, so none is given."""
    found = accepted(run_program(program, "run", platform_job(job, task, start)), job.path)
    core = read_report(found.text).cores[task.core]
    if core.ended != "done" or core.cycles is None:
        raise NoSequence(f"from the start {start} it does not end by cycle {MOST_CYCLES:,}")
    return core.cycles


def end_of(job: Job, task: Task, slots: Slots, program: str | None) -> tuple[End, bool]:
    """A call that gives the end from a start, and whether it replays. A task that is too long runs instead."""
    try:
        pace = pace_of(sequence_of(task, program))
    except NoSequence:
        return lambda start: start + cycles_from(job, task, start, program), False
    return lambda start: pace.end(slots, start), True


def cases_of(job: Job, task: Task, program: str | None) -> Cases:
    """The worst and the best case of a task, each at the least start that has it."""
    slots = Slots(job.slot, job.table, task.core)
    end, replayed = end_of(job, task, slots, program)
    begins = sorted({slots.served(start) for start in range(slots.period)})
    behind = {begin % slots.period: end(begin) - begin for begin in begins}

    def case(start: int) -> Case:
        begin = slots.served(start)
        return Case(start, begin - start + behind[begin % slots.period])

    cases = [case(start) for start in range(slots.period)]
    worst = max(cases, key=lambda one: one.cycles)
    best = min(cases, key=lambda one: one.cycles)
    return Cases(task, worst, best, Case(task.start, case(task.start % slots.period).cycles), replayed)


def reported(job: Job, task: Task, start: int, core: Core, program: str | None) -> int:
    """The cycles that the program reports from a start; from the own one in the job itself, with its neighbours."""
    if start == task.start and core.ended == "done" and core.cycles is not None:
        return core.cycles
    return cycles_from(job, task, start, program)


def checked(job: Job, cases: Cases, core: Core, program: str | None) -> Cases:
    """The cases, where the program reports the same from the three starts; `Differs` where it doesn't."""
    for case in (cases.worst, cases.best, cases.own):
        cycles = reported(job, cases.task, case.start, core, program)
        if cycles != case.cycles:
            raise Differs(
                f"core {core.number}: from the start {case.start} it takes {case.cycles} cycles here, and the program"
                f" reports {cycles}: the replay is wrong, so it is not shown"
            )
    return cases
