"""The course of a C task over its slots: its exact time from every start, on every slot table.

A C task makes the same transactions on every platform, with the same bundles between two of them. A transaction ends
with its slot. So for slots of one length the bundles behind it need a number of whole slots, whatever the table is, and
only then the core's next own slot counts. Runs in which the core owns nearly every slot give these numbers.
"""

from __future__ import annotations

from dataclasses import dataclass

from .cli import BadInput
from .job import MOST_CYCLES, MOST_TRACE, Job
from .program import accepted, run_program
from .report import Core, read_report
from .slot_tables import MOST_ENTRIES, toml_table

# How far the table is turned from one run to the next: a number that shares no factor with its length.
TURN = 27


@dataclass(frozen=True)
class Finish:
    """The cycles of a task, and a start from which it takes them: so many cycles behind the start of the period."""

    cycles: int
    start: int


@dataclass(frozen=True)
class Course:
    """For each transaction but the first the whole slots in front of it, and the cycles behind the last one."""

    slot: int
    skips: tuple[int, ...]
    rest: int

    def end(self, distances: tuple[int, ...], first: int) -> int:
        """Cycles from the start of the first transaction, in own slot number `first`, to the end of the task.

        `distances` are those from each own slot to the next.
        """
        ahead = slots_ahead(distances)
        period = len(ahead)
        begin = sum(distances[:first])
        now = begin
        for skip in self.skips:
            now += 1 + skip
            now += ahead[now % period]
        return (now + 1 - begin) * self.slot + self.rest

    def worst(self, distances: tuple[int, ...]) -> Finish:
        """The most cycles over all starts. From one own slot's start on, the task waits for the next one.

        So of all starts behind the start of an own slot, the first takes longest.
        """
        finishes, begin = [], 0
        for number, distance in enumerate(distances):
            waits = distance * self.slot - 1
            cycles = waits + self.end(distances, (number + 1) % len(distances))
            finishes.append(Finish(cycles, begin * self.slot + 1))
            begin += distance
        return max(finishes, key=lambda finish: finish.cycles)


def slots_ahead(distances: tuple[int, ...]) -> list[int]:
    """For each slot of a period, which begins with an own one, how many slots later the next own one is."""
    ahead = []
    for distance in distances:
        ahead += [0, *range(distance - 1, 0, -1)]
    return ahead


@dataclass
class Span:
    """What is known of the whole slots between two transactions: the least number, and the greatest."""

    least: int
    most: int

    def narrow(self, least: int, most: int) -> None:
        self.least, self.most = max(self.least, least), min(self.most, most)

    @property
    def is_known(self) -> bool:
        return self.least == self.most


def wide_table(cores: int, core: int, turn: int) -> list[int]:
    """A table in which a core owns all slots but one of each other core; these come one after another."""
    others = [other for other in range(cores) if other != core]
    table = others + [core] * (MOST_ENTRIES - len(others))
    at = turn % MOST_ENTRIES
    return table[at:] + table[:at]


def observed(job: Job, core: Core, table: list[int], slot: int) -> list[tuple[int, int]]:
    """For each transaction but the first of a run, how many slots stood between it and the one before.

    They are the least number and the greatest: slots of other cores right in front of it may have been needed, or not.
    """
    taken = [access.cycle // slot for access in core.accesses]
    found = []
    for before, now in zip(taken, taken[1:], strict=False):
        own = now - 1
        while own > before and table[own % len(table)] != core.number:
            own -= 1
        found.append((own - before, now - before - 1))
    return found


def run_on(program: str | None, job: Job, core: int, slot: int, table: list[int], limit: int) -> Core:
    """The run of a core's task from cycle 0, with all its transactions listed."""
    task = job.task_of(core)
    if task is None:
        raise BadInput(f"{job.path}: core {core} has no task")
    values = {
        (None, "version"): "2",
        (None, "slot"): str(slot),
        (None, "table"): toml_table(table),
        (None, "cycles"): str(min(limit, MOST_CYCLES)),
        (None, "trace"): str(MOST_TRACE),
        (task.number, "start"): "0",
    }
    text = accepted(run_program(program, "run", job.with_values(values)), job.path).text
    told = read_report(text).cores[core]
    if told.ended != "done" or told.cycles is None:
        raise BadInput(f"{job.path}: core {core} has not ended within {limit} cycles")
    if len(told.accesses) >= MOST_TRACE:
        raise BadInput(f"{job.path}: core {core} has too many transactions to be followed; use --persist")
    return told


def course_of(program: str | None, job: Job, core: int, slot: int, limit: int) -> Course:
    """The course of a core's C task over slots of one length. On each table that is run it ends within `limit`."""
    spans: list[Span] = []
    for turn in range(MOST_ENTRIES):
        table = wide_table(job.cores, core, turn * TURN)
        told = run_on(program, job, core, slot, table, limit)
        found = observed(job, told, table, slot)
        if not spans:
            spans = [Span(least, most) for least, most in found]
        for span, (least, most) in zip(spans, found, strict=True):
            span.narrow(least, most)
        if all(span.is_known for span in spans):
            last = told.accesses[-1].cycle + slot
            return Course(slot, tuple(span.least for span in spans), (told.cycles or 0) - last)
    raise BadInput(f"{job.path}: the slots between the transactions of core {core} are not known; use --persist")
