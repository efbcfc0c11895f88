"""Deadlines of C tasks on slot tables: cycles by three measures, and each checked with the program."""

from __future__ import annotations

from dataclasses import dataclass, field

from .bound_parts import TaskBounds, persistent_bounds, task_bounds
from .cli import BadInput
from .courses import Course, course_of
from .job import MOST_CYCLES, Job
from .program import accepted, run_program
from .report import read_report
from .slot_tables import distances, gap, owned_slots, toml_table
from .table_search import Meter

# By what the cycles of a task are measured.
MEASURES = {
    "exact": "the exact worst case over all starts, as by default",
    "persist": "the persistent bound",
    "bound": "the bound, which `run` reports",
}


def on_slots(slot: int, table: tuple[int, ...]) -> dict[tuple[int | None, str], str]:
    """The keys that put a job on other slots."""
    return {(None, "version"): "2", (None, "slot"): str(slot), (None, "table"): toml_table(table)}


@dataclass
class Measures:
    """The cycles of each C task of a job on any slots: the exact worst case over all starts, and the two bounds."""

    program: str | None
    job: Job
    bounds: dict[int, TaskBounds]
    courses: dict[tuple[int, int], Course] = field(default_factory=dict)

    @classmethod
    def of(cls, program: str | None, job: Job) -> Measures:
        return cls(program, job, task_bounds(program, job))

    def meter(self, measure: str) -> Meter:
        """What gives the cycles by one of `MEASURES`."""
        meters: dict[str, Meter] = {"exact": self.exact, "persist": self.persist, "bound": self.bound}
        return meters[measure]

    def exact(self, core: int, slot: int, apart: tuple[int, ...]) -> int:
        """The most cycles over all starts, where the slots of the core are `apart` from one another."""
        return self.course(core, slot).worst(apart).cycles

    def persist(self, core: int, slot: int, apart: tuple[int, ...]) -> int:
        return self.bounds[core].persist.cycles(max(apart), slot)

    def bound(self, core: int, slot: int, apart: tuple[int, ...]) -> int:
        return self.bounds[core].bound.cycles(max(apart), slot)

    def course(self, core: int, slot: int) -> Course:
        """The course of a core's task, from runs the first time that it is asked for."""
        key = core, slot
        if key not in self.courses:
            limit = self.bounds[core].persist.cycles(self.job.cores, slot)
            self.courses[key] = course_of(self.program, self.job, core, slot, limit)
        return self.courses[key]

    def worst_start(self, core: int, slot: int, table: tuple[int, ...]) -> int:
        """A start within the first period from which the task of a core takes longest."""
        behind = self.course(core, slot).worst(distances(table, core)).start
        return (owned_slots(table, core)[0] * slot + behind) % (len(table) * slot)

    def check_bounds(self, slot: int, table: tuple[int, ...]) -> None:
        """The bounds on these slots are those that the program reports."""
        told = persistent_bounds(self.program, self.job, self.job.with_values(on_slots(slot, table)))
        for core, parts in self.bounds.items():
            apart = gap(table, core)
            if (parts.bound.cycles(apart, slot), parts.persist.cycles(apart, slot)) != told[core]:
                raise BadInput(f"core {core} on {toml_table(table)}: the program reports other bounds, {told[core]}")

    def check_cycles(self, slot: int, table: tuple[int, ...], cycles: dict[int, int], exact: bool) -> None:
        """A run of the job, each task from its worst start, takes these cycles; where they are bounds, no more."""
        values = on_slots(slot, table)
        limit = 0
        for core in self.bounds:
            task = self.job.task_of(core)
            start = self.worst_start(core, slot, table) if exact and core in cycles else (task.start if task else 0)
            limit = max(limit, start + self.bounds[core].persist.cycles(gap(table, core), slot))
            if task is not None:
                values[task.number, "start"] = str(start)
        values[None, "cycles"] = str(min(limit, MOST_CYCLES))
        found = run_program(self.program, "run", self.job.with_values(values))
        report = read_report(accepted(found, self.job.path).text)
        for core, wanted in cycles.items():
            took = report.cores[core].cycles
            if took is None or took > wanted or (exact and took != wanted):
                raise BadInput(f"core {core} on {toml_table(table)}: a run takes {took} cycles, and not {wanted}")
