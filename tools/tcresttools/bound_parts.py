"""What a bound consists of: bundles, and transactions that each wait less than a gap and take a slot.

On every platform a task has the same bundles and counts the same transactions. So its bounds on slots of two lengths
give both numbers, and these give its bound on every slot table.
"""

from __future__ import annotations

from dataclasses import dataclass

from .cli import BadInput
from .job import Job
from .program import accepted, run_program
from .report import read_bounds
from .slot_tables import LEAST_SLOT, gap

# The two lengths of a slot for which the program is asked.
SHORT, LONG = LEAST_SLOT, LEAST_SLOT + 1


@dataclass(frozen=True)
class Parts:
    """The parts of a bound."""

    bundles: int
    transactions: int

    def cycles(self, gap: int, slot: int) -> int:
        """The bound where the slots of the core are `gap` slots apart at most, each of `slot` cycles."""
        return self.bundles + self.transactions * (gap * slot + slot - 1)


@dataclass(frozen=True)
class TaskBounds:
    """The parts of the bound and of the persistent bound of one task."""

    bound: Parts
    persist: Parts


def parts_of(short: int, long: int, gap: int) -> Parts:
    """The parts of the bounds for the two lengths of a slot."""
    transactions, rest = divmod(long - short, (gap + 1) * (LONG - SHORT))
    bundles = short - transactions * (gap * SHORT + SHORT - 1)
    if rest or bundles < 0:
        raise BadInput(f"the bounds {short} and {long} are not bundles and transactions of slots of {SHORT} and {LONG}")
    return Parts(bundles, transactions)


def persistent_bounds(program: str | None, job: Job, text: bytes) -> dict[int, tuple[int, int]]:
    """The bound and the persistent bound of each task in C, as the program reports them for a text of the job."""
    told = read_bounds(accepted(run_program(program, "persist", text), job.path).text)
    return {core: (bound, bound if persist is None else persist) for core, (bound, persist) in told.items()}


def task_bounds(program: str | None, job: Job) -> dict[int, TaskBounds]:
    """The parts of the bounds of each task in C."""
    short, long = (
        persistent_bounds(program, job, job.with_values({(None, "slot"): str(slot)})) for slot in (SHORT, LONG)
    )
    found = {}
    for core, (bound, persist) in short.items():
        apart = gap(job.table, core)
        found[core] = TaskBounds(parts_of(bound, long[core][0], apart), parts_of(persist, long[core][1], apart))
    return found
