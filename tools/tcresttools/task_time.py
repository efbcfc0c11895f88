"""Where the time of a C task goes: each function, loop and division of its text with its cycles, and its line."""

from __future__ import annotations

from dataclasses import dataclass

from .attribution import Attribution, CodePart, Cost, attributed, costs_of
from .code_text import TaskCode, code_of_task
from .events import NoSequence, Sequence
from .job import Job, Task
from .naming import Named, named_parts
from .places import Place
from .replay import Replayed, compared, replay
from .report import Core
from .sequence import sequence_of


@dataclass(frozen=True)
class PartRow:
    """A function, a loop or a division that is run: its number in the code, its name, its place in the job's file."""

    number: int
    named: Named
    place: Place | None
    part: CodePart

    @property
    def text(self) -> str:
        """The line of the file, without the blanks around it."""
        return "" if self.place is None else self.place.text.strip()


@dataclass(frozen=True)
class Row(PartRow):
    """A function, a loop or a division with what it takes."""

    cost: Cost


@dataclass(frozen=True)
class InlinedCall:
    """A call that is inlined: the function that is called, the one in which its code then is, and the call's place."""

    name: str
    function: str
    place: Place | None


@dataclass(frozen=True)
class TaskTime:
    """A C task in time: its code, its sequence, the replay that the program's report agrees with, and the rows of the
    parts that are run."""

    task: Task
    code: TaskCode
    sequence: Sequence
    replayed: Replayed
    attribution: Attribution
    rows: list[Row]
    total: Cost
    inlined: list[InlinedCall]

    def dearest_loop(self) -> Row | None:
        """The loop that takes most cycles itself: those of loops inside it and of functions that it calls left out."""
        loops = [row for row in self.rows if row.part.is_loop]
        return max(loops, key=lambda row: row.cost.own) if loops else None


def time_of(job: Job, task: Task, core: Core, program: str | None) -> TaskTime:
    """Where the time of a C task goes. `NoSequence` where that can't be had, `Differs` where the program disagrees."""
    if core.ended != "done":
        raise NoSequence(f"it has not ended by the job's limit, `cycles = {job.keys['cycles']}`: set a higher one")
    code = code_of_task(task, program)
    sequence = sequence_of(task, program)
    replayed = compared(replay(sequence, job.slot, job.table, task.core, task.start), core)
    attribution = attributed(code, sequence)
    costs = costs_of(attribution, sequence, replayed)
    named = named_parts(code, task.source)
    rows = [
        Row(one.number, one.named, one.place, one.part, costs.parts[one.number])
        for one in part_rows(job, task, named, attribution.parts)
    ]
    return TaskTime(task, code, sequence, replayed, attribution, rows, costs.total, inlined_calls(job, task, named))


def part_rows(job: Job, task: Task, named: list[Named], parts: list[CodePart]) -> list[PartRow]:
    """The parts of a task's code that are run, with their names and places."""
    rows = []
    for number, (name, part) in enumerate(zip(named, parts, strict=True)):
        place = None if name.at is None else job.source_place(task, name.at)
        if part.iterations:
            rows.append(PartRow(number, name, place, part))
    return rows


def inlined_calls(job: Job, task: Task, named: list[Named]) -> list[InlinedCall]:
    """The calls that are inlined, in the order of the code."""
    return [
        InlinedCall(f"{call.name}()", part.function, job.source_place(task, call.at))
        for part in named
        for call in part.calls
    ]


def inlined_lines(calls: list[InlinedCall]) -> list[str]:
    """What is inlined where, in a line for each function and each one in which it is."""
    lines: dict[tuple[str, str], list[str]] = {}
    for call in calls:
        lines.setdefault((call.name, call.function), []).append("?" if call.place is None else str(call.place.line))
    told = []
    for (name, function), numbers in lines.items():
        where = ", ".join(dict.fromkeys(numbers))
        told.append(f"{name} is inlined in {function}, where line {where} calls it: its code counts there")
    return told
