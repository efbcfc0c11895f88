"""How the time of C tasks is shown: as tables for people, and as CSV."""

from __future__ import annotations

import csv
import io
from collections.abc import Sequence
from dataclasses import dataclass

from .cli import BadInput
from .code_text import codes_of
from .job import MOST_TRACE, Job, Task
from .program import accepted, run_program
from .replay import Differs
from .report import Core, read_report
from .sequence import NoSequence
from .task_time import PartRow, Row, TaskTime, inlined_lines, time_of

BAR = 10
MOST_TEXT = 60
HEAD = ["line", "part", "cycles", "%", "", "own", "bundles", "fetch", "memory", "iterations"]
WITH_CALLS = "with calls"
LEFT = ("part", "")
CSV_HEAD = [
    "core", "function", "part", "depth", "line", "column", "first", "last", "entered", "iterations", "cycles",
    "percent", "own", "with_calls", "bundles", "fetch", "memory", "fetches", "accesses", "inlined", "text",
]  # fmt: skip


@dataclass(frozen=True)
class Told:
    """A C task with its time, or with the reason why that is not known, and how many bundles it does."""

    task: Task
    core: Core
    time: TaskTime | None
    reason: str | None = None
    bundles: int = 0


def c_tasks(job: Job) -> list[Task]:
    """The C tasks of a job, by their cores."""
    return sorted((task for task in job.tasks if task.lang == "c"), key=lambda task: task.core)


def cores_of(job: Job, program: str | None) -> dict[int, Core]:
    """What the program reports of each core, with all transactions that it can list."""
    report = read_report(accepted(run_program(program, "run", job.traced(MOST_TRACE)), job.path).text)
    return {core.number: core for core in report.cores}


def told_of(job: Job, cores: dict[int, Core], program: str | None) -> list[Told]:
    """Each C task of a job with its time, or with the reason."""
    found = []
    for task in c_tasks(job):
        core = cores[task.core]
        try:
            found.append(Told(task, core, time_of(job, task, core, program)))
        except NoSequence as reason:
            bundles = codes_of(program, job.data, job.path)[task.core].bundles
            found.append(Told(task, core, None, str(reason), bundles))
    return found


def told_or_refused(job: Job, cores: dict[int, Core], program: str | None) -> list[Told]:
    """The same; `BadInput` where of none its time is known, nor that it is done."""
    told = told_of(job, cores, program)
    if not told:
        raise BadInput(f"{job.path}: no task is in C; tools/profile has the lines of assembly")
    if all(one.time is None and one.core.cycles is None for one in told):
        raise BadInput("; ".join(f"core {one.task.core}: {one.reason}" for one in told))
    return told


def percent(part: int, whole: int) -> float:
    return 100 * part / whole if whole else 0.0


def iterations_text(row: PartRow) -> str:
    """How often a function is run; of a loop its iterations, behind how often it is entered if more than once."""
    part = row.part
    if not part.is_loop or part.entered == 1:
        return str(part.iterations)
    return f"{part.entered} x {part.iterations // part.entered}"


def line_text(row: PartRow, rows: Sequence[PartRow]) -> str:
    """The line of a part; with its column, where several parts are in one line."""
    if row.place is None:
        return ""
    columns = {one.place.column for one in rows if one.place is not None and one.place.line == row.place.line}
    return str(row.place.line) if len(columns) == 1 else f"{row.place.line}:{row.place.column}"


def shown_text(text: str) -> str:
    """The front of a line."""
    return text if len(text) <= MOST_TEXT else text[: MOST_TEXT - 2] + ".."


def cells(row: Row, time: TaskTime, calls: bool) -> list[str]:
    """A row of the table."""
    whole = time.total.cycles
    cost = row.cost
    share = percent(cost.cycles, whole)
    indent = "  " * (row.named.depth + row.part.is_loop)
    shown = [
        line_text(row, time.rows),
        indent + row.named.shown,
        str(cost.cycles),
        f"{share:.1f}",
        bar_of(share),
        str(cost.own),
        str(cost.bundles),
        str(cost.fetch),
        str(cost.memory),
        iterations_text(row),
    ]
    return shown + ([str(cost.with_calls)] if calls else []) + [shown_text(row.text)]


def aligned(rows: list[list[str]], left: set[int]) -> list[str]:
    """Rows in columns; those of `left` begin at the left, and the others end at the right."""
    widths = [max(len(row[at]) for row in rows) for at in range(len(rows[0]))]
    lines = []
    for row in rows:
        columns = enumerate(zip(row, widths, strict=True))
        shown = [cell.ljust(width) if at in left else cell.rjust(width) for at, (cell, width) in columns]
        lines.append("  ".join(shown).rstrip())
    return lines


def bar_of(share: float) -> str:
    """A bar for a share in per cent."""
    return "#" * round(share * BAR / 100)


def has_calls(time: TaskTime) -> bool:
    return sum(not row.part.is_loop for row in time.rows) > 1


def table_of(time: TaskTime) -> list[str]:
    """The rows of a task, in the order of its code."""
    calls = has_calls(time)
    head = HEAD + ([WITH_CALLS] if calls else []) + ["text"]
    rows = [head] + [cells(row, time, calls) for row in time.rows]
    return aligned(rows, {at for at, name in enumerate(head) if name in (*LEFT, "text")})


def dearest_line(time: TaskTime) -> str:
    """The loop that takes most cycles itself, in a sentence."""
    row = time.dearest_loop()
    if row is None:
        return "it has no loop"
    where = row.named.function if row.place is None else f"line {line_text(row, time.rows)}, in {row.named.function}"
    share = percent(row.cost.own, time.total.cycles)
    line = f"the loop that costs most: {row.named.shown} at {where}, {row.cost.own} cycles of its own, {share:.1f} %"
    if row.cost.with_calls == row.cost.cycles:
        return line
    share = percent(row.cost.with_calls, time.total.cycles)
    return f"{line}; with all that it calls {row.cost.with_calls} cycles, {share:.1f} %"


def sum_lines(told: Told) -> list[str]:
    """What is known in all of a task that is done and can't be replayed."""
    if told.core.cycles is None:
        return []
    waits = told.core.cycles - told.bundles
    return [f"in all it does {told.bundles} bundles, and takes {waits} cycles more for its transactions"]


def told_lines(told: Told) -> list[str]:
    """What is shown of one task."""
    if told.time is None:
        return [told.core.line, f"its time by function and loop is not known: {told.reason}", *sum_lines(told)]
    replayed = told.time.replayed
    return [
        f"core {told.task.core}: {replayed.taken} cycles, from {replayed.start} to {replayed.end}; they are replayed,"
        " and the program reports the same",
        dearest_line(told.time),
        "",
        *table_of(told.time),
        *inlined_lines(told.time.inlined),
    ]


def csv_rows(time: TaskTime) -> list[list[object]]:
    rows: list[list[object]] = []
    for row in time.rows:
        cost, part, place = row.cost, row.part, row.place
        at: list[object] = ["", ""] if place is None else [place.line, place.column]
        places: list[object] = [part.first, part.last]
        rows.append(
            [time.task.core, row.named.function, row.named.label, row.named.depth, *at, *places]
            + [part.entered, part.iterations]
            + [cost.cycles, round(percent(cost.cycles, time.total.cycles), 2), cost.own, cost.with_calls]
            + [cost.bundles, cost.fetch, cost.memory, cost.fetches, cost.accesses]
            + [" ".join(row.named.inlined), row.text]
        )
    return rows


def csv_text(told: list[Told]) -> str:
    """All rows of all tasks whose time is known, as CSV."""
    out = io.StringIO()
    writer = csv.writer(out, lineterminator="\n")
    writer.writerow(CSV_HEAD)
    for one in told:
        if one.time is not None:
            writer.writerows(csv_rows(one.time))
    return out.getvalue()
