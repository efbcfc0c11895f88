"""Deadlines over the rows of a sweep: the slack of each row, and what it is over all of them."""

from __future__ import annotations

from dataclasses import dataclass

from .cli import BadInput
from .given import core_numbers
from .job import Job

DEADLINE, SLACK = "deadline", "slack"


@dataclass(frozen=True)
class Rows:
    """The rows of a table, and the names of their columns."""

    names: list[str]
    cells: list[list[str]]

    @property
    def by_name(self) -> list[dict[str, str]]:
        """The cells of each row, by their columns."""
        return [dict(zip(self.names, row, strict=True)) for row in self.cells]


def deadlines_of(job: Job, given: list[str]) -> dict[int, int]:
    """The deadline of each core that has one, given as CORE=N."""
    deadlines = core_numbers(given, "a deadline")
    for core, deadline in deadlines.items():
        if job.task_of(core) is None:
            raise BadInput(f"--deadline {core}={deadline}: core {core} has no task")
    return deadlines


def slack_of(row: dict[str, str], deadlines: dict[int, int]) -> list[str]:
    """The deadline of a row's core, and the cycles that are left where its task is done."""
    deadline = deadlines.get(int(row["core"])) if row["core"] else None
    if deadline is None:
        return ["", ""]
    return [str(deadline), str(deadline - int(row["cycles"])) if row["cycles"] else ""]


def with_slack(rows: Rows, deadlines: dict[int, int]) -> Rows:
    """The rows with two columns more."""
    added = [slack_of(row, deadlines) for row in rows.by_name]
    return Rows([*rows.names, DEADLINE, SLACK], [cells + more for cells, more in zip(rows.cells, added, strict=True)])


def slack_lines(rows: Rows, varied: list[str], deadlines: dict[int, int]) -> list[str]:
    """For each deadline in how many rows it is kept, and the row with the least slack."""
    return [slack_line(rows, varied, core, deadline) for core, deadline in sorted(deadlines.items())]


def slack_line(rows: Rows, varied: list[str], core: int, deadline: int) -> str:
    """One deadline. A row without a core is a job that was refused: it is one of each core."""
    mine = [row for row in rows.by_name if row["core"] in ("", str(core))]
    done = [row for row in mine if row[SLACK]]
    missed = sum(1 for row in done if int(row[SLACK]) < 0)
    words = f"core {core}: deadline {deadline} kept in {len(done) - missed} of {len(mine)} rows"
    if missed:
        words += f", missed in {missed}"
    if len(done) < len(mine):
        words += f", not done in {len(mine) - len(done)}"
    if done:
        least = min(done, key=lambda row: int(row[SLACK]))
        words += f"; least slack {least[SLACK]} at {', '.join(f'{name} {least[name]}' for name in varied)}"
    return words
