"""Worst and best cases: what the program reports from every start of a period."""

from __future__ import annotations

import csv
import io
from pathlib import Path

import pytest
from conftest import Tool

from tcresttools import sequence
from tcresttools.job import Job, job_of, toml_values
from tcresttools.program import run_program
from tcresttools.report import read_bounds
from tcresttools.worst_case import cases_of, cycles_from

JOB = """
version = 2
cores = 3
slot = 6
table = [0, 1, 0, 2, 2]
cycles = 100000
[[task]]
core = 0
lang = "c"
start = 1000
source = "int a[2]; int main() { a[1] = 3; return a[0]; }"
[[task]]
core = 2
lang = "c"
source = "int main() { send(0, 1, shared[2], 3); shared[1] = 3; return comm[0]; }"
"""


def job_from(text: str) -> Job:
    return job_of("job.toml", text.encode(), toml_values(text.encode()))


@pytest.mark.parametrize(
    "number,replayed,start", [(0, True, 1000), (0, False, 1000), (1, True, 0)], ids=["alone", "too long", "sends"]
)
def test_every_start_of_a_period(
    number: int, replayed: bool, start: int, program: str, monkeypatch: pytest.MonkeyPatch
) -> None:
    """A task of more bundles than are replayed is run from each of its slots, with the same result."""
    job = job_from(JOB)
    if not replayed:
        monkeypatch.setattr(sequence, "MOST_BUNDLES", 1)
    task = job.tasks[number]
    reported = [cycles_from(job, task, at, program) for at in range(30)]
    cases = cases_of(job, task, program)
    assert cases.replayed == replayed
    assert (cases.worst.cycles, cases.worst.start) == (max(reported), reported.index(max(reported)))
    assert (cases.best.cycles, cases.best.start) == (min(reported), reported.index(min(reported)))
    assert (cases.own.start, cases.own.cycles) == (start, reported[start % 30])


def test_the_table(tool: Tool, tmp_path: Path, program: str) -> None:
    path = tmp_path / "job.toml"
    path.write_text(JOB)
    done = tool("worst", str(path))
    assert (done.returncode, done.stderr) == (0, "")
    lines = done.stdout.splitlines()
    assert lines[0] == "slots of 6 cycles, table 0 1 0 2 2: all starts of a period of 30 cycles, 0 to 29"
    rows = list(csv.DictReader(io.StringIO(tool("worst", str(path), "--csv").stdout)))
    assert [(row["core"], row["by"]) for row in rows] == [("0", "replay"), ("2", "replay")]
    bounds = read_bounds(run_program(program, "persist", path.read_bytes()).text)
    for row in rows:
        assert (int(row["bound"]), int(row["persist"])) == bounds[int(row["core"])]
        assert int(row["best"]) <= int(row["cycles"]) <= int(row["worst"]) <= int(row["persist"])
        assert row["worst"] in lines[3 + rows.index(row)].split()


def test_a_job_without_c_is_refused(tool: Tool) -> None:
    done = tool("worst", "examples/one_core.toml")
    assert (done.returncode, done.stdout) == (2, "")
    assert done.stderr.startswith("worst: examples/one_core.toml: no task is in C")
