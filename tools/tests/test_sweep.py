"""Sweeps: lists, axes, the jobs of a sweep, its table, and how it goes on."""

from __future__ import annotations

import csv
from pathlib import Path

import pytest
from conftest import ROOT, Tool, load

from tcresttools.cli import BadInput
from tcresttools.job import read_job, toml_values
from tcresttools.slack import Rows, slack_lines, with_slack

JOB = "examples/c/filter.toml"


@pytest.mark.parametrize(
    "text,wanted",
    [
        ("6", [6]),
        ("6,8,12", [6, 8, 12]),
        ("6-10/2", [6, 8, 10]),
        ("6-9", [6, 7, 8, 9]),
        ("9-6", []),
        ("1,3-4", [1, 3, 4]),
    ],
)
def test_lists_of_numbers(text: str, wanted: list[int]) -> None:
    assert load("sweep").numbers(text) == wanted


@pytest.mark.parametrize("text", ["", "x", "6-", "6-64/0", "-6"])
def test_what_is_no_list_is_refused(text: str) -> None:
    with pytest.raises(BadInput):
        load("sweep").numbers(text)


def test_points_are_all_combinations(tmp_path: Path) -> None:
    sweep = load("sweep")
    program = tmp_path / "program"
    program.write_bytes(b"one")
    job = read_job(str(ROOT / JOB))
    axes = [sweep.number_axis("slot", "6,8"), sweep.table_axis(["[0]", "[0, 0]"])]
    points = sweep.points_of(job, axes, str(program))
    assert [point.cells for point in points] == [["6", "[0]"], ["6", "[0, 0]"], ["8", "[0]"], ["8", "[0, 0]"]]
    keys = toml_values(points[3].text)
    assert (keys["slot"], keys["table"], keys["version"]) == (8, [0, 0], 2)
    assert len({point.name for point in points}) == 4
    program.write_bytes(b"another")
    assert not {point.name for point in points} & {point.name for point in sweep.points_of(job, axes, str(program))}


def test_axes_of_tasks() -> None:
    sweep = load("sweep")
    job = read_job(str(ROOT / JOB))
    (axis,) = sweep.task_axes(job, "input", ["0=[1, -2]", "0=[0x10]"])
    assert (axis.name, [choice.shown for choice in axis.choices]) == ("input0", ["[1, -2]", "[0x10]"])
    for wrong in ("5=[1]", "[1]", "0=[[1]]"):
        with pytest.raises(BadInput):
            sweep.task_axes(job, "input", [wrong])


def test_axes_of_starts() -> None:
    sweep = load("sweep")
    job = read_job(str(ROOT / "examples/c/table_even.toml"))
    (every,) = sweep.start_axes(job, ["0-2"])
    assert (every.name, [choice.shown for choice in every.choices]) == ("start", ["0", "1", "2"])
    assert every.choices[2].values == {(task.number, "start"): "2" for task in job.tasks}
    (one,) = sweep.start_axes(job, ["1=5,7"])
    assert (one.name, one.choices[0].values) == ("start1", {(1, "start"): "5"})
    for wrong in ("9=1", "x=1", "=1", "1="):
        with pytest.raises(BadInput):
            sweep.start_axes(job, [wrong])


# Two rows of core 0, one of core 1, and a job that was refused.
ROWS = Rows(
    ["start", "core", "ended", "cycles"],
    [["0", "0", "done", "90"], ["1", "0", "done", "101"], ["1", "1", "limit", ""], ["2", "", "job: Range slot", ""]],
)


def test_slack_of_each_row() -> None:
    rows = with_slack(ROWS, {0: 100, 1: 7})
    assert rows.names[-2:] == ["deadline", "slack"]
    assert [row[-2:] for row in rows.cells] == [["100", "10"], ["100", "-1"], ["7", ""], ["", ""]]


def test_slack_over_all_rows() -> None:
    deadlines = {0: 100, 1: 7}
    assert slack_lines(with_slack(ROWS, deadlines), ["start"], deadlines) == [
        "core 0: deadline 100 kept in 1 of 3 rows, missed in 1, not done in 1; least slack -1 at start 1",
        "core 1: deadline 7 kept in 0 of 2 rows, not done in 2",
    ]


def test_a_sweep_of_starts_with_a_deadline(tool: Tool, tmp_path: Path) -> None:
    out = tmp_path / "a.csv"
    words = ["--start", "0,1", "--deadline", "0=1000", "--out", str(out), "--alone", "--jobs", "1"]
    done = tool("sweep", JOB, *words)
    rows = table(out)
    assert [int(row["slack"]) for row in rows] == [1000 - int(row["cycles"]) for row in rows]
    # With slots of 6 on one core, a start one cycle behind a slot's start waits five cycles more.
    assert int(rows[1]["cycles"]) == int(rows[0]["cycles"]) + 5
    assert done.stdout.startswith("core 0: deadline 1000 kept in ")
    assert tool("sweep", JOB, *words[:3], "5=1", *words[4:]).returncode == 2


def table(path: Path) -> list[dict[str, str]]:
    with path.open(encoding="utf-8", newline="") as file:
        return list(csv.DictReader(file))


def test_a_sweep_runs_and_goes_on(tool: Tool, tmp_path: Path) -> None:
    out = tmp_path / "a.csv"
    first = tool("sweep", JOB, "--slot", "6,8", "--out", str(out), "--alone", "--jobs", "1")
    assert (first.returncode, first.stderr) == (0, "sweep: 2 jobs, 2 of them to run\n")
    rows = table(out)
    assert [(row["slot"], row["core"], row["ended"], row["value"], row["status"]) for row in rows] == [
        ("6", "0", "done", "11", "0"), ("8", "0", "done", "11", "0"),
    ]  # fmt: skip
    assert all(int(row["cycles"]) <= int(row["persist"]) <= int(row["bound"]) for row in rows)
    more = tool("sweep", JOB, "--slot", "6,8,10", "--out", str(out), "--alone", "--jobs", "1")
    assert more.stderr == "sweep: 3 jobs, 1 of them to run\n"
    assert table(out)[:2] == rows


def test_a_refused_job_is_a_row(tool: Tool, tmp_path: Path) -> None:
    out = tmp_path / "a.csv"
    assert tool("sweep", JOB, "--slot", "4", "--out", str(out), "--alone", "--jobs", "1").returncode == 0
    assert [(row["ended"], row["status"]) for row in table(out)] == [("job: Range slot", "2")]


def test_nothing_to_vary_is_refused(tool: Tool, tmp_path: Path) -> None:
    done = tool("sweep", JOB, "--out", str(tmp_path / "a.csv"))
    assert done.returncode == 2
    assert done.stderr.startswith("sweep: name what is to be varied")
