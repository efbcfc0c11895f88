"""Time by function and loop: what `tools/where` shows adds up to what the program reports."""

from __future__ import annotations

import csv
import io
import os
from pathlib import Path

import pytest
from conftest import ROOT, Tool

from tcresttools import sequence
from tcresttools.bound_parts import task_bounds
from tcresttools.job import read_job
from tcresttools.program import run_program
from tcresttools.report import read_report
from tcresttools.time_table import cores_of, told_lines, told_of

FILTER = "examples/c/filter.toml"


def rows_of(text: str) -> list[dict[str, str]]:
    return list(csv.DictReader(io.StringIO(text)))


def cycles_of(path: str, program: str) -> dict[int, int]:
    """The cycles that the program reports of each core."""
    report = read_report(run_program(program, "run", (ROOT / path).read_bytes()).text)
    return {core.number: core.cycles for core in report.cores if core.cycles is not None}


@pytest.mark.parametrize("path", [FILTER, "examples/c/sort.toml", "examples/c/table_skewed.toml"])
def test_sums_are_what_the_program_reports(path: str, tool: Tool, program: str) -> None:
    rows = rows_of(tool("where", path, "--csv").stdout)
    for core, cycles in cycles_of(path, program).items():
        of_core = [row for row in rows if row["core"] == str(core)]
        functions = [row for row in of_core if row["part"].endswith("()")]
        assert sum(int(row["cycles"]) for row in functions) == cycles
        assert sum(int(row["own"]) for row in of_core) == cycles
        assert max(int(row["with_calls"]) for row in functions) == cycles
    for row in rows:
        assert int(row["cycles"]) == int(row["bundles"]) + int(row["fetch"]) + int(row["memory"])


def test_filter(tool: Tool) -> None:
    done = tool("where", FILTER)
    assert (done.returncode, done.stderr) == (0, "")
    first, dearest, blank, head, *table, inlined = done.stdout.splitlines()
    assert first.endswith("they are replayed, and the program reports the same")
    lines = (ROOT / FILTER).read_text().splitlines()
    loop = next(number for number, line in enumerate(lines, 1) if line.strip().startswith("for ("))
    assert dearest.startswith(f"the loop that costs most: for at line {loop}, in main(), ")
    assert (blank, head.split()[:4]) == ("", ["line", "part", "cycles", "%"])
    assert [line.split()[:2] for line in table] == [[str(loop - 4), "main()"], [str(loop), "for"]]
    # the loop makes twelve iterations, and calls `step` in each, which is inlined and has no row
    call = next(number for number, line in enumerate(lines, 1) if "= step(" in line)
    assert inlined == f"step() is inlined in main(), where line {call} calls it: its code counts there"
    assert table[1].split()[9] == "12"
    assert table[1].endswith("  for (i = 0; i < 12; i = i + 1) {")


SEVERAL = """
version = 2
cores = 3
slot = 7
table = [0, 1, 1, 2]
cycles = {cycles}
[[task]]
core = 1
lang = "c"
start = 11
source = '''
int out[1];
int never(int x) {{ return x / x; }}
int f(int x) {{ return x / out[0] + x % x + x / 5; }}
int g(int x) {{ _Pragma("loopbound min 0 max 3") while (x) {{ x = x / 2; }} return x; }}
int main() {{
    int s = 0; int i;
    _Pragma("loopbound min 0 max 4")
    while (i < s / i) {{ i = i + 1; s = g(s); }}
    s = f(s);
    s = f(s);
    out[0] = s;
    return s;
}}
'''
[[task]]
core = 0
lang = "c"
source = "int a; int main() {{ send(1, a / 3, shared[0], 1); return 0; }}"
[[task]]
core = 2
lang = "asm"
source = ".func main; ret; nop; nop; nop"
"""


def several(folder: Path, cycles: int) -> str:
    path = folder / "job.toml"
    path.write_text(SEVERAL.format(cycles=cycles))
    return str(path)


def test_divisions_and_functions_that_are_inlined(tool: Tool, tmp_path: Path) -> None:
    path = several(tmp_path, 100000)
    text = Path(path).read_text().splitlines()
    rows = [row for row in rows_of(tool("where", path, "--csv").stdout) if row["core"] == "1"]
    shown = [(row["part"], row["depth"], row["entered"], row["iterations"], row["inlined"]) for row in rows]
    # g is inlined in the loop of `main`, calls of f outside of loops stay; a division by a number has no loop
    assert shown == [
        ("main()", "0", "1", "1", ""), ("while", "0", "1", "4", ""), ("division", "1", "4", "32", ""),
        ("while", "1", "4", "12", "g"), ("division after it", "0", "1", "8", ""),
        ("f()", "0", "2", "2", ""), ("division", "0", "2", "16", ""), ("remainder", "0", "2", "16", ""),
    ]  # fmt: skip
    for row in rows[-2:]:
        # lines are those of the file, and columns those of the sign
        assert text[int(row["line"]) - 1][int(row["column"]) - 1] == {"division": "/", "remainder": "%"}[row["part"]]
    for number, line in enumerate(text, 1):
        if line.startswith("int g"):
            assert str(number) == rows[3]["line"]
    done = tool("where", path).stdout.splitlines()
    calls = [number for number, line in enumerate(text, 1) if "s = g(s)" in line]
    assert f"g() is inlined in main(), where line {calls[0]} calls it: its code counts there" in done
    assert not any(line.startswith("f() is inlined") for line in done)


def test_a_task_that_sends(tool: Tool, tmp_path: Path, program: str) -> None:
    path = several(tmp_path, 100000)
    rows = [row for row in rows_of(tool("where", path, "--csv").stdout) if row["core"] == "0"]
    # `a / 3` is a product, and the rest is straight
    assert [(row["part"], row["cycles"]) for row in rows] == [("main()", str(cycles_of(path, program)[0]))]


def test_a_task_that_is_not_replayed(tmp_path: Path, program: str, monkeypatch: pytest.MonkeyPatch) -> None:
    """Of a task of more bundles than are replayed, what it does in all is shown, and the others as they are."""
    job = read_job(several(tmp_path, 100000))
    bundles = {core: parts.bound.bundles for core, parts in task_bounds(program, job).items()}
    monkeypatch.setattr(sequence, "MOST_BUNDLES", bundles[0])
    first, second = told_of(job, cores_of(job, program), program)
    assert told_lines(first)[0].startswith("core 0: ")
    report, reason, sums = told_lines(second)
    assert report == second.core.line
    assert f"it does {bundles[1]:,} bundles, and {bundles[0]:,} are the most that are replayed" in reason
    waits = (second.core.cycles or 0) - bundles[1]
    assert sums == f"in all it does {bundles[1]} bundles, and takes {waits} cycles more for its transactions"


def test_bounds_give_the_bundles(program: str) -> None:
    job = read_job(str(ROOT / FILTER))
    found = sequence.sequence_of(job.tasks[0], program)
    assert task_bounds(program, job)[0].bound.bundles == len(found.functions)


def test_a_job_whose_tasks_all_are_refused(tool: Tool, tmp_path: Path) -> None:
    done = tool("where", several(tmp_path, 30))
    assert (done.returncode, done.stdout) == (2, "")
    assert "core 1: it has not ended by the job's limit, `cycles = 30`: set a higher one" in done.stderr
    none = tool("where", "examples/one_core.toml")
    assert (none.returncode, none.stdout) == (2, "")
    assert none.stderr.startswith("where: examples/one_core.toml: no task is in C")


def test_a_replay_that_differs_is_an_error(tool: Tool, tmp_path: Path, program: str) -> None:
    other = tmp_path / "other"
    other.write_text(f'#!/bin/sh\n"{program}" "$@" | sed "s/ cycles \\([0-9]*\\)/ cycles 1\\1/"\n')
    os.chmod(other, 0o755)
    for name in ("where", "worst"):
        done = tool(name, FILTER, "--program", str(other))
        assert (done.returncode, done.stdout) == (1, "")
        assert "the replay is wrong, so it is not shown" in done.stderr
