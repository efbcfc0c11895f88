"""What bounds consist of: sums are what the program reports, and each part is as the rules say, by hand."""

from __future__ import annotations

import csv
import io
import os
from pathlib import Path

import pytest
from code_texts import Lines, code_of
from conftest import ROOT, Tool

from tcresttools.attribution import parts_of
from tcresttools.bound_parts import task_bounds
from tcresttools.bound_rows import BoundCost, Counter, bound_of, stays
from tcresttools.code_text import codes_of, read_code
from tcresttools.job import Job, job_of, read_job, toml_values
from tcresttools.program import run_program
from tcresttools.report import read_bounds

EXAMPLES = sorted(path for folder in ("c", "port") for path in (ROOT / "examples" / folder).glob("*.toml"))

# docs/COMPILER.md, "By hand": a function of a return and its delay slots, called in each of three iterations by one of
# 13 words. Both are fetched once, in 2 + 4 transactions of 29 cycles, and 39 bundles are done: 213 cycles. The bound
# has both fetches in each iteration, and is 677.
BY_HAND = """\
# core 0 words 19 bundles 39 transactions 22 bound 677 persist 213
# function main words 13 stack 0 bundles 39 transactions 18
.func main
  addi r3 = r0, 1;  # 0 00000000
# loop L0 iterations 3
L0:
  call f;  # 1 00000000
  nop;  # 2 00000000
  nop;  # 3 00000000
  nop;  # 4 00000000
  br L0;  # 5 00000000
  nop;  # 6 00000000
  nop;  # 7 00000000
# end L0
  addi r3 = r0, 2;  # 8 00000000
  ret;  # 9 00000000
  nop;  # 10 00000000
  nop;  # 11 00000000
  nop;  # 12 00000000
# function f words 4 stack 0 bundles 4 transactions 0
.func f
  ret;  # 0 00000000
  nop;  # 1 00000000
  nop;  # 2 00000000
  nop;  # 3 00000000
"""
JOB = """
version = 1
cores = 4
slot = 6
cycles = 1000
[[task]]
core = 0
lang = "c"
source = '''
int f() { return 0; }
int main() { int i; _Pragma("loopbound min 3 max 3") for (i = 0; i < 3; i = i + 1) { f(); } return 0; }
'''
"""


def job_from(text: str) -> Job:
    return job_of("job.toml", text.encode(), toml_values(text.encode()))


def rows_of(text: str) -> list[dict[str, str]]:
    return list(csv.DictReader(io.StringIO(text)))


def test_by_hand() -> None:
    (code,) = read_code(BY_HAND)
    job = job_from(JOB)
    bound = bound_of(job, job.tasks[0], code, False)
    assert (bound.each, bound.cycles, bound.total) == (29, 677, BoundCost(39, 22, 0, 0))
    # the loop has its seven bundles and, in each iteration, the fetch of `main` in four transactions
    shown = {row.named.label: row.cost for row in bound.rows}
    assert shown == {"for": BoundCost(21, 12), "f()": BoundCost(12, 6), "main()": BoundCost(6, 4)}
    assert [row.named.label for row in bound.rows] == ["for", "f()", "main()"]
    persistent = bound_of(job, job.tasks[0], code, True)
    assert (persistent.cycles, persistent.total) == (213, BoundCost(39, 6, 0, 0))
    shown = {row.named.label: row.cost for row in persistent.rows}
    assert shown == {"for": BoundCost(21, 0), "f()": BoundCost(12, 2), "main()": BoundCost(6, 4)}


def test_data_and_stack_by_hand() -> None:
    """A load and a store of main memory are a transaction each; nine words are three, and 130 those of 128."""
    texts = ("{ lwc r3 = [r0 + 1] ; nop }", "sres 9", "sws [r0 + 1] = r3", "(p1) swm [r0 + 1] = r3", "sens 130")
    loop = Lines().loop("L0", 5, Lines().bundles(*texts, "sfree 9"))
    code = code_of({"main": loop, "f": Lines().bundles("lwm r1 = [r0 + 1]")}, 30)
    costs = Counter(code, parts_of(code), False).costs
    assert costs[1] == BoundCost(bundles=5 * 6, fetches=0, data=5 * 2, stack=5 * (3 + 32))
    # `main` has nothing but its fetch, of seven words and its size, and nothing calls `f`
    assert (costs[0], costs[2]) == (BoundCost(fetches=2), BoundCost())


def test_functions_that_do_not_stay(program: str) -> None:
    """Seventeen functions are more than the method cache holds, so the persistent bound is the bound."""
    functions = " ".join(f"int f{number}(int x) {{ return x; }}" for number in range(16))
    calls = " ".join(f"s = f{number}(s);" for number in range(16))
    source = f"{functions} int main() {{ int s = 1; {calls} return s; }}"
    job = job_from(JOB.split("source")[0] + f"source = '''{source}'''\n")
    code = codes_of(program, job.data, job.path)[0]
    assert not stays(code, parts_of(code))
    assert bound_of(job, job.tasks[0], code, True).cycles == code.persist == code.bound
    fewer = job_from(job.data.decode().replace("s = f15(s);", ""))
    code = codes_of(program, fewer.data, fewer.path)[0]
    assert stays(code, parts_of(code))
    assert bound_of(fewer, fewer.tasks[0], code, True).cycles == code.persist < code.bound


@pytest.mark.parametrize("path", EXAMPLES, ids=lambda path: str(path.stem))
def test_sums_are_the_bounds(path: Path, program: str) -> None:
    job = read_job(str(path))
    codes = codes_of(program, job.data, job.path)
    reported = read_bounds(run_program(program, "persist", job.data).text)
    parts = task_bounds(program, job)
    for task in job.tasks:
        bound, persist = reported[task.core]
        for persistent, cycles, told in (
            (False, bound, parts[task.core].bound), (True, persist, parts[task.core].persist)
        ):  # fmt: skip
            found = bound_of(job, task, codes[task.core], persistent)
            assert found.cycles == cycles
            assert (found.total.bundles, found.total.transactions) == (told.bundles, told.transactions)


def test_the_table(tool: Tool) -> None:
    done = tool("bounds", "examples/c/deadlines.toml")
    assert (done.returncode, done.stderr) == (0, "")
    for told in done.stdout.split("\n\ncore"):
        head, *table = told.strip().splitlines()
        last = next(line for line in table if line.split()[:1] == ["all"])
        cycles = head.split("bound ")[1].split()[0]
        assert last.split()[:3] == ["all", cycles, "100.0"] and head.endswith("`bound` reports the same")
    for words in ((), ("--persist",)):
        rows = rows_of(tool("bounds", "examples/c/deadlines.toml", "--csv", *words).stdout)
        for row in rows:
            assert int(row["cycles"]) == sum(int(row[name]) for name in ("bundles", "fetch", "data", "stack"))
        for core in "012":
            cycles_of = [int(row["cycles"]) for row in rows if row["core"] == core]
            assert cycles_of == sorted(cycles_of, reverse=True)


def test_another_bound_is_an_error(tool: Tool, tmp_path: Path, program: str) -> None:
    other = tmp_path / "other"
    other.write_text(f'#!/bin/sh\n"{program}" "$@" | sed "s/ bound \\([0-9]*\\)/ bound 1\\1/"\n')
    os.chmod(other, 0o755)
    done = tool("bounds", "examples/c/filter.toml", "--program", str(other))
    assert (done.returncode, done.stdout) == (1, "")
    assert "the parts add up to " in done.stderr and "and the program reports 1" in done.stderr
    none = tool("bounds", "examples/one_core.toml")
    assert (none.returncode, none.stdout) == (2, "")
    assert "no task is in C" in none.stderr
