"""Slot tables that keep deadlines: distances and bounds by hand, courses against runs from every start, the search."""

from __future__ import annotations

from itertools import product
from pathlib import Path

import pytest
from conftest import ROOT, Tool

from tcresttools import table_search
from tcresttools.bound_parts import Parts, parts_of
from tcresttools.cli import BadInput
from tcresttools.courses import Course, course_of, observed, slots_ahead, wide_table
from tcresttools.deadlines import Measures
from tcresttools.given import core_numbers
from tcresttools.job import Job, job_of, toml_values
from tcresttools.program import run_program
from tcresttools.report import read_bounds, read_report
from tcresttools.sends import senders
from tcresttools.slot_tables import distances, gap, least_turn
from tcresttools.table_report import ranges
from tcresttools.table_search import Demand, Search, table_count, whole_tables

JOB = "examples/c/deadlines.toml"
DEADLINES = ["0=3000", "1=3200", "2=20000"]
# A task that calls, divides and sends, and one that loops; core 2 only receives.
SMALL = """version = 1
cores = 3
slot = 7
cycles = 100000
[[task]]
core = 0
lang = "c"
source = '''int in[4]; int third(int x) { return x / 3; }
int main() { int a = third(in[1]); comm[0] = a; send(2, 0, 0, 1); int b = third(in[2]); return a + b; }'''
[[task]]
core = 1
lang = "c"
source = '''int out[3];
int main() { int i = 0; _Pragma("loopbound min 0 max 3") while (i < 3) { out[i] = i; i = i + 1; } return i; }'''
"""


def job(text: str) -> Job:
    return job_of("job.toml", text.encode(), toml_values(text.encode()))


# The tables of docs/MACHINE.md, "Slots".
@pytest.mark.parametrize(
    "table,gaps", [([0, 1, 0, 2], {0: 2, 1: 4, 2: 4}), ([0, 0, 1], {0: 2, 1: 3}), ([0, 1, 2, 3], {0: 4, 3: 4})]
)
def test_gaps(table: list[int], gaps: dict[int, int]) -> None:
    assert {core: gap(table, core) for core in gaps} == gaps


def test_distances_go_over_the_end() -> None:
    assert distances([0, 1, 0, 0, 2], 0) == (2, 1, 2)
    assert distances([1, 0, 2], 0) == (3,)


def test_turned_tables() -> None:
    assert least_turn([1, 2, 0, 1, 0]) == (0, 1, 0, 1, 2)
    assert least_turn((3,)) == (3,)


def test_numbers_of_cores() -> None:
    assert core_numbers(["0=3000", "12=7"], "a deadline") == {0: 3000, 12: 7}
    for wrong in (["0"], ["0=-1"], ["=5"], ["0=5", "0=6"]):
        with pytest.raises(BadInput):
            core_numbers(wrong, "a deadline")


def test_parts_of_a_bound() -> None:
    # 17 bundles, and 7 transactions of 11 cycles with slots of 6 on one core; of 13 with slots of 7.
    assert parts_of(17 + 7 * 11, 17 + 7 * 13, 1) == Parts(17, 7)
    # Its persistent bound by hand: 39 bundles and 6 transactions of 29 cycles, on four cores with slots of 6.
    assert Parts(39, 6).cycles(4, 6) == 213
    with pytest.raises(BadInput):
        parts_of(94, 95, 1)


# The task of docs/START.md: its code takes two transactions, and then come five bundles.
FIVE_BUNDLES = Course(6, (0,), 5)


@pytest.mark.parametrize(
    "apart,first_slot,cycles", [((1,), 0, 17), ((4,), 12, 47), ((2, 2), 0, 23), ((4,), 18, 53)]
)
def test_ends_of_the_first_task(apart: tuple[int, ...], first_slot: int, cycles: int) -> None:
    # The first lesson has these, from a start in cycle 0.
    assert first_slot + FIVE_BUNDLES.end(apart, 0) == cycles


def test_worst_start() -> None:
    # Four cores in turn: a start one cycle behind the own slot waits 23 cycles for the next, and then takes 35.
    assert FIVE_BUNDLES.worst((4,)).cycles == 23 + 35
    assert FIVE_BUNDLES.worst((4,)).start == 1
    # Own slots 1 and 3 slots apart: from cycle 7 it waits 17 cycles, and then has both slots; from cycle 1 it waits 5
    # for the first and 12 between the two.
    assert FIVE_BUNDLES.worst((1, 3)).cycles == 17 + 6 + 6 + 5 == 5 + 6 + 12 + 6 + 5
    assert FIVE_BUNDLES.worst((1, 3)).start == 1


def test_slots_ahead() -> None:
    assert slots_ahead((2, 2)) == [0, 1, 0, 1]
    assert slots_ahead((1, 3)) == [0, 0, 2, 1]


def test_what_a_run_says_of_the_slots_between() -> None:
    lines = ["platform cores 2 slot 6 period 24", "core 0 done 1 cycles 60", "core 0 access 0 read 4"]
    lines += ["core 0 access 6 read 4", "core 0 access 24 read 1", "core 1 idle"]
    core = read_report("\n".join(lines)).cores[0]
    # Slots 0, 1 and 2 of four are own: the third transaction may have needed slot 3 already, but not slot 2.
    assert observed(job(SMALL), core, [0, 0, 0, 1], 6) == [(0, 0), (1, 2)]


def test_wide_tables_have_all_cores() -> None:
    for turn in (0, 27, 54, 81):
        table = wide_table(4, 2, turn)
        assert (len(table), table.count(2), set(table)) == (64, 61, {0, 1, 2, 3})


def cycles_of(program: str, small: Job, table: str, slot: int, start: int) -> dict[int, int]:
    """The cycles of both tasks from a start, as the program reports them."""
    values: dict[tuple[int | None, str], str] = {(0, "start"): str(start), (1, "start"): str(start)}
    values |= {(None, "version"): "2", (None, "table"): table, (None, "slot"): str(slot)}
    report = read_report(run_program(program, "run", small.with_values(values)).text)
    return {core.number: core.cycles for core in report.cores if core.cycles is not None}


@pytest.mark.parametrize("table,slot", [([0, 1, 2], 7), ([0, 1, 0, 0, 2], 6)])
def test_exact_worst_case_is_that_of_all_starts(program: str, table: list[int], slot: int) -> None:
    small = job(SMALL)
    measures = Measures.of(program, small)
    runs = {start: cycles_of(program, small, str(table), slot, start) for start in range(len(table) * slot)}
    for core in (0, 1):
        most = max(cycles[core] for cycles in runs.values())
        assert measures.exact(core, slot, distances(table, core)) == most
        assert runs[measures.worst_start(core, slot, tuple(table))][core] == most


def test_a_start_one_period_later_takes_as_long(program: str) -> None:
    small = job(SMALL)
    for start in (0, 5, 8):
        later = cycles_of(program, small, "[0, 1, 0, 2]", 6, start + 24)
        assert cycles_of(program, small, "[0, 1, 0, 2]", 6, start) == later


def test_a_course_is_the_same_from_another_table(program: str) -> None:
    # The first course comes from wide tables; here the task runs in turn with the others.
    small = job(SMALL)
    course = course_of(program, small, 0, 7, 100_000)
    assert course.end((3,), 0) == cycles_of(program, small, "[0, 1, 2]", 7, 0)[0]


def test_a_course_is_that_of_the_replay(program: str) -> None:
    # The replay has the bundles between two transactions from `pipe`, where a core is alone; a slot is so many of them.
    replay = pytest.importorskip("tcresttools.replay")
    sequence = pytest.importorskip("tcresttools.sequence")
    small = job(SMALL)
    for task in small.tasks:
        pace = replay.pace_of(sequence.sequence_of(task, program))
        for slot in (6, 13):
            course = course_of(program, small, task.core, slot, 100_000)
            assert list(course.skips) == [(cycles + slot - 1) // slot for cycles in pace.requests[1:]]
            assert (pace.requests[0], course.rest) == (0, pace.rest)


def test_who_sends() -> None:
    assert senders(job(SMALL), 2) == [0]
    assert senders(job(SMALL), 0) == []


def brute_force(demand: Demand, slot: int, most: int, parts: dict[int, Parts]) -> float:
    """The best least slack over all tables, the other cores owning as many slots as they like."""
    cores, best = [*demand.owners, *demand.others], -1e9
    for length in range(len(cores), most + 1):
        for table in product(cores, repeat=length):
            if set(table) == set(cores):
                cycles = {core: parts[core].cycles(gap(table, core), slot) for core in demand.owners}
                best = max(best, min(1 - cycles[core] / demand.deadlines[core] for core in cycles))
    return best


TOY = {0: Parts(1263, 67), 1: Parts(1475, 163)}


def toy_meter(core: int, slot: int, apart: tuple[int, ...]) -> int:
    return TOY[core].cycles(max(apart), slot)


@pytest.mark.parametrize("others", [[], [2], [2, 3]])
def test_the_search_finds_the_best_table(others: list[int]) -> None:
    demand = Demand({0: 3000, 1: 6000}, others)
    found = Search(demand, [6], toy_meter).run(6)
    best = found.candidates[0]
    assert (found.whole, found.partly) == (list(range(demand.least_length, 7)), [])
    assert set(best.table) == {0, 1, *others}
    assert best.score[0] == pytest.approx(brute_force(demand, 6, 6, TOY))
    assert best.cycles == {core: TOY[core].cycles(gap(best.table, core), 6) for core in (0, 1)}


@pytest.mark.parametrize("others", [[], [2], [2, 3]])
def test_every_table_is_tried(others: list[int]) -> None:
    demand = Demand({0: 1, 1: 1}, others)
    tables = list(whole_tables(demand, 5))
    assert len(tables) == len(set(tables)) <= table_count(demand, 5)
    turned = {table[at:] + table[:at] for table in tables for at in range(5)}
    cores = {0, 1, *others}
    wanted = [table for table in product(sorted(cores), repeat=5) if set(table) == cores]
    assert {table for table in wanted if all(table.count(other) == 1 for other in others)} <= turned


def test_the_local_search_keeps_what_can_be_kept(monkeypatch: pytest.MonkeyPatch) -> None:
    demand = Demand({0: 3000, 1: 6000}, [2])
    whole = Search(demand, [6], toy_meter).run(8)
    monkeypatch.setattr(table_search, "MOST_WHOLE", 0)
    partly = Search(demand, [6], toy_meter).run(8)
    assert (partly.whole, partly.partly) == ([], list(range(3, 9)))
    assert partly.candidates[0].score[0] == pytest.approx(whole.candidates[0].score[0])


def test_scores_prefer_the_greater_least_slack() -> None:
    demand = Demand({0: 1000, 1: 1000}, [])
    search = Search(demand, [6], lambda core, slot, apart: 100 * (core + 1) * max(apart))
    narrow, wide = search.candidate(6, (0, 1, 1)), search.candidate(6, (0, 1))
    assert (narrow.cycles, wide.cycles) == ({0: 300, 1: 400}, {0: 200, 1: 400})
    assert wide.score > narrow.score
    assert wide.slack(1) == 600 and wide.keeps_all


def test_the_engineers_task_takes_one_command(tool: Tool, program: str, tmp_path: Path) -> None:
    out = tmp_path / "found.toml"
    done = tool("tables", JOB, "--deadline", *DEADLINES, "--persist", "--length", "6", "--write", str(out))
    assert (done.returncode, done.stderr) == (0, "")
    assert "core 3: is idle, and owns one slot of each table" in done.stdout
    assert "it receives what core 2 sends" in done.stdout
    # The table of the job misses one deadline by `persist`, and the one that is written keeps all.
    told = {core: persist or 0 for core, (_, persist) in bounds(program, (ROOT / JOB).read_bytes()).items()}
    assert (told[0] > 3000, told[1] > 3200, told[2] > 20000) == (False, True, False)
    told = {core: persist or 0 for core, (_, persist) in bounds(program, out.read_bytes()).items()}
    assert (told[0] > 3000, told[1] > 3200, told[2] > 20000) == (False, False, False)


def bounds(program: str, text: bytes) -> dict[int, tuple[int, int | None]]:
    return read_bounds(run_program(program, "persist", text).text)


def test_exact_times_need_no_other_table(tool: Tool, tmp_path: Path) -> None:
    path = tmp_path / "small.toml"
    path.write_text(SMALL)
    done = tool("tables", str(path), "--deadline", "0=1500", "--deadline", "1=600", "--length", "4", "--best", "1")
    assert done.stdout.count("keeps every deadline") == 2
    assert "the job's own\nslot 7 table [0, 1, 2]: keeps every deadline" in done.stdout


def test_deadlines_that_no_table_keeps(tool: Tool, tmp_path: Path) -> None:
    path = tmp_path / "small.toml"
    path.write_text(SMALL)
    done = tool("tables", str(path), "--deadline", "0=10", "--length", "4", "--best", "1", "--bound")
    assert done.returncode == 1
    assert "keeps every deadline" not in done.stdout


@pytest.mark.parametrize(
    "words,told",
    [
        (["--deadline", "3=100"], "core 3 has no task in C"),
        (["--deadline", "0=0"], "a deadline is a number of cycles from 1 on"),
        (["--deadline", "0=9", "--length", "3"], "--length takes a number from 4"),
        (["--deadline", "0=9", "--length", "65"], "--length takes a number from 4"),
        (["--deadline", "0=9", "--slot", "5-8"], "a slot takes 6 to 64 cycles"),
        (["--deadline", "0=9", "--best", "0"], "--best takes a number from 1 on"),
    ],
)
def test_bad_words_are_refused(tool: Tool, words: list[str], told: str) -> None:
    done = tool("tables", JOB, *words)
    assert (done.returncode, done.stdout) == (2, "")
    assert told in done.stderr


def test_ranges() -> None:
    assert ranges([6]) == "6"
    assert ranges([4, 5, 6]) == "4 to 6"
    assert ranges([6, 8]) == "6, 8"
