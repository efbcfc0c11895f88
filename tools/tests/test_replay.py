"""Replays: the times of docs/MACHINE.md, worked by hand there, and those that the program reports."""

from __future__ import annotations

from dataclasses import replace

import pytest
from conftest import ROOT

from tcresttools.code_text import code_of_task
from tcresttools.events import Bundle, Cause, Event, Sequence, Transaction
from tcresttools.job import MOST_TRACE, Task, job_of, read_job, toml_values
from tcresttools.method_cache import MethodCache, fetch_words
from tcresttools.program import run_program
from tcresttools.recording import recorded
from tcresttools.replay import Differs, Replayed, Slots, compared, difference, pace_of, replay
from tcresttools.report import Access, Core, read_report
from tcresttools.sequence import sequence_of
from tcresttools.unrolling import lowered, worked_out
from tcresttools.worst_case import platform_job


def fetch(*words: int) -> list[Event]:
    return [Transaction("read", count, Cause.FETCH) for count in words]


def load(place: int) -> list[Event]:
    return [Bundle(place), Transaction("read", 1, Cause.DATA)]


def sequence(*events: Event) -> Sequence:
    bundles = sum(isinstance(event, Bundle) for event in events)
    return Sequence(list(events), [1] * bundles, {1: 5}, 0)


# "Times, on examples": five bundles of one word each, and two loads on core 1 of 2.
FIVE = sequence(*fetch(4, 2), *(Bundle(place) for place in range(1, 6)))
LOADS = sequence(
    *fetch(4, 4, 2), Bundle(1), *load(3), Bundle(4), *load(5), Bundle(6), Bundle(7), Bundle(8), Bundle(9)
)


@pytest.mark.parametrize(
    "table,core,cycles,served",
    [
        ([0], 0, 17, [0, 6]),
        ([0, 1, 2, 3], 2, 47, [12, 36]),
        ([0, 1, 0, 2], 0, 23, [0, 12]),
        ([0, 1, 0, 2], 2, 53, [18, 42]),
    ],
)
def test_five_bundles(table: list[int], core: int, cycles: int, served: list[int]) -> None:
    replayed = replay(FIVE, 6, table, core, 0)
    assert replayed.taken == cycles
    assert [move.served for move in replayed.moves] == served
    assert pace_of(FIVE).end(Slots(6, table, core), 0) == cycles


def test_loads_wait_for_the_next_own_slot() -> None:
    replayed = replay(LOADS, 6, [0, 1], 1, 0)
    assert [(move.requested, move.served, move.free) for move in replayed.moves] == [
        (0, 6, 12), (12, 18, 24), (24, 30, 36), (37, 42, 48), (49, 54, 60),
    ]  # fmt: skip
    bundles = [cycle for event, cycle in zip(LOADS.events, replayed.cycles, strict=True) if isinstance(event, Bundle)]
    assert bundles == [36, 37, 48, 49, 60, 61, 62, 63]
    assert replayed.end == 64
    assert pace_of(LOADS).requests == [0, 0, 0, 1, 1]
    assert pace_of(LOADS).rest == 4


def test_a_store_that_moves_at_once_and_a_fetch_behind_it() -> None:
    store = Transaction("write", 1, Cause.DATA)
    replayed = replay(sequence(*fetch(4), Bundle(1), store, *fetch(4), Bundle(9)), 6, [0], 0, 0)
    # the bundle is done at 6, where a slot starts, and its word moves there
    assert [(move.requested, move.served) for move in replayed.moves] == [(0, 0), (6, 6), (12, 12)]
    assert replayed.end == 19


@pytest.mark.parametrize("cycle,served", [(0, 0), (1, 12), (12, 12), (13, 24), (24, 24), (36, 36)])
def test_slots_of_a_table(cycle: int, served: int) -> None:
    assert Slots(6, [0, 1, 0, 2], 0).served(cycle) == served
    # core 2 has the last of four slots
    assert Slots(6, [0, 1, 0, 2], 2).served(cycle) == (18 if cycle <= 18 else 42)


def test_words_of_a_fetch() -> None:
    assert fetch_words(10) == [4, 4, 3]
    assert fetch_words(0) == [1]
    assert fetch_words(7) == [4, 4]
    assert len(fetch_words(4096)) == 1025


def test_the_method_cache_evicts_what_came_first() -> None:
    cache = MethodCache()
    for function in range(17):
        cache.fetch(function, 10)
    assert [function for function in range(17) if not cache.holds(function)] == [0]
    cache.fetch(99, 4096)
    assert not any(cache.holds(function) for function in range(17))


def report_of(line: str, *accesses: str) -> Core:
    return read_report("\n".join(["platform cores 1 slot 6 period 6", line, *accesses])).cores[0]


def test_a_replay_is_compared_with_the_report() -> None:
    replayed = replay(FIVE, 6, [0], 0, 0)
    listed = ["core 0 access 0 read 4", "core 0 access 6 read 2"]
    assert difference(replayed, report_of("core 0 done 7 cycles 17", *listed)) is None
    assert difference(replayed, report_of("core 0 done 7 cycles 17", listed[0])) is None
    for other in (
        report_of("core 0 done 7 cycles 18", *listed),
        report_of("core 0 done 7 cycles 17", listed[0], "core 0 access 12 read 2"),
        report_of("core 0 done 7 cycles 17", *listed, "core 0 access 12 read 1"),
        report_of("core 0 limit"),
    ):
        with pytest.raises(Differs):
            compared(replayed, other)


def c_task(source: str) -> Task:
    return Task(0, 0, "c", source.encode(), [], 0)


CALLS = """
int out[2];
int f(int x) { shared[1] = x; return x / 3; }
int g(int x) { x = f(x); return x; }
int never(int x) { return x; }
int main() {
    int i; int s = 0;
    _Pragma("loopbound min 0 max 3")
    for (i = 0; i < 3; i = i + 1) { s = g(s + i); shared[0] = s; g(s); }
    out[0] = s;
    return s;
}
"""


@pytest.mark.parametrize("slot,table,core,start", [(6, [0], 0, 5), (9, [1, 0, 0], 0, 4), (7, [0, 1, 2], 2, 1000)])
def test_a_replay_is_what_the_program_reports(
    slot: int, table: list[int], core: int, start: int, program: str
) -> None:
    task = c_task(CALLS)
    found = sequence_of(task, program)
    head = f"version = 2\ncores = {max(table) + 1}\nslot = {slot}\ntable = {table}\ncycles = 100000\ntrace = 65536\n"
    text = head + f"[[task]]\ncore = {core}\nlang = \"c\"\nstart = {start}\nsource = '''{CALLS}'''\n"
    report = read_report(run_program(program, "run", text.encode()).text)
    replayed = replay(found, slot, table, core, start)
    assert difference(replayed, report.cores[core]) is None
    assert replayed.accesses == report.cores[core].accesses
    assert pace_of(found).end(Slots(slot, table, core), start) == replayed.end


def test_each_function_is_fetched_once(program: str) -> None:
    found = sequence_of(c_task(CALLS), program)
    fetched = [event.words for event in found.transactions if event.cause is Cause.FETCH]
    # the functions that are run all stay in the method cache
    assert sum(fetched) == sum(found.sizes[function] + 1 for function in set(found.functions))
    # one is never called
    assert set(found.functions) < set(found.sizes) and len(found.sizes) == 4


def test_functions_that_are_evicted_are_fetched_again(program: str) -> None:
    functions = "\n".join(f"int f{number}(int x) {{ return x + {number}; }}" for number in range(17))
    calls = " ".join(f"s = f{number}(s);" for number in range(17))
    found = sequence_of(c_task(f"{functions}\nint main() {{ int s = 0; {calls} return s; }}"), program)
    entry = found.functions[0]
    again = [size for function, size in found.sizes.items() if function != entry]
    fetched = [event for event in found.transactions if event.cause is Cause.FETCH]
    # the cache holds 16: the 16th function that is called evicts `main`, which is fetched again behind it, and so on
    assert len(again) == 17
    assert sum(event.words for event in fetched) > sum(size + 1 for size in found.sizes.values())
    assert not [event for event in found.transactions if event.cause is Cause.DATA]


def test_bounds_are_lowered_to_two_iterations() -> None:
    text = b'a _Pragma("loopbound min 3 max 40") b\n#pragma loopbound min 0 max 1\n _Pragma("loopbound min 0 max 2") 40'
    assert lowered(text) == (
        b'a _Pragma("loopbound min 2 max 2") b\n#pragma loopbound min 0 max 1\n _Pragma("loopbound min 0 max 2") 40'
    )


def with_two_iterations(task: Task, program: str) -> Sequence:
    """What the task does, worked out from two iterations of each of its loops."""
    short = replace(task, source=lowered(task.source))
    run = recorded(short, program)
    assert run is not None
    return worked_out(code_of_task(task, program), code_of_task(short, program), run)


@pytest.mark.parametrize("name", ["filter", "sort"])
def test_two_iterations_of_each_loop_give_the_whole(name: str, program: str) -> None:
    task = read_job(str(ROOT / f"examples/c/{name}.toml")).tasks[0]
    whole = recorded(task, program)
    assert whole is not None
    assert with_two_iterations(task, program).events == whole.events


@pytest.mark.parametrize("most,head,two", [
    (6, "i = 0; i < 6; i = i + 1", "i = 0; i < 2; i = i + 1"),
    (3, "i = 5; i <= 11; i = i + 3", "i = 5; i <= 8; i = i + 3"),
    (7, "i = 0; i < 6; i = i + 1", "i = 0; i < 6; i = i + 1"),
    (2, "i = 0; i < 2; i = i + 1", "i = 0; i < 2; i = i + 1"),
    (4, "i = 4; i > 0; i = i - 1", "i = 4; i > 0; i = i - 1"),
    (6, "i = 0; i < n; i = i + 1", "i = 0; i < n; i = i + 1"),
])  # fmt: skip
def test_loops_that_count_to_their_bounds_count_to_two(most: int, head: str, two: str) -> None:
    """Others keep their limits, since they test their conditions: their code has these numbers."""
    text = '_Pragma("loopbound min 0 max %d") for (%s) { a[i] = 1; }'
    assert lowered((text % (most, head)).encode()) == (text % (2, two)).encode()


@pytest.mark.parametrize("body,limit", [
    ("if (a[i]) { continue; } a[i] = 1;", 2),
    ("if (a[i]) { break; } a[i] = 1;", 6),
    ("if (a[i]) { return 1; } a[i] = 1;", 6),
    ("if (a[i]) { i = 4; } a[i] = 1;", 6),
])  # fmt: skip
def test_a_loop_with_a_continue_still_counts(body: str, limit: int) -> None:
    text = '_Pragma("loopbound min 0 max %d") for (i = 0; i < %d; i = i + 1) { %s }'
    assert lowered((text % (6, 6, body)).encode()) == (text % (2, limit, body)).encode()


def test_two_iterations_of_a_loop_with_a_continue_give_the_whole(program: str) -> None:
    source = """
    int in[6];
    int main() {
        int i; int s = 0;
        _Pragma("loopbound min 0 max 6")
        for (i = 0; i < 6; i = i + 1) { if (in[i] < 0) { continue; } s = s + in[i]; }
        return s;
    }
    """
    text = f"version = 1\ncores = 1\nslot = 6\ncycles = 9000\n[[task]]\ncore = 0\nlang = \"c\"\nsource = '''{source}'''\n"
    task = job_of("job.toml", text.encode(), toml_values(text.encode())).tasks[0]
    whole = recorded(task, program)
    assert whole is not None
    assert with_two_iterations(task, program).events == whole.events


def test_a_long_task_is_replayed(program: str) -> None:
    source = """
    int t[9];
    int f(int x) { t[x & 7] = x; return x % t[1]; }
    int main() {
        int i; int s = 0;
        _Pragma("loopbound min 0 max 520")
        for (i = 0; i < 520; i = i + 1) { int d = f(i); s = s + d; }
        return s;
    }
    """
    text = f"version = 2\ncores = 2\nslot = 8\ntable = [1, 0]\ncycles = 9000000\n[[task]]\ncore = 0\nlang = \"c\"\n"
    text += f"source = '''{source}'''\n"
    job = job_of("job.toml", text.encode(), toml_values(text.encode()))
    found = sequence_of(job.tasks[0], program)
    assert len(found.functions) > MOST_TRACE
    report = read_report(run_program(program, "run", platform_job(job, job.tasks[0], 3)).text)
    assert replay(found, 8, [1, 0], 0, 3).taken == report.cores[0].cycles


SPILLS = """
void f0() { int a = 1; shared[0] = a; }
void f1() { %s f0(); f0(); }
void f2() { %s f1(); f1(); }
int main() { int i; _Pragma("loopbound min 3 max 3") for (i = 0; i < 3; i = i + 1) { f2(); f2(); } return 0; }
""" % (("".join(f"int v{number} = {number}; " for number in range(90)),) * 2)


def test_fills_in_front_of_a_fetch_are_told_apart(program: str) -> None:
    """Two calls follow one another, so the frame is filled in the delay slots of the second, and then it is fetched."""
    task = c_task(SPILLS)
    whole = recorded(task, program)
    assert whole is not None
    fetched = [event.words for event in whole.transactions if event.cause is Cause.FETCH]
    assert sum(fetched) == sum(size + 1 for size in whole.sizes.values())
    kinds = {event.kind for event in whole.transactions if event.cause is Cause.DATA}
    assert kinds == {"read", "write"}
    assert with_two_iterations(task, program).events == whole.events


def test_what_a_report_lists() -> None:
    assert Replayed(0).accesses == []
    assert replay(FIVE, 6, [0], 0, 0).accesses == [Access(0, "read", 4), Access(6, "read", 2)]
