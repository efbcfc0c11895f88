"""Tasks that send: their replays are what the program reports, on other slots, tables and starts."""

from __future__ import annotations

import pytest

from tcresttools.code_text import code_of_task
from tcresttools.events import NoSequence
from tcresttools.job import MOST_TRACE, Task
from tcresttools.program import run_program
from tcresttools.replay import difference, replay
from tcresttools.report import read_report
from tcresttools.send_sites import without_sends
from tcresttools.sends import targets_of
from tcresttools.sequence import sequence_of
from tcresttools.unrolling import moves_alike

LOOP = """
int in[8]; int out[8];
int main() {
    int i;
    _Pragma("loopbound min 0 max 6")
    for (i = 0; i < 6; i = i + 1) { comm[i] = in[i] / 3; send(2, i, i, 1); out[i] = comm[i]; }
    return 0;
}
"""
CALLS = """
int g;
int f(int x) { comm[2] = x; send(1, x & 3, 2, 1); return x * 2; }
int main() {
    int s = 1;
    _Pragma("loopbound min 0 max 4")
    while (s < 99) { s = f(s); g = s; s = f(s); }
    send(2, 1, 1, 1); send(1, 1, 1, 1);
    return s;
}
"""
IN_FRONT = """
int t[9];
int main() {
    int j; t[3] = 1; send(1, 0, 0, 1);
    _Pragma("loopbound min 0 max 5")
    for (j = 0; j < 4; j = j + 1) { t[j] = j; }
    return t[0];
}
"""
DIVIDES = "int a; int main() { send(1, a / 3, shared[2] / a, 3); return comm[0] / 7; }"
LOADS = "int t[9]; int main() { int j = 1; send(1, t[j] + (t[2] + t[3]), t[5], t[6] & t[7]); return t[0]; }"
LONG = """
int t[9];
int f(int x) { t[x & 7] = x; send(1, x & 3, 2, 1); return x % t[1]; }
int main() {
    int i; int s = 0;
    _Pragma("loopbound min 0 max 600")
    for (i = 0; i < 600; i = i + 1) { int d = f(i); s = s + d; }
    return s;
}
"""
NEVER = "int q(int x) { send(1, 0, 0, 1); return x; } int main() { return shared[0]; send(2, 0, 0, 1); }"
SOURCES = {
    "loop": LOOP, "calls": CALLS, "in front": IN_FRONT, "never": NEVER, "divides": DIVIDES, "loads": LOADS
}  # fmt: skip


def c_task(source: str) -> Task:
    return Task(0, 0, "c", source.encode(), [], 0)


def job_of_task(source: str, slot: int, table: list[int], start: int) -> bytes:
    head = f"version = 2\ncores = 3\nslot = {slot}\ntable = {table}\ncycles = 9000000\ntrace = 65536\n"
    return f"{head}[[task]]\ncore = 0\nlang = \"c\"\nstart = {start}\nsource = '''{source}'''\n".encode()


@pytest.mark.parametrize("source", SOURCES.values(), ids=SOURCES)
def test_a_replay_is_what_the_program_reports(source: str, program: str) -> None:
    sequence = sequence_of(c_task(source), program)
    for slot, table, start in ((6, [0, 1, 2], 0), (9, [1, 0, 2, 0, 0], 40), (17, [2, 1, 0], 3)):
        report = read_report(run_program(program, "run", job_of_task(source, slot, table, start)).text)
        replayed = replay(sequence, slot, table, 0, start)
        assert difference(replayed, report.cores[0]) is None
        assert replayed.accesses == report.cores[0].accesses


def test_its_bundles_are_those_of_its_code(program: str) -> None:
    for source in SOURCES.values():
        code = code_of_task(c_task(source), program)
        assert len(sequence_of(c_task(source), program).functions) == code.bundles


def test_a_long_task_that_sends(program: str) -> None:
    """It is longer than what is listed, so it is worked out from two iterations of its loop."""
    sequence = sequence_of(c_task(LONG), program)
    assert len(sequence.functions) > MOST_TRACE
    report = read_report(run_program(program, "run", job_of_task(LONG, 6, [0, 1, 2], 0)).text)
    assert difference(replay(sequence, 6, [0, 1, 2], 0, 0), report.cores[0]) is None


def test_what_is_refused(program: str) -> None:
    for source, reason in (
        ("int main() { send(99, 0, 0, 1); return 0; }", "no platform has: 16 are the most"),
        ("int main() { send(1, 0, 0); return 0; }", "it is refused with `core 0: Syntax at 12`"),
    ):
        with pytest.raises(NoSequence, match=reason):
            sequence_of(c_task(source), program)


def test_what_is_in_place_of_a_send() -> None:
    source = b"int main() { send(2, 1 + 2, (3), 4 - 5); send(1, comm[0], 0, 1); return 0; }"
    assert targets_of(source) == [1, 2]
    assert without_sends(source) == (
        b"int main() { comm[0] = 1 + 2; comm[0] = (3); comm[0] = 4 - 5; comm[0] = comm[0]; comm[0] = 0; comm[0] = 1;"
        b" return 0; }"
    )


def test_texts_that_move_alike(program: str) -> None:
    """Loads and stores of main memory, loops and calls have to be the same; what moves nothing may differ."""
    one, more, other, looped = (
        code_of_task(c_task(f"int g; int main() {{ {text} return 0; }}"), program)
        for text in (
            "g = 1;",
            "g = 1 + comm[3]; comm[0] = 2;",
            "g = g;",
            '_Pragma("loopbound min 2 max 2") while (g < 2) { g = 1; }',
        )
    )  # fmt: skip
    assert moves_alike(one, more)
    assert not moves_alike(one, other)
    assert not moves_alike(one, looped)
