"""Packets of C tasks: what the program is asked gives the windows that the network's rules and replays give."""

from __future__ import annotations

import pytest
from conftest import ROOT

from tcresttools.arrivals import LOADS_APART, Send, Watch, c_packets, has_one_way, sends_of
from tcresttools.c_text import tokens_of
from tcresttools.events import NoSequence
from tcresttools.job import Job, job_of, read_job, toml_values
from tcresttools.packets import Packet, Passage, passages_of
from tcresttools.program import run_program
from tcresttools.report import read_report


def sending(source: str, cores: int = 2, start: int = 0) -> Job:
    """A job whose core 0 has this text in C."""
    task = f"[[task]]\ncore = 0\nlang = \"c\"\nstart = {start}\nsource = '''{source}'''\n"
    text = f"version = 1\ncores = {cores}\nslot = 6\ncycles = 100000\n{task}"
    return job_of("job.toml", text.encode(), toml_values(text.encode()))


def packets(job: Job, program: str) -> list[Packet]:
    report = read_report(run_program(program, "run", job.data).text)
    return c_packets(job, job.tasks[0], report.cores[0], program)


@pytest.mark.parametrize("path,core,target,word,sent", [
    ("examples/lessons/windows.toml", 0, 2, 7, 69),
    ("examples/lessons/windows.toml", 1, 2, 7, 96),
    ("examples/packet.toml", 0, 1, 0, 51),
])  # fmt: skip
def test_the_windows_of_tasks_in_assembly(
    path: str, core: int, target: int, word: int, sent: int, program: str
) -> None:
    """docs/LESSONS.md tells the first two, and the words of the third come when its other core loads them, at 60."""
    job = read_job(str(ROOT / path))
    task = job.task_of(core)
    assert task is not None
    assert Watch(job, task, target, word, 1000, program).all_sent() == [sent]


LOOP = 'int i; _Pragma("loopbound min 3 max 3") for (i = 0; i < 3; i = i + 1) { send(1, 5, 6, 3); }'


@pytest.mark.parametrize("cores", [2, 3, 5])
def test_each_send_of_a_loop(cores: int, program: str) -> None:
    """Three words go in two packets, the second in the next window to core 1: 3 * (cores - 1) cycles later."""
    job = sending(f"int main() {{ {LOOP} return 0; }}", cores)
    dropped = read_report(run_program(program, "run", job.data).text).cores[0].dropped
    found = packets(job, program)
    ways = [(one.sender, one.target, one.source_word, one.target_word, one.words) for one in found]
    assert ways == [(0, 1, 5, 6, 2), (0, 1, 7, 8, 1)] * (3 - dropped)
    watch = Watch(job, job.tasks[0], 1, 6, 100000, program)
    for number, (first, second) in enumerate(zip(found[::2], found[1::2], strict=True), 1):
        # Core 0 sends to core 1 where k is 1, in the first of the windows.
        assert first.sent % (3 * (cores - 1)) == 0
        assert second.sent == first.sent + 3 * (cores - 1)
        # Loads at six cycles after one another: the first to see the word is in the cycle in which it comes.
        assert min(watch.seen(number, ahead) or 0 for ahead in range(LOADS_APART)) == first.due == first.sent + 9


def test_a_later_start_sends_as_much_later(program: str) -> None:
    """Two cores with slots of 6: after 12 cycles both the slots and the windows begin again."""
    text = "int main() { send(1, 0, 0, 1); return 0; }"
    first, later = (packets(sending(text, start=start), program) for start in (0, 120))
    assert [one.sent + 120 for one in first] == [one.sent for one in later]


def test_a_start_that_is_dropped_and_one_that_does_nothing_send_nothing(program: str) -> None:
    """512 words take 256 windows, three cycles apart on two cores: the second start comes before they are gone."""
    job = sending("int main() { send(1, 0, 0, 512); send(1, 0, 0, 512); send(1, 1, 0, 512); return 0; }")
    assert "core 0 dropped 1" in run_program(program, "run", job.data).text
    found = packets(job, program)
    assert len(found) == 256
    assert found[-1].sent - found[0].sent == 255 * 3


def test_a_send_that_is_not_done(program: str) -> None:
    assert packets(sending("int main() { int x = 0; if (x) { send(1, 0, 0, 1); } return 0; }"), program) == []


def test_what_is_worked_out_is_not_known(program: str) -> None:
    with pytest.raises(NoSequence, match="is worked out"):
        packets(sending("int main() { int n = 1; send(1, 0, 0, n); return 0; }"), program)
    with pytest.raises(NoSequence, match="can't be asked"):
        Watch(sending("int main() { return 0; }"), sending("").tasks[0], 1, 0, 20_000_000, program).seen(1, 0)
    with pytest.raises(NoSequence, match="the same words"):
        packets(sending("int main() { send(1, 0, 0, 2); send(1, 4, 1, 1); return 0; }"), program)


def test_sends_of_a_text() -> None:
    text = b"int main() { send(2, 1, 3, 4); send(2, 1, 3, 4); send(1, 0, 0, 0); send(1, 500, 0, 13); return 0; }"
    assert sends_of(tokens_of(text)) == [Send(2, 3, 1, 4)]


@pytest.mark.parametrize("one,other,meet", [
    (Send(1, 0, 0, 2), Send(1, 1, 0, 1), True),
    (Send(1, 0, 0, 2), Send(1, 2, 0, 1), False),
    (Send(1, 0, 0, 2), Send(2, 1, 0, 1), False),
])  # fmt: skip
def test_sends_to_the_same_words(one: Send, other: Send, meet: bool) -> None:
    assert one.meets(other) is other.meets(one) is meet


@pytest.mark.parametrize("text,one_way", [
    ("{ send(1, 0, 0, 1); }", True),
    ("{ for (i = 0; i < 3; i = i + 1) { send(1, 0, 0, 1); } }", True),
    ("{ for (i = 0; i < n; i = i + 1) { send(1, 0, 0, 1); } }", False),
    ("{ for (i = 0; i < 3; i = i + 1) { send(1, 0, 0, 1); break; } }", False),
    ("{ while (x) { x = 0; } send(1, 0, 0, 1); }", False),
    ('{ i = 0; _Pragma("loopbound min 3 max 3") while (i < 3) { send(1, 0, 0, 1); i = i + 1; } }', True),
    ("{ if (x) { send(1, 0, 0, 1); } }", False),
])  # fmt: skip
def test_texts_with_one_way(text: str, one_way: bool) -> None:
    assert has_one_way(tokens_of(text.encode())) is one_way


def test_end_to_end() -> None:
    made = [Packet(0, 1, 12, 21, 0, 0, 2), Packet(0, 1, 15, 24, 2, 2, 1), Packet(1, 0, 3, 12, 0, 0, 1)]
    assert passages_of(made) == [Passage(0, 1, 24), Passage(1, 0, 12)]
