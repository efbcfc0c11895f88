"""Packets by the windows of the network, and the tasks whose transfers are known."""

from __future__ import annotations

import re
from dataclasses import replace
from pathlib import Path

import pytest
from conftest import ROOT, Tool

from tcresttools.assembly import instructions_of, statements_of
from tcresttools.assembly_run import assembly_run, may_send, without_store
from tcresttools.events import NoSequence
from tcresttools.job import Job, job_of, read_job, toml_values
from tcresttools.known_registers import KnownRegisters, offset_of
from tcresttools.packets import Packet, Start, transfers_of
from tcresttools.program import run_program
from tcresttools.report import read_listing, read_report
from tcresttools.sent import sent_packets
from tcresttools.steady import is_steady

LIMIT = 100_000


def test_three_words_of_core_0_of_2() -> None:
    """docs/MACHINE.md: started in cycle 10, two are injected at 12 and one at 15; they come at 21 and 24."""
    made = transfers_of(2, 0, [Start(10, 1, 4, 6, 3)], LIMIT)
    assert made.packets == [Packet(0, 1, 12, 21, 4, 6, 2), Packet(0, 1, 15, 24, 6, 8, 1)]


def test_windows_of_three_cores() -> None:
    """docs/LESSONS.md, lesson 7: core 0 may send to core 2 at 69 and 75, core 1 at 90 and 96."""
    assert [one.sent for one in transfers_of(3, 0, [Start(68, 2, 0, 7, 1)], LIMIT).packets] == [69]
    assert [one.sent for one in transfers_of(3, 0, [Start(69, 2, 0, 7, 1)], LIMIT).packets] == [75]
    assert [one.sent for one in transfers_of(3, 1, [Start(92, 2, 0, 7, 1)], LIMIT).packets] == [96]


@pytest.mark.parametrize("cores,count", [(2, 1), (2, 512), (4, 1), (4, 5), (16, 512)])
def test_a_transfer_is_delivered_by_its_latency(cores: int, count: int) -> None:
    """docs/GRID.md: a transfer of k words that starts in cycle t is delivered by t + 3 (n - 1) ceil(k / 2) + 9."""
    latest = 3 * (cores - 1) * ((count + 1) // 2) + 9
    for cycle in range(3 * (cores - 1)):
        for target in range(1, cores):
            packets = transfers_of(cores, 0, [Start(cycle, target, 0, 0, count)], LIMIT).packets
            assert sum(one.words for one in packets) == count
            assert cycle + 9 < packets[0].due and packets[-1].due <= cycle + latest


def test_no_two_cores_send_to_one_target_in_a_window() -> None:
    sent = [
        (packet.sent, packet.target)
        for core in range(4)
        for target in range(4)
        if target != core
        for packet in transfers_of(4, core, [Start(0, target, 0, 0, 40)], LIMIT).packets
    ]
    assert len(sent) == len(set(sent)) == 12 * 20


def test_a_start_while_words_are_left_is_dropped() -> None:
    """Of two cores the windows are at 12, 15, 18: after the last one's cycle a new transfer may start."""
    starts = [Start(10, 1, 0, 0, 3), Start(14, 1, 0, 0, 1)]
    assert transfers_of(2, 0, starts, LIMIT).dropped == 1
    later = transfers_of(2, 0, [starts[0], replace(starts[1], cycle=15)], LIMIT)
    assert (later.dropped, [one.sent for one in later.packets]) == (0, [12, 15, 18])


def test_nothing_is_sent_from_the_limit_on() -> None:
    assert [one.sent for one in transfers_of(2, 0, [Start(10, 1, 0, 0, 9)], 18).packets] == [12, 15]


def registers_behind(text: str) -> KnownRegisters:
    """The registers behind some bundles."""
    registers = KnownRegisters()
    for one in statements_of(f".func f\n{text}".encode())[1:]:
        registers.do(instructions_of(one))
    return registers


@pytest.mark.parametrize(
    "text,word",
    [
        ("addi r1 = r0, 7", 7),
        ("addl r1 = r0, 0x20010; addi r1 = r01, 0x8", 0x20018),
        ("subi r1 = r0, 1", 0xFFFFFFFF),
        ("subi r2 = r0, 8; srai r1 = r2, 1", 0xFFFFFFFC),
        ("subi r2 = r0, 8; sri r1 = r2, 1", 0x7FFFFFFC),
        ("addi r2 = r0, 3; sll r1 = r2, 33", 6),
        ("addi r2 = r0, 5; nor r1 = r2, r0", 0xFFFFFFFA),
        ("addi r2 = r0, 5; shadd2l r1 = r2, 100", 120),
        ("addi r0 = r0, 9; add r1 = r0, r0", 0),
        ("addi r2 = r0, 1; { addi r2 = r0, 4 ; add r1 = r2, r0 }", 1),
        ("cmpieq p1 = r0, 0; (p1) addi r1 = r0, 3; (!p1) addi r1 = r0, 4", 3),
        ("cmpineq p1 = r0, 0; por p2 = p1, !p1; (p2) addi r1 = r0, 3", 3),
        ("addi r2 = r0, 6; btesti p3 = r2, 2; (p3) addi r1 = r0, 3", 3),
        ("subi r2 = r0, 1; cmpilt p1 = r2, 0; cmpiult p2 = r2, 0; pxor p3 = p1, p2; (p3) addi r1 = r0, 3", 3),
        ("lwm r1 = [r0 + 4]", None),
        ("lwm r2 = [r0 + 4]; add r1 = r2, r0", None),
        ("lwm r2 = [r0 + 4]; cmpieq p1 = r2, 0; (p1) addi r1 = r0, 3", None),
        ("mfs r1 = sl", None),
        ("addi r2 = r0, 2; mts s0 = r2; (p1) addi r1 = r0, 3", 3),
        ("lwm r2 = [r0 + 4]; mts s0 = r2; (p0) addi r1 = r0, 3", 3),
    ],
)
def test_what_is_known_of_a_register(text: str, word: int | None) -> None:
    assert registers_behind(text).words[1] == word


def test_the_number_in_brackets() -> None:
    assert [offset_of(text) for text in ("[r2 + 0x1F] = r3", "r1 = [ r2 ]", "[r2+2]=r3")] == [31, 0, 2]


@pytest.mark.parametrize(
    "text,steady",
    [
        ("lwm r1 = [r0 + 4]\nret\nnop\nnop\nnop", True),
        ("lwm r1 = [r0 + 4]\nnop\nadd r2 = r1, r0\nswm [r0 + 4] = r2", True),
        ("lwm r1 = [r0 + 4]\nnop\ncmpieq p1 = r1, 0", False),
        ("lwm r1 = [r0 + 4]\nnop\nadd r2 = r1, r0\nlwm r3 = [r2 + 0]", False),
        ("lwm r1 = [r0 + 4]\nnop\nswl [r1 + 0] = r2", False),
        ("lwl r1 = [r0 + 4]\nnop\nmts srb = r1", False),
        ("lwm r1 = [r0 + 4]\nnop\nmul r1, r1\nnop\nmfs r2 = sl\ncmpieq p1 = r2, 0", False),
        ("lwm r1 = [r0 + 4]\nnop\nsws [r0 + 0] = r1\nlws r2 = [r0 + 0]\nnop\nbtesti p1 = r2, 0", False),
        ("sws [r0 + 0] = r1\nlws r2 = [r0 + 0]\nnop\nbtesti p1 = r2, 0", True),
        ("addi r1 = r0, 3\nlwm r2 = [r1 + 1]\nsubi r1 = r1, 1\ncmpineq p1 = r1, 0", True),
    ],
)
def test_steady_tasks(text: str, steady: bool) -> None:
    assert is_steady(f".func main\n{text}\n".encode()) is steady


def test_a_store_is_left_out_with_the_rest_of_its_bundle() -> None:
    assert without_store("(p1) swl [r2 + 2] = r3") == "nop"
    assert without_store("{ swl [r2 + 2] = r3 ; addi r1 = r0, 1 }") == "{ nop ; addi r1 = r0, 1 }"


def test_what_the_lesson_says(program: str) -> None:
    job = read_job(str(ROOT / "examples/lessons/windows.toml"))
    sent = sent_packets(job, read_report(run_program(program, "run", job.data).text), program)
    assert [(one.sender, one.target, one.sent, one.due, one.target_word) for one in sent.packets] == [
        (0, 2, 69, 78, 7), (1, 2, 96, 105, 7),
    ]  # fmt: skip
    assert sent.unknown == {}


def sending(body: str, other: str = "ret\nnop\nnop\nnop") -> Job:
    """A job of two cores, the first of which sends to the second."""
    tasks = "".join(
        f'[[task]]\ncore = {core}\nlang = "asm"\nsource = """\n.func main\n{text}\n"""\n'
        for core, text in ((0, body), (1, other))
    )
    text = f"version = 1\ncores = 2\nslot = 6\ncycles = 100000\n{tasks}"
    return job_of("job.toml", text.encode(), toml_values(text.encode()))


END = "ret\nnop\nnop\nnop"
STARTS = "addl r2 = r0, 0x20010\naddi r3 = r0, 3\nswl [r2 + 0] = r0\nswl [r2 + 1] = r0\nswl [r2 + 2] = r3\n"


def run_of(job: Job, program: str) -> tuple[int, list[int], str]:
    """The starts that are dropped, when the packets of core 0 are sent, and why they are not known."""
    report = read_report(run_program(program, "run", job.data).text)
    words = read_listing(run_program(program, "asm", job.data).text)[0]
    run = assembly_run(job, job.tasks[0], report.cores[0], words, program)
    return run.transfers.dropped, [one.sent for one in run.transfers.packets], run.unknown


def test_a_dropped_start_is_the_reports(program: str) -> None:
    job = sending(f"{STARTS}swl [r2 + 2] = r3\n{END}")
    assert "core 0 dropped 1" in run_program(program, "run", job.data).text
    dropped, sent, unknown = run_of(job, program)
    assert (dropped, len(sent), unknown) == (1, 2, "")


def test_a_count_from_memory_is_not_known(program: str) -> None:
    job = sending(STARTS.replace("addi r3 = r0, 3", "lwm r3 = [r0 + 4]\nnop") + END)
    text = job.data.replace(b'lang = "asm"', b'lang = "asm"\ninput = [2]', 1)
    assert "depends on words of its memory" in run_of(job_of("job.toml", text, toml_values(text)), program)[2]


def test_a_store_that_is_one_to_the_network_once_starts_once(program: str) -> None:
    """The function stores first in communication memory, and then in the count register for core 1."""
    call = "call f\nnop\nnop\nnop\n"
    text = f"addi r3 = r0, 1\naddl r2 = r0, 0x10008\n{call}addl r2 = r0, 0x20018\n{call}mts srb = r0\n{END}\n"
    dropped, sent, unknown = run_of(sending(f"{text}.func f\nswl [r2 + 0] = r3\n{END}"), program)
    assert (dropped, len(sent), unknown) == (0, 1, "")


def test_what_can_not_be_replayed_says_why(program: str) -> None:
    polls = f"{STARTS}wait: lwl r4 = [r2 + 3]\nnop\ncmpineq p1 = r4, 0\n(p1) br wait\nnop\nnop\n{END}"
    with pytest.raises(NoSequence, match="may depend on words that other cores set"):
        run_of(sending(polls), program)
    reads = f"{STARTS}lwl r4 = [r2 + 3]\n{END}"
    with pytest.raises(NoSequence, match="how many words the network has not sent yet"):
        run_of(sending(reads), program)


def test_tasks_that_may_send() -> None:
    tasks = [read_job(str(ROOT / path)).tasks for path in ("examples/packet.toml", "examples/c/network.toml")]
    assert [may_send(task) for task in tasks[0]] == [True, False]
    assert [may_send(task) for task in tasks[1]] == [True, True, False]


def test_pictures_have_packets(tool: Tool, tmp_path: Path) -> None:
    drawn = tool("timeline", "examples/lessons/windows.toml", "--trace", "99", "--svg", "-").stdout
    titles = re.findall(r"<title>(packet[^<]*)</title>", drawn)
    assert titles == [
        "packet from core 0 to core 2: 1 word from 0 to 7, sent at 69, comes at 78",
        "packet from core 1 to core 2: 1 word from 0 to 7, sent at 96, comes at 105",
    ]
    drawn = tool("timeline", "examples/c/network.toml", "--trace", "99", "--svg", "-").stdout
    titles = re.findall(r"<title>(packet[^<]*)</title>", drawn)
    assert [title.partition(",")[0] for title in titles] == [
        "packet from core 0 to core 2: 1 word from 0 to 0",
        "packet from core 1 to core 2: 1 word from 0 to 1",
    ]
    assert "are not drawn" not in drawn
