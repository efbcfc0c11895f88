"""The reader of what the program writes: reports, listings, bounds and steps."""

from __future__ import annotations

from pathlib import Path

import pytest
from conftest import ROOT

from tcresttools.cli import BadInput
from tcresttools.report import Access, read_bounds, read_listing, read_report

REPORTS = sorted(path for path in (ROOT / "examples").glob("**/*.report") if path.name != "grid.report")


@pytest.mark.parametrize("path", REPORTS, ids=str)
def test_each_stored_report_is_read_whole(path: Path) -> None:
    text = path.read_text(encoding="utf-8")
    report = read_report(text)
    lines = text.splitlines()
    told = (
        1
        + len(report.steps)
        + sum(1 + len(core.out) + len(core.accesses) + (core.dropped > 0) for core in report.cores)
    )
    assert told == len(lines)
    assert report.slot == int(lines[0].split()[4])
    assert [core.number for core in report.cores] == list(range(int(lines[0].split()[2])))
    for core in report.cores:
        assert core.line in lines
        assert (core.ended == "done") == (core.cycles is not None)
        if core.bound is not None and core.cycles is not None:
            assert core.cycles <= core.bound


def test_each_part_of_a_report() -> None:
    text = (
        "platform cores 5 slot 6 period 30\ncore 0 done -7 cycles 30 bound 40 alone overrun\ncore 0 out 0"
        " 4294967295\ncore 0 dropped 3\ncore 0 access 12 write 4\ncore 1 trap 2 at 99\ncore 2 limit bound 7\ncore 3"
        " idle\ncore 4 limit\n"
    )
    report = read_report(text)
    first, second, third, fourth, fifth = report.cores
    assert (first.value, first.cycles, first.bound, first.alone, first.overrun) == (-7, 30, 40, True, True)
    assert (first.out, first.dropped, first.accesses) == ([4294967295], 3, [Access(12, "write", 4)])
    assert (second.ended, second.trap, second.at) == ("trap", 2, 99)
    assert (third.ended, third.bound, third.alone) == ("limit", 7, False)
    assert (fourth.ended, fifth.ended, fifth.bound) == ("idle", "limit", None)


@pytest.mark.parametrize(
    "text",
    ["", "core 0 idle", "platform cores 1 slot 6 period 6\ncore 0 out 0 1", "platform cores 1 slot 6 period 6\nx"],
)
def test_what_the_program_does_not_write_is_refused(text: str) -> None:
    with pytest.raises(BadInput, match="is none that the program writes"):
        read_report(text)


def test_details_belong_to_the_core_above() -> None:
    with pytest.raises(BadInput, match="line 3"):
        read_report("platform cores 2 slot 6 period 12\ncore 0 done 1 cycles 2\ncore 1 out 0 5\ncore 1 idle\n")


def test_steps_have_empty_stages() -> None:
    step = read_report("platform cores 1 slot 6 period 6\nstep 12 F 3 D 2 E 1 M - W -\ncore 0 limit\n").steps[0]
    assert (step.cycle, step.fetch, step.decode, step.execute, step.memory, step.write) == (12, 3, 2, 1, None, None)


def test_listings() -> None:
    assert read_listing("core 1 words 2\n00000001\n0000000a\ncore 3 words 0\n") == {1: [1, 10], 3: []}
    with pytest.raises(BadInput, match="ends 1 words too early"):
        read_listing("core 1 words 2\n00000001\n")
    with pytest.raises(BadInput, match="line 2"):
        read_listing("core 1 words 1\n0000000G\n")


def test_bounds() -> None:
    head = "platform cores 2 slot 6 period 12\n"
    assert read_bounds(head + "core 0 bound 40\ncore 1 bound 9 persist 8\n") == {0: (40, None), 1: (9, 8)}
    with pytest.raises(BadInput, match="line 2"):
        read_bounds(head + "core 0 bounds 40\n")
