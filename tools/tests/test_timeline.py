"""Timelines: each transaction is seen, what is not known is said, and the waves are those of the report."""

from __future__ import annotations

from pathlib import Path
from xml.etree import ElementTree

import pytest
from conftest import ROOT, Tool

from tcresttools.cli import BadInput
from tcresttools.job import Job, job_of, toml_values
from tcresttools.report import Report, read_report
from tcresttools.timeline_svg import LEAST_WIDE, UNKNOWN, svg, tick_step
from tcresttools.timelines import Timeline
from tcresttools.waves import vcd

SPACE = "{http://www.w3.org/2000/svg}"


def job(trace: int, cores: int = 1, start: int = 0) -> Job:
    text = f"version = 1\ncores = {cores}\nslot = 6\ncycles = 9000000\ntrace = {trace}\n"
    text += f'[[task]]\ncore = 0\nlang = "asm"\nsource = ".func main"\nstart = {start}\n'
    return job_of("job.toml", text.encode(), toml_values(text.encode()))


def report(accesses: list[int], ended: str, cores: int = 1) -> Report:
    lines = [f"platform cores {cores} slot 6 period {6 * cores}", f"core 0 {ended}"]
    lines += [f"core 0 access {cycle} {'write' if cycle % 12 else 'read'} 4" for cycle in accesses]
    return read_report("\n".join(lines + [f"core {core} idle" for core in range(1, cores)]))


def rectangles(picture: str, title: str) -> list[dict[str, str]]:
    """The boxes of a picture whose titles begin so."""
    boxes = ElementTree.fromstring(picture).iter(f"{SPACE}rect")
    return [box.attrib for box in boxes if (box.findtext(f"{SPACE}title") or "").startswith(title)]


def words_of(picture: str) -> list[str]:
    return [text.text or "" for text in ElementTree.fromstring(picture).iter(f"{SPACE}text")]


def test_stored_pictures_and_waves(tool: Tool) -> None:
    for name, words in (
        ("stack.svg", ["examples/stack.toml", "--svg", "-"]),
        ("stack.vcd", ["examples/stack.toml", "--vcd", "-"]),
        ("method_cache.svg", ["examples/method_cache.toml", "--steps", "--trace", "14", "--svg", "-"]),
        ("windows.svg", ["examples/lessons/windows.toml", "--trace", "99", "--svg", "-"]),
    ):
        assert tool("timeline", *words).stdout == (ROOT / "tools/examples" / name).read_text()


def test_narrow_bars_are_seen() -> None:
    accesses = list(range(0, 15000, 60))
    picture = svg(Timeline(job(9999), report(accesses, "done 1 cycles 15000"), [], None, None), 1200)
    bars = rectangles(picture, "read") + rectangles(picture, "write")
    assert len(bars) == len(accesses)
    assert all(float(bar["width"]) >= LEAST_WIDE and "stroke" not in bar for bar in bars)


def test_wide_bars_have_an_edge_and_their_words() -> None:
    picture = svg(Timeline(job(99), report([0, 6], "done 1 cycles 17"), [], None, None), 1200)
    assert all(bar["stroke"] == "#ffffff" for bar in rectangles(picture, "read"))
    assert words_of(picture).count("4") == 2


def test_a_bar_stands_at_its_cycle() -> None:
    picture = svg(Timeline(job(99), report([24], "done 1 cycles 99"), [], 0, 100), 1090)
    (bar,) = rectangles(picture, "read")
    assert (float(bar["x"]), float(bar["width"])) == (70 + 24 * 10, 6 * 10)


def test_where_the_list_ends_is_marked() -> None:
    short = svg(Timeline(job(2), report([0, 6], "done 1 cycles 900"), [], None, None), 1200)
    (unknown,) = rectangles(short, UNKNOWN)
    assert "stroke-dasharray" in unknown
    assert "the 2 listed end here" in words_of(short)
    whole = svg(Timeline(job(3), report([0, 6], "done 1 cycles 900"), [], None, None), 1200)
    assert rectangles(whole, UNKNOWN) == []
    assert len(rectangles(whole, "does bundles, 12 to 900")) == 1


def test_a_long_picture_ends_behind_the_last_listed() -> None:
    drawn = Timeline(job(2), report([0, 600], "done 1 cycles 418521"), [], None, None)
    assert (drawn.last, drawn.cut) == (607, True)
    assert any("the picture ends after the last transaction" in words for words in words_of(svg(drawn, 1200)))
    with pytest.raises(BadInput, match="too many for one picture"):
        Timeline(job(2), report([0, 600], "done 1 cycles 418521"), [], None, 418521)


@pytest.mark.parametrize(
    "cycles,step", [(60, 6), (120, 12), (599, 54), (1000, 100), (8600, 1000), (15000, 2000), (418521, 50000)]
)
def test_axis_numbers(cycles: int, step: int) -> None:
    assert tick_step(cycles, 6) == step


def test_axis_numbers_are_written_in_thousands() -> None:
    picture = svg(Timeline(job(9), report([0], "done 1 cycles 8600"), [], None, None), 1200)
    assert [word for word in words_of(picture) if word.endswith(",000")] == [f"{at},000" for at in range(1, 9)]


def test_slots_are_those_of_the_table() -> None:
    drawn = Timeline(job(9, cores=3), report([18], "done 1 cycles 40", cores=3), [], 0, 40)
    assert [row.slots for row in drawn.rows] == [[0, 18, 36], [6, 24], [12, 30]]
    assert drawn.lives.slot_before(0, 18) == 0


def test_waves_are_those_of_the_report() -> None:
    lines = vcd(Timeline(job(9), report([0, 12], "done 1 cycles 30"), [], 0, 40)).splitlines()
    changes: dict[int, list[str]] = {}
    now = -1
    for line in lines[lines.index("$enddefinitions $end") + 1 :]:
        if line.startswith("#"):
            now = int(line[1:])
            changes[now] = []
        else:
            changes[now].append(line)
    # the wires of core 0: slot, access, words, task
    assert {"1!", 'b1 "', "b100 #", "1$"} == set(changes[0])
    assert 'b0 "' in changes[6]
    assert "0$" in changes[30]
    assert list(changes) == sorted(changes)


def test_reports_of_other_platforms_are_refused(tmp_path: Path) -> None:
    with pytest.raises(BadInput, match="the platform is another"):
        Timeline(job(9, cores=2), report([0], "done 1 cycles 9"), [], None, None)
