"""Pages of jobs in a real browser, where Chromium is installed: no error, the report's numbers, links, mouse, keys."""

from __future__ import annotations

import re
from collections.abc import Iterator
from pathlib import Path
from typing import Any

import pytest
from browser import Browser, browser, browser_path
from conftest import ROOT

from tcresttools.code_text import CodeLoop, bundles_of, codes_of
from tcresttools.job import MOST_TRACE
from tcresttools.pages.document import page
from tcresttools.pages.facts import facts_of
from tcresttools.program import run_program
from tcresttools.report import Access, read_bounds, read_report

EXAMPLES = sorted(path for path in (ROOT / "examples").glob("**/*.toml") if path.name != "grid.toml")
CELLS = (
    "[...document.querySelectorAll('#cores tbody tr')].map(row => ['core', 'value', 'cycles', 'persist', 'bound'].map("
    "name => name === 'core' ? row.dataset.core : row.querySelector(`[data-of=${name}]`)?.textContent ?? ''))"
)
MARKED_LINES = "[...document.querySelectorAll('.source tr.marked')].map(row => Number(row.dataset.line))"
READING = "document.getElementById('reading').textContent"


@pytest.fixture(scope="module")
def chromium(tmp_path_factory: pytest.TempPathFactory) -> Iterator[Browser]:
    path = browser_path()
    if path is None:
        pytest.skip("Chromium is not installed")
    with browser(path, tmp_path_factory.mktemp("browser")) as started:
        started.size(1300, 900)
        yield started


@pytest.fixture
def opened(chromium: Browser, program: str, tmp_path: Path) -> Any:
    """Makes the page of a job and opens it."""

    def open_page(job: Path) -> Browser:
        made = tmp_path / "page.html"
        made.write_text(page(facts_of(str(job), program, MOST_TRACE)), encoding="utf-8")
        chromium.open(made)
        return chromium

    return open_page


def plain(number: int | None) -> str:
    return "" if number is None else str(number)


@pytest.mark.parametrize("job", EXAMPLES, ids=[path.stem for path in EXAMPLES])
def test_numbers_are_those_of_the_report(opened: Any, program: str, job: Path) -> None:
    found = opened(job)
    assert found.complaints() == []
    data = job.read_bytes()
    report = read_report(run_program(program, "run", data).text)
    bounds = read_bounds(run_program(program, "persist", data).text)
    wanted = []
    for core in report.cores:
        bound, persist = bounds.get(core.number, (None, None))
        numbers = [core.value, core.cycles, persist, bound]
        wanted.append([str(core.number), *(plain(number) for number in numbers)])
    assert [[cell.replace(",", "") for cell in row] for row in found.value(CELLS)] == wanted


def line_numbers(job: Path, first: str, last: str) -> list[int]:
    """The numbers of the lines of a file from one with some words up to the next one that is the last."""
    lines = job.read_text(encoding="utf-8").splitlines()
    begin = next(number for number, line in enumerate(lines, 1) if first in line)
    end = next(number for number, line in enumerate(lines[begin:], begin + 1) if line == last)
    return list(range(begin, end + 1))


def places_of(job: Path, program: str) -> tuple[list[int], list[int]]:
    """The places of the bundles of a job's first loop, and of its second function, as `tccode` writes them."""
    (code,) = codes_of(program, job.read_bytes(), str(job)).values()
    main, other = code.functions
    loop = next(item for item in main.items if isinstance(item, CodeLoop))
    return [main.start + one.offset for one in bundles_of(loop.items)], [
        other.start + one.offset for one in bundles_of(other.items)
    ]


MARKED_PLACES = "[...document.querySelectorAll('.code tr.bundle.marked th')].map(place => Number(place.textContent))"
MARKED_PARTS = "[...document.querySelectorAll('.time tr.marked a')].map(a => a.textContent)"


def test_a_click_on_a_loop_marks_its_code(opened: Any, program: str) -> None:
    job = ROOT / "examples/c/filter.toml"
    found = opened(job)
    loop = line_numbers(job, "for (i", "    }")
    of_loop, of_step = places_of(job, program)
    found.click(".time tr.loop a")
    assert (found.value(MARKED_LINES), found.value(MARKED_PLACES)) == (loop, of_loop)
    found.click(".source tr[data-line='%d'] th" % line_numbers(job, "int step", "}")[0])
    assert (found.value(MARKED_PARTS), found.value(MARKED_PLACES)) == ([], of_step)
    found.click(f".source tr[data-line='{loop[2]}'] pre")
    assert (found.value(MARKED_PARTS), found.value(MARKED_PLACES)) == (["for"], of_loop)
    found.click(".code tr.bundle")
    assert found.value(MARKED_PARTS) == ["main()"]
    # a bundle of the loop marks the loop
    found.value("document.querySelectorAll('.code tr.bundle.marked')[25].scrollIntoView()")
    found.click(".code tr.bundle[data-part='core-0-part-1 core-0-part-0']")
    assert (found.value(MARKED_LINES), found.value(MARKED_PARTS)) == (loop, ["for"])
    assert found.complaints() == []


def test_code_by_keys_alone(opened: Any, program: str) -> None:
    job = ROOT / "examples/c/filter.toml"
    found = opened(job)
    of_loop, of_step = places_of(job, program)
    names = "document.activeElement.closest('.pane')?.getAttribute('aria-label')"
    found.value("document.querySelector('.source a').focus()")
    for wanted in ("Functions and loops", "Code"):
        found.key("Tab")
        assert found.value(names) == wanted
    found.key("ArrowDown")
    found.key("Enter")
    assert (found.value(MARKED_PARTS), found.value(MARKED_PLACES)) == (["for"], of_loop)
    assert found.value(MARKED_LINES) == line_numbers(job, "for (i", "    }")
    found.key("ArrowDown")
    found.key("Enter")
    assert found.value(MARKED_PLACES) == of_step
    assert found.value(MARKED_LINES) == line_numbers(job, "int step", "}")
    assert found.complaints() == []


def test_a_click_on_a_statement_marks_its_words(opened: Any) -> None:
    found = opened(ROOT / "examples/one_core.toml")
    found.click(".code tr:nth-child(3) a")
    assert found.value("document.querySelector('.source a.marked').textContent") == "ret"
    found.click(".source a")
    assert found.value("document.querySelector('.code tr.marked pre').textContent") == ".func main"


def covering(accesses: list[Access], slot: int, cycle: int) -> Access | None:
    return next((one for one in accesses if one.cycle <= cycle < one.cycle + slot), None)


def test_the_mouse_reads_off_what_the_report_lists(opened: Any, program: str) -> None:
    job = ROOT / "examples/stack.toml"
    found = opened(job)
    core = read_report(run_program(program, "run", job.read_bytes()).text).cores[0]
    read_off = 0
    for x in range(150, 1200, 75):
        found.mouse("mouseMoved", found.point("#timeline", x, 30))
        text, cycle = found.value(READING), int(found.value("document.getElementById('timeline').dataset.cycle"))
        assert text.startswith(f"cycle {cycle} · core 0 · ")
        access = covering(core.accesses, 6, cycle)
        if access is not None:
            assert f"{access.kind}s {access.words} word" in text
            assert f"({access.cycle} to {access.cycle + 5})" in text
            read_off += 1
        elif cycle < (core.cycles or 0):
            assert "bundles" in text or "waits for its slot" in text
    assert read_off > 5


def view_of(found: Browser) -> list[float]:
    """The first and the last cycle that the timeline shows."""
    numbers = found.value("(data => [Number(data.from), Number(data.to)])(document.getElementById('timeline').dataset)")
    assert isinstance(numbers, list)
    return numbers


def test_wheel_and_buttons_zoom(opened: Any) -> None:
    found = opened(ROOT / "examples/c/filter.toml")
    whole = view_of(found)
    at = found.point("#timeline")
    found.mouse("mouseWheel", at, deltaX=0, deltaY=-120)
    found.value("new Promise(done => setTimeout(done, 200))")
    zoomed = view_of(found)
    assert zoomed[1] - zoomed[0] == pytest.approx(0.8 * (whole[1] - whole[0]))
    found.click("[data-zoom=in]")
    assert view_of(found)[1] - view_of(found)[0] == pytest.approx(0.4 * (whole[1] - whole[0]))
    found.click("[data-zoom=whole]")
    assert view_of(found) == whole


def test_keys_alone(opened: Any) -> None:
    found = opened(ROOT / "examples/two_cores.toml")
    found.value("document.getElementById('timeline').focus()")
    found.key("ArrowRight")
    assert found.value(READING).startswith("cycle 0 · core 0 · not started: it starts at 12")
    found.key("ArrowDown")
    assert "core 1 · waits for its slot at 6, to read 4 words of code" in found.value(READING)
    found.key("ArrowRight", shift=True)
    assert "core 1 · reads 4 words of code (6 to 11)" in found.value(READING)
    for _ in range(2):
        found.key("ArrowLeft")
    assert found.value(READING).startswith("cycle 4 · core 1 · waits")
    whole = view_of(found)
    found.key("+")
    assert view_of(found)[1] - view_of(found)[0] < whole[1] - whole[0]
    found.key("0")
    assert view_of(found) == whole
    found.key("Enter")
    assert found.value("document.querySelector('#core-1 .code tr.marked pre').textContent") == ".func main"
    found.value("document.querySelector('#core-1 .code a').focus()")
    found.key("ArrowDown")
    found.key("Enter")
    marked = found.value("[...document.querySelectorAll('#core-1 .code tr.marked pre')].map(e => e.textContent)")
    assert marked == ["addl r2 = r0, 0x01000000"]
    assert found.complaints() == []


def test_packets_are_read_off(opened: Any) -> None:
    """docs/LESSONS.md, lesson 7: the packets go at 69 and 96, and come at 78 and 105."""
    found = opened(ROOT / "examples/lessons/windows.toml")
    found.value("document.getElementById('timeline').focus()")
    for _ in range(70):
        found.key("ArrowRight")
    assert found.value(READING).startswith("cycle 69 · core 0 · ")
    assert "sends a packet at 69 to word 7 of core 2, which comes at 78" in found.value(READING)
    found.key("ArrowDown")
    found.key("ArrowDown")
    for _ in range(36):
        found.key("ArrowRight")
    assert "a packet from core 1 comes at 105 to word 7" in found.value(READING)


def test_light_dark_and_print(opened: Any) -> None:
    found = opened(ROOT / "examples/one_core.toml")
    paper = "getComputedStyle(document.querySelector('.card')).backgroundColor"
    found.scheme("dark")
    dark = found.value(paper)
    found.scheme("light")
    assert found.value(paper) == "rgb(255, 255, 255)" != dark
    found.call("Emulation.setEmulatedMedia", media="print")
    assert found.value("getComputedStyle(document.querySelector('.pane')).maxHeight") == "none"
    found.call("Emulation.setEmulatedMedia", media="")
    assert found.complaints() == []


def test_a_refusal_is_at_its_line(opened: Any) -> None:
    job = ROOT / "tools/examples/wrong.toml"
    found = opened(job)
    before = found.value("Number(document.querySelector('.source tr.finding').previousSibling.dataset.line)")
    assert "i++" in job.read_text(encoding="utf-8").splitlines()[before - 1]
    assert re.search(r"i = i \+ 1", found.value("document.querySelector('.source .finding').textContent"))
    assert found.complaints() == []
