"""The parts of a page: what they hold, and that what a page says of time is what the program reports."""

from __future__ import annotations

import json
import re
from html import unescape
from html.parser import HTMLParser
from pathlib import Path

import pytest
from conftest import ROOT, Tool

from tcresttools.c_text import tokens_of
from tcresttools.cli import BadInput
from tcresttools.code_text import bundles_of, codes_of
from tcresttools.extents import behind_bracket
from tcresttools.job import MOST_TRACE, job_of, toml_values
from tcresttools.lives import Span, merged
from tcresttools.pages.cores_part import cores_part
from tcresttools.pages.document import page
from tcresttools.pages.facts import facts_of
from tcresttools.pages.findings_part import marked_code
from tcresttools.pages.markup import element, heat_bar, number, share, text
from tcresttools.pages.times import CoreTime, TimeReader
from tcresttools.pages.timeline_part import KINDS, core_names
from tcresttools.program import run_program
from tcresttools.report import Report, read_report
from tcresttools.sent import sent_packets

REPLAYED = [
    "examples/one_core.toml",
    "examples/two_cores.toml",
    "examples/method_cache.toml",
    "examples/data_cache.toml",
    "examples/packet.toml",
    "examples/stack_fill.toml",
    "examples/c/filter.toml",
    "examples/c/table_skewed.toml",
    "examples/c/network.toml",
]


def test_elements_are_escaped() -> None:
    made = element("td", text("a < b & c"), class_="n", data_part='"x"', title=None)
    assert made == '<td class="n" data-part="&quot;x&quot;">a &lt; b &amp; c</td>'
    assert element("rect", x=1, y=2) == '<rect x="1" y="2"/>'


def test_numbers_and_shares() -> None:
    assert (number(1234567), number(0), number(None)) == ("1,234,567", "0", "")
    assert (share(1, 8), share(1, 0)) == ("12.5%", "")
    assert heat_bar(1, 4) == '<span class="heat" style="--heat-share:0.250">1</span>'
    assert (heat_bar(0, 4), heat_bar(None, 4)) == ("", "")


def test_code_in_a_text() -> None:
    assert marked_code("write `i < 1`.") == "write <code>i &lt; 1</code>."


def test_names_of_cores() -> None:
    found = [core_names(numbers) for numbers in ([2], [0, 1], [0, 1, 3])]
    assert found == ["Core 2", "Cores 0 and 1", "Cores 0, 1 and 3"]


def test_spans_of_bundles_and_transactions() -> None:
    """A transaction that begins in its bundle's own cycle is drawn over it; between two there are waits."""
    found = merged(3, [12, 13, 18], [Span(6, 12, "read", 4, "code"), Span(18, 24, "write", 1, "data")])
    assert found == [
        Span(3, 6, "wait"),
        Span(6, 12, "read", 4, "code"),
        Span(12, 14, "run"),
        Span(14, 18, "wait"),
        Span(18, 24, "write", 1, "data"),
    ]


def test_extents_of_blocks() -> None:
    tokens = tokens_of(b"int main() { while (a[(1)]) { x = (2); } return 0; }")
    words = [token.text for token in tokens]
    loop = words.index("while")
    block = behind_bracket(tokens, loop + 1)
    assert words[block] == "{"
    assert words[behind_bracket(tokens, block) - 2 : behind_bracket(tokens, block) + 1] == [";", "}", "return"]


def times_of(path: str, program: str) -> tuple[Report, list[CoreTime]]:
    """The report of a job, and the times of its cores."""
    facts = facts_of(str(ROOT / path), program, MOST_TRACE)
    assert facts.job is not None and facts.report is not None
    return facts.report, TimeReader(facts, facts.job, facts.report).times()


@pytest.mark.parametrize("path", REPLAYED)
def test_what_is_replayed_is_what_is_reported(program: str, path: str) -> None:
    """The spans have the report's transactions and follow one another up to the end; the parts share out the cycles."""
    report, times = times_of(path, program)
    for core, time in zip(report.cores, times, strict=True):
        if core.ended == "idle":
            continue
        assert time.unsure == "" and time.life is not None and time.task is not None
        spans = time.life.spans
        moves = [(span.start, span.kind, span.words) for span in spans if span.words]
        assert moves == [(access.cycle, access.kind, access.words) for access in core.accesses]
        assert all(one.end == other.start for one, other in zip(spans, spans[1:], strict=False))
        assert (spans[0].start, spans[-1].end) == (time.task.start, time.task.start + (core.cycles or 0))
        assert time.taken == core.cycles
        if time.c_time is not None:
            functions = [row.cost.cycles for row in time.c_time.rows if not row.part.is_loop]
            assert sum(functions) == core.cycles


def test_the_times_of_a_page_that_shows_them(program: str) -> None:
    """docs/MACHINE.md, "Times, on examples": core 1 of two_cores does its bundles in these cycles."""
    _, times = times_of("examples/two_cores.toml", program)
    life = times[1].life
    assert life is not None
    shown = [(span.start, span.kind, span.why) for span in life.spans if span.kind != "wait"]
    assert shown == [
        (6, "read", "code"), (18, "read", "code"), (30, "read", "code"), (36, "run", ""), (42, "read", "data"),
        (48, "run", ""), (54, "read", "data"), (60, "run", ""),
    ]  # fmt: skip


def test_a_run_that_other_cores_may_change_is_not_replayed(program: str, tmp_path: Path) -> None:
    job = tmp_path / "poll.toml"
    polls = ".func main; addl r2 = r0, 0x01000000; top: lwm r1 = [r2]; nop; cmpieq p1 = r1, 0; (p1) br top; nop; nop"
    stores = ".func main; addl r2 = r0, 0x01000000; addi r3 = r0, 5; swm [r2] = r3"
    tasks = "".join(
        f'[[task]]\ncore = {core}\nlang = "asm"\nsource = "{text}; ret; nop; nop; nop"\n'
        for core, text in ((0, polls), (1, stores))
    )
    job.write_text(f"version = 1\ncores = 2\nslot = 6\ncycles = 5000\n{tasks}")
    facts = facts_of(str(job), program, MOST_TRACE)
    assert facts.job is not None and facts.report is not None
    times = TimeReader(facts, facts.job, facts.report).times()
    assert "may depend on words that other cores set" in times[0].unsure and times[1].unsure == ""
    assert {span.kind for span in (times[0].life.spans if times[0].life else [])} >= {"maybe", "read"}
    assert times[0].life is not None
    starts = {span.start for span in times[0].life.spans}
    assert starts >= {access.cycle for access in times[0].core.accesses}


def test_packets_of_c_and_their_end_to_end_times(program: str) -> None:
    facts, times = times_of("examples/c/network.toml", program)
    assert [time.unsent for time in times] == ["", "", ""]
    assert [[(one.target, one.target_word, one.words) for one in time.packets] for time in times] == [
        [(2, 0, 1)], [(2, 1, 1)], [],
    ]  # fmt: skip
    told = cores_part(times, {})
    for time in times[:2]:
        due = time.packets[0].due
        words = f"Core {time.core.number} to core 2: {due:,} cycles from end to end, from the start of core"
        assert words in told and f"the arrival of its last word at {due:,}." in told


def test_packets_of_c_that_are_not_known_say_why(program: str) -> None:
    """Core 1 sends back where a word came, so nothing but the report of the job itself would tell."""
    sends = "int main() { send(1, 0, 0, 1); return 0; }"
    answers = "int main() { if (comm[0] == 0) { send(0, 0, 0, 1); } return 0; }"
    tasks = "".join(
        f'[[task]]\ncore = {core}\nlang = "c"\nsource = "{source}"\n' for core, source in ((0, sends), (1, answers))
    )
    text = f"version = 1\ncores = 2\nslot = 6\ncycles = 5000\n{tasks}"
    job = job_of("job.toml", text.encode(), toml_values(text.encode()))
    sent = sent_packets(job, read_report(run_program(program, "run", job.data).text), program)
    assert [(one.sender, one.target) for one in sent.packets] == [(0, 1)]
    assert sent.unknown == {1: "what it sends may depend on words that other cores set"}


def test_a_trap_is_timed_up_to_its_bundle(program: str) -> None:
    """The task of examples/trap.toml fetches its words in the slot at 0, does one bundle at 6, and is stopped at 7."""
    _, times = times_of("examples/trap.toml", program)
    assert times[0].life is not None
    assert times[0].life.spans == [Span(0, 6, "read", 4, "code"), Span(6, 7, "run")]


def page_of(path: Path, program: str) -> str:
    return page(facts_of(str(path), program, MOST_TRACE))


def data_of(made: str) -> dict[str, object]:
    found = re.search(r'id="timeline-data">([^<]*)</script>', made)
    assert found is not None
    data = json.loads(found.group(1))
    assert isinstance(data, dict)
    return data


def test_a_page_needs_no_other_file(program: str) -> None:
    made = page_of(ROOT / "examples/c/filter.toml", program)
    assert not re.search(r"<link|\bsrc=|@import|url\(|https?://|fetch\(|import\(", made)
    assert made.count("<script") == 5 and made.startswith("<!doctype html>")
    assert data_of(made)["kinds"] == KINDS


def test_the_code_of_c_is_whole(program: str) -> None:
    """Each bundle that `tccode` writes is in the page, with its words, in the parts that the code has it in."""
    job = ROOT / "examples/port/route.toml"
    made = page_of(job, program)
    (code,) = codes_of(program, job.read_bytes(), str(job)).values()
    rows = re.findall(r'<tr class="bundle" data-part="([^"]*)">(.*?)</tr>', made)
    shown = [unescape(re.sub("<[^>]*>", " ", row)).split() for _, row in rows]
    wanted = [
        f"{one.start + bundle.offset} {bundle.offset} {' '.join(f'{word:08x}' for word in bundle.words)} {bundle.text}"
        for one in code.functions
        for bundle in bundles_of(one.items)
    ]
    assert shown == [line.split() for line in wanted]
    # the innermost loop of `main`: two loops and the function are around it
    deepest = [parts.split() for parts, _ in rows if len(parts.split()) == 4]
    assert {parts[-1] for parts in deepest} == {"core-0-part-0"} and len({tuple(parts) for parts in deepest}) == 1


def test_a_loop_that_is_inlined_is_in_the_text_of_its_own_function(program: str) -> None:
    job = ROOT / "examples/port/route.toml"
    made = page_of(job, program)
    line = next(at for at, words in enumerate(job.read_text().splitlines(), 1) if "while (entries[last" in words)
    row = re.search(rf'<tr data-part="([^"]*)" data-line="{line}">(.*?)</tr>', made)
    link = r'<a href="#([^"]*)" data-part="[^"]*">([^<]*)</a></td><td class="n" data-of="cycles"'
    names = dict(re.findall(link, made))
    assert row is not None
    assert [names[part] for part in row.group(1).split()] == ["while, append() inlined", "while", "append()"]
    # the line shows the cycles of both loops, the one that is inlined and the function's own
    cycles = re.findall(r'>(while[^<]*)</a></td><td class="n" data-of="cycles"><span[^>]*>([0-9,]+)<', made)
    both = [int(number.replace(",", "")) for _, number in cycles[1:]]
    assert [name for name, _ in cycles] == ["while", "while, append() inlined", "while"]
    assert f">{sum(both):,}</span>" in row.group(2)
    assert "append() is inlined in main(), where line" in made


def test_each_link_has_its_goal(program: str) -> None:
    for path in ("examples/two_cores.toml", "examples/c/filter.toml", "examples/trap.toml", "examples/port/route.toml"):
        made = page_of(ROOT / path, program)
        goals = set(re.findall(r' id="([^"]+)"', made))
        assert set(re.findall(r'href="#([^"]+)"', made)) <= goals
        parts = {part for found in re.findall(r'data-part="([^"]+)"', made) for part in found.split()}
        assert parts <= goals


class Opened(HTMLParser):
    """The elements that are open at the end of a page, and those that are closed by another name."""

    def __init__(self) -> None:
        super().__init__()
        self.open: list[str] = []
        self.wrong: list[str] = []

    def handle_starttag(self, tag: str, attrs: list[tuple[str, str | None]]) -> None:
        if tag not in ("meta", "br"):
            self.open.append(tag)

    def handle_startendtag(self, tag: str, attrs: list[tuple[str, str | None]]) -> None:
        """`<rect/>` opens nothing."""

    def handle_endtag(self, tag: str) -> None:
        if not self.open or self.open.pop() != tag:
            self.wrong.append(tag)


def test_each_element_is_closed(program: str) -> None:
    for path in ("examples/packet.toml", "examples/c/machine.toml", "examples/trap.toml", "tools/examples/wrong.toml"):
        reader = Opened()
        reader.feed(page_of(ROOT / path, program))
        assert (reader.open, reader.wrong) == ([], [])


def test_a_source_can_not_break_the_page(program: str, tmp_path: Path) -> None:
    source = "# </script><b onclick=x>&amp;\n.func main\nret\nnop\nnop\nnop\n"
    job = tmp_path / "odd <name>.toml"
    job.write_text(
        "version = 1\ncores = 1\nslot = 6\ncycles = 99\n[[task]]\ncore = 0\n"
        f"lang = \"asm\"\nsource = '''\n{source}'''\n"
    )
    made = page_of(job, program)
    assert "<b onclick" not in made and "&lt;/script&gt;&lt;b onclick=x&gt;&amp;amp;" in made
    assert "<title>odd &lt;name&gt;.toml</title>" in made


def test_what_is_refused_is_explained_at_its_line(program: str, tmp_path: Path) -> None:
    made = page_of(ROOT / "tools/examples/wrong.toml", program)
    assert 'id="timeline"' not in made
    row = re.search(r'data-line="(\d+)">(?:(?!<tr).)*</tr><tr class="finding">(.*?)</tr>', made)
    assert row is not None
    lines = (ROOT / "tools/examples/wrong.toml").read_text(encoding="utf-8").splitlines()
    assert "i++" in lines[int(row.group(1)) - 1]
    assert "i = i + 1" in unescape(re.sub("<[^>]*>", "", row.group(2)))
    broken = tmp_path / "broken.toml"
    broken.write_text("version = \n")
    assert "job: Toml" in page_of(broken, program)


def test_a_page_of_standard_input_is_refused(tool: Tool) -> None:
    done = tool("page", "-", "-o", "-")
    assert (done.returncode, done.stdout) == (2, "")
    assert "a page is made of a file" in done.stderr


def test_the_tool_writes_the_page(tool: Tool, program: str, tmp_path: Path) -> None:
    out = tmp_path / "out.html"
    done = tool("page", "examples/one_core.toml", "-o", str(out))
    assert (done.returncode, done.stdout, done.stderr) == (0, "", "")
    assert out.read_text(encoding="utf-8").startswith("<!doctype html>")
    with pytest.raises(BadInput, match="no such file|No such file"):
        facts_of(str(tmp_path / "none.toml"), program, MOST_TRACE)


def test_the_report_is_read_whole(program: str) -> None:
    """Each line of the report on what became of a core is in the table: its value, cycles, bound and remarks."""
    job = ROOT / "examples/c/machine.toml"
    made = page_of(job, program)
    report = read_report(run_program(program, "run", job.read_bytes()).text)
    rows = re.findall(r'<tr data-core="(\d+)">(.*?)</tr>', made)
    assert len(rows) == len(report.cores)
    for core, (shown, row) in zip(report.cores, rows, strict=True):
        words = re.sub("<[^>]*>", " ", row).replace(",", "")
        assert int(shown) == core.number
        assert all(f" {value} " in words for value in (core.value, core.cycles, core.bound))
        assert ("alone" in words, "overrun" in words) == (core.alone, core.overrun)
        assert [int(at) for at in re.findall(r'data-out="(\d+)"', row)] == list(range(len(core.out)))


def endless(program: str, tmp_path: Path, trace: int) -> tuple[str, Path]:
    """The page of a task that goes round for ever, with so many bundles listed."""
    job = tmp_path / "endless.toml"
    source = ".func main\\ntop: br top\\nlwm r1 = [r0 + 4]\\nnop\\n"
    job.write_text(
        f'version = 1\ncores = 1\nslot = 6\ncycles = 5000\n[[task]]\ncore = 0\nlang = "asm"\nsource = "{source}"\n'
    )
    return page(facts_of(str(job), program, trace)), job


def test_a_run_that_is_listed_in_part_says_so(program: str, tmp_path: Path) -> None:
    made, _ = endless(program, tmp_path, 30)
    assert "only its first 30 bundles are listed, up to cycle" in made
    data = data_of(made)
    assert isinstance(data["cores"], list)
    spans = data["cores"][0]["spans"]
    assert spans[-2] == KINDS.index("unknown")
    whole, _ = endless(program, tmp_path, MOST_TRACE)
    assert "bundles are listed" not in whole and "not ended by the limit" in whole


def test_what_is_at_no_line_is_above_the_source(program: str) -> None:
    made = page_of(ROOT / "examples/c/machine.toml", program)
    section = made.partition('id="core-2"')[2].partition("<section")[0]
    assert re.search(r'class="note" role="note"><strong>core 2 done [^<]* overrun</strong>', section)
    assert "overrun</strong>" not in made.partition('id="core-0"')[2].partition("<section")[0]


def test_a_job_without_tasks_has_a_page(program: str, tmp_path: Path) -> None:
    job = tmp_path / "none.toml"
    job.write_text("version = 1\ncores = 2\nslot = 6\ncycles = 100\n")
    made = page_of(job, program)
    assert made.count("no task") == 4 and 'id="timeline"' in made
