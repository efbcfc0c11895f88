"""The source of a task line by line, with its heat, its links to the code, and what is to be explained at its place."""

from __future__ import annotations

from bisect import bisect_right
from collections import defaultdict
from dataclasses import dataclass
from functools import cached_property

from ..explaining import Finding
from ..job import Job, Task
from .findings_part import finding_note
from .markup import element, heat_bar, text


def part_key(core: int, part: int) -> str:
    """The key of a part of a core's task: a row of its code, or one of its functions and loops."""
    return f"core-{core}-part-{part}"


@dataclass(frozen=True)
class Link:
    """A piece of the source that leads to a part of the code: its bytes, and the part's key."""

    at: int
    end: int
    part: str


@dataclass(frozen=True)
class LineTime:
    """What a line shows: its cycles, a share of them as a bar, and the parts that it belongs to, innermost first."""

    cycles: int | None = None
    parts: tuple[str, ...] = ()
    tint: float = 0.0


@dataclass(frozen=True)
class SourceView:
    """A task's source with what is shown beside it, by the numbers of its lines from 0."""

    job: Job
    task: Task
    taken: int
    links: list[Link]
    lines: dict[int, LineTime]
    findings: list[Finding]

    @cached_property
    def begins(self) -> list[int]:
        """The first byte of each line."""
        source = self.task.source
        return [0, *(at + 1 for at, byte in enumerate(source) if byte == 0x0A and at + 1 < len(source))]

    @cached_property
    def links_by_line(self) -> dict[int, list[Link]]:
        """The links of each line, in their order."""
        found: dict[int, list[Link]] = defaultdict(list)
        for link in sorted(self.links, key=lambda one: one.at):
            found[self.line_of(link.at)].append(link)
        return found

    def line_of(self, at: int) -> int:
        """The line of a byte."""
        return bisect_right(self.begins, at) - 1


def shown_number(view: SourceView, begin: int, line: int) -> int:
    """The number of a line in the job's file, or in the source where that is not known."""
    place = view.job.source_place(view.task, begin)
    return line + 1 if place is None else place.line


def linked(view: SourceView, line: int, begin: int, end: int) -> str:
    """The text of a line with its links."""
    source = view.task.source
    made, at = "", begin
    for link in view.links_by_line.get(line, []):
        words = source[link.at : min(link.end, end)].decode("utf-8", "replace")
        made += text(source[at : link.at].decode("utf-8", "replace"))
        made += element("a", text(words), href=f"#{link.part}", data_part=link.part)
        at = min(link.end, end)
    return made + text(source[at:end].decode("utf-8", "replace"))


def source_row(view: SourceView, line: int, begin: int, end: int) -> str:
    """A line of the source, and below it what is explained there."""
    time = view.lines.get(line, LineTime())
    shown = shown_number(view, begin, line)
    body = linked(view, line, begin, end) or "&#8203;"
    cells = element("th", str(shown), scope="row") + element("td", heat_bar(time.cycles, view.taken), class_="n")
    cells += element("td", element("pre", body), style=f"--tint:{time.tint:.3f}" if time.tint else None)
    row = element("tr", cells, data_part=" ".join(time.parts) or None, data_line=shown)
    here = [one for one in view.findings if one.place is not None and one.place.line == shown]
    return row + "".join(
        element("tr", element("td", finding_note(one), colspan=3), class_="finding") for one in here
    )


def source_pane(view: SourceView) -> str:
    """The source as a table in a pane of its own."""
    source, begins = view.task.source, view.begins
    rows = ""
    for line, begin in enumerate(begins):
        end = begins[line + 1] if line + 1 < len(begins) else len(source)
        rows += source_row(view, line, begin, begin + len(source[begin:end].rstrip(b"\r\n")))
    head = element("tr", element("th", "line", scope="col"), element("th", "cycles", scope="col", class_="n"),
                   element("th", "source", scope="col"))  # fmt: skip
    table = element("table", element("thead", head), element("tbody", rows), class_="source")
    return element("div", table, class_="pane", role="region", aria_label="Source", tabindex=-1)
