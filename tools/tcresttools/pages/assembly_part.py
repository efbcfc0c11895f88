"""An assembly task: its source beside its code, each statement linked with its words, both with their cycles."""

from __future__ import annotations

from ..assembly import Code, Row
from ..explaining import Finding
from ..job import Job, Task
from ..row_costs import RowCost
from .markup import element, heat_bar, number, text
from .source_part import LineTime, Link, SourceView, part_key, source_pane
from .times import CoreTime

HEAD = ["place", "offset", "words", "cycles", "bundles", "code"]
NUMBERS = {"place", "offset", "cycles", "bundles"}


def view_of(job: Job, task: Task, time: CoreTime | None, findings: list[Finding]) -> SourceView:
    """The source with a link at each statement, and the cycles of each line."""
    if time is None or time.code is None:
        return SourceView(job, task, 0, [], {}, findings)
    rows = time.code.rows
    keys = [part_key(task.core, at) for at in range(len(rows))]
    links = [Link(row.statement.at, row.statement.end, key) for row, key in zip(rows, keys, strict=True)]
    view = SourceView(job, task, time.taken, links, {}, findings)
    cycles: dict[int, int] = {}
    parts: dict[int, list[str]] = {}
    for at, (row, key) in enumerate(zip(rows, keys, strict=True)):
        line = view.line_of(row.statement.at)
        cycles[line] = cycles.get(line, 0) + time.rows.costs.get(at, RowCost()).cycles
        parts.setdefault(line, []).append(key)
    view.lines.update({line: LineTime(cycles[line], tuple(parts[line])) for line in cycles})
    return view


def code_row(part: str, row: Row, cost: RowCost, taken: int) -> str:
    """A row of the code: place, offset, words, what it takes, and its statement."""
    words = " ".join(f"{word:08x}" for word in row.words)
    statement = element("a", text(" ".join(row.statement.text.split())), href=f"#{part}", data_part=part)
    cells = [
        element("th", str(row.place), class_="n", scope="row"),
        element("td", "" if row.offset is None else str(row.offset), class_="n"),
        element("td", words, class_="words"),
        element("td", heat_bar(cost.cycles, taken), class_="n", data_of="cycles"),
        element("td", number(cost.bundles) if cost.bundles else "", class_="n"),
        element("td", element("pre", statement)),
    ]
    return element("tr", *cells, id=part, class_=row.statement.kind, data_part=part)


def code_pane(task: Task, code: Code, time: CoreTime) -> str:
    """The code as a table in a pane of its own."""
    body = "".join(
        code_row(part_key(task.core, at), row, time.rows.costs.get(at, RowCost()), time.taken)
        for at, row in enumerate(code.rows)
    )
    head = "".join(element("th", words, class_="n" if words in NUMBERS else None, scope="col") for words in HEAD)
    table = element("table", element("thead", element("tr", head)), element("tbody", body), class_="code")
    return element("div", table, class_="pane", role="region", aria_label="Code", tabindex=-1)


def assembly_part(job: Job, task: Task, time: CoreTime | None, findings: list[Finding]) -> str:
    """Source and code side by side; the source alone where the job is refused."""
    source = source_pane(view_of(job, task, time, findings))
    if time is None or time.code is None:
        return element("div", source, class_="panes single")
    return element("div", source, code_pane(task, time.code, time), class_="panes")
