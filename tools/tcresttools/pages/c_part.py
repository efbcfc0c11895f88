"""A C task: its source beside its functions, loops and divisions with what each takes, and its code; all linked."""

from __future__ import annotations

from collections import defaultdict

from ..c_text import NoTokens, tokens_of
from ..code_listing import BundleRow, CodeListing, PartHead
from ..explaining import Finding
from ..extents import extent_of
from ..job import Job, Task
from ..task_time import Row, TaskTime
from .markup import element, heat_bar, number, share, text
from .source_part import LineTime, Link, SourceView, part_key, source_pane
from .times import CoreTime

HEAD = {
    "line": "the line of the job's file",
    "part": "a function, or a loop or division in it",
    "cycles": "bundles, and what fetches and memory take besides",
    "share": "its share of the task's cycles",
    "bundles": "the bundles that are done",
    "fetch": "cycles in which code is fetched, or waits to be",
    "memory": "cycles in which data moves, or waits to",
    "iterations": "of a loop its iterations, of a function its calls",
}
CODE_HEAD = ["place", "offset", "words", "code"]
CODE_NUMBERS = {"place", "offset"}


class PartLines:
    """The parts of a task's code by the lines of the source that they are in, with what they take.

    A loop of a function that is inlined is in the code several times, so several parts are in the same bytes.
    """

    def __init__(self, listing: CodeListing, time: TaskTime) -> None:
        self.core = time.task.core
        self.taken = max(time.replayed.taken, 1)
        self.costs = {row.number: row.cost for row in time.rows}
        self.extents: dict[tuple[int, int], list[int]] = defaultdict(list)
        tokens = tokens_of(time.task.source)
        self.ends = {token.at: token.end for token in tokens}
        loops = {part for part, code in enumerate(time.attribution.parts) if code.is_loop}
        for part, named in enumerate(listing.named):
            if named.at is not None:
                extent = extent_of(tokens, named.at, part in loops)
                self.extents[extent.at, extent.end].append(part)
        for parts in self.extents.values():
            parts.sort(key=lambda part: -self.own(part))

    def own(self, part: int) -> int:
        return self.costs[part].own if part in self.costs else 0

    def cycles(self, part: int) -> int:
        return self.costs[part].cycles if part in self.costs else 0

    def links(self) -> list[Link]:
        """A link at the first word of each function, loop and division."""
        return [Link(at, self.ends[at], part_key(self.core, parts[0])) for (at, _), parts in self.extents.items()]

    def line(self, view: SourceView, line: int) -> LineTime:
        """What a line shows: the cycles of the parts that begin in it, and its parts, the innermost first."""
        lines = {
            (at, end): parts
            for (at, end), parts in self.extents.items()
            if view.line_of(at) <= line <= view.line_of(end - 1)
        }
        around = [lines[extent] for extent in sorted(lines, key=lambda extent: (extent[1] - extent[0], extent[0]))]
        begins = [
            sum(self.cycles(part) for part in parts) for (at, _), parts in lines.items() if view.line_of(at) == line
        ]
        own = sum(self.own(part) for part in around[0]) if around else 0
        keys = tuple(part_key(self.core, part) for parts in around for part in parts)
        return LineTime(max(begins, default=None), keys, own / self.taken)


def view_of(job: Job, task: Task, time: TaskTime | None, findings: list[Finding]) -> SourceView:
    """The source with the cycles of each part at its first line, and its lines tinted by those of the innermost one."""
    if time is None:
        return SourceView(job, task, 0, [], {}, findings)
    parts = PartLines(CodeListing(job, task, time.code), time)
    view = SourceView(job, task, time.replayed.taken, parts.links(), {}, findings)
    for line in range(len(view.begins)):
        view.lines[line] = parts.line(view, line)
    return view


def time_row(core: int, row: Row, time: TaskTime) -> str:
    """A function, a loop or a division with what it takes."""
    part, cost, taken = part_key(core, row.number), row.cost, time.replayed.taken
    name = element("a", text(row.named.shown), href=f"#{part}", data_part=part)
    depth = row.named.depth + row.part.is_loop
    cells = [
        element("th", "" if row.place is None else str(row.place.line), class_="n", scope="row"),
        element("td", name, style=f"--depth:{depth}", class_="name"),
        element("td", heat_bar(cost.cycles, taken), class_="n", data_of="cycles"),
        element("td", share(cost.cycles, taken), class_="n"),
        element("td", number(cost.bundles), class_="n", data_of="bundles"),
        element("td", number(cost.fetch), class_="n", data_of="fetch"),
        element("td", number(cost.memory), class_="n", data_of="memory"),
        element("td", number(row.part.iterations), class_="n", data_of="iterations"),
    ]
    return element("tr", *cells, id=part, class_="loop" if row.part.is_loop else "function", data_part=part)


def total_row(time: TaskTime) -> str:
    """The sums of all functions, which are the cycles of the report."""
    total, taken = time.total, time.replayed.taken
    values = [number(total.cycles), share(total.cycles, taken), number(total.bundles), number(total.fetch)]
    cells = "".join(element("td", value, class_="n") for value in [*values, number(total.memory), ""])
    return element("tr", element("th", ""), element("td", "all", class_="name"), cells, class_="total")


def time_pane(task: Task, time: TaskTime) -> str:
    """The parts as a table in a pane of its own."""
    body = "".join(time_row(task.core, row, time) for row in time.rows)
    head = "".join(
        element("th", words, class_="n" if words != "part" else None, scope="col", title=meaning)
        for words, meaning in HEAD.items()
    )
    table = element(
        "table",
        element("thead", element("tr", head)),
        element("tbody", body),
        element("tfoot", total_row(time)),
        class_="time",
    )
    return element("div", table, class_="pane", role="region", aria_label="Functions and loops", tabindex=-1)


class CodePane:
    """The code of a task as a table: each function and loop begins with a link, and each bundle is in its parts."""

    def __init__(self, listing: CodeListing, time: TaskTime) -> None:
        self.listing = listing
        self.core = time.task.core
        self.parts = time.attribution.parts
        self.run = {row.number for row in time.rows}

    def around(self, part: int) -> list[str]:
        """The keys of a part and of those around it, the innermost first."""
        outer = self.parts[part].around
        return [part_key(self.core, part), *([] if outer is None else self.around(outer))]

    def head_row(self, head: PartHead) -> str:
        """A function or a loop begins. A part that is never run has no other row, so its key names this one."""
        keys = self.around(head.part)
        link = element("a", text(head.text), href=f"#{keys[0]}", data_part=keys[0])
        cells = element("th", "", scope="row") + element("td", "") + element("td", "")
        cells += element("td", element("pre", link), style=f"--depth:{head.depth}", class_="name")
        name = None if head.part in self.run else keys[0]
        kind = "label" if self.parts[head.part].is_loop else "function"
        return element("tr", cells, id=name, class_=kind, data_part=" ".join(keys))

    def bundle_row(self, row: BundleRow) -> str:
        words = " ".join(f"{word:08x}" for word in row.bundle.words)
        cells = [
            element("th", str(row.place), class_="n", scope="row"),
            element("td", str(row.bundle.offset), class_="n"),
            element("td", words, class_="words"),
            element("td", element("pre", text(row.bundle.text)), style=f"--depth:{row.depth}", class_="name"),
        ]
        return element("tr", *cells, class_="bundle", data_part=" ".join(self.around(row.part)))

    def pane(self) -> str:
        rows = ""
        for row in self.listing.rows():
            if isinstance(row, PartHead):
                rows += self.head_row(row)
            elif isinstance(row, BundleRow):
                rows += self.bundle_row(row)
        head = "".join(
            element("th", words, class_="n" if words in CODE_NUMBERS else None, scope="col") for words in CODE_HEAD
        )
        table = element("table", element("thead", element("tr", head)), element("tbody", rows), class_="code")
        return element("div", table, class_="pane", role="region", aria_label="Code", tabindex=-1)


def c_part(job: Job, task: Task, time: CoreTime | None, findings: list[Finding]) -> str:
    """Source on one side, parts and code on the other; the source alone where its time is not known."""
    found = None if time is None else time.c_time
    try:
        source = source_pane(view_of(job, task, found, findings))
    except NoTokens:
        source = source_pane(view_of(job, task, None, findings))
    if found is None:
        return element("div", source, class_="panes single")
    code = CodePane(CodeListing(job, task, found.code), found).pane()
    return element("div", source, element("div", time_pane(task, found), code, class_="beside"), class_="panes")
