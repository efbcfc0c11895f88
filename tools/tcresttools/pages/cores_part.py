"""The table of cores: what was run, beside the bounds."""

from __future__ import annotations

from ..packets import Passage, passages_of
from ..report import Core
from .markup import element, number, text
from .times import CoreTime

TRAPS = {1: "Access", 2: "Align", 3: "Decode", 4: "Flow", 5: "Stack", 6: "Interface"}
LANGUAGES = {"asm": "assembly", "c": "C"}
WIDE, TALL = 240, 18
BOUNDS = ["persistent bound", "bound"]
HEAD = ["core", "task", "ended", "value", "cycles", *BOUNDS, "", ""]
NUMBERS = {"value", "cycles", *BOUNDS}


def task_name(time: CoreTime) -> str:
    return "no task" if time.task is None else LANGUAGES[time.task.lang]


def ended_words(core: Core) -> str:
    """What became of a core's task, in words."""
    if core.ended == "trap":
        return f"trap {core.trap} ({TRAPS[core.trap or 0]}) at {core.at:,}"
    if core.ended == "done":
        return f"done {core.value}"
    return "not ended by the limit" if core.ended == "limit" else core.ended


def bars(cycles: int | None, persist: int | None, bound: int | None, most: int) -> str:
    """The cycles as a bar, and the bounds as lines, to one scale for all cores."""
    if cycles is None or most == 0:
        return ""

    def x(value: int) -> float:
        return round(1 + value * (WIDE - 2) / most, 1)

    parts = [element("rect", class_="cycles", x=1, y=5, width=max(x(cycles) - 1, 1), height=8)]
    if bound is not None:
        parts.insert(0, element("rect", class_="room", x=1, y=5, width=max(x(bound) - 1, 1), height=8))
        parts.append(element("line", class_="bound", x1=x(bound), x2=x(bound), y1=1, y2=17))
    if persist is not None:
        parts.append(element("line", class_="persist", x1=x(persist), x2=x(persist), y1=1, y2=17))
    words = f"{cycles:,} cycles"
    words += "" if bound is None else f", persistent bound {number(persist)}, bound {bound:,}"
    title = element("title", text(words))
    return element("svg", title, *parts, class_="bars", width=WIDE, height=TALL, role="img", aria_label=words)


def remarks(time: CoreTime) -> str:
    """What else the report says of a core."""
    core = time.core
    found = []
    if time.task is not None and time.task.start:
        found.append(f"starts at {time.task.start:,}")
    if core.alone:
        found.append("alone")
    if core.overrun:
        found.append("overrun")
    if core.dropped:
        found.append(f"{core.dropped:,} starts of transfers dropped")
    words = text(", ".join(found))
    return words + (output(core.out) if core.out else "")


def output(words: list[int]) -> str:
    """The words of `out`, folded away."""
    count = f"{len(words)} word{'' if len(words) == 1 else 's'} of out"
    rows = "".join(
        element("li", element("span", str(at)), text(word), data_out=at) for at, word in enumerate(words)
    )
    return element("details", element("summary", count), element("ol", rows, class_="out"))


def core_row(time: CoreTime, bounds: dict[int, tuple[int, int | None]], most: int) -> str:
    core = time.core
    bound, persist = bounds.get(core.number, (None, None))
    bound_cells = [
        element("td", number(persist), class_="n", data_of="persist"),
        element("td", number(bound), class_="n", data_of="bound"),
    ]
    cells = [
        element("th", element("a", str(core.number), href=f"#core-{core.number}") if time.task else str(core.number)),
        element("td", task_name(time)),
        element("td", text("done" if core.ended == "done" else ended_words(core)), data_of="ended"),
        element("td", text("" if core.value is None else core.value), class_="n", data_of="value"),
        element("td", number(core.cycles), class_="n", data_of="cycles"),
        *(bound_cells if bounds else []),
        element("td", bars(core.cycles, persist, bound, most)),
        element("td", remarks(time)),
    ]
    return element("tr", *cells, data_core=core.number)


def legend(bounds: dict[int, tuple[int, int | None]]) -> str:
    """What the bars show, where there are bounds."""
    if not bounds:
        return ""
    shown = (("cycles", "cycles of this run"), ("persist", "persistent bound"), ("bound", "bound"))
    keys = [element("li", element("i", class_=f"key {kind}"), words) for kind, words in shown]
    return element("ul", *keys, class_="legend")


def passage_words(passage: Passage, start: int) -> str:
    """How long it takes from the start of a sender to the coming of its last word."""
    return (
        f"Core {passage.sender} to core {passage.target}: {passage.last - start:,} cycles from end to end, from the"
        f" start of core {passage.sender} at {start:,} to the arrival of its last word at {passage.last:,}."
    )


def passages(times: list[CoreTime]) -> str:
    """The end-to-end times of the cores that send to each other, where packets are known."""
    starts = {time.core.number: time.task.start for time in times if time.task is not None}
    found = passages_of(packet for time in times for packet in time.packets)
    items = [element("li", text(passage_words(one, starts[one.sender]))) for one in found]
    return element("ul", *items, class_="notes") if items else ""


def cores_part(times: list[CoreTime], bounds: dict[int, tuple[int, int | None]]) -> str:
    """The section of the cores. The columns of bounds are there where a task has one."""
    ends = [time.core.cycles or 0 for time in times]
    most = max([*ends, *(bound for bound, _ in bounds.values())], default=0)
    shown = [words for words in HEAD if bounds or words not in BOUNDS]
    head = "".join(
        element("th", text(words), class_="n" if words in NUMBERS else None, scope="col") for words in shown
    )
    rows = "".join(core_row(time, bounds, most) for time in times)
    table = element("table", element("thead", element("tr", head)), element("tbody", rows), class_="cores")
    title = element("div", element("h2", "Cores"), legend(bounds), class_="bar")
    return element("section", title, element("div", table, class_="wide"), passages(times), id="cores", class_="card")
