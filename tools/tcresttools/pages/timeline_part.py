"""The timeline of all cores: what the page's script draws, and the legend and words around it."""

from __future__ import annotations

import json

from ..job import Job
from ..lives import Life, Span
from .cores_part import ended_words, task_name
from .findings_part import marked_code
from .markup import element, text
from .times import CoreTime

KINDS = ["run", "wait", "maybe", "code", "data", "read", "write", "unknown"]
LEGEND = {
    "run": "does bundles",
    "wait": "waits for its slot",
    "maybe": "waits, or does bundles",
    "code": "reads code",
    "data": "reads data",
    "read": "reads code or data",
    "write": "writes",
    "unknown": "not listed",
}
HELP = (
    "Wheel or + and − zoom, dragging moves, 0 shows the whole run. With the keyboard: ← and → move by a cycle, with"
    " Shift to the next change, ↑ and ↓ choose a core, Page Up and Page Down move the view, Enter marks the code."
)


def kind_of(span: Span) -> str:
    """How a span is drawn: a read is one of code or of data, where that is known."""
    return span.why if span.kind == "read" and span.why else span.kind


def flat_spans(life: Life) -> list[int]:
    """The spans as numbers: start, end, kind and words of each."""
    found: list[int] = []
    for span in life.spans:
        found += [span.start, span.end, KINDS.index(kind_of(span)), span.words]
    return found


def core_data(time: CoreTime, life: Life) -> dict[str, object]:
    """What the script is given of a core."""
    core = time.core
    marks = [number for mark in time.marks for number in (mark.cycle, mark.part)]
    return {
        "core": core.number,
        "name": task_name(time),
        "start": life.start,
        "end": life.end,
        "ended": ended_words(core) if life.end is not None else core.ended,
        "spans": flat_spans(life),
        "marks": marks,
    }


def timeline_data(job: Job, times: list[CoreTime], last: int) -> str:
    """All that the script draws, as JSON that can stand in a page."""
    cores = [core_data(time, time.life) for time in times if time.life is not None]
    packets = [
        [one.sender, one.target, one.sent, one.due, one.source_word, one.target_word, one.words]
        for time in times
        for one in time.packets
    ]
    data = {"slot": job.slot, "table": job.table, "last": last, "kinds": KINDS, "cores": cores, "packets": packets}
    return json.dumps(data, separators=(",", ":")).replace("<", "\\u003c")


def legend(times: list[CoreTime]) -> str:
    """What the colours mean that this job's timeline has."""
    found = {kind_of(span) for time in times if time.life is not None for span in time.life.spans}
    shown = [(kind, words) for kind, words in LEGEND.items() if kind in found]
    shown.append(("slot", "own slots"))
    if any(time.packets for time in times):
        shown.append(("packet", "a packet, from its sending to its coming"))
    keys = [element("li", element("i", class_=f"key {kind}"), text(words)) for kind, words in shown]
    return element("ul", *keys, class_="legend")


def notes(times: list[CoreTime]) -> str:
    """What of the timeline is not exact, or not drawn, and why: once for all cores with the same reason."""
    cores: dict[tuple[str, str], list[int]] = {}
    for time in times:
        if time.unsure:
            cores.setdefault((missing_words(time), time.unsure), []).append(time.core.number)
        if time.unsent and time.unsent != time.unsure:
            cores.setdefault(("the packets are not drawn", time.unsent), []).append(time.core.number)
    items = [f"{core_names(numbers)}: {what}, since {why}." for (what, why), numbers in cores.items()]
    items += [f"{core_names([time.core.number])}: {time.listed}." for time in times if time.listed]
    return element("ul", *(element("li", marked_code(words)) for words in items), class_="notes") if items else ""


def missing_words(time: CoreTime) -> str:
    """What is missing of a core whose run is not replayed."""
    both = time.unsent == time.unsure
    return "the waits are not exact, and the packets are not drawn" if both else "the waits are not exact"


def core_names(numbers: list[int]) -> str:
    """`Core 0`, or `Cores 0, 1 and 3`."""
    if len(numbers) == 1:
        return f"Core {numbers[0]}"
    return "Cores " + ", ".join(str(one) for one in numbers[:-1]) + f" and {numbers[-1]}"


def timeline_part(job: Job, times: list[CoreTime], last: int) -> str:
    """The section of the timeline."""
    buttons = "".join(
        element("button", sign, type="button", data_zoom=what, aria_label=words, title=words)
        for sign, what, words in (("+", "in", "Zoom in"), ("−", "out", "Zoom out"), ("Whole run", "whole", "Whole run"))
    )
    canvas = element(
        "canvas",
        "A timeline, which the script of this page draws.",
        id="timeline",
        tabindex=0,
        role="application",
        aria_label="Timeline of all cores: arrow keys move, plus and minus zoom",
        aria_describedby="timeline-help",
    )
    return element(
        "section",
        element("h2", "Timeline"),
        element("div", legend(times), element("div", buttons, class_="buttons"), class_="bar"),
        canvas,
        element("noscript", "The timeline is drawn by the script of this page; tools/timeline draws one without."),
        element("output", "Point at a core, or press an arrow key, to read it off.", id="reading", class_="hint",
                aria_live="polite"),  # fmt: skip
        element("p", text(HELP), id="timeline-help", class_="help"),
        notes(times),
        element("script", timeline_data(job, times, last), type="application/json", id="timeline-data"),
        id="time",
        class_="card",
    )
