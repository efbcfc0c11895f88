"""A timeline as a picture, in SVG."""

from __future__ import annotations

from collections.abc import Callable
from html import escape

from .lives import Life, Span
from .packets import Packet
from .timelines import Row, Timeline

COLOURS = {
    "slot": "#e8e8e8",
    "read": "#4878b0",
    "write": "#d08030",
    "wait": "#e8b8b8",
    "maybe": "#f4e4e4",
    "run": "#a8d0a0",
    "bound": "#a02020",
    "end": "#000000",
    "unknown": "#ffffff",
    "packet": "#7c3aad",
}
LEGEND = [
    ("slot", "own slots"),
    ("read", "read, words"),
    ("write", "write, words"),
    ("run", "does bundles"),
    ("wait", "waits"),
    ("maybe", "waits, or does bundles"),
]
UNKNOWN = "the list of transactions has ended: what the core does here is not known"
LEFT, TOP, ROW, RIGHT = 70, 46, 62, 20
BAR_TOP, BAR_BOTTOM = 9, 33
NOTE = 14
# A transaction is as wide as this at least, and has a white edge from this width on, so that no edge hides it.
LEAST_WIDE, EDGED_WIDE = 0.75, 4
TICKS = 10

Across = Callable[[int], float]


def svg(timeline: Timeline, width: int) -> str:
    """The picture."""
    scale = (width - LEFT - RIGHT) / (timeline.last - timeline.first)
    height = TOP + ROW * len(timeline.rows) + 40 + NOTE * len(timeline.sent.unknown)

    def x(cycle: int) -> float:
        return round(LEFT + (min(max(cycle, timeline.first), timeline.last) - timeline.first) * scale, 2)

    parts = [
        (
            f'<svg xmlns="http://www.w3.org/2000/svg" width="{width}" height="{height}" viewBox="0 0 {width} {height}"'
            ' font-family="sans-serif" font-size="11">'
        ),
        f'<rect x="0" y="0" width="{width}" height="{height}" fill="#ffffff"/>',
    ]
    parts += legend(timeline) + axis(timeline, x, TOP + ROW * len(timeline.rows) + 40)
    for number, row in enumerate(timeline.rows):
        parts += core_row(timeline, row, TOP + ROW * number, x, scale)
    parts += [arrow(packet, x) for packet in seen_packets(timeline)]
    parts += unknown_packets(timeline, TOP + ROW * len(timeline.rows) + 40)
    return "\n".join(parts + ["</svg>"]) + "\n"


def box(span: Span, top: int, tall: int, colour: str, title: str, x: Across) -> str:
    """A box from the start of a span to its end."""
    wide = round(x(span.end) - x(span.start), 2)
    if span.words:
        wide = max(wide, LEAST_WIDE)
    edge = ' stroke="#ffffff"' if span.words and wide >= EDGED_WIDE else ""
    if span.kind == "unknown":
        edge = ' stroke="#808080" stroke-dasharray="4 3"'
    shape = f'<rect x="{x(span.start)}" y="{top}" width="{wide}" height="{tall}" fill="{COLOURS[colour]}"{edge}'
    return f"{shape}><title>{escape(title)}</title></rect>"


def text(x: float, y: float, words: str, more: str = "") -> str:
    return f'<text x="{x}" y="{y}"{more}>{escape(words)}</text>'


def seen_packets(timeline: Timeline) -> list[Packet]:
    """The packets that are under way in the picture."""
    return [one for one in timeline.sent.packets if one.due >= timeline.first and one.sent < timeline.last]


def count_of(number: int, thing: str) -> str:
    """`1 word`, or `2 words`."""
    return f"{number} {thing}{'' if number == 1 else 's'}"


def arrow(packet: Packet, x: Across) -> str:
    """A packet, from its sender's row at the cycle in which it is sent to its target's row when it comes."""
    down = packet.target > packet.sender
    begin = TOP + ROW * packet.sender + (BAR_BOTTOM if down else BAR_TOP)
    end = TOP + ROW * packet.target + (BAR_TOP if down else BAR_BOTTOM)
    left, right = x(packet.sent), x(packet.due)
    size = 6 if down else -6
    words = (
        f"packet from core {packet.sender} to core {packet.target}: {count_of(packet.words, 'word')} from"
        f" {packet.source_word} to {packet.target_word}, sent at {packet.sent}, comes at {packet.due}"
    )
    way = f"M{left} {begin}L{right} {end}M{right - 3} {end - size}L{right} {end}L{right + 3} {end - size}"
    shape = f'<path d="{way}" fill="none" stroke="{COLOURS["packet"]}" stroke-width="1.5"'
    return f"{shape}><title>{escape(words)}</title></path>"


def unknown_packets(timeline: Timeline, top: int) -> list[str]:
    """Words on the cores whose packets are not drawn."""
    return [
        text(LEFT, top + NOTE * number + 9, f"the packets of core {core} are not drawn: {why}")
        for number, (core, why) in enumerate(sorted(timeline.sent.unknown.items()))
    ]


def legend(timeline: Timeline) -> list[str]:
    """What the colours mean."""
    parts, at = [], LEFT
    for colour, words in LEGEND + ([("packet", "packet")] if timeline.sent.packets else []):
        parts.append(f'<rect x="{at}" y="8" width="12" height="12" fill="{COLOURS[colour]}"/>')
        parts.append(text(at + 16, 18, words))
        at += 34 + 7 * len(words)
    return parts


def axis(timeline: Timeline, x: Across, height: int) -> list[str]:
    """The cycles: a number at some slots' starts where the picture is short, and at round numbers where it is long."""
    step = tick_step(timeline.last - timeline.first, timeline.job.slot)
    parts = []
    for cycle in range((timeline.first + step - 1) // step * step, timeline.last + 1, step):
        parts.append(f'<line x1="{x(cycle)}" y1="{TOP - 8}" x2="{x(cycle)}" y2="{height - 34}" stroke="#d0d0d0"/>')
        parts.append(text(x(cycle), height - 20, f"{cycle:,}", ' text-anchor="middle"'))
    words = "cycles"
    if timeline.cut:
        words = (
            "cycles; the picture ends after the last transaction that is listed: --to names another end, --trace lists"
            " more"
        )
    parts.append(text(LEFT, height - 5, words))
    return parts


def tick_step(cycles: int, slot: int) -> int:
    """How many cycles lie between two numbers of the axis: some slots, or 1, 2 or 5 with zeros, ten at most."""
    if cycles <= 10 * TICKS * slot:
        return slot * max(1, cycles // (TICKS * slot))
    step = 1
    while TICKS * step < cycles:
        step = next(
            factor * power for power in [10 ** (len(str(step)) - 1)] for factor in (2, 5, 10) if factor * power > step
        )
    return step


def core_row(timeline: Timeline, row: Row, top: int, x: Across, scale: float) -> list[str]:
    """One core: its slots, what it does, its transactions, its end and its bound."""
    life, slot = row.life, timeline.job.slot
    parts = [text(6, top + 24, f"core {life.core.number}")]
    for start in row.slots:
        parts.append(box(Span(start, start + slot, "slot"), top, 8, "slot", f"slot at {start}", x))
    for span in life.spans:
        if span.end <= timeline.first or span.start >= timeline.last:
            continue
        parts.append(box(span, top + 10, 22, span.kind, span_title(span), x))
        if span.kind == "unknown":
            parts += list_end(timeline, span, top, x)
        if span.words and slot * scale > 9:
            centre = (x(span.start) + x(span.end)) / 2
            parts.append(text(round(centre, 2), top + 25, str(span.words), ' text-anchor="middle" fill="#ffffff"'))
    parts += marks(timeline, life, top, x)
    return parts


def list_end(timeline: Timeline, span: Span, top: int, x: Across) -> list[str]:
    """Words where the list of a core's transactions ends, and the picture goes on."""
    left, right = x(span.start), x(span.end)
    words = f"the {timeline.job.trace} listed end here" if right - left > 150 else "list ends"
    return [text(round(left + 3, 2), top + 25, words, ' fill="#606060"')] if right - left > 60 else []


def span_title(span: Span) -> str:
    """What a span is, in words."""
    if span.words:
        return f"{span.kind} {span.words} words at {span.start}"
    if span.kind == "unknown":
        return f"{UNKNOWN}, {span.start} to {span.end}"
    return f"{dict(LEGEND)[span.kind]}, {span.start} to {span.end}"


def marks(timeline: Timeline, life: Life, top: int, x: Across) -> list[str]:
    """The begin, the end and the bound of a core's task."""
    core = life.core
    parts = []
    if life.start and timeline.first <= life.start < timeline.last:
        parts.append(line(x(life.start), top + 4, top + 38, "end"))
        parts.append(text(x(life.start) + 3, top + 44, f"starts at {life.start}"))
    if life.end is not None and timeline.first <= life.end <= timeline.last:
        words = f"done {core.value} at {life.end}" if core.ended == "done" else f"trap {core.trap} at {life.end}"
        parts.append(line(x(life.end), top + 4, top + 38, "end"))
        parts.append(text(x(life.end) - 3, top + 44, words, ' text-anchor="end"'))
    if core.bound is not None and life.start is not None:
        bound = life.start + core.bound
        words = f"bound {core.bound}" + ("" if bound <= timeline.last else ", past this picture")
        more = f' text-anchor="end" fill="{COLOURS["bound"]}"'
        parts.append(text(x(min(bound, timeline.last)) - 3, top + 56, words, more))
        if timeline.first <= bound <= timeline.last:
            parts.append(line(x(bound), top + 4, top + 50, "bound"))
    if core.ended in ("idle", "limit"):
        parts.append(text(LEFT + 3, top + 44, core.ended))
    return parts


def line(x: float, top: int, bottom: int, colour: str) -> str:
    return f'<line x1="{x}" y1="{top}" x2="{x}" y2="{bottom}" stroke="{COLOURS[colour]}" stroke-width="1.5"/>'
