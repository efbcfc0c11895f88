"""A timeline as waves, in the format VCD."""

from __future__ import annotations

from .timelines import Row, Timeline


class Waves:
    """The changes of the waves, by their cycles."""

    def __init__(self, timeline: Timeline) -> None:
        self.timeline = timeline
        self.changes: dict[int, dict[str, str]] = {}

    def set(self, cycle: int, wire: str, value: str) -> None:
        """Sets a wire from a cycle on; what was set for this cycle before does not count."""
        if self.timeline.first <= cycle <= self.timeline.last:
            self.changes.setdefault(cycle, {})[wire] = value + wire

    def add(self, row: Row, wires: list[str]) -> None:
        """The waves of one core."""
        life = row.life
        first, width = self.timeline.first, self.timeline.job.slot
        slot, kind, words, runs = wires
        for wire, value in zip(wires, ("0", "b0 ", "b0 ", "0"), strict=True):
            self.set(first, wire, value)
        if life.start is not None:
            self.set(max(life.start, first), runs, "1")
        if life.end is not None:
            self.set(life.end, runs, "0")
        moves = [span for span in life.spans if span.words]
        for start in row.slots:
            self.set(start + width, slot, "0")
        for span in moves:
            self.set(span.end, kind, "b0 ")
            self.set(span.end, words, "b0 ")
        for start in row.slots:
            self.set(max(start, first), slot, "1")
        for span in moves:
            self.set(span.start, kind, "b1 " if span.kind == "read" else "b10 ")
            self.set(span.start, words, f"b{span.words:b} ")


def vcd(timeline: Timeline) -> str:
    """The waves: of each core its slot, its transaction (1 read, 2 write) with the words, and whether its task runs."""
    lines = ["$comment one unit is one cycle $end", "$timescale 1 ns $end", "$scope module tcrest $end"]
    waves = Waves(timeline)
    for number, row in enumerate(timeline.rows):
        wires = [chr(33 + number * 4 + at) for at in range(4)]
        lines.append(f"$scope module core{row.life.core.number} $end")
        for wire, bits, name in zip(wires, (1, 2, 3, 1), ("slot", "access", "words", "task"), strict=True):
            lines.append(f"$var wire {bits} {wire} {name} $end")
        lines.append("$upscope $end")
        waves.add(row, wires)
    lines += ["$upscope $end", "$enddefinitions $end"]
    for cycle in sorted(waves.changes.keys() | {timeline.last}):
        lines += [f"#{cycle}", *waves.changes.get(cycle, {}).values()]
    return "\n".join(lines) + "\n"
