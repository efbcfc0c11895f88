"""What each core of a job does from cycle to cycle, as far as a report, the steps of `pipe` or a replay tell it."""

from __future__ import annotations

from collections.abc import Iterable, Mapping, Sequence
from dataclasses import dataclass

from .cli import BadInput
from .job import Job
from .report import Core, Report, Step


@dataclass(frozen=True)
class Span:
    """What a core does from one cycle up to before another.

    The kind is `run` (bundles), `wait`, `maybe` (waits, or does bundles), `read`, `write`, `slot` or `unknown`. `why`
    says of a transaction what its words are, `code` or `data`, where that is known.
    """

    start: int
    end: int
    kind: str
    words: int = 0
    why: str = ""


@dataclass(frozen=True)
class Life:
    """A core with its task: when it starts and ends, where that is known, and what it does in between."""

    core: Core
    start: int | None
    end: int | None
    spans: list[Span]


class Lives:
    """A job and its report. `replayed` has the spans of cores whose run was replayed."""

    def __init__(
        self,
        job: Job,
        report: Report,
        steps: Sequence[Step] = (),
        replayed: Mapping[int, list[Span]] | None = None,
    ) -> None:
        self.job = job
        self.report = report
        self.steps = steps
        self.replayed = replayed or {}
        if report.period != len(job.table) * job.slot or len(report.cores) != job.cores:
            raise BadInput("the report is not that of this job: the platform is another")

    def start_of(self, core: Core) -> int:
        task = self.job.task_of(core.number)
        return 0 if task is None else task.start

    def end_of(self, core: Core) -> int | None:
        """The cycle at which a core's task has ended or was stopped."""
        if core.ended == "done":
            return self.start_of(core) + (core.cycles or 0)
        return core.at if core.ended == "trap" else None

    def last_listed(self) -> int:
        """The end of the last transaction that is listed, and at least a period."""
        moved = [access.cycle + self.job.slot for core in self.report.cores for access in core.accesses]
        return max([*moved, self.report.period])

    def last_known(self) -> int:
        """The last end of a task or of a transaction that is listed."""
        ends = [end for core in self.report.cores if (end := self.end_of(core)) is not None]
        return max([*ends, self.last_listed()])

    def own_slots(self, core: int, first: int, last: int) -> list[int]:
        """The starts of a core's slots from a cycle up to before another."""
        slot, table = self.job.slot, self.job.table
        numbers = range(max(first - slot + 1, 0) // slot, (last + slot - 1) // slot)
        return [number * slot for number in numbers if table[number % len(table)] == core]

    def slot_before(self, core: int, cycle: int) -> int | None:
        """The start of a core's last slot before a cycle."""
        slots = self.own_slots(core, max(cycle - self.report.period - self.job.slot, 0), cycle)
        return max((start for start in slots if start < cycle), default=None)

    def complete(self, core: Core) -> bool:
        """All transactions of the core are listed."""
        return len(core.accesses) < self.job.trace

    def life(self, core: Core, last: int) -> Life:
        """What a core does up to cycle `last`, or up to its end."""
        if core.ended == "idle":
            return Life(core, None, None, [])
        start, end = self.start_of(core), self.end_of(core)
        exact = core.number in self.replayed or bool(self.steps)
        if core.number in self.replayed:
            spans = list(self.replayed[core.number])
        else:
            spans = self.stepped_spans(core, start) if self.steps else self.listed_spans(core, start)
        at = spans[-1].end if spans else start
        if not self.complete(core) and core.number not in self.replayed:
            spans.append(Span(at, last if end is None else end, "unknown"))
        elif end is not None:
            spans.append(Span(at, end, "wait" if exact else "run"))
        return Life(core, start, end, [span for span in spans if span.end > span.start])

    def moves(self, core: Core) -> list[Span]:
        """The transactions: a core goes on when the slot ends."""
        return [Span(a.cycle, a.cycle + self.job.slot, a.kind, a.words) for a in core.accesses]

    def listed_spans(self, core: Core, start: int) -> list[Span]:
        """What a report alone tells. A wait is behind the core's last slot before: what lies in front is bundles."""
        spans, at = [], start
        for number, move in enumerate(self.moves(core)):
            before = self.slot_before(core.number, move.start)
            wait = at if number == 0 else max(at, at if before is None else before + 1)
            spans += [Span(at, wait, "run"), Span(wait, move.start, "maybe" if number else "wait"), move]
            at = move.end
        return spans

    def stepped_spans(self, core: Core, start: int) -> list[Span]:
        """What the steps of `pipe` tell besides."""
        return merged(start, [step.cycle for step in self.steps], self.moves(core))


def merged(start: int, bundles: Iterable[int], moves: Iterable[Span]) -> list[Span]:
    """The spans of a core whose bundles and transactions are known: any other cycle is a wait.

    A transaction that begins in the cycle of its own bundle is drawn over it.
    """
    busy = [Span(cycle, cycle + 1, "run") for cycle in bundles]
    spans: list[Span] = []
    at = start
    for mark in sorted([*busy, *moves], key=lambda span: (span.start, span.kind == "run")):
        begin = max(mark.start, at)
        if begin > at:
            spans.append(Span(at, begin, "wait"))
        if spans and spans[-1].kind == mark.kind == "run":
            spans[-1] = Span(spans[-1].start, mark.end, "run")
        elif mark.end > begin:
            spans.append(Span(begin, mark.end, mark.kind, mark.words, mark.why))
        at = max(at, mark.end)
    return spans
