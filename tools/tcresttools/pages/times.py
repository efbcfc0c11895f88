"""What each core of a job does in time, and what each part of its text takes, as exactly as it can be known."""

from __future__ import annotations

from dataclasses import dataclass, field

from ..arrivals import c_packets
from ..assembly import Code, code_of
from ..assembly_run import assembly_run, may_send, only_run
from ..events import Bundle, Cause, NoSequence, Sequence
from ..job import Job, Task
from ..lives import Life, Lives, Span, merged
from ..packets import Packet
from ..replay import Replayed
from ..report import Core, Report
from ..row_costs import Mark, RowCosts, row_costs
from ..task_time import TaskTime, time_of
from .facts import Facts


@dataclass
class CoreTime:
    """A core in time. `unsure` says why its waits are not exact, and `unsent` why its packets are not known.

    `listed` says up to where its run is listed, where that is not all of it.
    """

    core: Core
    task: Task | None
    code: Code | None = None
    c_time: TaskTime | None = None
    spans: list[Span] | None = None
    rows: RowCosts = field(default_factory=RowCosts)
    marks: list[Mark] = field(default_factory=list)
    packets: list[Packet] = field(default_factory=list)
    unsure: str = ""
    unsent: str = ""
    listed: str = ""
    life: Life | None = None

    @property
    def taken(self) -> int:
        """The cycles that the parts of the text share out."""
        if self.c_time is not None:
            return self.c_time.replayed.taken
        return sum(cost.cycles for cost in self.rows.costs.values())

    def add_rows(self, sequence: Sequence, replayed: Replayed) -> None:
        """What a replay says of an assembly task."""
        self.spans = spans_of(sequence, replayed)
        if self.code is not None:
            self.rows = row_costs(self.code, sequence, replayed)
            self.marks = self.rows.marks


def spans_of(sequence: Sequence, replayed: Replayed) -> list[Span]:
    """What a replayed core does, with the reason of each transaction."""
    why = {Cause.FETCH: "code", Cause.DATA: "data"}
    cycles = zip(sequence.events, replayed.cycles, strict=True)
    bundles = [cycle for event, cycle in cycles if isinstance(event, Bundle)]
    moves = [
        Span(move.served, move.free, move.transaction.kind, move.transaction.words, why[move.transaction.cause])
        for move in replayed.moves
    ]
    return merged(replayed.start, bundles, moves)


def c_marks(time: TaskTime) -> list[Mark]:
    """In which function or loop a C task is from cycle to cycle."""
    marks: list[Mark] = []
    before = time.replayed.start
    for opened, free in zip(time.attribution.opens, time.replayed.frees, strict=True):
        if not marks or marks[-1].part != opened.innermost:
            marks.append(Mark(before, opened.innermost))
        before = free
    return marks


class TimeReader:
    """Reads the times of all cores of a job that ran."""

    def __init__(self, facts: Facts, job: Job, report: Report) -> None:
        self.facts = facts
        self.job = job
        self.report = report

    def times(self) -> list[CoreTime]:
        found = [self.core_time(core) for core in self.report.cores]
        replayed = {time.core.number: time.spans for time in found if time.spans is not None}
        lives = Lives(self.job, self.report, [], replayed)
        for time in found:
            time.life = lives.life(time.core, lives.last_known() + 1)
        return found

    def core_time(self, core: Core) -> CoreTime:
        time = CoreTime(core, self.job.task_of(core.number))
        if time.task is None:
            return time
        if time.task.lang == "asm":
            words = self.facts.listing[core.number]
            time.code = code_of(time.task.source, words)
        try:
            self.add_exact(time, time.task)
        except NoSequence as reason:
            time.unsure = str(reason)
        if may_send(time.task):
            self.add_packets(time, time.task)
        return time

    def add_packets(self, time: CoreTime, task: Task) -> None:
        """What a task sends, where its replay has not said so, or why that is not known."""
        if task.lang == "asm":
            time.unsent = time.unsent or ("" if time.packets else time.unsure)
            return
        try:
            time.packets = c_packets(self.job, task, time.core, self.facts.program)
        except NoSequence as reason:
            time.unsent = str(reason)

    def add_exact(self, time: CoreTime, task: Task) -> None:
        """What a replay, or the pipeline of the only core, says of a task."""
        if task.lang == "c":
            time.c_time = time_of(self.job, task, time.core, self.facts.program)
            time.spans = spans_of(time.c_time.sequence, time.c_time.replayed)
            time.marks = c_marks(time.c_time)
        elif self.job.cores == 1:
            self.add_only(time, task)
        else:
            words = self.facts.listing[task.core]
            run = assembly_run(self.job, task, time.core, words, self.facts.program)
            time.add_rows(run.sequence, run.replayed)
            time.packets, time.unsent = run.transfers.packets, run.unknown

    def add_only(self, time: CoreTime, task: Task) -> None:
        """The only core of a job: its own steps, also where it is stopped or has not ended."""
        words = self.facts.listing[task.core]
        run = only_run(task, time.core, self.facts.steps, words, self.job.trace, self.job.slot)
        time.add_rows(run.sequence, run.replayed)
        time.listed = run.listed
        if time.listed and time.spans is not None:
            known = Lives(self.job, self.report).last_known()
            time.spans.append(Span(run.replayed.end, max(known, run.replayed.end + 1), "unknown"))
