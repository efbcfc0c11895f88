"""A job and its report from one cycle up to before another, as a picture or as waves show them."""

from __future__ import annotations

from dataclasses import dataclass

from .cli import BadInput
from .job import Job
from .lives import Life, Lives
from .report import Report, Step
from .sent import Sent

MOST_SLOTS = 20_000


@dataclass(frozen=True)
class Row:
    """A core: what it does, and the starts of its own slots."""

    life: Life
    slots: list[int]


class Timeline:
    """The rows of all cores, from cycle `first` up to before `last`, and the packets between them.

    `cut` says that the picture ends before the run does.
    """

    def __init__(
        self,
        job: Job,
        report: Report,
        steps: list[Step],
        first: int | None,
        last: int | None,
        sent: Sent | None = None,
    ) -> None:
        self.job = job
        self.report = report
        self.sent = sent or Sent()
        self.lives = Lives(job, report, steps)
        self.first = first or 0
        self.cut = False
        self.last = self.latest() if last is None else last
        if last is None and (self.last - self.first) // job.slot > MOST_SLOTS:
            self.last, self.cut = min(self.lives.last_listed() + 1, self.first + MOST_SLOTS * job.slot), True
        if self.last <= self.first:
            raise BadInput(f"there is nothing from cycle {self.first} to {self.last}")
        if (self.last - self.first) // job.slot > MOST_SLOTS:
            raise BadInput(f"{self.last - self.first} cycles are too many for one picture: name --from and --to")
        self.rows = [
            Row(self.lives.life(core, self.last), self.lives.own_slots(core.number, self.first, self.last))
            for core in report.cores
        ]

    def latest(self) -> int:
        """Behind the last end and the last transaction that is listed, and behind bounds that are not far away."""
        latest = self.lives.last_known()
        cores = [core for core in self.report.cores if core.bound is not None]
        bounds = [self.lives.start_of(core) + (core.bound or 0) for core in cores]
        comes = [packet.due for packet in self.sent.packets]
        return max([latest, *comes] + [bound for bound in bounds if bound <= 2 * latest]) + 1
