"""The packets that the tasks of a job send, as far as they are known."""

from __future__ import annotations

from dataclasses import dataclass, field

from .arrivals import c_packets
from .assembly_run import assembly_run, may_send
from .events import NoSequence
from .job import Job, Task
from .packets import Packet
from .program import run_program
from .report import Core, Report, read_listing


@dataclass
class Sent:
    """The packets that are known, and why those of other cores are not, by core."""

    packets: list[Packet] = field(default_factory=list)
    unknown: dict[int, str] = field(default_factory=dict)

    def add_assembly(self, job: Job, task: Task, core: Core, words: list[int], program: str | None) -> None:
        """The packets of a task in assembly, which is replayed."""
        run = assembly_run(job, task, core, words, program)
        self.packets += run.transfers.packets
        if run.unknown:
            self.unknown[task.core] = run.unknown


def sent_packets(job: Job, report: Report, program: str | None) -> Sent:
    """What the tasks of a job send: the program is asked about those whose text may send."""
    sent = Sent()
    senders = [task for task in job.tasks if job.cores > 1 and may_send(task)]
    if not senders:
        return sent
    listing = read_listing(run_program(program, "asm", job.data).text)
    for task in senders:
        core = next(one for one in report.cores if one.number == task.core)
        try:
            if task.lang == "c":
                sent.packets += c_packets(job, task, core, program)
            else:
                sent.add_assembly(job, task, core, listing[task.core], program)
        except NoSequence as reason:
            sent.unknown[task.core] = str(reason)
    return sent
