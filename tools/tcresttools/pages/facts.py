"""What is known of a job: the job itself, what the program writes of it, and what is to be explained."""

from __future__ import annotations

from dataclasses import dataclass, field
from pathlib import Path

from ..cli import BadInput
from ..explaining import Asked, Explainer, Finding
from ..job import Job, read_job
from ..program import Written, run_program
from ..report import Report, Step, read_bounds, read_listing, read_report


@dataclass(frozen=True)
class Facts:
    """A job's facts. Of one that is refused there is no report, and of one that can't be read no job either."""

    path: str
    program: str | None
    job: Job | None
    findings: list[Finding]
    report: Report | None = None
    bounds: dict[int, tuple[int, int | None]] = field(default_factory=dict)
    listing: dict[int, list[int]] = field(default_factory=dict)
    steps: list[Step] = field(default_factory=list)

    @property
    def name(self) -> str:
        return Path(self.path).name


def facts_of(path: str, program: str | None, trace: int) -> Facts:
    """The facts of the job in a file, with so many transactions of each core and steps of the pipeline listed."""
    if path == "-":
        raise BadInput("a page is made of a file: name it")
    findings = Explainer(Asked(path, program)).findings()
    try:
        job = read_job(path)
    except BadInput:
        if findings:
            return Facts(path, program, None, findings)
        raise
    if findings and Written(findings[0].line, None).refusal is not None:
        return Facts(path, program, job, findings)
    traced = job.traced(trace)
    job.keys["trace"] = trace
    return Facts(
        path,
        program,
        job,
        findings,
        read_report(run_program(program, "run", traced).text),
        read_bounds(run_program(program, "persist", job.data).text),
        read_listing(run_program(program, "asm", job.data).text),
        read_report(run_program(program, "pipe", traced).text).steps if job.cores == 1 and job.tasks else [],
    )
