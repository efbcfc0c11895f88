"""The page of a job: its parts put together with style and script, in one file that needs no other."""

from __future__ import annotations

from pathlib import Path

from ..explaining import Finding
from ..job import Job, Task
from ..task_time import inlined_lines
from .assembly_part import assembly_part
from .c_part import c_part
from .cores_part import cores_part, ended_words, task_name
from .facts import Facts
from .findings_part import finding_note, findings_part
from .markup import element, number, text
from .pipeline_part import pipeline_part
from .timeline_part import timeline_part
from .times import CoreTime, TimeReader

HERE = Path(__file__).resolve().parent
SCRIPTS = ["links.js", "run.js", "drawing.js", "timeline.js"]


def asset(name: str) -> str:
    """A file that is taken in whole."""
    return (HERE / name).read_text(encoding="utf-8")


def platform_words(job: Job) -> str:
    """The platform in words."""
    cores = f"{job.cores} core{'' if job.cores == 1 else 's'}"
    words = [cores, f"slots of {job.slot} cycles", f"period {len(job.table) * job.slot}"]
    if "table" in job.keys:
        words.append("table " + " ".join(str(core) for core in job.table))
    return ", ".join([*words, f"limit {number(job.keys['cycles'])} cycles"])


def header(facts: Facts, times: list[CoreTime]) -> str:
    """The job's name, its platform, and links to the parts of the page."""
    goals = [("explained", "To be explained")] if facts.findings else []
    if times:
        goals += [("cores", "Cores"), ("time", "Timeline")]
    tasks = [] if facts.job is None else sorted(facts.job.tasks, key=lambda task: task.core)
    goals += [(f"core-{task.core}", f"Core {task.core}") for task in tasks]
    goals += [("pipeline", "Pipeline")] if facts.steps else []
    links = "".join(element("a", text(words), href=f"#{goal}") for goal, words in goals)
    platform = "" if facts.job is None or facts.report is None else element("p", text(platform_words(facts.job)))
    return element("header", element("h1", text(facts.name)), platform, element("nav", links, aria_label="Parts"))


def exactness(time: CoreTime) -> str:
    """What is said above a task's text on the cycles that stand there."""
    if time.listed:
        return element("p", text(f"The cycles are those of a part of the run: {time.listed}."), class_="help")
    if time.unsure:
        return element("p", text(f"The cycles of its parts are not known exactly: {time.unsure}."), class_="help")
    if time.c_time is None:
        return ""
    words = [
        "The cycles of a function do not include the functions that it calls. Those of a loop include its inner loops.",
        *(f"{line}." for line in inlined_lines(time.c_time.inlined)),
    ]
    return element("p", text(" ".join(words)), class_="help")


def task_part(facts: Facts, job: Job, task: Task, time: CoreTime | None) -> str:
    """A task: its source, and beside it its code or its functions and loops."""
    made = c_part if task.lang == "c" else assembly_part
    title = f"Core {task.core}"
    if time is not None:
        core = time.core
        taken = f", {core.cycles:,} cycles" if core.cycles is not None else ""
        title += element("small", text(f"{task_name(time)}, {ended_words(core)}{taken}"))
    body = made(job, task, time, facts.findings)
    above = "" if time is None else exactness(time)
    above += "".join(finding_note(one) for one in apart_from_source(job, task, facts.findings))
    return element("section", element("h2", title), above, body, id=f"core-{task.core}", class_="card task")


def apart_from_source(job: Job, task: Task, findings: list[Finding]) -> list[Finding]:
    """What is to be explained of a task and is at no line of its text."""
    first, last = job.source_place(task, 0), job.source_place(task, max(len(task.source) - 1, 0))
    lines = range(first.line, last.line + 1) if first is not None and last is not None else range(0)
    own = [one for one in findings if one.line.startswith((f"core {task.core} ", f"core {task.core}:"))]
    return [one for one in own if one.place is None or one.place.line not in lines]


def body_of(facts: Facts) -> str:
    """The parts of the page."""
    job = facts.job
    times = [] if job is None or facts.report is None else TimeReader(facts, job, facts.report).times()
    parts = [header(facts, times), findings_part(facts.path, facts.findings)]
    if job is None:
        return "".join(parts)
    if times:
        last = max([*(life_end(time) for time in times), len(job.table) * job.slot])
        parts += [cores_part(times, facts.bounds), timeline_part(job, times, last)]
    by_core = {time.core.number: time for time in times}
    tasks = sorted(job.tasks, key=lambda task: task.core)
    parts += [task_part(facts, job, task, by_core.get(task.core)) for task in tasks]
    if facts.steps:
        parts.append(pipeline_part(job, facts.steps, facts.listing, times[0]))
    return "".join(parts)


def life_end(time: CoreTime) -> int:
    """Behind the last cycle that is drawn of a core, and the last packet that comes from it."""
    spans = [] if time.life is None else time.life.spans
    return max([0, *(span.end for span in spans[-1:]), *(packet.due + 1 for packet in time.packets)])


def page(facts: Facts) -> str:
    """The whole page."""
    scripts = "".join(element("script", asset(name)) for name in SCRIPTS)
    head = (
        '<meta charset="utf-8"><meta name="viewport" content="width=device-width">'
        '<meta name="color-scheme" content="light dark">'
        f"<title>{text(facts.name)}</title><style>{asset('page.css')}</style>"
    )
    content = element("main", body_of(facts))
    return f'<!doctype html>\n<html lang="en"><head>{head}</head><body>{content}{scripts}</body></html>\n'
