"""The bundles of a job with one core as they go through the five stages of its pipeline."""

from __future__ import annotations

from dataclasses import dataclass, field

from .assembly import code_of
from .cli import BadInput
from .code_text import CodeBundle, CodeItem, CodeLoop, TaskCode
from .job import Job
from .report import Report, Step

# How far in front of the bundle that is executed the bundle stands that a stage holds.
AHEAD = {"F": 2, "D": 1, "E": 0, "M": -1, "W": -2}


@dataclass
class Bundle:
    """A bundle that is done or under way: its place, and the stage that it is in at each step."""

    number: int
    place: int
    stages: dict[int, str] = field(default_factory=dict)

    @property
    def done(self) -> bool:
        return "E" in self.stages.values()


def held(step: Step) -> dict[str, int | None]:
    """The place that each stage holds at a step."""
    return {"F": step.fetch, "D": step.decode, "E": step.execute, "M": step.memory, "W": step.write}


def bundles_of(steps: list[Step]) -> list[Bundle]:
    """The bundles of the steps, in the order in which they are done."""
    bundles: dict[int, Bundle] = {}
    for at, step in enumerate(steps):
        for stage, place in held(step).items():
            number = at + AHEAD[stage]
            if place is None:
                continue
            bundle = bundles.setdefault(number, Bundle(number, place))
            if bundle.place != place:
                raise BadInput(f"the steps do not follow one another: step {at} has place {place} in {stage}")
            bundle.stages[at] = stage
    return [bundles[number] for number in sorted(bundles)]


def texts_of(job: Job, listing: dict[int, list[int]]) -> dict[int, str]:
    """The statement at each place of the code of the only task; none of a task in C."""
    task = job.task_of(0)
    if task is None or task.lang == "c" or 0 not in listing:
        return {}
    rows = code_of(task.source, listing[0]).rows
    labels: dict[int, str] = {}
    texts = {}
    for row in rows:
        if row.statement.kind == "label":
            labels[row.place] = labels.get(row.place, "") + row.statement.name + ": "
        elif row.statement.kind == "bundle":
            texts[row.place] = labels.get(row.place, "") + " ".join(row.statement.text.split())
    return texts


def compiled_texts(code: TaskCode) -> dict[int, str]:
    """The bundle at each place of the code of a task in C; the first one of a loop behind the loop's label."""
    texts: dict[int, str] = {}
    for function in code.functions:
        add_texts(texts, function.start, function.items)
    return texts


def add_texts(texts: dict[int, str], start: int, items: list[CodeItem]) -> None:
    """Adds the bundles of items of the function that starts at a place."""
    for item in items:
        if isinstance(item, CodeBundle):
            texts[start + item.offset] = item.text
        elif isinstance(item, CodeLoop):
            add_texts(texts, start, item.items)
            first = start + item.first
            texts[first] = f"{item.label}: {texts[first]}"


def columns_of(steps: list[Step]) -> list[tuple[int | None, str]]:
    """The columns of the drawing: each step with its cycle, and between two a wait, where the next is not at once."""
    columns: list[tuple[int | None, str]] = []
    for at, step in enumerate(steps):
        if at and step.cycle > steps[at - 1].cycle + 1:
            columns.append((None, ".."))
        columns.append((at, str(step.cycle)))
    return columns


def row_name(bundle: Bundle, texts: dict[int, str]) -> str:
    return f"{bundle.place:<5}{texts.get(bundle.place, '')}".rstrip()


def cell(bundle: Bundle, at: int | None) -> str:
    return "" if at is None else bundle.stages.get(at, "")


def is_cut(report: Report, most: int) -> bool:
    """Behind the last step more may be done: as many are listed as are asked for, and the task goes on."""
    if len(report.steps) < most:
        return False
    return report.cores[0].ended != "done" or report.steps[-1].decode is not None
