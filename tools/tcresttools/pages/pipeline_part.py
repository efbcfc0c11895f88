"""The pipeline of a job with one core: its bundles in the five stages, in blocks of steps."""

from __future__ import annotations

from ..job import Job
from ..pipeline import Bundle, bundles_of, columns_of, compiled_texts, texts_of
from ..report import Step
from .markup import element, number, text
from .times import CoreTime

MOST_STEPS = 48
COLUMNS = 24
Column = tuple[int | None, str]
STAGES = {"F": "fetch", "D": "decode", "E": "execute", "M": "memory", "W": "write-back"}


def head_cell(at: int | None, steps: list[Step], behind: int) -> str:
    """The cycle of a step, or how many cycles the stages wait."""
    if at is not None:
        return element("th", number(steps[at].cycle), scope="col")
    waited = steps[behind + 1].cycle - steps[behind].cycle - 1
    words = f"{waited} cycle{'' if waited == 1 else 's'} without a bundle"
    return element("th", f"+{waited}", class_="gap", scope="col", title=words)


def block(columns: list[Column], steps: list[Step], bundles: list[Bundle], texts: dict[int, str]) -> str:
    """Some columns, with the bundles that are in a stage there."""
    shown = [at for at, _ in columns if at is not None]
    head = element("th", "place", class_="n", scope="col") + element("th", "bundle", scope="col")
    behind = shown[0] - 1
    for at, _ in columns:
        head += head_cell(at, steps, behind)
        behind = behind if at is None else at
    rows = ""
    for bundle in bundles:
        if not set(shown) & bundle.stages.keys():
            continue
        cells = element("th", str(bundle.place), class_="n", scope="row")
        cells += element("td", element("code", text(texts.get(bundle.place, ""))))
        for at, _ in columns:
            stage = "" if at is None else bundle.stages.get(at, "")
            cells += element("td", stage, class_=f"stage {stage}".strip() if at is not None else "gap")
        rows += element("tr", cells)
    return element("table", element("thead", element("tr", head)), element("tbody", rows), class_="stages")


def pipeline_part(job: Job, steps: list[Step], listing: dict[int, list[int]], time: CoreTime) -> str:
    """The section of the pipeline; nothing where there are no steps."""
    if not steps:
        return ""
    drawn = steps[:MOST_STEPS]
    bundles, columns = bundles_of(drawn), columns_of(drawn)
    texts = texts_of(job, listing) if time.c_time is None else compiled_texts(time.c_time.code)
    blocks = "".join(
        block(columns[begin : begin + COLUMNS], drawn, bundles, texts) for begin in range(0, len(columns), COLUMNS)
    )
    keys = "".join(element("li", element("b", letter), f" {words}") for letter, words in STAGES.items())
    legend = element("ul", keys, element("li", element("b", "+n"), " cycles without a bundle"), class_="legend")
    cut = ""
    if len(steps) > len(drawn):
        words = f"These are the first {len(drawn)} bundles of {len(steps):,}; tools/stages draws more."
        cut = element("p", words, class_="help")
    body = element("h2", "Pipeline") + legend + element("div", blocks, class_="wide") + cut
    return element("section", body, id="pipeline", class_="card")
