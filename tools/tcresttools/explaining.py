"""What the program writes for a job, explained: where in the file it is, what to write there, and else its cause.

A refusal names one fault. Where it is known how the text goes on, the text is mended and asked about again, so that the
next fault is told too; where it is not, the task is passed over, and those of the other cores are asked about.
"""

from __future__ import annotations

import re
import textwrap
from dataclasses import dataclass, field

from . import asm_advice, assembly, c_advice, c_text, job_advice
from .cli import BadInput, read_file
from .errors_page import Entry, entry_of, read_page
from .job import MOST_TRACE, Job, NoToml, Task, job_of, places_of, toml_string, toml_values
from .linting import lint, place_of
from .mending import Advice, Edit, Mended, in_file
from .origins import byte_of, origin_of
from .overruns import overruns
from .places import Node, Place, place_at
from .program import Written, run_program, written
from .report import Core, read_listing, read_report

JOB_FAULT = re.compile(r"job: (\w+)(?: task (\d+))?(?: (.*))?")
GRID_FAULT = re.compile(r"(grid: \w+) (\d+)(?: needs \d+| (\d+))?")
TASK_FAULT = re.compile(r"core (\d+): (\w+)(?: (at|line) (\d+))?")
MEANING = re.compile(r"core (\d+) (?:mean -?\d+( overrun)?|(long))")
MOST_FINDINGS = 12
MOST_WARNINGS = 4
AFTER_LAST = "It comes after this bundle, the last one that was done."
RIGHT_TEXTS = {"c": '"int main() { return 0; }"', "asm": '".func main; ret; nop; nop; nop"'}


@dataclass
class Finding:
    """One thing to be explained: what was written, the entry of the page, where it is, and what to write there."""

    line: str
    entry: Entry
    place: Place | None = None
    notes: list[str] = field(default_factory=list)
    here: list[str] = field(default_factory=list)
    there: list[tuple[Place, str]] = field(default_factory=list)
    later: bool = False


@dataclass(frozen=True)
class Asked:
    """What a user asks for: the job's path, the program, the command, and what was written in place of running it."""

    path: str
    program: str | None = None
    command: str = "run"
    written: str | None = None
    pipe: str | None = None
    asm: str | None = None


class Explainer:
    """Explains what a command of the program wrote for one file."""

    def __init__(self, asked: Asked) -> None:
        self.asked = asked
        self.path = asked.path
        self.data = read_file(asked.path)
        self.entries = read_page()
        self.text = Mended.first(self.data)

    def findings(self) -> list[Finding]:
        """What there is to be explained."""
        return self.findings_of(written(self.asked.program, self.asked.command, self.data, self.asked.written))

    def findings_of(self, found: Written) -> list[Finding]:
        """What there is to be explained of what the command wrote."""
        if found.refusal is None:
            return self.of_report(found)
        findings: list[Finding] = []
        line: str | None = found.refusal
        while line is not None and len(findings) < MOST_FINDINGS:
            finding, edits = self.of_refusal(line)
            finding.later = bool(findings)
            if any(is_same(finding, one) for one in findings):
                break
            findings.append(finding)
            line = None if edits is None or self.asked.written is not None else self.again(edits)
        return findings

    def again(self, edits: list[Edit]) -> str | None:
        """The refusal of the mended text; none where it is taken."""
        self.text = self.text.edited(edits)
        return run_program(self.asked.program, "asm", self.text.data).refusal

    def of_refusal(self, line: str) -> tuple[Finding, list[Edit] | None]:
        """What a refusal says, and how the text is mended; none where nothing is to be asked again."""
        if match := GRID_FAULT.fullmatch(line):
            return self.of_entry(line, match), None
        if match := JOB_FAULT.fullmatch(line):
            return self.of_job(line, match)
        if match := TASK_FAULT.fullmatch(line):
            return self.of_task(line, match)
        raise BadInput(f"this is no line that the program writes: {line}")

    def named(self, place: Place | None) -> str:
        return self.path if place is None else f"{self.path}:{place.line}:{place.column}"

    def place(self, offset: int) -> Place:
        """The place in the file that was given of a byte of the mended text."""
        return place_at(self.data, self.text.origin[min(offset, len(self.text.origin) - 1)])

    # A job that is refused.

    def of_job(self, line: str, match: re.Match[str]) -> tuple[Finding, list[Edit] | None]:
        fault, task, key = match.groups()
        entry = entry_of(self.entries, "job", fault)
        if fault == "Toml":
            return self.of_toml(line, entry), None
        number = None if task is None else int(task)
        place, note = self.key_place(number, key)
        finding = Finding(line, entry, place, [note] if note else [])
        finding.here = [hint for name, hint in entry.hints if name == key]
        advice = None if key is None else job_advice.advise(self.text.data, fault, key, number)
        if advice is None:
            return finding, None
        if advice.text:
            finding.here, finding.notes = [sentence(advice.text)], []
        if advice.at is not None:
            finding.place = self.place(advice.at)
        finding.there = [(self.place(at), sentence(text)) for at, text in advice.also]
        return finding, None if advice.mend is None else list(advice.mend)

    def of_toml(self, line: str, entry: Entry) -> Finding:
        try:
            toml_values(self.data)
        except NoToml as error:
            return Finding(line, entry, error.place, [f"Python's reader of TOML says: {error.message}."])
        return Finding(line, entry, None, ["Python's reader of TOML takes this text, and tells no place."])

    def key_place(self, task: int | None, key: str | None) -> tuple[Place | None, str]:
        """The place of a key, or of the table that lacks it."""
        root = places_of(self.text.data)
        if root is None or key is None:
            return None, ""
        table = root if task is None else task_table(root, task)
        if table is None or table.members is None:
            return None, ""
        if key in table.members:
            return self.place(table.members[key].key_at), ""
        return (None if task is None else self.place(table.start)), f"The key `{key}` is not here."

    # A schedule that is refused.

    def of_entry(self, line: str, match: re.Match[str]) -> Finding:
        name, first, second = match.groups()
        finding = Finding(line, entry_of(self.entries, "grid", name), self.entry_place(int(first)))
        if second is not None and (other := self.entry_place(int(second))) is not None:
            finding.there.append((other, f"entry {second}, the other one."))
        return finding

    def entry_place(self, number: int) -> Place | None:
        root = places_of(self.data)
        entries = root.members.get("entries") if root and root.members else None
        if entries is None or entries.node.items is None or number >= len(entries.node.items):
            return None
        return self.place(entries.node.items[number].start)

    # A task that is refused.

    def job(self) -> Job:
        try:
            return job_of(self.path, self.text.data, toml_values(self.text.data))
        except NoToml as error:
            raise BadInput(
                f"{self.named(error.place)}: Python's reader of TOML refuses this: {error.message}"
            ) from None

    def of_task(self, line: str, match: re.Match[str]) -> tuple[Finding, list[Edit] | None]:
        core, fault, kind, number = match.groups()
        job = self.job()
        task = job.task_of(int(core))
        if task is None:
            raise BadInput(f"{self.path} has no task on core {core}: is `{line}` what the program wrote for it?")
        string = self.string_of(job, task)
        if kind == "line":
            finding, advice = self.of_statement(line, job, task, fault, int(number))
        elif kind is None:
            finding, advice = Finding(line, entry_of(self.entries, "c", fault), self.task_place(job, task)), None
        else:
            finding, advice = self.of_c_text(line, job, task, fault, int(number))
            origin = origin_of(task.source, byte_of(task.source, fault, int(number)))
            finding.notes += [] if origin is None else [f"It comes from {origin}."]
        if string is None:
            return finding, None
        if advice is None or advice.mend is None:
            return finding, [Edit(string.start, string.end, RIGHT_TEXTS[task.lang])]
        return finding, in_file(self.text.data, string, advice.mend)

    def string_of(self, job: Job, task: Task) -> Node | None:
        """Where a task's text stands, byte by byte."""
        member = job.member("source", task.number)
        return None if member is None or member.node.string != task.source else member.node

    def source_place(self, job: Job, task: Task, at: int) -> Place | None:
        """The place of a byte of a task's text."""
        string = self.string_of(job, task)
        return None if string is None or at >= len(string.bytes_at) else self.place(string.bytes_at[at])

    def task_place(self, job: Job, task: Task) -> Place | None:
        """Where a task's text is given."""
        member = job.member("source", task.number)
        return None if member is None else self.place(member.key_at)

    def with_advice(self, finding: Finding, job: Job, task: Task, advice: Advice | None) -> None:
        """Takes what is to be written, and other places, into a finding."""
        if advice is None:
            return
        if advice.text:
            finding.here = [sentence(advice.text)]
        if advice.at is not None and (place := self.source_place(job, task, advice.at)) is not None:
            finding.place, finding.notes = place, []
        for at, text in advice.also:
            if (place := self.source_place(job, task, at)) is not None:
                finding.there.append((place, sentence(text)))

    def of_c_text(self, line: str, job: Job, task: Task, fault: str, number: int) -> tuple[Finding, Advice | None]:
        entry = entry_of(self.entries, "c", fault)
        if fault in ("Char", "Wide"):
            at, text = number, task.source[number:].decode("utf-8", "replace")
        else:
            try:
                token = c_text.token_at(task.source, number)
            except c_text.NoTokens:
                raise BadInput(f"{self.path}: `{line}` is not what the program writes for this text") from None
            at, text = (len(task.source), "") if token is None else (token.at, token.text)
        finding = Finding(
            line, entry, self.source_place(job, task, at), [] if text else ["This is the end of the text."]
        )
        advice = c_advice.advise(task.source, fault, number, task.core, job.cores)
        self.with_advice(finding, job, task, advice)
        if not finding.here:
            finding.here = entry.hints_for(text)
        return finding, advice

    def of_statement(self, line: str, job: Job, task: Task, fault: str, number: int) -> tuple[Finding, Advice | None]:
        """A faulty statement: which one of its line it is, the program tells of the text with one statement a line."""
        entry = entry_of(self.entries, "asm", fault)
        statements = assembly.statements_of(task.source)
        here = [statement for statement in statements if statement.line == number]
        if len(here) > 1 and self.asked.written is None:
            here = self.asked_again(job, task, statements) or here
        if not here:
            return Finding(line, entry, self.source_place(job, task, 0), ["The text has no statement."]), None
        notes = [] if len(here) == 1 else ["It is one of the statements of this line."]
        finding = Finding(line, entry, self.source_place(job, task, here[0].at), notes)
        if len(here) > 1:
            return finding, None
        advice = asm_advice.advise(task.source, fault, here[0]) or Advice("", mend=asm_advice.mend_of(fault, here[0]))
        self.with_advice(finding, job, task, advice)
        return finding, advice

    def asked_again(self, job: Job, task: Task, statements: list[assembly.Statement]) -> list[assembly.Statement]:
        source = b"\n".join(task.source[statement.at : statement.end] for statement in statements)
        text = job.with_values({(task.number, "source"): toml_string(source)})
        match = TASK_FAULT.fullmatch(run_program(self.asked.program, "asm", text).refusal or "")
        if match is None or match.group(3) != "line" or int(match.group(1)) != task.core:
            return []
        return statements[int(match.group(4)) - 1 : int(match.group(4))]

    # A report.

    def of_report(self, found: Written) -> list[Finding]:
        if self.asked.command == "mean":
            return self.of_meanings(found)
        if self.asked.command not in ("run", "pipe"):
            return []
        report = read_report(found.text)
        return [finding for core in report.cores for finding in self.of_core(core)]

    def of_meanings(self, found: Written) -> list[Finding]:
        findings = []
        for line in found.lines:
            match = MEANING.fullmatch(line)
            if match and match.group(2):
                findings.append(self.of_overrun(line, int(match.group(1))))
        return findings

    def of_end(self, line: str, core: int, name: str) -> Finding:
        job = self.job()
        task = job.task_of(core)
        return Finding(line, entry_of(self.entries, "run", name), None if task is None else self.task_place(job, task))

    def of_core(self, core: Core) -> list[Finding]:
        if core.ended == "trap":
            return [self.of_trap(core)]
        findings = []
        if core.ended == "limit":
            findings.append(self.of_limit(core))
        if core.overrun:
            findings.append(self.of_overrun(core.line, core.number))
        if core.dropped:
            findings.append(self.of_end(f"core {core.number} dropped {core.dropped}", core.number, "dropped"))
        return findings

    def of_overrun(self, line: str, core: int) -> Finding:
        """A loop that was cut off by its bound: which one it was, the meanings of the text with other bounds tell."""
        finding = self.of_end(line, core, "overrun")
        job = self.job()
        task = job.task_of(core)
        if task is None or self.asked.written is not None:
            return finding
        for number, one in enumerate(overruns(job, task, self.asked.program)):
            text = (
                f"the condition of this loop still holds after {one.most} iterations, the most of its bound: on this"
                f" input `max {one.enough}` is enough."
            )
            place = self.source_place(job, task, one.at)
            if number == 0:
                finding.place, finding.here = place or finding.place, [text]
            elif place is not None:
                finding.there.append((place, text))
        return finding

    def of_limit(self, core: Core) -> Finding:
        """A task that has not ended: a C task has a bound, and in assembly a loop or a return may go round for ever."""
        finding = self.of_end(core.line, core.number, "limit")
        job = self.job()
        task = job.task_of(core.number)
        if task is None:
            return finding
        if core.bound is not None:
            enough = task.start + core.bound
            finding.here = [
                f"it starts at {task.start} and takes at most {core.bound} cycles: `cycles` = {enough} is enough."
            ]
        elif task.lang == "asm":
            self.add_warnings(finding, job, task)
        return finding

    def add_warnings(self, finding: Finding, job: Job, task: Task, near: Place | None = None) -> None:
        """What `tools/lint` finds in the task's text: the first is taken as the place, where none is known.

        Where the task was stopped near a place, what is nearest to it comes first.
        """
        found = [(place, one.text) for one in lint(task) if (place := place_of(job, task, one)) is not None]
        if near is not None:
            line = near.line
            found.sort(key=lambda pair: abs(pair[0].line - line))
        for place, text in found[:MOST_WARNINGS]:
            if not finding.here and (finding.place is None or finding.place == self.task_place(job, task)):
                finding.place, finding.here = place, [sentence(text)]
            elif finding.place == place:
                finding.here.append(sentence(text))
            else:
                finding.there.append((place, sentence(text)))

    def of_trap(self, core: Core) -> Finding:
        job = self.job()
        task = job.task_of(core.number)
        if task is None:
            raise BadInput(f"{self.path} has no task on core {core.number}: is this report that of the job?")
        finding = Finding(core.line, entry_of(self.entries, "run", f"trap {core.trap}"), self.task_place(job, task))
        if job.cores == 1:
            place, note = self.stopped_bundle(job, task)
        else:
            place, note = self.stopped_alone(job, task, core)
        if note.startswith(AFTER_LAST):
            self.add_warnings(finding, job, task, place)
        else:
            finding.place = place or finding.place
            self.add_warnings(finding, job, task)
        if not finding.here:
            finding.place = place or finding.place
        finding.notes = [note] if note and (finding.place == place or not finding.here) else []
        return finding

    def stopped_bundle(self, job: Job, task: Task) -> tuple[Place | None, str]:
        """The place of the bundle that was stopped: the one that follows the last step of `pipe`."""
        if self.asked.written is not None and (self.asked.pipe is None or self.asked.asm is None):
            return None, "Which bundle it was, the steps of `pipe` and the words of `asm` tell."
        traced = job.with_values({(None, "trace"): str(MOST_TRACE)})
        pipe = written(self.asked.program, "pipe", traced, self.asked.pipe).text
        listing = written(self.asked.program, "asm", job.data, self.asked.asm).text
        return self.last_bundle(job, task, pipe, read_listing(listing).get(task.core))

    def last_bundle(self, job: Job, task: Task, pipe: str, words: list[int] | None) -> tuple[Place | None, str]:
        """The bundle behind the last step."""
        steps = read_report(pipe).steps
        if len(steps) == MOST_TRACE or words is None:
            return None, "It comes after the steps that `pipe` lists."
        code = assembly.code_of(task.source, words)
        row = code.bundle_at(steps[-1].decode or 0) if steps else code.bundle_at(1)
        note = ""
        if row is None and steps:
            row, note = code.bundle_at(steps[-1].execute or 0), AFTER_LAST
        return (None if row is None else self.source_place(job, task, row.statement.at)), note

    def stopped_alone(self, job: Job, task: Task, core: Core) -> tuple[Place | None, str]:
        """The bundle at which the task is stopped as the only one of a platform, if it is by the same trap there."""
        unknown = "Which bundle it was, `pipe` tells of a job with one core alone."
        if self.asked.written is not None:
            return None, unknown
        alone = alone_job(job, task)
        pipe = run_program(self.asked.program, "pipe", alone)
        listing = run_program(self.asked.program, "asm", alone)
        if pipe.refusal is not None or listing.refusal is not None:
            return None, unknown
        if [one.trap for one in read_report(pipe.text).cores] != [core.trap]:
            return None, unknown
        place, note = self.last_bundle(job, task, pipe.text, read_listing(listing.text).get(0))
        told = "So it is on a platform of one core, where this task is stopped by the same trap."
        return place, f"{note} {told}".strip() if place is not None else unknown


def alone_job(job: Job, task: Task) -> bytes:
    """The task as the only one of a platform with one core, with all steps listed."""
    words = ", ".join(str(word) for word in task.input)
    return (
        f"version = 1\ncores = 1\nslot = {job.slot}\ncycles = {job.keys['cycles']}\ntrace ="
        f' {MOST_TRACE}\n[[task]]\ncore = 0\nlang = "{task.lang}"\nsource = {toml_string(task.source)}\ninput ='
        f" [{words}]\n"
    ).encode()


def is_same(one: Finding, other: Finding) -> bool:
    """The same fault at the same place: a mended text that brings no more."""
    return one.entry is other.entry and one.place == other.place and one.here == other.here


def sentence(text: str) -> str:
    """A text with its full stop."""
    return text if text.endswith((".", "?", "!")) else text + "."


def task_table(root: Node, number: int) -> Node | None:
    """Where a task stands."""
    tasks = root.members.get("task") if root.members else None
    items = tasks.node.items if tasks else None
    return items[number] if items and number < len(items) else None


def shown(path: str, finding: Finding) -> str:
    """A finding as it is printed: what to write here first, and the cause in general where that is not known."""
    place = finding.place
    where = path if place is None else f"{path}:{place.line}:{place.column}"
    lines = [f"{where}: {finding.line}" + (", once what stands above is mended" if finding.later else "")]
    if place is not None:
        lines += ["    " + line for line in place.caret().split("\n")]
    for hint in finding.here:
        lines += paragraph("here:   ", hint)
    for other, text in finding.there:
        lines += paragraph("there:  ", f"{path}:{other.line}:{other.column}: {text}")
    for note in finding.notes:
        lines += paragraph("", note)
    if not finding.here:
        lines += paragraph("cause:  ", finding.entry.cause) + paragraph("remedy: ", finding.entry.remedy)
    return "\n".join(lines) + "\n"


def paragraph(name: str, text: str) -> list[str]:
    """A text in lines of at most 100 columns, behind a name."""
    if not text:
        return []
    return textwrap.wrap(
        text,
        100,
        initial_indent=name,
        subsequent_indent=" " * len(name),
        break_long_words=False,
        break_on_hyphens=False,
    )
