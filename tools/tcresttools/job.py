"""A job: its keys, its tasks, and where each stands in the file."""

from __future__ import annotations

import re
from dataclasses import dataclass, field
from typing import Any

from .cli import BadInput, read_file
from .places import BYTE_ORDER_MARK, Member, Node, NoPlaces, Place, place_at, read_places

try:
    import tomllib
except ImportError:  # an older Python: `run_tool` says so
    tomllib = None  # type: ignore[assignment]

MOST_TRACE = 65_536
MOST_CYCLES = 20_000_000


class NoToml(Exception):
    """Python's reader of TOML refuses the text: what it says, and the place where it says it."""

    def __init__(self, message: str, place: Place | None) -> None:
        super().__init__(message)
        self.message = message
        self.place = place


@dataclass(frozen=True)
class Task:
    """A task, and the text of its source as the program reads it, byte by byte."""

    number: int
    core: int
    lang: str
    source: bytes
    input: list[int]
    start: int


@dataclass(frozen=True)
class Job:
    """A job as it stands in a file. `places` is none where its places can't be read."""

    path: str
    data: bytes
    keys: dict[str, Any]
    places: Node | None
    tasks: list[Task] = field(default_factory=list)

    def task_of(self, core: int) -> Task | None:
        """The task of a core."""
        return next((task for task in self.tasks if task.core == core), None)

    @property
    def cores(self) -> int:
        return int(self.keys["cores"])

    @property
    def slot(self) -> int:
        return int(self.keys["slot"])

    @property
    def trace(self) -> int:
        return int(self.keys.get("trace", 0))

    @property
    def table(self) -> list[int]:
        """Whose the slots are, in order; in version 1 the cores take them in turn."""
        return self.keys.get("table") or list(range(self.cores))

    def place(self, offset: int) -> Place:
        """The place of a byte of the file."""
        return place_at(self.data, offset)

    def task_node(self, number: int) -> Node | None:
        """Where task number `number` stands."""
        tasks = self.places.members.get("task") if self.places and self.places.members else None
        if tasks is None or tasks.node.items is None or number >= len(tasks.node.items):
            return None
        return tasks.node.items[number]

    def member(self, key: str, task: int | None = None) -> Member | None:
        """Where a key of the job, or of a task, stands with its value."""
        table = self.places if task is None else self.task_node(task)
        return table.members.get(key) if table and table.members else None

    def source_place(self, task: Task, offset: int) -> Place | None:
        """Where byte number `offset` of a task's source stands; behind its last byte the string ends."""
        member = self.member("source", task.number)
        if member is None or member.node.string != task.source or offset >= len(member.node.bytes_at):
            return None
        return self.place(member.node.bytes_at[offset])

    def named(self, place: Place | None) -> str:
        """`FILE:LINE:COLUMN`, as editors read it."""
        return self.path if place is None else f"{self.path}:{place.line}:{place.column}"

    def with_values(self, values: dict[tuple[int | None, str], str]) -> bytes:
        """The text of the job with other values: for each task number (none at the top) and key, as TOML writes it.

        A key that is not there is put in front of the job, or behind the `core` of its task.
        """
        if self.places is None:
            raise BadInput(f"{self.path}: its keys can't be found, so no value can be put in place of another")
        changes = []
        for (task, key), value in values.items():
            member = self.member(key, task)
            if member is not None:
                changes.append((member.node.start, member.node.end, value))
            elif task is None:
                front = len(BYTE_ORDER_MARK) if self.data.startswith(BYTE_ORDER_MARK) else 0
                changes.append((front, front, f"{key} = {value}\n"))
            else:
                changes.append(self.behind_core(task, key, value))
        text = self.data
        for start, end, value in sorted(changes, reverse=True):
            text = text[:start] + value.encode() + text[end:]
        return text

    def traced(self, most: int | None) -> bytes:
        """The text of the job, with another `trace` where one is given."""
        if most is None:
            return self.data
        if not 0 <= most <= MOST_TRACE:
            raise BadInput(f"--trace takes a number from 0 to {MOST_TRACE}")
        return self.with_values({(None, "trace"): str(most)})

    def behind_core(self, task: int, key: str, value: str) -> tuple[int, int, str]:
        """A change that puts a key behind the key `core` of a task."""
        core = self.member("core", task)
        node = self.task_node(task)
        if core is None or node is None:
            raise BadInput(f"{self.path}: there is no task {task}")
        inline = self.data[node.start : node.start + 1] == b"{"
        return core.node.end, core.node.end, f", {key} = {value}" if inline else f"\n{key} = {value}"


def toml_string(text: bytes) -> str:
    """A text as TOML writes it on one line, in double quotes."""
    shown = text.decode("utf-8", "replace")
    return '"' + "".join(f"\\u{ord(c):04X}" if c in '"\\' or ord(c) < 32 or ord(c) == 127 else c for c in shown) + '"'


def toml_values(data: bytes) -> dict[str, Any]:
    """What Python's reader makes of a text of TOML. A byte order mark counts for nothing, as for the program."""
    body = data[len(BYTE_ORDER_MARK) :] if data.startswith(BYTE_ORDER_MARK) else data
    try:
        return tomllib.loads(body.decode("utf-8"))
    except UnicodeDecodeError as error:
        raise NoToml("the bytes here are no UTF-8", place_at(data, len(data) - len(body) + error.start)) from None
    except RecursionError:
        raise NoToml("the values are too deep", None) from None
    except tomllib.TOMLDecodeError as error:
        raise NoToml(*split_message(data, str(error))) from None


def split_message(data: bytes, text: str) -> tuple[str, Place | None]:
    """What Python's reader says of a text, and the place that it tells in words."""
    found = re.search(r" \(at (?:line (\d+), column (\d+)|end of document)\)$", text)
    if found is None:
        return text, None
    if found.group(1) is None:
        return text[: found.start()], place_at(data, len(data))
    line, column = int(found.group(1)), int(found.group(2))
    lines = data.removeprefix(BYTE_ORDER_MARK).split(b"\n")
    return text[: found.start()], Place(line, column, lines[line - 1].rstrip(b"\r").decode("utf-8", "replace"))


def places_of(data: bytes) -> Node | None:
    """The places of a file's keys and values, where they can be read."""
    try:
        return read_places(data)
    except NoPlaces:
        return None


def read_job(path: str) -> Job:
    """The job in a file; `BadInput` where it is none that a tool can read."""
    data = read_file(path)
    try:
        return job_of(path, data, toml_values(data))
    except NoToml as error:
        where = path if error.place is None else f"{path}:{error.place.line}:{error.place.column}"
        raise BadInput(f"{where}: this is no TOML: {error.message}") from None


def job_of(path: str, data: bytes, keys: dict[str, Any]) -> Job:
    """The job of these keys."""
    for key in ("cores", "slot", "cycles"):
        if type(keys.get(key)) is not int:
            raise BadInput(f"{path}: `{key}` is no number; tools/explain says what the program thinks of this job")
    places = places_of(data)
    job = Job(path, data, keys, places)
    tables = keys.get("task", [])
    if not isinstance(tables, list) or not all(isinstance(table, dict) for table in tables):
        raise BadInput(f"{path}: `task` is no list of tables: write [[task]] for each")
    job.tasks.extend(task_of(job, number, table) for number, table in enumerate(tables))
    return job


def task_of(job: Job, number: int, table: dict[str, Any]) -> Task:
    """The task of these keys."""
    core, lang, source = table.get("core"), table.get("lang"), table.get("source")
    if type(core) is not int or lang not in ("asm", "c") or not isinstance(source, str):
        raise BadInput(f"{job.path}: task {number} has no `core`, `lang` or `source` as a job has them")
    words = table.get("input", [])
    if not isinstance(words, list) or not all(type(word) is int for word in words):
        raise BadInput(f"{job.path}: the `input` of task {number} is no list of numbers")
    start = table.get("start", 0)
    if type(start) is not int:
        raise BadInput(f"{job.path}: the `start` of task {number} is no number")
    return Task(number, core, lang, source_bytes(job, number, source), words, start)


def source_bytes(job: Job, number: int, source: str) -> bytes:
    """The bytes of a source. Python's reader makes one byte of `\\r\\n`, and the program leaves both."""
    member = job.member("source", number)
    if member is not None and member.node.string is not None:
        found = member.node.string
        if found.replace(b"\r\n", b"\n") == source.encode().replace(b"\r\n", b"\n"):
            return found
    return source.encode()
