"""What the program writes, line by line."""

from __future__ import annotations

import re
from dataclasses import dataclass, field

from .cli import BadInput

PLATFORM = re.compile(r"platform cores (\d+) slot (\d+) period (\d+)")
OUTCOME = re.compile(
    r"core (\d+) (?:(idle)|(limit)|done (-?\d+) cycles (\d+)|trap (\d+) at (\d+))(?: bound (\d+))?( alone)?( overrun)?"
)
OUT = re.compile(r"core (\d+) out (\d+) (-?\d+)")
DROPPED = re.compile(r"core (\d+) dropped (\d+)")
ACCESS = re.compile(r"core (\d+) access (\d+) (read|write) (\d+)")
STEP = re.compile(r"step (\d+) F (\d+|-) D (\d+|-) E (\d+|-) M (\d+|-) W (\d+|-)")
WORDS = re.compile(r"core (\d+) words (\d+)")
WORD = re.compile(r"[0-9a-f]{8}")
BOUND = re.compile(r"core (\d+) bound (\d+)(?: persist (\d+))?")


@dataclass(frozen=True)
class Access:
    """A transaction with main memory: the cycle at which its data moved, its kind, and its words."""

    cycle: int
    kind: str
    words: int


@dataclass
class Core:
    """What a report tells of a core."""

    line: str
    number: int
    ended: str
    value: int | None = None
    cycles: int | None = None
    trap: int | None = None
    at: int | None = None
    bound: int | None = None
    alone: bool = False
    overrun: bool = False
    out: list[int] = field(default_factory=list)
    dropped: int = 0
    accesses: list[Access] = field(default_factory=list)


@dataclass(frozen=True)
class Step:
    """A bundle that is done, and the place that each stage then holds; none where it holds nothing."""

    cycle: int
    fetch: int | None
    decode: int | None
    execute: int | None
    memory: int | None
    write: int | None


@dataclass
class Report:
    """A report of `run` or of `pipe`."""

    slot: int
    period: int
    cores: list[Core] = field(default_factory=list)
    steps: list[Step] = field(default_factory=list)


def bad_line(kind: str, number: int, line: str) -> BadInput:
    return BadInput(f"line {number} of {kind} is none that the program writes: {line}")


def stage(text: str) -> int | None:
    return None if text == "-" else int(text)


def number_or_none(text: str | None) -> int | None:
    return None if text is None else int(text)


def core_of(found: re.Match[str]) -> Core:
    """The core of a line on what became of a task."""
    number, idle, limit, value, cycles, trap, at, bound, alone, overrun = found.groups()
    return Core(
        found.group(0),
        int(number),
        idle or limit or ("trap" if trap else "done"),
        number_or_none(value),
        number_or_none(cycles),
        number_or_none(trap),
        number_or_none(at),
        number_or_none(bound),
        bool(alone),
        bool(overrun),
    )


def read_report(text: str) -> Report:
    """The report of `run`, or what `pipe` writes."""
    lines = text.splitlines()
    found = PLATFORM.fullmatch(lines[0]) if lines else None
    if found is None:
        raise bad_line("the report", 1, lines[0] if lines else "")
    report = Report(int(found.group(2)), int(found.group(3)))
    for number, line in enumerate(lines[1:], 2):
        if found := STEP.fullmatch(line):
            report.steps.append(Step(int(found.group(1)), *(stage(text) for text in found.groups()[1:])))
        elif found := OUTCOME.fullmatch(line):
            report.cores.append(core_of(found))
        elif not (report.cores and takes_detail(report.cores[-1], line)):
            raise bad_line("the report", number, line)
    return report


def takes_detail(core: Core, line: str) -> bool:
    """Takes a line that tells more of the core whose lines come now."""
    found = OUT.fullmatch(line) or DROPPED.fullmatch(line) or ACCESS.fullmatch(line)
    if found is None or int(found.group(1)) != core.number:
        return False
    if found.re is OUT:
        core.out.append(int(found.group(3)))
    elif found.re is DROPPED:
        core.dropped = int(found.group(2))
    else:
        core.accesses.append(Access(int(found.group(2)), found.group(3), int(found.group(4))))
    return True


def read_listing(text: str) -> dict[int, list[int]]:
    """The words of each core's code, as `asm` writes them."""
    listing: dict[int, list[int]] = {}
    words: list[int] = []
    wanted = 0
    for number, line in enumerate(text.splitlines(), 1):
        if wanted == len(words) and (found := WORDS.fullmatch(line)):
            words, wanted = [], int(found.group(2))
            listing[int(found.group(1))] = words
        elif wanted > len(words) and WORD.fullmatch(line):
            words.append(int(line, 16))
        else:
            raise bad_line("the listing", number, line)
    if wanted > len(words):
        raise BadInput(f"the listing ends {wanted - len(words)} words too early")
    return listing


def read_bounds(text: str) -> dict[int, tuple[int, int | None]]:
    """The bound of each core's C task, and what `persist` tells, where it is there."""
    bounds = {}
    for number, line in enumerate(text.splitlines(), 1):
        if number == 1 and PLATFORM.fullmatch(line):
            continue
        found = BOUND.fullmatch(line)
        if found is None:
            raise bad_line("the bounds", number, line)
        bounds[int(found.group(1))] = (int(found.group(2)), None if found.group(3) is None else int(found.group(3)))
    return bounds
