"""What an assembly task does in order beside other tasks, and the transfers that it starts.

As for C, the order is taken from the task alone on one core. There the registers of the network can't be accessed, so
the stores to them are left out of the text: each takes one cycle and moves no word of main memory, as `nop` does.
"""

from __future__ import annotations

import re
from dataclasses import dataclass, replace

from .assembly import Code, Instruction, Row, code_of, instructions_of, statements_of
from .events import Bundle, NoSequence, Sequence
from .job import Job, Task
from .known_registers import KnownRegisters, offset_of
from .linting import STORE
from .packets import Start, Transfers, transfers_of
from .program import run_program
from .recording import alone_job, assembly_layout, events_of, place_of
from .replay import Replayed, difference, replay
from .report import Core, Report, Step, read_report
from .sends import targets
from .sequence import sequence_of
from .steady import is_apart

INTERFACE = 0x20000
BYTES_OF_TARGET = 16
SOURCE, TARGET, COUNT = 0, 4, 8
INTERFACE_TRAP = 6
MOST_STORES = 64
LOCAL_STORE = re.compile(r"s(w|h|b)l")


def may_send(task: Task) -> bool:
    """The text of a task has a `send`, or in assembly a store that may reach the registers of the network."""
    if task.lang == "c":
        return bool(targets(task))
    bundles = [one for one in statements_of(task.source) if one.kind == "bundle"]
    return any(LOCAL_STORE.fullmatch(part.mnemonic) for one in bundles for part in instructions_of(one))


@dataclass(frozen=True)
class AssemblyRun:
    """An assembly task in time: its code, its sequence, the replay that the report agrees with, and its packets.

    `unknown` says why its packets are not known, where it sends and they are not; and `listed` up to where the run is
    listed, where that is not all of it.
    """

    code: Code
    sequence: Sequence
    replayed: Replayed
    transfers: Transfers
    unknown: str = ""
    listed: str = ""


def stopped_at(report: Report, code: Code) -> Row | None:
    """The bundle that a trap of the interface stopped: the one behind the last step of `pipe`."""
    if report.cores[0].trap != INTERFACE_TRAP:
        return None
    return code.bundle_at(report.steps[-1].decode or 0) if report.steps else code.bundle_at(1)


def without_store(text: str) -> str:
    """A bundle with `nop` in place of the store in its first slot."""
    return "{ nop ;" + text.partition(";")[2] if text.startswith("{") else "nop"


def silent(task: Task, stores: set[int]) -> Task:
    """The task with `nop` in place of these stores, by the numbers of their statements."""
    source = task.source
    statements = statements_of(source)
    for number in sorted(stores, reverse=True):
        one = statements[number]
        source = source[: one.at] + without_store(one.text).encode() + source[one.end :]
    return replace(task, source=source)


def silenced(task: Task, code: Code, program: str | None) -> tuple[Task, set[int]]:
    """The task without its stores to the network, and the numbers of the statements that had one."""
    stores: set[int] = set()
    while len(stores) <= MOST_STORES:
        made = silent(task, stores)
        row = stopped_at(read_report(run_program(program, "pipe", alone_job(made)).text), code)
        if row is None:
            return made, stores
        if not STORE.fullmatch(instructions_of(row.statement)[0].mnemonic):
            raise NoSequence("it loads how many words the network has not sent yet, which depends on the time")
        stores.add(code.rows.index(row))
    raise NoSequence(f"it has more than {MOST_STORES} stores to the network")


def assembly_run(job: Job, task: Task, core: Core, words: list[int], program: str | None) -> AssemblyRun:
    """What an assembly task does in time. `NoSequence` where that can't be had."""
    if core.ended != "done":
        raise NoSequence("it has not ended by itself")
    if not is_apart(job, task):
        raise NoSequence("what it does may depend on words that other cores set")
    code = code_of(task.source, words)
    made, stores = silenced(task, code, program)
    sequence = sequence_of(made, program)
    replayed = replay(sequence, job.slot, job.table, task.core, task.start)
    if (found := difference(replayed, core)) is not None:
        raise NoSequence(f"alone it does something else: {found}")
    limit = int(job.keys["cycles"])
    try:
        starts = StartReader(code, stores).starts(sequence, replayed)
    except NotKnown as reason:
        return AssemblyRun(code, sequence, replayed, Transfers([], 0), str(reason))
    transfers = transfers_of(job.cores, task.core, starts, limit)
    if transfers.dropped != core.dropped:
        differs = f"{transfers.dropped} starts are dropped as they are replayed, and {core.dropped} are reported"
        return AssemblyRun(code, sequence, replayed, Transfers([], 0), differs)
    return AssemblyRun(code, sequence, replayed, transfers)


def is_cut(core: Core, steps: list[Step], most: int) -> bool:
    """There are more bundles than steps: so many are listed at most, or behind the last one another is decoded."""
    return len(steps) == most or (core.ended == "done" and steps[-1].decode is not None)


def only_run(task: Task, core: Core, steps: list[Step], words: list[int], most: int, slot: int) -> AssemblyRun:
    """What the only core of a job does, by its own steps and transactions: also where it is stopped or has not ended.

    At most `most` steps and transactions are listed. `NoSequence` where it can't be had.
    """
    accesses, listed = core.accesses, ""
    if not steps:
        raise NoSequence("it does no bundle")
    if len(accesses) == most and accesses[-1].cycle < steps[-1].cycle:
        raise NoSequence(f"only its first {most:,} transactions are listed")
    if is_cut(core, steps, most):
        accesses = [access for access in accesses if access.cycle < steps[-1].cycle]
        listed = f"only its first {len(steps):,} bundles are listed, up to cycle {steps[-1].cycle:,}"
    code = code_of(task.source, words)
    layout = assembly_layout(code, [place_of(step) for step in steps])
    sequence = Sequence(events_of(steps, accesses, layout), layout.functions, layout.sizes, core.value or 0)
    replayed = replay(sequence, slot, [0], 0, task.start)
    if replayed.accesses != accesses:
        raise NoSequence("its bundles and transactions do not follow one another as the machine does them")
    return AssemblyRun(code, sequence, replayed, Transfers([], 0), listed=listed)


class NotKnown(Exception):
    """Why the packets of a task are not known."""


class StartReader:
    """Reads the starts of transfers from the bundles that a task does."""

    def __init__(self, code: Code, stores: set[int]) -> None:
        self.rows = {row.place: row for row in code.rows if row.statement.kind == "bundle"}
        self.stores = {code.rows[number].place for number in stores}
        self.registers = KnownRegisters()
        self.words: dict[tuple[int, int], int | None] = {}

    def starts(self, sequence: Sequence, replayed: Replayed) -> list[Start]:
        found = []
        for event, cycle in zip(sequence.events, replayed.cycles, strict=True):
            if not isinstance(event, Bundle):
                continue
            parts = instructions_of(self.rows[event.place].statement)
            if event.place in self.stores and (start := self.store(parts[0], cycle)) is not None:
                found.append(start)
            self.registers.do(parts)
        return found

    def store(self, part: Instruction, cycle: int) -> Start | None:
        """What a store to the network does: a word is set, or a transfer starts. Elsewhere it does neither."""
        done = self.registers.guard(part)
        if done is False:
            return None
        base = self.registers.base(part.operands)
        if done is None or base is None:
            raise NotKnown("which register of the network it sets depends on words of its memory")
        address = base + 4 * offset_of(part.operands)
        if address < INTERFACE:
            return None
        target, register = divmod(address - INTERFACE, BYTES_OF_TARGET)
        value = self.registers.word(part.operands.partition("=")[2])
        if register != COUNT:
            self.words[target, register] = value
            return None
        ends = (self.words.get((target, SOURCE), 0), self.words.get((target, TARGET), 0))
        if value is None or ends[0] is None or ends[1] is None:
            raise NotKnown("which words it sends, and how many, depends on words of its memory")
        return Start(cycle, target, ends[0], ends[1], value)
