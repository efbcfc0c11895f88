"""Whether an assembly task does the same bundles and transactions whatever it reads of words that others may write.

Registers are followed through the text, in no order: what a load brings may be another word beside other tasks, and so
may what is worked out from it. The task is steady where no such word decides a predicate, an address or a return.
"""

from __future__ import annotations

import re

from .assembly import Instruction, instructions_of, statements_of
from .job import Job, Task
from .linting import LOAD, STORE, read, registers, written_by

COMPARE = re.compile(r"cmp\w+|btesti?")
PRODUCT = ("mul", "mulu")
SHARED_LOAD = re.compile(r"l(w|hu?|bu?)[lcm]")
STACK_LOAD = re.compile(r"l(w|hu?|bu?)s")
STACK_STORE = re.compile(r"s(w|h|b)s")
HALVES = ("sl", "sh")


class Taint:
    """The registers that may hold another word beside other tasks; 32 stands for a product, 33 for the stack."""

    PRODUCT, STACK = 32, 33

    def __init__(self, parts: list[Instruction]) -> None:
        self.parts = parts
        self.marked: set[int] = set()
        before = -1
        while before != len(self.marked):
            before = len(self.marked)
            for part in parts:
                self.spread(part)

    def spread(self, part: Instruction) -> None:
        """Marks what an instruction sets, where it is worked out from what is marked."""
        comes = bool(SHARED_LOAD.fullmatch(part.mnemonic)) or self.takes_marked(part)
        if not comes:
            return
        if part.mnemonic in PRODUCT:
            self.marked.add(self.PRODUCT)
        elif STACK_STORE.fullmatch(part.mnemonic):
            self.marked.add(self.STACK)
        elif part.mnemonic == "mts" and part.operands.split("=")[0].strip() in HALVES:
            self.marked.add(self.PRODUCT)
        else:
            self.marked |= written_by(part) - {0}

    def takes_marked(self, part: Instruction) -> bool:
        """The instruction reads something that is marked."""
        if STACK_LOAD.fullmatch(part.mnemonic) and self.STACK in self.marked:
            return True
        if part.mnemonic == "mfs":
            return part.operands.partition("=")[2].strip() in HALVES and self.PRODUCT in self.marked
        return bool(read(part) & self.marked)

    def decides(self, part: Instruction) -> bool:
        """The instruction makes of a marked word a predicate, an address or a place to return to."""
        left, _, right = part.operands.partition("=")
        if COMPARE.fullmatch(part.mnemonic):
            return bool(registers(right) & self.marked)
        if LOAD.fullmatch(part.mnemonic):
            return bool(registers(right) & self.marked)
        if STORE.fullmatch(part.mnemonic):
            return bool(registers(left) & self.marked)
        return part.mnemonic == "mts" and left.strip() not in HALVES and bool(registers(right) & self.marked)


def is_steady(source: bytes) -> bool:
    """The task does the same whatever comes from memory that others may write."""
    bundles = [one for one in statements_of(source) if one.kind == "bundle"]
    parts = [part for one in bundles for part in instructions_of(one)]
    taint = Taint(parts)
    return not any(taint.decides(part) for part in parts)


def is_apart(job: Job, task: Task) -> bool:
    """No other task of the job can change which bundles and transactions this assembly task does."""
    return len(job.tasks) == 1 or is_steady(task.source)
