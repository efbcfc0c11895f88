"""The times of a task's bundles and transactions on any core: its sequence, replayed in the slots of a table.

A bundle takes one cycle. A transaction is requested in the cycle of the bundle that asks for it, or at once behind the
transaction before it, and is served in the first own slot that starts then or later. The core is free when that slot
ends (docs/MACHINE.md, "A cycle").
"""

from __future__ import annotations

from dataclasses import dataclass, field

from .cli import BadInput
from .events import Bundle, Cause, Sequence, Transaction
from .report import Access, Core


class Differs(BadInput):
    """A replay that is not what the program reports."""

    status = 1


class Slots:
    """The slots of one core: their length, and whose the slots of a period are."""

    def __init__(self, slot: int, table: list[int], core: int) -> None:
        if core not in table:
            raise BadInput(f"core {core} has no slot in the table {table}")
        self.slot = slot
        self.table = table
        self.core = core
        self.waits = [self.slots_until_own(entry) for entry in range(len(table))]

    def slots_until_own(self, entry: int) -> int:
        """How many slots after this entry of the table the next own one is; 0 where it is own itself."""
        length = len(self.table)
        return next(more for more in range(length) if self.table[(entry + more) % length] == self.core)

    @property
    def period(self) -> int:
        return self.slot * len(self.table)

    def served(self, cycle: int) -> int:
        """The start of the first own slot that starts at this cycle or later."""
        number = (cycle + self.slot - 1) // self.slot
        return (number + self.waits[number % len(self.table)]) * self.slot


@dataclass(frozen=True)
class Moved:
    """A transaction in time: requested at a cycle, served from another on, and the core is free when the slot ends."""

    event: int
    transaction: Transaction
    requested: int
    served: int
    free: int


@dataclass
class Replayed:
    """The times of a sequence: for each event its cycle and when the core is free behind it; and its transactions.

    The cycle of a bundle is the one in which it is done, and that of a transaction is when it is requested.
    """

    start: int
    cycles: list[int] = field(default_factory=list)
    frees: list[int] = field(default_factory=list)
    moves: list[Moved] = field(default_factory=list)

    @property
    def end(self) -> int:
        """The cycle at which the task has ended."""
        return self.frees[-1]

    @property
    def taken(self) -> int:
        """The cycles from the start to the end, as a report has them."""
        return self.end - self.start

    @property
    def accesses(self) -> list[Access]:
        """The transactions as a report lists them."""
        return [Access(move.served, move.transaction.kind, move.transaction.words) for move in self.moves]


def replay(sequence: Sequence, slot: int, table: list[int], core: int, start: int) -> Replayed:
    """The times of a sequence on this core, in slots of this length and table, from this start on."""
    slots = Slots(slot, table, core)
    replayed = Replayed(start)
    free, behind_bundle = start, False
    for number, event in enumerate(sequence.events):
        if isinstance(event, Bundle):
            cycle, free, behind_bundle = free, free + 1, True
        else:
            # A bundle that asks for words requests them in its own cycle.
            cycle = free - 1 if behind_bundle and event.cause is Cause.DATA else free
            served = slots.served(cycle)
            free, behind_bundle = served + slot, False
            replayed.moves.append(Moved(number, event, cycle, served, free))
        replayed.cycles.append(cycle)
        replayed.frees.append(free)
    return replayed


@dataclass(frozen=True)
class Pace:
    """What of a sequence its end depends on: the cycles of bundles before each request, and those after the last one.

    They are counted from the cycle at which the core is free.
    """

    requests: list[int]
    rest: int

    def end(self, slots: Slots, start: int) -> int:
        """The cycle at which the task ends that starts at this one."""
        free = start
        for cycles in self.requests:
            free = slots.served(free + cycles) + slots.slot
        return free + self.rest


def pace_of(sequence: Sequence) -> Pace:
    """The pace of a sequence."""
    requests: list[int] = []
    bundles = 0
    for event in sequence.events:
        if isinstance(event, Bundle):
            bundles += 1
        else:
            requests.append(bundles - 1 if bundles and event.cause is Cause.DATA else bundles)
            bundles = 0
    return Pace(requests, bundles)


def difference(replayed: Replayed, core: Core) -> str | None:
    """How a replay differs from what the program reports of the core; none where it doesn't.

    The cycles are compared, and the transactions that the report lists.
    """
    if core.ended != "done":
        return f"the program reports `{core.line}`, and not that it is done"
    if core.cycles != replayed.taken:
        return f"the replay takes {replayed.taken} cycles, and the program reports {core.cycles}"
    listed = replayed.accesses[: len(core.accesses)]
    for ours, told in zip(listed, core.accesses, strict=False):
        if ours != told:
            return f"the replay has a transaction {ours}, and the program reports {told}"
    if len(listed) < len(core.accesses):
        return f"the replay has {len(listed)} transactions, and the program lists {len(core.accesses)}"
    return None


def compared(replayed: Replayed, core: Core) -> Replayed:
    """The replay, where the program reports the same; `Differs` where it doesn't."""
    found = difference(replayed, core)
    if found is not None:
        raise Differs(f"core {core.number}: {found}: the replay is wrong, so it is not shown")
    return replayed
