"""What the rows of an assembly task's code take: a bundle with the cycles that it waits, a function its fetches."""

from __future__ import annotations

from dataclasses import dataclass, field

from .assembly import Code
from .events import Bundle, Cause, Event, Sequence
from .replay import Replayed


@dataclass
class RowCost:
    """The cycles of a row, how often its bundle is done, its transactions, and the words that they move."""

    cycles: int = 0
    bundles: int = 0
    transactions: int = 0
    words: int = 0

    @property
    def stalls(self) -> int:
        """The cycles in which the core waits: a bundle takes one."""
        return self.cycles - self.bundles

    def add(self, event: Event, cycles: int) -> None:
        """Counts a bundle or a transaction, with the cycles up to its end."""
        self.cycles += cycles
        if isinstance(event, Bundle):
            self.bundles += 1
        else:
            self.transactions += 1
            self.words += event.words


@dataclass(frozen=True)
class Mark:
    """From this cycle on a core is in a part of its text: a row of its code, or one of its functions and loops."""

    cycle: int
    part: int


@dataclass
class RowCosts:
    """The costs of the rows that took anything, by their numbers, and in which row the core is from cycle to cycle."""

    costs: dict[int, RowCost] = field(default_factory=dict)
    marks: list[Mark] = field(default_factory=list)

    def add(self, row: int, event: Event, begin: int, end: int) -> None:
        """Counts what an event of a row takes, from one cycle up to before another."""
        self.costs.setdefault(row, RowCost()).add(event, end - begin)
        if not self.marks or self.marks[-1].part != row:
            self.marks.append(Mark(begin, row))


def rows_of(code: Code, sequence: Sequence) -> list[int]:
    """For each event its row: a bundle's own, for data that of the bundle before, for a fetch the function's."""
    bundles = {row.place: number for number, row in enumerate(code.rows) if row.statement.kind == "bundle"}
    functions = {row.function: number for number, row in enumerate(code.rows) if row.offset is None}
    places = sequence.places
    rows: list[int] = []
    done = 0
    for event in sequence.events:
        if isinstance(event, Bundle):
            rows.append(bundles[event.place])
            done += 1
        elif event.cause is Cause.FETCH:
            coming = bundles[places[min(done, len(places) - 1)]]
            rows.append(functions[code.rows[coming].function])
        else:
            rows.append(bundles[places[max(done - 1, 0)]])
    return rows


def row_costs(code: Code, sequence: Sequence, replayed: Replayed) -> RowCosts:
    """The cycles of a replayed task, shared out among the rows of its code."""
    found = RowCosts()
    before = replayed.start
    for row, event, free in zip(rows_of(code, sequence), sequence.events, replayed.frees, strict=True):
        found.add(row, event, before, free)
        before = free
    return found
