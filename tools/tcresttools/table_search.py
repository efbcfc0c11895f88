"""Slot tables that keep deadlines: all of them up to a size, and behind that a local search."""

from __future__ import annotations

import random
from collections.abc import Callable, Iterator
from dataclasses import dataclass, field, replace
from itertools import combinations, product
from math import comb

from .slot_tables import distances, least_turn

# A length of the table is searched whole where it has no more tables than this.
MOST_WHOLE = 20_000
# For a longer table: how many random tables are improved beside the spread one.
RESTARTS = 8
SEED = 1

# The cycles of a core's task, from the length of a slot and the distances between the core's slots.
Meter = Callable[[int, int, tuple[int, ...]], int]
Table = tuple[int, ...]


@dataclass(frozen=True)
class Demand:
    """What a table is for: the deadline of each core that has one, and the other cores, which own one slot each."""

    deadlines: dict[int, int]
    others: list[int]

    @property
    def owners(self) -> list[int]:
        return sorted(self.deadlines)

    @property
    def least_length(self) -> int:
        return len(self.deadlines) + len(self.others)


@dataclass(frozen=True)
class Candidate:
    """A slot table with slots of one length, and the cycles of each core that has a deadline."""

    slot: int
    table: Table
    cycles: dict[int, int]
    deadlines: dict[int, int]

    def slack(self, core: int) -> int:
        """How many cycles are left; less than 0 where the deadline is missed."""
        return self.deadlines[core] - self.cycles[core]

    @property
    def keeps_all(self) -> bool:
        return all(self.slack(core) >= 0 for core in self.deadlines)

    @property
    def score(self) -> tuple[float, ...]:
        """The slack of each core as a part of its deadline, the least first: the greater score is the better one."""
        return tuple(sorted(self.slack(core) / deadline for core, deadline in self.deadlines.items()))


@dataclass
class Found:
    """What a search gives: candidates, the best first; how many tables it looked at; and of which lengths all."""

    candidates: list[Candidate] = field(default_factory=list)
    tables: int = 0
    whole: list[int] = field(default_factory=list)
    partly: list[int] = field(default_factory=list)


def table_count(demand: Demand, length: int) -> int:
    """How many tables of a length `whole_tables` gives, at most."""
    others, owners = len(demand.others), len(demand.deadlines)
    if others == 0:
        return int(owners ** (length - 1))
    return int(owners ** (length - others)) * comb(length - 1, others - 1)


def whole_tables(demand: Demand, length: int) -> Iterator[Table]:
    """Each table of a length, turned so that a fixed core comes last; each other core has one slot, in their order."""
    last, others = (demand.others[0], demand.others[1:]) if demand.others else (demand.owners[0], [])
    for places in combinations(range(length - 1), len(others)):
        for owners in product(demand.owners, repeat=length - 1 - len(others)):
            table = list(owners)
            for place, other in zip(places, others, strict=True):
                table.insert(place, other)
            if set(demand.owners) <= {last, *owners}:
                yield (*table, last)


class Search:
    """Looks for the tables with the best score."""

    def __init__(self, demand: Demand, slots: list[int], meter: Meter) -> None:
        self.demand = demand
        self.slots = slots
        self.meter = meter
        self.told: dict[tuple[int, int, tuple[int, ...]], int] = {}
        self.best: dict[tuple[int, tuple[int, ...]], Candidate] = {}
        self.found = Found()

    def cycles(self, core: int, slot: int, apart: tuple[int, ...]) -> int:
        """The cycles of a core's task; the same for distances that are turned."""
        key = core, slot, least_turn(apart)
        if key not in self.told:
            self.told[key] = self.meter(*key)
        return self.told[key]

    def candidate(self, slot: int, table: Table) -> Candidate:
        cycles = {core: self.cycles(core, slot, distances(table, core)) for core in self.demand.owners}
        return Candidate(slot, table, cycles, self.demand.deadlines)

    def look_at(self, slot: int, table: Table) -> Candidate:
        """Looks at a table. Of those that give all cores the same cycles the first is kept."""
        found = self.candidate(slot, table)
        self.best.setdefault((slot, tuple(found.cycles.values())), found)
        self.found.tables += 1
        return found

    def run(self, most_length: int) -> Found:
        """Looks at the tables of each length."""
        for length in range(self.demand.least_length, most_length + 1):
            is_whole = table_count(self.demand, length) <= MOST_WHOLE
            (self.found.whole if is_whole else self.found.partly).append(length)
            search = self.look_at_all if is_whole else self.improve_some
            for slot in self.slots:
                search(slot, length)
        turned = [replace(one, table=least_turn(one.table)) for one in self.best.values()]
        self.found.candidates = sorted(
            turned, key=lambda one: ([-part for part in one.score], one.slot, len(one.table), one.table)
        )
        return self.found

    def look_at_all(self, slot: int, length: int) -> None:
        for table in whole_tables(self.demand, length):
            self.look_at(slot, table)

    def improve_some(self, slot: int, length: int) -> None:
        """The local search: improves the table that is spread by what the cores need, and some that are not."""
        draws = random.Random(SEED)
        table = self.spread(slot, length)
        self.improve(slot, table)
        for _ in range(RESTARTS):
            turned = list(table)
            draws.shuffle(turned)
            self.improve(slot, tuple(turned))

    def spread(self, slot: int, length: int) -> Table:
        """A table that gives each next slot to the core with the least slack, as if each core's slots were even."""
        counts = {core: 1 for core in self.demand.owners}
        for _ in range(length - self.demand.least_length):
            needy = min(counts, key=lambda core: self.even_slack(core, slot, length, counts[core]))
            counts[needy] += 1
        at = [(number / counts[core], core) for core in counts for number in range(counts[core])]
        at += [((number + 0.5) / len(self.demand.others), core) for number, core in enumerate(self.demand.others)]
        return tuple(core for _, core in sorted(at))

    def even_slack(self, core: int, slot: int, length: int, count: int) -> float:
        """The part of its deadline that a core has left with so many slots, as even as they can be."""
        ends = [length * (number + 1) // count for number in range(count)]
        apart = tuple(end - begin for begin, end in zip([0, *ends], ends, strict=False))
        deadline = self.demand.deadlines[core]
        return (deadline - self.cycles(core, slot, apart)) / deadline

    def improve(self, slot: int, table: Table) -> None:
        """Takes the first better one of the tables beside it, as long as there is one."""
        now = self.look_at(slot, table)
        while True:
            better = next((one for one in self.beside(now) if one.score > now.score), None)
            if better is None:
                return
            now = better

    def beside(self, now: Candidate) -> Iterator[Candidate]:
        """The tables in which one slot has another owner, or two slots are exchanged."""
        for table in changed(now.table, self.demand.owners):
            if set(self.demand.owners) <= set(table):
                yield self.look_at(now.slot, table)


def changed(table: Table, owners: list[int]) -> Iterator[Table]:
    """The tables beside a table: only slots of `owners` get another owner."""
    for number, owner in enumerate(table):
        if owner in owners:
            for other in owners:
                if other != owner:
                    yield table[:number] + (other,) + table[number + 1 :]
    for first, second in combinations(range(len(table)), 2):
        if table[first] != table[second]:
            swapped = list(table)
            swapped[first], swapped[second] = swapped[second], swapped[first]
            yield tuple(swapped)
