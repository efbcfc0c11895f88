"""Schedules of the network: when each packet is sent, so that no two packets want one link in one slot.

A packet uses the links of its route one after another, each for one slot. All packets are sent again in every period,
so a link is taken in a slot of the period. The search begins with the shortest length that the links allow.
"""

from __future__ import annotations

import random
from dataclasses import dataclass, field

from .cli import BadInput

CYCLES_OF_SLOT = 3
MOST_SIDE = 16
LEAST_ROUTERS, MOST_ROUTERS = 2, 16
MOST_PERIOD = 4_096
MOST_ENTRIES = 4_096
SEED = 1
# How many packets are placed for one length, for each packet of the schedule, before the next length is tried.
PLACINGS = 30


@dataclass(frozen=True)
class Grid:
    """A grid of routers, one for each core."""

    columns: int
    rows: int

    @property
    def cores(self) -> int:
        return self.columns * self.rows

    def router(self, core: int) -> str:
        return f"({core % self.columns},{core // self.columns})"

    def route(self, sender: int, target: int) -> list[str]:
        """The links of a packet: along the row to the target's column, and then along that column."""
        links, at = [f"inject {sender}"], sender
        while at != target:
            apart = target % self.columns - at % self.columns
            if apart:
                ahead = at + (1 if apart > 0 else -1)
            else:
                ahead = at + (self.columns if target > at else -self.columns)
            links.append(f"{self.router(at)}>{self.router(ahead)}")
            at = ahead
        return [*links, f"eject {target}"]


@dataclass(frozen=True)
class Packet:
    """A packet of the period: its number, its sender, its target, and the links of its route."""

    number: int
    sender: int
    target: int
    route: list[str]


@dataclass
class Schedule:
    """The slot of each packet in a period of `length` slots; none where it has none yet."""

    length: int
    packets: list[Packet]
    slots: list[int | None] = field(default_factory=list)

    def entries(self) -> list[tuple[int, int, int, int]]:
        """Slot, sender, target, and the cycles that the packet needs, in the order of the slots."""
        return sorted(
            (slot, packet.sender, packet.target, CYCLES_OF_SLOT * len(packet.route))
            for packet, slot in zip(self.packets, self.slots, strict=True)
            if slot is not None
        )


def checked_grid(columns: int, rows: int) -> Grid:
    """The grid, where it is one that the program takes."""
    grid = Grid(columns, rows)
    if not (1 <= columns <= MOST_SIDE and 1 <= rows <= MOST_SIDE and LEAST_ROUTERS <= grid.cores <= MOST_ROUTERS):
        raise BadInput(f"{columns} columns and {rows} rows: a grid has {LEAST_ROUTERS} to {MOST_ROUTERS} routers")
    return grid


def packets_of(grid: Grid, counts: dict[tuple[int, int], int]) -> list[Packet]:
    """The packets of a period, from how many each pair of cores sends."""
    packets: list[Packet] = []
    for (sender, target), count in sorted(counts.items()):
        if sender == target or max(sender, target) >= grid.cores:
            raise BadInput(f"{sender}-{target}: a packet goes from one core of the grid to another")
        route = grid.route(sender, target)
        packets += [Packet(len(packets) + number, sender, target, route) for number in range(count)]
    if not 1 <= len(packets) <= MOST_ENTRIES:
        raise BadInput(f"{len(packets)} packets: a schedule has 1 to {MOST_ENTRIES}")
    return packets


def loads(packets: list[Packet]) -> dict[str, int]:
    """How many packets of a period use each link."""
    found: dict[str, int] = {}
    for packet in packets:
        for link in packet.route:
            found[link] = found.get(link, 0) + 1
    return found


def most_loaded(packets: list[Packet]) -> tuple[str, int]:
    """The link that most packets use, and their number: no period has fewer slots."""
    return max(loads(packets).items(), key=lambda link: link[1])


class Placing:
    """Places packets in a period of one length. A packet without room evicts those that are least in its way."""

    def __init__(self, packets: list[Packet], length: int, draws: random.Random) -> None:
        self.schedule = Schedule(length, packets, [None] * len(packets))
        self.draws = draws
        links = {link: number for number, link in enumerate(loads(packets))}
        self.routes = [[links[link] for link in packet.route] for packet in packets]
        # Which packet uses a link in each slot of the period.
        self.users: list[list[int | None]] = [[None] * length for _ in links]
        # How often a packet was evicted: it is the harder to evict again.
        self.evictions = [0] * len(packets)

    def run(self, placings: int) -> bool:
        """Whether all packets have a slot after so many placings at most: those of the fullest links come first."""
        load = loads(self.schedule.packets)
        waiting = sorted(
            range(len(self.routes)),
            key=lambda number: max(load[link] for link in self.schedule.packets[number].route),
        )
        for _ in range(placings):
            if not waiting:
                return True
            waiting = self.place(waiting.pop()) + waiting
        return not waiting

    def place(self, number: int) -> list[int]:
        """Gives a packet the slot in which least is in its way, and gives back the packets that it evicts."""
        best: list[tuple[int, set[int]]] = []
        least = 0
        for slot in range(self.schedule.length):
            way = self.in_the_way(number, slot)
            cost = sum(1 + self.evictions[other] for other in way)
            if not best or cost < least:
                best, least = [], cost
            if cost == least:
                best.append((slot, way))
        slot, way = self.draws.choice(best)
        for other in way:
            self.evict(other)
        self.take(number, slot)
        return sorted(way)

    def in_the_way(self, number: int, slot: int) -> set[int]:
        """The packets that use a link when this packet would."""
        length, users = self.schedule.length, self.users
        found = {users[link][(slot + hop) % length] for hop, link in enumerate(self.routes[number])}
        return {other for other in found if other is not None}

    def take(self, number: int, slot: int) -> None:
        for hop, link in enumerate(self.routes[number]):
            self.users[link][(slot + hop) % self.schedule.length] = number
        self.schedule.slots[number] = slot

    def evict(self, number: int) -> None:
        slot = self.schedule.slots[number]
        if slot is None:
            return
        for hop, link in enumerate(self.routes[number]):
            self.users[link][(slot + hop) % self.schedule.length] = None
        self.schedule.slots[number] = None
        self.evictions[number] += 1


def schedule_of(packets: list[Packet], placings: int = PLACINGS) -> Schedule:
    """A schedule, the first that is found from the shortest length on."""
    least = most_loaded(packets)[1]
    for length in range(least, MOST_PERIOD + 1):
        placing = Placing(packets, length, random.Random(SEED))
        if placing.run(placings * len(packets)):
            return placing.schedule
    raise BadInput(f"no schedule of at most {MOST_PERIOD} slots was found for {len(packets)} packets")


def toml_of(grid: Grid, schedule: Schedule) -> str:
    """The schedule as `tcrest grid` reads it, with the least length that any schedule has."""
    link, least = most_loaded(schedule.packets)
    packets, cycles = len(schedule.packets), CYCLES_OF_SLOT * schedule.length
    lines = [
        f"# {packets} packets in each period of {schedule.length} slots, {cycles} cycles.",
        f"# No period has fewer than {least} slots: so many packets use the link {link}.",
        f"columns = {grid.columns}",
        f"rows = {grid.rows}",
        f"length = {schedule.length}",
        "entries = [",
    ]
    lines += [f"    [{', '.join(str(number) for number in entry)}]," for entry in schedule.entries()]
    return "\n".join([*lines, "]"]) + "\n"
