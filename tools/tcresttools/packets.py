"""The packets of a core's transfers, by the windows of the network (docs/MACHINE.md, "The network interface")."""

from __future__ import annotations

from collections.abc import Iterable
from dataclasses import dataclass

WINDOW = 3
UNDER_WAY = 9
WORDS_OF_PACKET = 2


@dataclass(frozen=True)
class Start:
    """A start of a transfer: its cycle, the core that it goes to, its words at both ends, and how many."""

    cycle: int
    target: int
    source_word: int
    target_word: int
    count: int


@dataclass(frozen=True)
class Packet:
    """A packet: from which core to which, the cycle in which it is sent and the one in which its words come."""

    sender: int
    target: int
    sent: int
    due: int
    source_word: int
    target_word: int
    words: int


@dataclass(frozen=True)
class Passage:
    """What a core sends to another: the cycle in which its last word comes."""

    sender: int
    target: int
    last: int


def passages_of(packets: Iterable[Packet]) -> list[Passage]:
    """Each core that sends to another, by their numbers, with the coming of its last word."""
    last: dict[tuple[int, int], int] = {}
    for packet in packets:
        pair = (packet.sender, packet.target)
        last[pair] = max(last.get(pair, 0), packet.due)
    return [Passage(*pair, cycle) for pair, cycle in sorted(last.items())]


@dataclass
class Transfers:
    """What a core sends: its packets in the order of their cycles, and how many of its starts were dropped."""

    packets: list[Packet]
    dropped: int


def next_window(cores: int, sender: int, target: int, after: int) -> int:
    """The first window behind a cycle in which the sender may send to the target."""
    cycle = (after // WINDOW + 1) * WINDOW
    while (sender + cycle // WINDOW % (cores - 1) + 1) % cores != target:
        cycle += WINDOW
    return cycle


def transfers_of(cores: int, sender: int, starts: Iterable[Start], limit: int) -> Transfers:
    """The packets of these starts before the limit. A start whose target's last transfer still has words is dropped."""
    made = Transfers([], 0)
    last_sent: dict[int, int] = {}
    for start in sorted(starts, key=lambda one: one.cycle):
        if start.cycle < last_sent.get(start.target, -1):
            made.dropped += 1
            continue
        sent = start.cycle
        for at in range(0, start.count, WORDS_OF_PACKET):
            sent = next_window(cores, sender, start.target, sent)
            words = min(WORDS_OF_PACKET, start.count - at)
            places = (start.source_word + at, start.target_word + at)
            made.packets.append(Packet(sender, start.target, sent, sent + UNDER_WAY, *places, words))
        last_sent[start.target] = sent
    made.packets = sorted((one for one in made.packets if one.sent < limit), key=lambda one: one.sent)
    return made
