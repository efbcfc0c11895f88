"""Slot tables: how far apart the slots of a core are."""

from __future__ import annotations

from collections.abc import Sequence

LEAST_SLOT, MOST_SLOT = 6, 64
MOST_ENTRIES = 64


def owned_slots(table: Sequence[int], core: int) -> list[int]:
    """The entries of a table that are a core's."""
    return [number for number, owner in enumerate(table) if owner == core]


def distances(table: Sequence[int], core: int) -> tuple[int, ...]:
    """How many slots there are from each slot of a core to its next one, over the end of the table too."""
    owned = owned_slots(table, core)
    after = owned[1:] + [number + len(table) for number in owned[:1]]
    return tuple(later - number for number, later in zip(owned, after, strict=True))


def gap(table: Sequence[int], core: int) -> int:
    """The greatest distance from one slot of a core to its next one, in slots."""
    return max(distances(table, core))


def least_turn(table: Sequence[int]) -> tuple[int, ...]:
    """A table turned so that it comes first in the order of lists: turned tables are the same but for their begin."""
    return min((*table[number:], *table[:number]) for number in range(len(table)))


def toml_table(table: Sequence[int]) -> str:
    """A slot table as a job has it."""
    return "[" + ", ".join(str(owner) for owner in table) + "]"
