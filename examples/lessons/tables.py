"""Lesson 10: the tables of six slots on which three tasks keep their deadlines, by their persistent bounds."""

from itertools import product

SLOT = 6
# Of each core its bundles, its transactions, and its deadline, as `tools/tables` tells them.
TASKS = {0: (322, 59, 3000), 1: (491, 96, 3200), 2: (1497, 342, 20000)}


def gap(table: tuple[int, ...], core: int) -> int:
    """The cycles from one slot of a core to its next one, at most."""
    own = [number for number, owner in enumerate(table) if owner == core]
    later = own[1:] + [own[0] + len(table)]
    return SLOT * max(next_own - number for number, next_own in zip(own, later))


def keeps_all(table: tuple[int, ...]) -> bool:
    """Every task ends by its deadline: each transaction waits less than the gap, and takes a slot."""
    return all(
        bundles + transactions * (gap(table, core) + SLOT - 1) <= deadline
        for core, (bundles, transactions, deadline) in TASKS.items()
    )


# Each table can be turned so that core 3, which only receives, owns the last slot.
for owners in product(range(4), repeat=5):
    if set(owners) >= {0, 1, 2} and keeps_all((*owners, 3)):
        print([*owners, 3])
