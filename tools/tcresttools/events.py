"""What a task does in order: its bundles, and its transactions with main memory with their causes."""

from __future__ import annotations

from dataclasses import dataclass
from enum import Enum

from .cli import BadInput


class NoSequence(BadInput):
    """Why the order of a task's bundles and transactions can't be had."""


class Cause(Enum):
    """Why words move: a function that the method cache lacks, or the bundle before asks for them."""

    FETCH = "fetch"
    DATA = "data"


@dataclass(frozen=True)
class Bundle:
    """A bundle that is done, by the place of its first word in the image."""

    place: int


@dataclass(frozen=True)
class Transaction:
    """Up to four words that move in one slot. `kind` is `read` or `write`, as a report says."""

    kind: str
    words: int
    cause: Cause


Event = Bundle | Transaction


@dataclass(frozen=True)
class Sequence:
    """The events of a task in order; for each bundle the first place of its function; the size of each function in
    words; and the task's value when it is alone.

    A transaction of cause DATA follows the bundle that asks for it. One of cause FETCH precedes the first bundle of the
    function that is fetched.
    """

    events: list[Event]
    functions: list[int]
    sizes: dict[int, int]
    value: int

    @property
    def places(self) -> list[int]:
        """The places of the bundles, in order."""
        return [event.place for event in self.events if isinstance(event, Bundle)]

    @property
    def transactions(self) -> list[Transaction]:
        return [event for event in self.events if isinstance(event, Transaction)]
