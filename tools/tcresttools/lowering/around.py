"""What `break` and `continue` mean at a place."""

from __future__ import annotations

from dataclasses import dataclass


@dataclass
class Around:
    """A loop or a switch around a place: the label that `break` leaves, and the one that `continue` leaves or goes on
    with.

    In a switch `continue` belongs to the loop around it, so there `go_on` is none. Where `own_iteration` holds,
    `continue` begins an iteration of the loop itself, and else it leaves a block, behind which the step stands.
    """

    leave: int
    go_on: int | None
    own_iteration: bool = False
