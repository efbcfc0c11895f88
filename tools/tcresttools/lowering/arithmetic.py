"""What C's operators give on numbers, as gcc has it with -fwrapv."""

from __future__ import annotations

import operator
from collections.abc import Callable

from .kinds import Integer

COMPARISONS: dict[str, Callable[[int, int], bool]] = {
    "<": operator.lt,
    ">": operator.gt,
    "<=": operator.le,
    ">=": operator.ge,
    "==": operator.eq,
    "!=": operator.ne,
}
PLAIN: dict[str, Callable[[int, int], int]] = {
    "+": operator.add,
    "-": operator.sub,
    "*": operator.mul,
    "&": operator.and_,
    "|": operator.or_,
    "^": operator.xor,
}
MIRRORED = {"<": ">", ">": "<", "<=": ">=", ">=": "<=", "==": "==", "!=": "!="}


def quotient(above: int, below: int) -> int:
    """Division cut off towards zero."""
    found = abs(above) // abs(below)
    return found if (above < 0) == (below < 0) else -found


def binary(sign: str, left: int, right: int, kind: Integer) -> int | None:
    """The value of `left sign right` in a type; none where C leaves it undefined."""
    if sign in PLAIN:
        return kind.wrapped(PLAIN[sign](left, right))
    if sign in ("<<", ">>"):
        if not 0 <= right < kind.bits:
            return None
        return kind.wrapped(left << right if sign == "<<" else left >> right)
    if right == 0:
        return None
    found = quotient(left, right)
    return kind.wrapped(found if sign == "/" else left - found * right)


def unary(sign: str, value: int, kind: Integer) -> int:
    """The value of `-`, `~` or `!` before a number."""
    if sign == "!":
        return int(value == 0)
    return kind.wrapped(-value if sign == "-" else ~value)
