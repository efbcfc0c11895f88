"""Between which numbers the values of an expression lie."""

from __future__ import annotations

from collections.abc import Callable
from typing import NamedTuple

from .kinds import Integer
from .arithmetic import quotient


class Range(NamedTuple):
    """All numbers from `low` to `high`."""

    low: int
    high: int

    def within(self, kind: Integer) -> bool:
        return kind.low <= self.low and self.high <= kind.high

    def inside(self, low: int, high: int) -> bool:
        return low <= self.low and self.high <= high

    def with_other(self, other: Range) -> Range:
        """The least range that holds both."""
        return Range(min(self.low, other.low), max(self.high, other.high))


def full(kind: Integer) -> Range:
    """All numbers of a type."""
    return Range(kind.low, kind.high)


TRUTH = Range(0, 1)


def kept(found: Range | None, kind: Integer) -> Range:
    """A range of exact results as one of a type: all of the type where a result may wrap."""
    return found if found is not None and found.within(kind) else full(kind)


def product(left: Range, right: Range) -> Range:
    ends = [one * other for one in left for other in right]
    return Range(min(ends), max(ends))


def union(left: Range, right: Range) -> Range | None:
    """Of `|` and `^` of numbers that are not negative."""
    if left.low < 0 or right.low < 0:
        return None
    return Range(0, (1 << max(left.high.bit_length(), right.high.bit_length())) - 1)


def meet(left: Range, right: Range) -> Range | None:
    """Of `&`: no more than an operand that is not negative."""
    highs = [operand.high for operand in (left, right) if operand.low >= 0]
    return Range(0, min(highs)) if highs else None


def shifted_left(left: Range, right: Range) -> Range | None:
    if not right.inside(0, 63):
        return None
    return product(left, Range(1 << right.low, 1 << right.high))


def shifted_right(left: Range, right: Range) -> Range | None:
    if not right.inside(0, 63):
        return Range(min(left.low, 0), max(left.high, 0)) if left.low >= 0 else Range(left.low, max(left.high, -1))
    ends = [end >> by for end in left for by in right]
    return Range(min(ends), max(ends))


def divided(left: Range, right: Range) -> Range | None:
    """A quotient, or 0 where the divisor is 0."""
    if right.low > 0:
        ends = [quotient(above, below) for above in left for below in right]
        return Range(min(ends), max(ends))
    if left.low >= 0 and right.low >= 0:
        return Range(0, left.high)
    return None


def remainder(left: Range, right: Range) -> Range | None:
    """A remainder, or the first operand where the divisor is 0."""
    most = max(abs(right.low), abs(right.high)) - 1
    if right.low <= 0 <= right.high:
        return Range(min(left.low, 0), max(left.high, 0))
    return Range(max(min(left.low, 0), -most), min(max(left.high, 0), most))


RULES: dict[str, Callable[[Range, Range], Range | None]] = {
    "+": lambda left, right: Range(left.low + right.low, left.high + right.high),
    "-": lambda left, right: Range(left.low - right.high, left.high - right.low),
    "*": product,
    "|": union,
    "^": union,
    "&": meet,
    "<<": shifted_left,
    ">>": shifted_right,
    "/": divided,
    "%": remainder,
}


def of_binary(sign: str, left: Range, right: Range, kind: Integer) -> Range:
    """The range of `left sign right` in a type."""
    return kept(RULES[sign](left, right), kind)


def of_unary(sign: str, operand: Range, kind: Integer) -> Range:
    """The range of `-` or `~` before a number."""
    found = Range(-operand.high, -operand.low) if sign == "-" else Range(~operand.high, ~operand.low)
    return kept(found, kind)


def converted(found: Range, kind: Integer) -> Range:
    """The range of a value that is turned into a type."""
    if kind.boolean:
        return TRUTH
    return found if found.within(kind) else full(kind)
