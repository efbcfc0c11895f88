"""Which loops of a C task still went on after their most iterations, and how many would be enough.

The program says of a task alone that some loop did. So it is asked what the text means with other bounds.
"""

from __future__ import annotations

import re
from bisect import bisect_left
from dataclasses import dataclass
from itertools import pairwise

from .c_text import bound_match, tokens_of
from .job import MOST_CYCLES, Job, Task, toml_string
from .program import run_program

# Bounds that all loops are given at once, up to the most that there is: of loops in loops the larger ones are too long.
TRIED = (65_535, 8_191, 1_023, 127, 15)


@dataclass(frozen=True)
class Bound:
    """The bound of a loop: the loop's first byte, its most iterations, and the bytes at which these are written."""

    loop: int
    most: int
    start: int
    end: int


@dataclass(frozen=True)
class Overrun:
    """A loop that still went on: its first byte, the most iterations of its bound, and the least that are enough."""

    at: int
    most: int
    enough: int


def bounds_of(source: bytes) -> list[Bound]:
    """The bounds of a text's loops, in its order."""
    found = []
    for bound, loop in pairwise(tokens_of(source)):
        match = bound_match(source, bound.at) if bound.is_bound else None
        if match is not None:
            found.append(Bound(loop.at, int(match[2]), match.start(2), match.end(2)))
    return found


@dataclass(frozen=True)
class Trial:
    """A task whose loops are given other bounds."""

    job: Job
    task: Task
    bounds: list[Bound]
    program: str | None

    def source(self, mosts: list[int]) -> bytes:
        """The text with these most iterations of its loops."""
        text, at = b"", 0
        for bound, most in zip(self.bounds, mosts, strict=True):
            text += self.task.source[at : bound.start] + str(most).encode()
            at = bound.end
        return text + self.task.source[at:]

    def is_enough(self, mosts: list[int]) -> bool:
        """Each loop ends by itself within these iterations, and the whole within the most cycles of a job."""
        values = {
            (None, "cycles"): str(MOST_CYCLES),
            (self.task.number, "source"): toml_string(self.source(mosts)),
        }
        found = run_program(self.program, "mean", self.job.with_values(values))
        return any(re.fullmatch(rf"core {self.task.core} mean -?\d+", line) for line in found.lines)

    def least_enough(self, mosts: list[int], number: int) -> int:
        """The fewest iterations that are enough for one loop, where all of these are enough."""

        def enough(most: int) -> bool:
            return self.is_enough([*mosts[:number], most, *mosts[number + 1 :]])

        own = self.bounds[number].most
        return own if enough(own) else bisect_left(range(mosts[number]), True, lo=own, key=enough)


def overruns(job: Job, task: Task, program: str | None) -> list[Overrun]:
    """The loops of a C task that still went on; none where that depends on shared words, or no bound is enough."""
    bounds = bounds_of(task.source)
    trial = Trial(job, task, bounds, program)
    given = [bound.most for bound in bounds]
    if job.places is None or trial.is_enough(given):
        return []
    raised = ([max(most, own) for own in given] for most in TRIED)
    wide = next((mosts for mosts in raised if trial.is_enough(mosts)), None)
    if wide is None:
        return []
    least = [trial.least_enough(wide, number) for number in range(len(bounds))]
    pairs = zip(bounds, least, strict=True)
    return [Overrun(bound.loop, bound.most, enough) for bound, enough in pairs if enough > bound.most]
