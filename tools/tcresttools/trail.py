"""The bundles that a C task executes, one after another, as its code says: the same for every input.

Each bundle comes with where it is executed: an iteration of a loop, or a call of a function. Two codes of the same
loops and calls are walked side by side, where one was run with fewer iterations.
"""

from __future__ import annotations

from collections.abc import Iterator
from dataclasses import dataclass, field
from typing import NamedTuple

from .code_text import CodeBundle, CodeCall, CodeFunction, CodeItem, CodeLoop, TaskCode

Path = tuple[int, ...]


@dataclass(frozen=True)
class Open:
    """The parts that are open at an event: those of the callers, and those of the function that it is in."""

    callers: Path
    own: Path

    @property
    def innermost(self) -> int:
        return self.own[-1]


@dataclass(eq=False)
class Here:
    """Where bundles are executed: a call of a function, or an iteration of a loop. `inside` has its loops and calls in
    their order, a loop with its iterations."""

    function: CodeFunction
    open: Open
    inside: list[list[Here]] = field(default_factory=list)


class Executed(NamedTuple):
    """A bundle that is executed, where, and the same place in the code that is walked beside."""

    here: Here
    bundle: CodeBundle
    beside: Here | None

    @property
    def place(self) -> int:
        """The place of its first word in the image."""
        return self.here.function.start + self.bundle.offset


class Walk:
    """Walks the code of a task."""

    def __init__(self, code: TaskCode) -> None:
        self.functions = {one.name: one for one in code.functions}
        self.entry = code.functions[0]
        self.opens: dict[tuple[Path, Path], Open] = {}
        self.first = Here(self.entry, self.open((), (self.entry.number,)))

    def open(self, callers: Path, own: Path) -> Open:
        """One and the same for the same parts."""
        return self.opens.setdefault((callers, own), Open(callers, own))

    def steps(self, beside: Here | None = None) -> Iterator[Executed]:
        """All bundles that are executed; with the places of another walk that had the same loops and calls."""
        yield from self.steps_of(self.entry.items, self.first, beside)

    def steps_of(self, items: list[CodeItem], here: Here, beside: Here | None) -> Iterator[Executed]:
        for item in items:
            if isinstance(item, CodeBundle):
                yield Executed(here, item, beside)
                continue
            others = [] if beside is None else beside.inside[len(here.inside)]
            here.inside.append([])
            if isinstance(item, CodeCall):
                yield from self.called(self.functions[item.name], here, others)
            else:
                yield from self.iterated(item, here, others)

    def called(self, function: CodeFunction, here: Here, others: list[Here]) -> Iterator[Executed]:
        made = Here(function, self.open(here.open.callers + here.open.own, (function.number,)))
        here.inside[-1].append(made)
        yield from self.steps_of(function.items, made, others[0] if others else None)

    def iterated(self, loop: CodeLoop, here: Here, others: list[Here]) -> Iterator[Executed]:
        """All iterations: where the other code made fewer, its last one again and again."""
        iterations = here.inside[-1]
        opened = self.open(here.open.callers, (*here.open.own, loop.number))
        for number in range(loop.iterations):
            iterations.append(Here(here.function, opened))
            other = others[min(number, len(others) - 1)] if others else None
            yield from self.steps_of(loop.items, iterations[-1], other)
