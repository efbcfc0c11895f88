"""Who calls whom: the functions that `main` reaches, the order of their texts, and recursion to a depth."""

from __future__ import annotations

from dataclasses import dataclass, field

from .told import Notes, Refused
from .tree import FunctionText, Program

WITHOUT_TEXT = "has no text here: give its file too, or write the function"
# Words of the subset that a program may call.
OWN_WORDS = ("send",)


@dataclass
class CallOrder:
    """The functions in use, each behind those it calls. A ring of functions that call one another stands together.

    `ring` has the number of a function's ring, and `depth` how deep a ring goes, with the function that is counted.
    """

    functions: list[FunctionText] = field(default_factory=list)
    ring: dict[FunctionText, int] = field(default_factory=dict)
    depth: dict[int, int] = field(default_factory=dict)
    head: dict[int, FunctionText] = field(default_factory=dict)

    def levels(self, function: FunctionText | None) -> int:
        """How many copies of a function there are: one for each level of its recursion."""
        return self.depth.get(self.ring[function], 1) if function in self.ring and function is not None else 1


class Finder:
    """Finds the rings of the calls (Tarjan's strongly connected components)."""

    def __init__(self) -> None:
        self.number: dict[FunctionText, int] = {}
        self.low: dict[FunctionText, int] = {}
        self.open: list[FunctionText] = []
        self.rings: list[list[FunctionText]] = []

    def visit(self, function: FunctionText) -> None:
        self.number[function] = self.low[function] = len(self.number)
        self.open.append(function)
        for call in function.calls:
            called = call.function
            if called.body is None:
                if called.name not in OWN_WORDS:
                    raise Refused(call.at, f"`{called.name}` {WITHOUT_TEXT}")
                continue
            if called not in self.number:
                self.visit(called)
            if called in self.open:
                self.low[function] = min(self.low[function], self.low[called])
        if self.low[function] == self.number[function]:
            at = self.open.index(function)
            self.rings.append(self.open[at:])
            del self.open[at:]


def call_order(program: Program, depths: dict[str, int], notes: Notes) -> CallOrder:
    """The functions in use, those that are called first."""
    assert program.main is not None
    finder = Finder()
    finder.visit(program.main)
    found = CallOrder()
    for number, ring in enumerate(finder.rings):
        found.functions += list(reversed(ring))
        for function in ring:
            found.ring[function] = number
        calls_itself = any(call.function is function for function in ring for call in function.calls)
        if len(ring) > 1 or calls_itself:
            add_depth(found, number, ring, depths)
    unknown = sorted(set(depths) - {head.name for head in found.head.values()})
    if unknown:
        notes.warn(None, f"--depth tells of `{unknown[0]}`, which is no function that calls itself")
    return found


def add_depth(found: CallOrder, number: int, ring: list[FunctionText], depths: dict[str, int]) -> None:
    """How deep a ring goes, as the command line tells it."""
    head = next((function for function in ring if function.name in depths), None)
    names = ", ".join(f"`{function.name}`" for function in ring)
    if head is None:
        who = f"{names} calls itself" if len(ring) == 1 else f"{names} call one another"
        text = f"{who}: say how deep with --depth {ring[-1].name}=N, or write a loop"
        raise Refused(ring[-1].at, text)
    if depths[head.name] < 1:
        raise Refused(head.at, "a depth is at least 1")
    found.depth[number], found.head[number] = depths[head.name], head
    check_without_head(ring, head)


def check_without_head(ring: list[FunctionText], head: FunctionText) -> None:
    """Each way round the ring passes its head, so that the levels count it."""
    finder = Finder()
    rest = [function for function in ring if function is not head]
    finder.number[head] = finder.low[head] = -1
    for function in rest:
        if function not in finder.number:
            finder.visit(function)
    bad = next((found for found in finder.rings if len(found) > 1), None)
    alone = next((function for function in rest if any(call.function is function for call in function.calls)), None)
    if bad or alone:
        text = (
            f"these functions call one another without `{head.name}`, whose depth is told: write one of them as a loop"
        )
        raise Refused((bad[0] if bad else alone or head).at, text)
