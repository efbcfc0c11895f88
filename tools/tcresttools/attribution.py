"""The functions and loops of compiled C, as its code has them; how often each is run, and the cycles of each."""

from __future__ import annotations

from collections import Counter
from collections.abc import Iterator
from dataclasses import dataclass, field

from .code_text import CodeCall, CodeFunction, CodeItem, CodeLoop, TaskCode
from .events import Bundle, Cause, Event, Sequence
from .replay import Replayed
from .trail import Open, Walk


@dataclass(frozen=True)
class CodePart:
    """A function or a loop of the code: its first place and its last one, the part around it, and how often it is run.

    Of a loop `entered` counts how often it is entered, and `iterations` all its iterations. A function has one a run.
    """

    is_loop: bool
    first: int
    last: int
    around: int | None
    entered: int
    iterations: int


@dataclass(frozen=True)
class Attribution:
    """The parts of a task's code by their numbers in it, and what is open at each event of its sequence."""

    parts: list[CodePart]
    opens: list[Open]


@dataclass
class Cost:
    """What a part takes. Its cycles are those of its bundles, and what fetches and memory take besides.

    The loops inside are counted, and functions that it calls are not; `with_calls` has both. `own` has neither.
    """

    bundles: int = 0
    fetch: int = 0
    memory: int = 0
    fetches: int = 0
    accesses: int = 0
    own: int = 0
    with_calls: int = 0

    @property
    def cycles(self) -> int:
        return self.bundles + self.fetch + self.memory

    def add(self, other: Cost) -> None:
        """Counts what an event takes that is in this part."""
        self.bundles += other.bundles
        self.fetch += other.fetch
        self.memory += other.memory
        self.fetches += other.fetches
        self.accesses += other.accesses


def runs_of(code: TaskCode) -> Counter[str]:
    """How often each function is run. A function calls earlier ones of the text alone, and `main` is run once."""
    runs: Counter[str] = Counter({code.functions[0].name: 1})
    for function in [code.functions[0], *reversed(code.functions[1:])]:
        for name, times in calls_in(function.items, 1):
            runs[name] += runs[function.name] * times
    return runs


def calls_in(items: list[CodeItem], times: int) -> Iterator[tuple[str, int]]:
    """The functions that items call, and how often where the items are executed so often."""
    for item in items:
        if isinstance(item, CodeCall):
            yield item.name, times
        elif isinstance(item, CodeLoop):
            yield from calls_in(item.items, times * item.iterations)


def parts_of(code: TaskCode) -> list[CodePart]:
    """The functions and loops of the code by their numbers, also those of functions that are never run."""
    runs = runs_of(code)
    parts: list[CodePart] = []
    for function in code.functions:
        times = runs[function.name]
        parts.append(CodePart(False, function.start, function.last, None, times, times))
        parts += loops_in(function, function.items, function.number, times)
    return parts


def loops_in(function: CodeFunction, items: list[CodeItem], around: int, times: int) -> Iterator[CodePart]:
    """The loops of items that are executed so often, an outer one before those inside it."""
    for item in items:
        if isinstance(item, CodeLoop):
            places = (function.start + item.first, function.start + item.last)
            yield CodePart(True, *places, around, times, times * item.iterations)
            yield from loops_in(function, item.items, item.number, times * item.iterations)


def attributed(code: TaskCode, sequence: Sequence) -> Attribution:
    """The parts of a task's code, and for each event of its sequence those that are open."""
    bundle_opens = [step.here.open for step in Walk(code).steps()]
    opens: list[Open] = []
    done = 0
    for event in sequence.events:
        # A fetch is that of the function whose bundle comes next.
        here = min(done, len(bundle_opens) - 1) if is_before(event) else done - 1
        opens.append(bundle_opens[here])
        done += isinstance(event, Bundle)
    return Attribution(parts_of(code), opens)


def is_before(event: Event) -> bool:
    """The event is of the bundle that is done now or comes next, and not of the one before."""
    return isinstance(event, Bundle) or event.cause is Cause.FETCH


@dataclass
class Costs:
    """The costs of each part of a task's code."""

    parts: list[Cost]
    total: Cost = field(default_factory=Cost)


def costs_of(attribution: Attribution, sequence: Sequence, replayed: Replayed) -> Costs:
    """What each part takes in this replay."""
    by_open: dict[Open, Cost] = {}
    before = replayed.start
    for event, opened, free in zip(sequence.events, attribution.opens, replayed.frees, strict=True):
        by_open.setdefault(opened, Cost()).add(cost_of(event, free - before))
        before = free
    costs = Costs([Cost() for _ in attribution.parts])
    for opened, cost in by_open.items():
        costs.total.add(cost)
        costs.parts[opened.innermost].own += cost.cycles
        for part in opened.own:
            costs.parts[part].add(cost)
        for part in (*opened.callers, *opened.own):
            costs.parts[part].with_calls += cost.cycles
    return costs


def cost_of(event: Event, cycles: int) -> Cost:
    """What one event takes, in these cycles."""
    if isinstance(event, Bundle):
        return Cost(bundles=cycles)
    if event.cause is Cause.FETCH:
        return Cost(fetch=cycles, fetches=1)
    return Cost(memory=cycles, accesses=1)
