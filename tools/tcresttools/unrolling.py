"""What a C task does in order, worked out from a run of another text with the same transactions.

A text with the bound of each loop lowered to two, and the limit of each `for` that counts just to its bound, has the
same loads, stores and stack instructions. An iteration after the second does what the second does: after the first one
the data cache holds, at each index, the line that it loaded there last, and the stack cache holds what it leaves. So
all later ones begin alike and are alike. A text with other statements in place of each `send` has the same ones too,
since a transfer moves no words of main memory.
So the bundles are those of the task's own code, and each of them that may move words moves what it does in that run.
What the method cache does is worked out anew, by its rules.
"""

from __future__ import annotations

import re
from collections import Counter
from collections.abc import Iterator
from dataclasses import dataclass, field, replace

from .c_loops import counted_for, makes_all
from .c_text import Token, number_of, tokens_of
from .code_text import CodeBundle, CodeItem, CodeLoop, TaskCode
from .events import Bundle, Cause, Event, NoSequence, Sequence, Transaction
from .job import Task
from .mending import Edit, Mended
from .method_cache import MethodCache, fetch_words
from .recording import recorded
from .trail import Here, Walk

KEPT_ITERATIONS = 2
MOST_BUNDLES = 2_000_000


@dataclass(frozen=True)
class Done:
    """A bundle that is done, the first place of its function, and the words that it moves."""

    place: int
    function: int
    data: list[Transaction] = field(default_factory=list)


def lowered(source: bytes) -> bytes:
    """The text with the bound of each loop at two iterations, where it is more.

    A `for` that counts exactly to its bound has code of its own, so it counts to two then.
    """
    tokens = tokens_of(source)
    edits: list[Edit] = []
    for number, token in enumerate(tokens):
        if token.is_bound:
            most = int(re.findall(r"\d+", token.text)[1])
            edits += [Edit(token.at, token.end, lowered_bound(token)), *lowered_limit(tokens, number + 1, most)]
    return Mended.first(source).edited(edits).data


def lowered_bound(token: Token) -> str:
    return re.sub(r"\d+", lambda found: str(min(int(found.group(0)), KEPT_ITERATIONS)), token.text)


def lowered_limit(tokens: list[Token], at: int, most: int) -> list[Edit]:
    """Another limit for a `for` that makes just so many iterations, more than two; none for other loops."""
    loop = counted_for(tokens, at) if tokens[at].text == "for" else None
    if loop is None or most <= KEPT_ITERATIONS or not makes_all(tokens, loop) or tokens[at + 7].text not in ("<", "<="):
        return []
    step = number_of(tokens[at + 14]) or 1
    if (loop.most - loop.least) // step + 1 != most:
        return []
    limit = loop.least + (KEPT_ITERATIONS - 1) * step + (tokens[at + 7].text == "<")
    return [Edit(tokens[at + 8].at, tokens[at + 8].end, str(limit))]


def moved_by(sequence: Sequence) -> list[list[Transaction]]:
    """What each bundle of a sequence moves, without the fetches of functions."""
    found: list[list[Transaction]] = []
    for event in sequence.events:
        if isinstance(event, Bundle):
            found.append([])
        elif event.cause is Cause.DATA:
            found[-1].append(event)
    return found


def moves_of(items: list[CodeItem]) -> list[object]:
    """What of items decides their transactions: instructions that move words, loops and calls, in their order."""
    found: list[object] = []
    for item in items:
        if isinstance(item, CodeBundle):
            found += [item.moves] if item.may_move else []
        else:
            found.append(moves_of(item.items) if isinstance(item, CodeLoop) else item.name)
    return found


def moves_alike(code: TaskCode, other: TaskCode) -> bool:
    """Both have the same functions, which move words in the same loops and calls. Iterations may differ."""
    names = [[one.name for one in task.functions] for task in (code, other)]
    moves = [[moves_of(one.items) for one in task.functions] for task in (code, other)]
    return names[0] == names[1] and moves[0] == moves[1]


def places_of_moves(code: TaskCode, sequence: Sequence) -> tuple[Here, dict[Here, list[list[Transaction]]]]:
    """The run of a code: where it begins, and at each place of it what its bundles that may move words move."""
    walk = Walk(code)
    found: dict[Here, list[list[Transaction]]] = {}
    for step, moved in zip(walk.steps(), moved_by(sequence), strict=True):
        if step.bundle.may_move:
            found.setdefault(step.here, []).append(moved)
        elif moved:
            raise NoSequence(f"the bundle at place {step.place} moves words, and its code names none")
    return walk.first, found


def dones_of(code: TaskCode, first: Here, moves: dict[Here, list[list[Transaction]]]) -> Iterator[Done]:
    """The bundles of a code in their order, with what they move in the run of another one."""
    taken: Counter[Here] = Counter()
    for step in Walk(code).steps(first):
        data: list[Transaction] = []
        if step.bundle.may_move and step.beside is not None:
            data = moves[step.beside][taken[step.here]]
            taken[step.here] += 1
        yield Done(step.place, step.here.function.start, data)


def with_fetches(dones: Iterator[Done], sizes: dict[int, int], value: int) -> Sequence:
    """The bundles with the words that they move, and with the fetches of functions that the method cache lacks."""
    cache = MethodCache()
    events: list[Event] = []
    functions: list[int] = []
    for done in dones:
        entered = not functions or functions[-1] != done.function
        if entered and not cache.holds(done.function):
            size = sizes[done.function]
            cache.fetch(done.function, size)
            events += [Transaction("read", words, Cause.FETCH) for words in fetch_words(size)]
        events.append(Bundle(done.place))
        events += done.data
        functions.append(done.function)
    return Sequence(events, functions, sizes, value)


def recorded_shorter(task: Task, program: str | None) -> tuple[Task, Sequence]:
    """A text that makes the same transactions, as it is or with two iterations of each loop, and its run."""
    run = recorded(task, program)
    if run is not None:
        return task, run
    short = replace(task, source=lowered(task.source))
    run = recorded(short, program)
    if run is None:
        raise NoSequence("it is too long to be listed, even with two iterations of each of its loops")
    return short, run


def worked_out(code: TaskCode, other: TaskCode, run: Sequence) -> Sequence:
    """What a C task of this code does in order, from the run of another code that makes the same transactions."""
    if not moves_alike(code, other):
        raise NoSequence("the text that can be listed in its place has other loads and stores, or other calls")
    first, moves = places_of_moves(other, run)
    sizes = {one.start: one.words for one in code.functions}
    return with_fetches(dones_of(code, first, moves), sizes, run.value)
