"""Functions and loops of small codes by hand: how often each is run, what each takes, and its name in the text."""

from __future__ import annotations

import pytest
from code_texts import TWO, Lines, code_of

from tcresttools.attribution import CodePart, attributed, costs_of, parts_of, runs_of
from tcresttools.code_text import TaskCode
from tcresttools.events import Bundle, Cause, Event, Sequence, Transaction
from tcresttools.naming import named_parts
from tcresttools.replay import replay
from tcresttools.trail import Walk


def main_with_loops() -> Lines:
    """The places 1 to 20: a loop of 5 to 12, of two iterations, in which 7 to 9 is one of three, and a call at 15."""
    main = Lines().bundles(TWO, "nop", "nop")
    outer = main.inner().bundles("nop", "nop")
    outer.loop("L1", 3, outer.inner().bundles("nop", "nop", "nop")).bundles(TWO, "nop")
    return main.loop("L0", 2, outer).bundles(TWO).call("f").bundles("nop", "ret")


def code() -> TaskCode:
    return code_of({"main": main_with_loops(), "f": Lines().bundles("nop", "nop", "nop", "ret")}, 40)


INNER = [7, 8, 9]
ITERATION = [5, 6, *INNER * 3, 10, 12]
PLACES = [1, 3, 4, *ITERATION * 2, 13, 15, 16, 17, 18, 22, 23, 24, 25, 19, 20]


def test_the_order_of_bundles() -> None:
    steps = list(Walk(code()).steps())
    assert [step.place for step in steps] == PLACES
    functions = {step.place: step.here.function.name for step in steps}
    assert [functions[place] for place in (1, 12, 18, 22, 25, 19)] == ["main"] * 3 + ["f"] * 2 + ["main"]
    opens = {step.place: step.here.open for step in steps}
    assert (opens[8].own, opens[8].callers) == ((0, 1, 2), ())
    assert (opens[22].own, opens[22].callers) == ((3,), (0,))


def test_iterations_that_are_walked_beside() -> None:
    """Where a code with fewer iterations is walked beside, its last iteration comes again and again."""
    short = code_of({"main": Lines().loop("L0", 2, Lines().bundles("nop"))}, 2)
    walk = Walk(short)
    assert len(list(walk.steps())) == 2
    longer = code_of({"main": Lines().loop("L0", 5, Lines().bundles("nop", "nop"))}, 10)
    beside = [step.beside for step in Walk(longer).steps(walk.first)]
    first, second = walk.first.inside[0]
    assert beside == [first] * 2 + [second] * 8


def test_parts() -> None:
    assert parts_of(code()) == [
        CodePart(False, 1, 20, None, 1, 1),
        CodePart(True, 5, 12, 0, 1, 2),
        CodePart(True, 7, 9, 1, 2, 6),
        CodePart(False, 22, 25, None, 1, 1),
    ]


def test_functions_are_run_as_often_as_they_are_called() -> None:
    """g is called by f twice, and f three times in a loop of two iterations."""
    f = Lines().call("g").call("g").bundles("ret")
    main = Lines().loop("L0", 2, Lines().call("f").call("f").call("f")).bundles("ret")
    found = runs_of(code_of({"main": main, "never": Lines().bundles("ret"), "g": Lines().bundles("ret"), "f": f}, 1))
    assert {name: found[name] for name in ("main", "f", "g", "never")} == {"main": 1, "f": 6, "g": 12, "never": 0}


def test_loops_behind_one_another_are_not_inside() -> None:
    main = Lines().bundles("nop")
    main.loop("L0", 2, main.inner().bundles("nop", "nop", "nop"))
    main.loop("L1", 2, main.inner().bundles("nop", "nop", "nop")).bundles("ret")
    parts = parts_of(code_of({"main": main}, 1))
    assert [(part.first, part.last, part.around) for part in parts] == [(1, 8, None), (2, 4, 0), (5, 7, 0)]


def test_costs() -> None:
    data = Transaction("write", 1, Cause.DATA)
    events: list[Event] = [Transaction("read", 4, Cause.FETCH)]
    for place in PLACES:
        if place == 22:
            events += [Transaction("read", 4, Cause.FETCH), Transaction("read", 1, Cause.FETCH)]
        events.append(Bundle(place))
        if place == 8:
            events.append(data)
    sequence = Sequence(events, [22 if place >= 22 else 1 for place in PLACES], {1: 20, 22: 4}, 0)
    replayed = replay(sequence, 6, [0], 0, 0)
    attribution = attributed(code(), sequence)
    costs = costs_of(attribution, sequence, replayed)
    entry, outer, inner, called = costs.parts
    assert (entry.bundles, outer.bundles, inner.bundles, called.bundles) == (36, 26, 18, 4)
    assert (entry.fetches, called.fetches, inner.accesses, outer.accesses) == (1, 2, 6, 6)
    # the loops' transactions are all of the entry's memory, and the called function is fetched and has none
    assert entry.memory == outer.memory == inner.memory
    assert called.memory == 0
    assert entry.cycles + called.cycles == costs.total.cycles == replayed.taken
    assert sum(cost.own for cost in costs.parts) == replayed.taken
    assert (entry.with_calls, called.with_calls) == (replayed.taken, called.cycles)
    assert outer.own == outer.cycles - inner.cycles
    # the first fetch is served at 0
    assert entry.fetch == 6


NAMED = b"""
int f(int x) { return x; }
int main() {
    int i; int j;
    _Pragma("loopbound min 2 max 2")
    while (i < 2) {
        _Pragma("loopbound min 3 max 3")
        for (j = 0; j < 3; j = j + 1) { }
    }
    i = f(i);
    return i;
}
"""


def test_names() -> None:
    named = named_parts(code(), NAMED)
    assert [(one.label, one.function, one.depth) for one in named] == [
        ("main()", "main()", 0), ("while", "main()", 0), ("for", "main()", 1), ("f()", "f()", 0),
    ]  # fmt: skip
    begins = [NAMED[one.at : one.at + 5] for one in named if one.at is not None]
    assert begins == [b"main(", b"while", b"for (", b"f(int"]


@pytest.mark.parametrize(
    "old,new", [(b"min 3 max 3", b"min 3 max 4"), (b"i = f(i);", b""), (b"i = f(i)", b"i = i / j")]
)
def test_loops_that_do_not_fit_are_named_by_their_labels(old: bytes, new: bytes) -> None:
    named = named_parts(code(), NAMED.replace(old, new))
    assert [one.label for one in named] == ["main()", "loop L0", "loop L1", "f()"]
    assert [one.at is None for one in named] == [False, True, True, False]


def test_functions_of_another_number_have_no_places() -> None:
    named = named_parts(code(), b"int main() { return 0; }")
    assert [one.label for one in named] == ["main()", "loop L0", "loop L1", "f()"]


INLINED = b"""
int g(int x) { return x / x; }
int f(int x) { int i; int r; r = g(x);
  _Pragma("loopbound min 4 max 4") for (i = 0; i < 4; i = i + 1) { r = g(x); } return r; }
int main() { int i; int s;
  _Pragma("loopbound min 0 max 2") while (s) { s = f(s); s = s / 8; s = f(s); } return 0; }
"""
DIVIDES = Lines().bundles("nop")


def with_inlined(inlined: int) -> TaskCode:
    """The code of INLINED, where `g` is inlined in `f`, and so many calls of `f` in `main`."""

    def body_of_f(lines: Lines, label: int) -> None:
        lines.call("g")
        loop = lines.inner()
        loop.loop(f"L{label + 1}", 8, loop.inner().bundles("nop"))
        lines.loop(f"L{label}", 4, loop)

    f = Lines()
    body_of_f(f, 0)
    g = Lines()
    g.loop("L0", 8, g.inner().bundles("nop"))
    loop = Lines()
    for number in range(2):
        if number < inlined:
            body_of_f(loop, 1 + 2 * number)
        else:
            loop.call("f")
    return code_of({"main": Lines().loop("L0", 2, loop), "g": g, "f": f}, 1)


def test_calls_that_are_inlined() -> None:
    """A call in a loop is in the code as a call, or as what its function's own code has."""
    own = [("for", 0, ()), ("division", 1, ("g",))]
    of_f = [("for", 1, ("f",)), ("division", 2, ("f", "g"))]
    for inlined in range(3):
        named = named_parts(with_inlined(inlined), INLINED)
        loops = [(one.label, one.depth, one.inlined) for one in named if not one.label.endswith("()")]
        assert loops == [("while", 0, ()), *of_f * inlined, ("division", 0, ()), *own]
        calls = {one.function: [call.name for call in one.calls] for one in named if one.calls}
        assert calls == {"f()": ["g"]} | ({"main()": ["f"] * inlined} if inlined else {})
        for one in named:
            if one.label == "division":
                assert one.at is not None and INLINED[one.at : one.at + 3] == b"/ x"


def test_a_call_that_is_inlined_says_so() -> None:
    named = named_parts(with_inlined(1), INLINED)
    assert [one.shown for one in named[:4]] == ["main()", "while", "for, f() inlined", "division, g() inlined"]
    (call,) = named[1].calls
    assert (INLINED[call.at : call.at + 4], call.part) == (b"f(s)", 1)
