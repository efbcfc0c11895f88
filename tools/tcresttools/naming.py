"""Which function, loop or division of a C text each part of its code is.

The code tells its functions by name, its loops with their iterations, and its calls. The text has loops, divisions and
calls in the order in which the compiler takes them. A call that stands in a loop may be inlined: then the code has, in
its place, the loops and calls of the function's own code. Where code and text fit, each loop of the code has a place in
the text; where they don't, it is named by its label. Of several ways to fit, the earlier call is the one inlined.
"""

from __future__ import annotations

from collections.abc import Iterator
from dataclasses import dataclass

from .c_outline import DIVIDING, DIVISION_ITERATIONS, Call, Division, Item, Loop, image_order, outline_of
from .code_text import CodeBundle, CodeCall, CodeItem, CodeLoop, TaskCode


@dataclass(frozen=True)
class Inlined:
    """A call that is inlined: the function, the place of the call in the text, and the part of the code with it."""

    name: str
    at: int
    part: int


@dataclass(frozen=True)
class Named:
    """A part of the code under its name in the text: its function, its first byte, and how many loops are around it.

    `inlined` are the functions that are inlined around a loop, the outermost first: the loop is in the last one's text.
    `calls` are the calls of the function's own text that are inlined in this loop, and in none inside it.
    """

    label: str
    function: str
    at: int | None
    depth: int
    inlined: tuple[str, ...] = ()
    calls: tuple[Inlined, ...] = ()

    @property
    def shown(self) -> str:
        """The name, with the function that is inlined around the part."""
        return self.label + "".join(f", {name}() inlined" for name in self.inlined[-1:])


# ---- the text


@dataclass(frozen=True, eq=False)
class TextLoop:
    """A loop or a division of the text, the functions that are inlined around it, and what is in it."""

    item: Loop | Division
    inlined: tuple[str, ...]
    items: list[Text]

    @property
    def iterations(self) -> int:
        return self.item.most if isinstance(self.item, Loop) else DIVISION_ITERATIONS


@dataclass(frozen=True)
class TextCall:
    """A call of the text. One that is not inlined where it stands is not inlined with its function either."""

    name: str
    at: int
    may_be_inlined: bool


Text = TextLoop | TextCall


def text_items(items: list[Item], looped: bool = False) -> list[Text]:
    """The loops, divisions and calls of a text. Calls in loops may be inlined."""
    found: list[Text] = []
    for item in items:
        if isinstance(item, Call):
            found.append(TextCall(item.name, item.at, looped))
        else:
            found.append(TextLoop(item, (), text_items(item.items, True) if isinstance(item, Loop) else []))
    return found


def inside(item: Text, name: str) -> Text:
    """An item of a function's own code, where that function is inlined."""
    if isinstance(item, TextCall):
        return item
    return TextLoop(item.item, (name, *item.inlined), [inside(one, name) for one in item.items])


# ---- how it fits the code


@dataclass
class Fitting:
    """What items of the code are in the text: its loops by their numbers, the calls that are inlined, and the items.

    These are those of the text that have code, with a function's own ones in place of a call that is inlined.
    """

    loops: dict[int, TextLoop]
    calls: list[Inlined]
    items: list[Text]

    def add(self, other: Fitting) -> None:
        self.loops |= other.loops
        self.calls += other.calls
        self.items += other.items


class Fitter:
    """Finds what the loops of each function of a code are in the text."""

    def __init__(self, code: TaskCode, source: bytes) -> None:
        self.outlined = image_order(outline_of(source))
        self.names: dict[str, str] = {}  # of the text, by those of the code
        self.items: dict[str, list[Text]] = {}  # of the functions of the text that were fitted, as they are in the code
        self.found: dict[tuple[int, TextLoop], Fitting | None] = {}
        self.fittings: list[Fitting | None] = [None] * len(code.functions)
        if len(self.outlined) != len(code.functions):
            return
        self.names = {one.name: text.name for one, text in zip(code.functions, self.outlined, strict=True)}
        # A function calls earlier ones of the text alone, and `main`, the first of the code, calls the others.
        for number in [*range(1, len(code.functions)), 0]:
            function, outlined = code.functions[number], self.outlined[number]
            fitting = self.fit(without_bundles(function.items), text_items(outlined.items), function.number)
            self.fittings[number] = fitting
            if fitting is not None:
                self.items[outlined.name] = fitting.items

    def fit(self, code: list[CodeItem], text: list[Text], part: int) -> Fitting | None:
        """These items of a part's code as these of the text; none where they don't fit."""
        # For each item of the text from where on in the code it and all behind it fit.
        fits: list[set[int]] = [*(set[int]() for _ in text), {len(code)}]
        for at in reversed(range(len(text))):
            for begin in range(len(code) + 1):
                if any(end in fits[at + 1] for end, _ in self.ways(code, begin, text[at], part)):
                    fits[at].add(begin)
        if 0 not in fits[0]:
            return None
        whole, begin = Fitting({}, [], []), 0
        for at, item in enumerate(text):
            begin, fitting = next(way for way in self.ways(code, begin, item, part) if way[0] in fits[at + 1])
            whole.add(fitting)
        return whole

    def ways(self, code: list[CodeItem], begin: int, item: Text, part: int) -> Iterator[tuple[int, Fitting]]:
        """The ways in which an item of the text fits the code from here on, each with where it ends."""
        if isinstance(item, TextLoop):
            fitting = self.loop(code, begin, item)
            if fitting is not None:
                yield begin + 1, fitting
            return
        if item.may_be_inlined and item.name in self.items:
            found = self.inlined(code, begin, item, part)
            if found is not None:
                yield found
        called = code[begin] if begin < len(code) else None
        if isinstance(called, CodeCall) and self.names[called.name] == item.name:
            yield begin + 1, Fitting({}, [], [TextCall(item.name, item.at, False)])

    def inlined(self, code: list[CodeItem], begin: int, call: TextCall, part: int) -> tuple[int, Fitting] | None:
        """A call that is inlined: the code has the items of its function, each as it is in that function's own code."""
        whole = Fitting({}, [Inlined(call.name, call.at, part)], [])
        for item in self.items[call.name]:
            way = next(self.ways(code, begin, inside(item, call.name), part), None)
            if way is None:
                return None
            begin = way[0]
            whole.add(way[1])
        return begin, whole

    def loop(self, code: list[CodeItem], begin: int, item: TextLoop) -> Fitting | None:
        """An item of the code as a loop of the text."""
        loop = code[begin] if begin < len(code) else None
        if not isinstance(loop, CodeLoop) or loop.iterations != item.iterations:
            return None
        key = (loop.number, item)
        if key not in self.found:
            inner = self.fit(without_bundles(loop.items), item.items, loop.number)
            if inner is not None:
                items: list[Text] = [TextLoop(item.item, item.inlined, inner.items)]
                inner = Fitting({loop.number: item, **inner.loops}, inner.calls, items)
            self.found[key] = inner
        return self.found[key]


def without_bundles(items: list[CodeItem]) -> list[CodeItem]:
    """The loops and calls of items."""
    return [item for item in items if not isinstance(item, CodeBundle)]


# ---- names


def label_of(item: Loop | Division) -> str:
    """The word of a loop; of a division what it gives, and whether it is that of a condition after the loop."""
    if isinstance(item, Loop):
        return item.word
    return DIVIDING[item.sign] + (" after it" if item.is_after_iterations else "")


def named_loops(items: list[CodeItem], fitting: Fitting | None, function: str, depth: int) -> Iterator[Named]:
    """The loops of items under their names; those that fit nothing in the text under their labels."""
    for loop in items:
        if not isinstance(loop, CodeLoop):
            continue
        if fitting is None:
            yield Named(f"loop {loop.label}", function, None, depth)
        else:
            found = fitting.loops[loop.number]
            calls = tuple(call for call in fitting.calls if call.part == loop.number)
            yield Named(label_of(found.item), function, found.item.at, depth, found.inlined, calls)
        yield from named_loops(loop.items, fitting, function, depth + 1)


def named_parts(code: TaskCode, source: bytes) -> list[Named]:
    """The parts of the code under their names in the text, by their numbers."""
    fitter = Fitter(code, source)
    places = {one.name: one.at for one in fitter.outlined}
    named: list[Named] = []
    for function, fitting in zip(code.functions, fitter.fittings, strict=True):
        text = fitter.names.get(function.name, function.name)
        named.append(Named(f"{text}()", f"{text}()", places.get(text), 0))
        named += named_loops(function.items, fitting, f"{text}()", 0)
    return named
