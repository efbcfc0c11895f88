"""Elements of a C text whose index goes past the array: where the variables of loops that count have which values.

The loops around an element count by numbers, each on its own, so their variables take all combinations of their values.
An index is worked out for each. Of a variable that stands in it once, in sums, differences and products alone, the
first and the last value are enough: the least and the greatest index are among these. Nothing is said of an element
that may be left out for some of the values, nor of an index with other variables.
"""

from __future__ import annotations

from collections import Counter
from collections.abc import Iterator, Mapping, Sequence
from dataclasses import dataclass
from itertools import product
from math import prod

from .c_loops import Counted, block_end, counted, has_inside, head_of, is_plain
from .c_text import Token, number_of
from .c_tree import KINDS, LEVELS, is_plain_name

BUILT_IN = {"shared": 4096, "comm": 512}
HALF, WHOLE = 2**31, 2**32
LINEAR = ("+", "-", "*")
# How many tokens of an index and of a test before it are read, and how many combinations of values are tried.
MOST_TOKENS, MOST_TESTED, MOST_TRIED = 40, 200, 20_000


class Unknown(Exception):
    """Which values an index has is not known."""


@dataclass(frozen=True)
class Array:
    """An array of a C text: its length, and whether it stands in private memory."""

    length: int
    private: bool


@dataclass(frozen=True)
class Past:
    """An element whose index goes past its array: its first byte, and what is said of it."""

    at: int
    text: str


def arrays_of(tokens: list[Token]) -> dict[str, Array]:
    """The arrays that a text declares: `kind NAME [ NUMBER ]`, outside functions alone."""
    arrays = {name: Array(length, False) for name, length in BUILT_IN.items()}
    for at in range(len(tokens) - 3):
        kind, name, bracket, length = tokens[at : at + 4]
        if kind.text in KINDS and bracket.text == "[" and (number := number_of(length)) is not None:
            before = [token.text for token in tokens[max(at - 2, 0) : at]]
            arrays[name.text] = Array(number, "_SPM" not in (before[-1:] if kind.text == "unsigned" else before))
    return arrays


def past_elements(tokens: list[Token], source: bytes) -> Iterator[Past]:
    """The elements of a text whose index goes past the array."""
    arrays, kinds, around = arrays_of(tokens), kinds_of(tokens), Around(tokens)
    for at in range(len(tokens) - 1):
        name = tokens[at].text
        if name not in arrays or tokens[at + 1].text != "[" or (at > 0 and tokens[at - 1].text in KINDS):
            continue
        reader = IndexReader(tokens, at + 2, kinds)
        try:
            index = reader.index()
            shown = " ".join(source[tokens[at].at : tokens[reader.at - 1].end].decode().split())
            loops = around.loops(at) if names_in(index) else {}
            text = said_of(f"`{shown}`", name, arrays[name].length, index, loops)
        except Unknown:
            continue
        if text:
            yield Past(tokens[at].at, text)


def said_of(shown: str, name: str, length: int, index: Part, loops: Mapping[str, range]) -> str:
    """What is wrong with an element; nothing where it is right."""
    names = names_in(index)
    indexes = [(value_of(index, values), values) for values in tried(index, loops)]
    least, most = min(indexes, key=lambda one: one[0]), max(indexes, key=lambda one: one[0])
    elements = f"the array, which has {length} elements"
    if not names:
        is_past = most[0] % WHOLE >= length
        return f"{shown} is past {elements}: it reads 0, and sets nothing" if is_past else ""
    if least[0] < -HALF or most[0] >= HALF:
        raise Unknown
    if most[0] >= length and is_counted_up(index):
        return f"{shown} goes past {elements}: `{names[0]}` goes up to {most[1][names[0]]}"
    if most[0] >= length:
        return f"{shown} goes past {elements}: where {values_shown(names, most[1])} it is `{name}[{most[0]}]`"
    if least[0] < 0:
        return f"{shown} is no element where {values_shown(names, least[1])}: an index is an unsigned word"
    return ""


def is_counted_up(index: Part) -> bool:
    """The index is a variable, or a number more or less."""
    if isinstance(index, Operation) and index.sign in ("+", "-"):
        return isinstance(index.left, Variable) and isinstance(index.right, Number)
    return isinstance(index, Variable)


def values_shown(names: list[str], values: Mapping[str, int]) -> str:
    return " and ".join(f"`{name}` is {values[name]}" for name in names)


# Indexes. A part is unsigned or not, or that is not known.


@dataclass(frozen=True)
class Number:
    value: int
    unsigned: bool | None


@dataclass(frozen=True)
class Variable:
    name: str
    unsigned: bool | None


@dataclass(frozen=True)
class Operation:
    """Two operands and the sign between them."""

    sign: str
    left: Part
    right: Part

    @property
    def unsigned(self) -> bool | None:
        kinds = {self.left.unsigned, self.left.unsigned if self.sign in ("<<", ">>") else self.right.unsigned}
        return True if True in kinds else None if None in kinds else False


Part = Number | Variable | Operation


class IndexReader:
    """Reads the index behind a bracket: numbers, variables and their operations, and no elements."""

    def __init__(self, tokens: list[Token], at: int, kinds: Mapping[str, bool]) -> None:
        self.tokens = tokens
        self.at = at
        self.last = min(at + MOST_TOKENS, len(tokens))
        self.kinds = kinds

    def look(self) -> str:
        return self.tokens[self.at].text if self.at < self.last else ""

    def next(self) -> Token:
        if self.at >= self.last:
            raise Unknown
        self.at += 1
        return self.tokens[self.at - 1]

    def need(self, text: str) -> None:
        if self.next().text != text:
            raise Unknown

    def index(self) -> Part:
        made = self.chain(0)
        self.need("]")
        return made

    def chain(self, level: int) -> Part:
        if level == len(LEVELS):
            return self.operand()
        made = self.chain(level + 1)
        while self.look() in LEVELS[level]:
            made = Operation(self.next().text, made, self.chain(level + 1))
        return made

    def operand(self) -> Part:
        token = self.next()
        if token.text in ("-", "+"):
            return Operation(token.text, Number(0, False), self.operand())
        if token.text == "~":
            return Operation("-", Number(-1, False), self.operand())
        if token.text == "(":
            inside = self.chain(0)
            self.need(")")
            return inside
        number = number_of(token)
        if number is not None:
            return Number(number, token.text[-1] in "uU" or number >= HALF)
        if not is_plain_name(token):
            raise Unknown
        return Variable(token.text, self.kinds.get(token.text))


def kinds_of(tokens: list[Token]) -> dict[str, bool]:
    """Which names of a text are unsigned: all that it declares, but for those that it declares with both kinds."""
    found: dict[str, set[bool]] = {}
    for at in range(1, len(tokens)):
        if tokens[at - 1].text in KINDS and is_plain_name(tokens[at]):
            before = [token.text for token in tokens[max(at - 2, 0) : at]]
            found.setdefault(tokens[at].text, set()).add(before[-1] == "unsigned" or before[0] == "unsigned")
    return {name: True in kinds for name, kinds in found.items() if len(kinds) == 1}


def names_in(part: Part) -> list[str]:
    """The variables of a part."""
    return list(dict.fromkeys(name for name, _ in uses_in(part)))


def uses_in(part: Part, linear: bool = True) -> Iterator[tuple[str, bool]]:
    """Each variable where it stands, with whether only sums, differences and products are around it."""
    if isinstance(part, Variable):
        yield part.name, linear
    elif isinstance(part, Operation):
        for below in (part.left, part.right):
            yield from uses_in(below, linear and part.sign in LINEAR)


def tried(part: Part, loops: Mapping[str, range]) -> list[dict[str, int]]:
    """Values of its variables with which a part is least and greatest, and perhaps others."""
    uses = list(uses_in(part))
    often = Counter(name for name, _ in uses)
    linear = {name for name, linear in uses if linear and often[name] == 1}
    values: dict[str, Sequence[int]] = {}
    for name in often:
        if name not in loops:
            raise Unknown
        values[name] = (loops[name][0], loops[name][-1]) if name in linear else loops[name]
    if prod(map(len, values.values())) > MOST_TRIED:
        raise Unknown
    return [dict(zip(values, some, strict=True)) for some in product(*values.values())]


def value_of(part: Part, values: Mapping[str, int]) -> int:
    """The value of a part, up to multiples of 2^32. Quotients, remainders and shifts to the right take words."""
    if isinstance(part, Number):
        return part.value
    if isinstance(part, Variable):
        return values[part.name]
    left, right = value_of(part.left, values), value_of(part.right, values)
    match part.sign:
        case "+":
            return left + right
        case "-":
            return left - right
        case "*":
            return left * right
        case "&":
            return left & right
        case "|":
            return left | right
        case "^":
            return left ^ right
        case "<<":
            return left << right % 32
        case ">>":
            return word(left, part.unsigned) >> right % 32
        case "/":
            return quotient(word(left, part.unsigned), word(right, part.unsigned))
        case "%":
            left, right = word(left, part.unsigned), word(right, part.unsigned)
            return left - quotient(left, right) * right
    raise Unknown


def word(value: int, unsigned: bool | None) -> int:
    """The number of a word."""
    if unsigned is None and not 0 <= value < HALF:
        raise Unknown
    return value % WHOLE if unsigned else (value + HALF) % WHOLE - HALF


def quotient(left: int, right: int) -> int:
    """Rounded towards 0; by 0 it is 0."""
    return 0 if right == 0 else abs(left) // abs(right) * (1 if (left < 0) == (right < 0) else -1)


# What is around an element.


@dataclass(frozen=True)
class Spot:
    """Where a token stands: the brace of the innermost block around it, the first token of its statement, and the last
    `&&` or `||` there on which it may depend whether the token's value counts; -1 where there is none."""

    brace: int
    begin: int
    test: int


def spots_of(tokens: list[Token]) -> list[Spot]:
    """Where each token stands."""
    found: list[Spot] = []
    braces, tests, begin = [-1], [-1], 0
    for at, token in enumerate(tokens):
        found.append(Spot(braces[-1], begin, tests[-1]))
        if token.text == "{":
            braces.append(at)
        elif token.text == "}" and len(braces) > 1:
            braces.pop()
        if token.text in (";", "{", "}"):
            tests, begin = [-1], at + 1
        elif token.text in ("(", "["):
            tests.append(tests[-1])
        elif token.text in (")", "]") and len(tests) > 1:
            tests.pop()
        elif token.text in ("&&", "||"):
            tests[-1] = at
    return found


class Around:
    """The blocks and the loops around each token of a text."""

    def __init__(self, tokens: list[Token]) -> None:
        self.tokens = tokens
        self.spots = spots_of(tokens)
        self.counted: dict[int, Counted | None] = {}
        self.left: dict[int, bool] = {}

    def loops(self, at: int) -> dict[str, range]:
        """The variables that take all their values where a token is, whatever the others are, by the loops around."""
        found: dict[str, range] = {}
        hidden = self.tested_before(self.spots[at])
        brace = self.spots[at].brace
        while brace >= 0:
            head = head_of(self.tokens, brace)
            word = self.tokens[head].text
            if word in ("if", "else"):
                break
            if word in ("for", "while"):
                loop = self.loop(head, brace)
                if loop is not None:
                    if loop.name not in hidden and at < loop.end:
                        found[loop.name] = loop.values
                    hidden.add(loop.name)
                elif self.is_left(brace):
                    break
                else:
                    hidden |= {token.text for token in self.tokens[head:brace]}
            brace = self.spots[brace].brace
        return found

    def loop(self, head: int, brace: int) -> Counted | None:
        """The loop of a block, where it makes all iterations that it counts."""
        if brace not in self.counted:
            loop = counted(self.tokens, head)
            self.counted[brace] = loop if loop is not None and is_plain(self.tokens, loop) else None
        return self.counted[brace]

    def is_left(self, brace: int) -> bool:
        """The body of the loop of a block may be left in an iteration before its end."""
        if brace not in self.left:
            self.left[brace] = has_inside(self.tokens, brace, block_end(self.tokens, brace), ("break", "continue"))
        return self.left[brace]

    def tested_before(self, spot: Spot) -> set[str]:
        """The names on which it may depend whether the value of a token counts: those in front of a `&&` or a `||`.

        The condition of an `else if` is not reached for all values of any variable.
        """
        if self.tokens[spot.begin].text == "else" or spot.test - spot.begin > MOST_TESTED:
            raise Unknown
        return {token.text for token in self.tokens[spot.begin : max(spot.begin, spot.test)]}
