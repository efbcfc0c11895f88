"""The loops of a C text that count by numbers, and its blocks."""

from __future__ import annotations

from collections.abc import Iterator
from dataclasses import dataclass
from itertools import pairwise

from .c_text import Token, number_of


@dataclass(frozen=True)
class Counted:
    """A loop that counts by numbers: its variable, the values that this has in the body, and the body's tokens."""

    name: str
    values: range
    begin: int
    end: int

    @property
    def least(self) -> int:
        return min(self.values[0], self.values[-1])

    @property
    def most(self) -> int:
        return max(self.values[0], self.values[-1])


def counted(tokens: list[Token], at: int) -> Counted | None:
    """The loop that begins at a token, where it counts by numbers."""
    return counted_for(tokens, at) if tokens[at].text == "for" else counted_while(tokens, at)


def counted_for(tokens: list[Token], at: int) -> Counted | None:
    """The loop `for (i = A; i < B; i = i + C) {` with numbers, also with `<=`, and with `>`, `>=` and `-`."""
    texts = [token.text for token in tokens[at : at + 17]]
    if len(texts) < 17 or len({texts[2], texts[6], texts[10], texts[12]}) != 1 or texts[16] != "{":
        return None
    if [texts[number] for number in (1, 3, 5, 9, 11, 15)] != ["(", "=", ";", ";", "=", ")"]:
        return None
    first, last, step = (number_of(tokens[at + number]) for number in (4, 8, 14))
    values = values_of(first, texts[7], last, texts[13], step)
    return None if values is None else Counted(texts[2], values, at + 16, block_end(tokens, at + 16))


def counted_while(tokens: list[Token], at: int) -> Counted | None:
    """The loop `i = A; BOUND while (i < B) { .. i = i + C; }`, whose last statement is left out of its body."""
    head = [token.text for token in tokens[at : at + 7]]
    if at < 5 or len(head) < 7 or not tokens[at - 1].is_bound or [head[1], *head[5:]] != ["(", ")", "{"]:
        return None
    end = block_end(tokens, at + 6) - 6
    before, step = ([token.text for token in part] for part in (tokens[at - 5 : at - 1], tokens[end : end + 6]))
    name = head[2]
    if len(step) < 6 or [*before[:2], before[3], *step[:3], step[5]] != [name, "=", ";", name, "=", name, ";"]:
        return None
    first, last, more = (number_of(tokens[number]) for number in (at - 3, at + 4, end + 4))
    values = values_of(first, head[3], last, step[3], more)
    return None if values is None else Counted(name, values, at + 6, end)


def values_of(first: int | None, compare: str, last: int | None, sign: str, step: int | None) -> range | None:
    """The values of a variable that counts from a number while it compares so; none where it does not, or has none."""
    if first is None or last is None or not step:
        return None
    ways = {"<": ("+", last), "<=": ("+", last + 1), ">": ("-", last), ">=": ("-", last - 1)}
    way, stop = ways.get(compare, ("", 0))
    values = range(first, stop, step if sign == "+" else -step)
    return values if way == sign and values else None


def is_plain(tokens: list[Token], loop: Counted) -> bool:
    """The loop makes all its iterations (`makes_all`), and each of them goes on to the end of its body."""
    return makes_all(tokens, loop) and not has_inside(tokens, loop.begin, loop.end, ("continue",))


def makes_all(tokens: list[Token], loop: Counted) -> bool:
    """The loop is left by its condition alone, and its body does not set its variable.

    A `continue` in a `for` goes on to its step. In a `while` it may skip the step, so ask `is_plain` of that.
    """
    body = [token.text for token in tokens[loop.begin : loop.end]]
    sets = any(name == loop.name and sign == "=" for name, sign in pairwise(body))
    return not sets and "return" not in body and not has_inside(tokens, loop.begin, loop.end, ("break",))


def has_inside(tokens: list[Token], begin: int, end: int, words: tuple[str, ...]) -> bool:
    """A loop's body has one of these words, and not in a loop inside it."""
    return any(tokens[number].text in words for number in outside(tokens, begin + 1, end, ("for", "while")))


def outside(tokens: list[Token], begin: int, end: int, words: tuple[str, ...]) -> Iterator[int]:
    """The tokens of a block that are in no block inside it which one of these words begins."""
    at = begin
    while at < end:
        if tokens[at].text == "{" and word_of(tokens, at) in words:
            at = block_end(tokens, at)
        yield at
        at += 1


def head_of(tokens: list[Token], brace: int) -> int:
    """The first token of the head of a block: `else`, or the word in front of the brackets before the brace."""
    depth, at = 0, brace - 1
    while at > 0 and tokens[brace - 1].text == ")":
        depth += (tokens[at].text == ")") - (tokens[at].text == "(")
        at -= 1
        if depth == 0:
            break
    return at


def word_of(tokens: list[Token], brace: int) -> str:
    """The word that begins the block of a brace."""
    return tokens[head_of(tokens, brace)].text


def block_end(tokens: list[Token], brace: int) -> int:
    """The token that ends a block."""
    depth = 0
    for number in range(brace, len(tokens)):
        depth += (tokens[number].text == "{") - (tokens[number].text == "}")
        if depth == 0:
            return number
    return len(tokens)
