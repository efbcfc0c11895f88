"""Where the functions, loops and divisions of a C text are: with their blocks."""

from __future__ import annotations

from bisect import bisect_right
from dataclasses import dataclass

from .c_text import Token

CLOSING = {"(": ")", "{": "}"}


@dataclass(frozen=True)
class Extent:
    """The bytes of a function, a loop or a division in the text."""

    at: int
    end: int


def behind_bracket(tokens: list[Token], at: int) -> int:
    """The number of the token behind the bracket that closes the one at this number."""
    depth = 0
    opening, closing = tokens[at].text, CLOSING[tokens[at].text]
    while at < len(tokens):
        depth += (tokens[at].text == opening) - (tokens[at].text == closing)
        at += 1
        if depth == 0:
            break
    return at


def extent_of(tokens: list[Token], at: int, is_loop: bool) -> Extent:
    """Where the part is that begins at a byte: a function and a loop with their block, a division its sign."""
    first = bisect_right([token.at for token in tokens], at) - 1
    if not is_loop or tokens[first].text in ("for", "while"):
        block = behind_bracket(tokens, first + 1)
        return Extent(tokens[first].at, tokens[behind_bracket(tokens, block) - 1].end)
    return Extent(tokens[first].at, tokens[first].end)
