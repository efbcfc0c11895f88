"""The sends of a C text, and other statements in their place: so the task can be run on a core that is alone.

These work out the source, the target and the count of a transfer in the same order. They set a word of communication
memory, which moves no words of main memory, as a transfer moves none.
"""

from __future__ import annotations

from dataclasses import dataclass

from .c_outline import OutlineReader
from .c_text import Token, tokens_of

ARGUMENTS = 3  # behind the core


@dataclass(frozen=True)
class Site:
    """A `send`: its bytes in the text, and what takes its place."""

    at: int
    end: int
    instead: bytes


def site_at(source: bytes, tokens: list[Token], number: int) -> Site:
    """The `send` that begins at a token."""
    reader = OutlineReader(tokens)
    reader.at = number + 4
    stores = []
    for _ in range(ARGUMENTS):
        begin = tokens[reader.at].at
        reader.expression()
        stores.append(b"comm[0] = " + source[begin : tokens[reader.at].at] + b";")
        reader.take()
    return Site(tokens[number].at, tokens[reader.at].end, b" ".join(stores))


def without_sends(source: bytes) -> bytes:
    """The text with other statements in place of each `send`."""
    tokens = tokens_of(source)
    text, at = b"", 0
    for number, token in enumerate(tokens):
        if token.text == "send":
            site = site_at(source, tokens, number)
            text += source[at : site.at] + site.instead
            at = site.end
    return text + source[at:]
