"""The lines that a text lowered by `tools/lower` comes from, as its comments name them."""

from __future__ import annotations

import re

from . import c_text

LOWERED = b"// Lowered by tools/lower"
ORIGIN = re.compile(rb"// ([^\n]*:[0-9]+)[ \t\r]*(?=\n|\Z)")


def byte_of(source: bytes, fault: str, number: int) -> int:
    """The byte at which a C text is refused: the number itself, or the first byte of that token; else the end."""
    if fault in ("Char", "Wide"):
        return number
    try:
        token = c_text.token_at(source, number)
    except c_text.NoTokens:
        return len(source)
    return len(source) if token is None else token.at


def origin_of(source: bytes, at: int) -> str | None:
    """The line of the file that the line of this byte comes from; none where the text was not lowered."""
    if not source.lstrip().startswith(LOWERED):
        return None
    end = source.find(b"\n", at)
    found = ORIGIN.findall(source[: len(source) if end < 0 else end])
    return found[-1].decode("utf-8", "replace") if found else None
