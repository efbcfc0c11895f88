"""C texts: their tokens with their places, as docs/SUBSET_C.md tells them apart. No other reader of tokens is here."""

from __future__ import annotations

import re
from dataclasses import dataclass

COUNT = rb"(0|[1-9][0-9]*)"
PRAGMA = re.compile(rb'_Pragma\("loopbound[ \t]+min[ \t]+' + COUNT + rb"[ \t]+max[ \t]+" + COUNT + rb'"\)')
LINE_PRAGMA = re.compile(
    rb"#pragma[ \t]+loopbound[ \t]+min[ \t]+" + COUNT + rb"[ \t]+max[ \t]+" + COUNT + rb"[ \t\r]*(?=\n|\Z)"
)
# Signs of C that the subset does not have, and those that it has; a longer one comes before those that it begins with.
REFUSED_SIGNS = ["<<=", ">>=", "++", "--", "->", "+=", "-=", "*=", "/=", "%=", "&=", "|=", "^="]
SIGNS = ["||", "&&", "==", "!=", "<=", ">=", "<<", ">>", *"()[]{};,=|^&<>+-*/%~!"]
PIECE = re.compile(
    rb"(?P<blank>[ \t\r\n]+|//[^\n]*|/\*.*?\*/)"
    rb"|(?P<bound>#|_Pragma(?![A-Za-z0-9_]))"
    rb"|(?P<name>[A-Za-z_][A-Za-z0-9_]*)"
    rb"|(?P<number>(?:0[xX][0-9A-Fa-f]+|0|[1-9][0-9]*)[uU]?(?![A-Za-z0-9_]))"
    rb"|(?P<refused>/\*|" + b"|".join(re.escape(sign).encode() for sign in REFUSED_SIGNS) + rb")"
    rb"|(?P<sign>" + b"|".join(re.escape(sign).encode() for sign in SIGNS) + rb")",
    re.S,
)
MOST = 2**32 - 1
MOST_DIGITS = 10


@dataclass(frozen=True)
class Token:
    """A token: its text, and its first byte's number in the source."""

    text: str
    at: int

    @property
    def end(self) -> int:
        """Behind its last byte: tokens are ASCII."""
        return self.at + len(self.text)

    @property
    def is_name(self) -> bool:
        """It is a name or a keyword, and no bound of a loop."""
        return (self.text[0].isalpha() or self.text[0] == "_") and not self.is_bound

    @property
    def is_number(self) -> bool:
        return self.text[0].isdigit()

    @property
    def is_bound(self) -> bool:
        return self.text.startswith(("#", "_Pragma("))


class NoTokens(Exception):
    """A text that can't be cut into tokens: the fault, and its first byte."""

    def __init__(self, fault: str, at: int) -> None:
        super().__init__(f"{fault} at {at}")
        self.fault = fault
        self.at = at


def tokens_of(source: bytes) -> list[Token]:
    """The tokens of a text."""
    found, at = [], 0
    while at < len(source):
        piece = PIECE.match(source, at)
        if piece is None or piece.lastgroup == "refused":
            raise NoTokens("Char", at)
        end = piece.end()
        if piece.lastgroup == "bound":
            end = bound_end(source, at)
        elif piece.lastgroup == "number" and is_wide(piece.group()):
            raise NoTokens("Wide", at)
        if piece.lastgroup != "blank":
            found.append(Token(source[at:end].decode(), at))
        at = end
    return found


def bound_match(source: bytes, at: int) -> re.Match[bytes] | None:
    """The bound of a loop that begins at a byte: its groups are the fewest iterations and the most."""
    return (LINE_PRAGMA if source[at] == 0x23 else PRAGMA).match(source, at)


def bound_end(source: bytes, at: int) -> int:
    """Behind the bound of a loop."""
    line = source[at] == 0x23
    found = bound_match(source, at)
    begin = source.rfind(b"\n", 0, at) + 1
    if found is None or (line and source[begin:at].strip(b" \t\r")):
        raise NoTokens("Char", at)
    for part in (1, 2):
        if is_wide(found.group(part)):
            raise NoTokens("Wide", found.start(part))
    return found.end()


def is_wide(number: bytes) -> bool:
    """The number passes a word. Decimal digits are counted first, since Python reads no number of thousands of them."""
    digits = number.rstrip(b"uU")
    if digits[:2].lower() == b"0x":
        return int(digits, 16) > MOST
    return len(digits) > MOST_DIGITS or int(digits) > MOST


def number_of(token: Token) -> int | None:
    """The number that a token writes."""
    return int(token.text.rstrip("uU"), 0) if token.is_number else None


def token_at(source: bytes, number: int) -> Token | None:
    """Token `number`, from 0; none where the text has fewer."""
    tokens = tokens_of(source)
    return tokens[number] if number < len(tokens) else None
