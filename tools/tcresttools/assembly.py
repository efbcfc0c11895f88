"""Assembly texts: their statements with their places, and the words of their code."""

from __future__ import annotations

import re
from dataclasses import dataclass, field

from .cli import BadInput

FUNCTION = re.compile(rb"\.func(?![A-Za-z0-9_.])[ \t\r]*([A-Za-z_][A-Za-z0-9_]*)")
LABEL = re.compile(rb"([A-Za-z_][A-Za-z0-9_]*)[ \t\r]*:")
GUARD = re.compile(rb"\((!?)[ \t\r]*p[0-9A-Za-z]+[ \t\r]*\)|\([^)]*\)")
MNEMONIC = re.compile(rb"[A-Za-z0-9_.]+")
BLANKS = b" \t\r"
TWO_WORDS = 1 << 31


@dataclass(frozen=True)
class Statement:
    """A statement: `function`, `label` or `bundle`, its text, its first byte's number in the source, and its line."""

    kind: str
    text: str
    at: int
    end: int
    line: int
    name: str = ""


@dataclass(frozen=True)
class Instruction:
    """An instruction of a bundle: its guard, its mnemonic, and what stands behind."""

    guard: str
    mnemonic: str
    operands: str


def pieces(source: bytes) -> list[tuple[int, bytes]]:
    """The pieces of a text between newlines and `;` outside braces, without comments, each with its first byte."""
    found, begin, braces, comment = [], 0, False, None
    for at, byte in enumerate(source + b"\n"):
        if byte == 0x0A or (byte == 0x3B and not braces and comment is None):
            found.append((begin, source[begin : at if comment is None else comment]))
            begin = at + 1
        if byte == 0x0A:
            braces, comment = False, None
        elif byte == 0x23 and comment is None:
            comment = at
        elif byte in b"{}" and comment is None:
            braces = byte == 0x7B
    return found


def statements_of(source: bytes) -> list[Statement]:
    """The statements of a text, as docs/ASSEMBLY.md tells them apart."""
    found = []
    for begin, piece in pieces(source):
        at = begin
        while rest := piece[at - begin :].lstrip(BLANKS):
            at = begin + len(piece) - len(rest)
            line = source.count(b"\n", 0, at) + 1
            label = LABEL.match(rest)
            if label is None:
                found.append(statement(rest.rstrip(BLANKS), at, line))
                break
            end = at + label.end()
            found.append(Statement("label", label.group(0).decode(), at, end, line, label.group(1).decode()))
            at = end
    return found


def statement(text: bytes, at: int, line: int) -> Statement:
    """The statement that is no label."""
    function = FUNCTION.match(text)
    shown = text.decode("utf-8", "replace")
    if function is not None:
        return Statement("function", shown, at, at + len(text), line, function.group(1).decode())
    return Statement("bundle", shown, at, at + len(text), line)


def instructions_of(bundle: Statement) -> list[Instruction]:
    """The instructions of a bundle: one, or the two halves of a brace."""
    text = bundle.text.encode().strip(BLANKS)
    halves = text[1:].rstrip(b"}").split(b";") if text.startswith(b"{") else [text]
    return [instruction(half.strip(BLANKS)) for half in halves]


def instruction(text: bytes) -> Instruction:
    guard = GUARD.match(text)
    behind = text[guard.end() :].lstrip(BLANKS) if guard else text
    mnemonic = MNEMONIC.match(behind)
    end = mnemonic.end() if mnemonic else 0
    shown = re.sub(rb"[ \t\r()]", b"", guard.group(0)).decode() if guard else ""
    return Instruction(shown, behind[:end].decode(), behind[end:].decode("utf-8", "replace").strip())


@dataclass(frozen=True)
class Row:
    """What stands at a place of the code: its words, and its statement."""

    place: int
    offset: int | None
    words: list[int]
    statement: Statement
    function: str


@dataclass
class Code:
    """The code of an assembly task, beside its text."""

    rows: list[Row] = field(default_factory=list)

    def bundle_at(self, place: int) -> Row | None:
        """The bundle that begins at a place."""
        return next((row for row in self.rows if row.statement.kind == "bundle" and row.place == place), None)


def code_of(source: bytes, words: list[int]) -> Code:
    """The code of a text beside its statements; `BadInput` where the words are not those of the text."""
    code, at, end, function = Code(), 0, 0, ""
    for found in statements_of(source):
        if found.kind == "function":
            if at != end or at >= len(words):
                raise BadInput("the listing is not that of this text: a function begins elsewhere")
            function = found.name
            code.rows.append(Row(at, None, [words[at]], found, function))
            begin, end, at = at + 1, at + 1 + words[at], at + 1
            if end > len(words):
                raise BadInput("the listing is not that of this text: a function has fewer words than its size says")
        elif found.kind == "label":
            code.rows.append(Row(at, at - begin, [], found, function))
        else:
            count = 2 if at < end and words[at] & TWO_WORDS else 1
            if at + count > end:
                raise BadInput("the listing is not that of this text: a function ends elsewhere")
            code.rows.append(Row(at, at - begin, words[at : at + count], found, function))
            at += count
    if at != len(words) or at != end:
        raise BadInput("the listing is not that of this text: it has more words")
    return code
