"""What is known of a core's registers along the bundles that it does: constants, and what is worked out from them.

What comes from memory or from a product is not known. Nothing is guessed: a register whose write depends on a predicate
that is not known is not known either.
"""

from __future__ import annotations

import re
from collections.abc import Callable

from .assembly import Instruction

WORD = 1 << 32
OPERATIONS: dict[str, Callable[[int, int], int]] = {
    "add": lambda a, b: a + b,
    "sub": lambda a, b: a - b,
    "xor": lambda a, b: a ^ b,
    "sl": lambda a, b: a << b % 32,
    "sr": lambda a, b: a >> b % 32,
    "sra": lambda a, b: signed(a) >> b % 32,
    "or": lambda a, b: a | b,
    "and": lambda a, b: a & b,
    "nor": lambda a, b: ~(a | b),
    "shadd": lambda a, b: 2 * a + b,
    "shadd2": lambda a, b: 4 * a + b,
}
COMPARES: dict[str, Callable[[int, int], bool]] = {
    "eq": lambda a, b: a == b,
    "neq": lambda a, b: a != b,
    "lt": lambda a, b: signed(a) < signed(b),
    "le": lambda a, b: signed(a) <= signed(b),
    "ult": lambda a, b: a < b,
    "ule": lambda a, b: a <= b,
}
COMBINATIONS: dict[str, Callable[[bool, bool], bool]] = {
    "por": lambda a, b: a or b,
    "pand": lambda a, b: a and b,
    "pxor": lambda a, b: a is not b,
}
COMPARE = re.compile(r"cmpi?(eq|neq|lt|le|ult|ule)")
ADDRESS = re.compile(r"\[\s*(r\w+)\s*(?:\+\s*(\w+)\s*)?\]")


def signed(word: int) -> int:
    return word - WORD if word >= WORD // 2 else word


def number_of(text: str) -> int:
    """A number as an assembly text writes it: decimal, with zeros in front or without, or hexadecimal."""
    return int(text, 16) if text[:2].lower() == "0x" else int(text)


def offset_of(operands: str) -> int:
    """The number behind the register in brackets, in units of the access."""
    found = ADDRESS.search(operands)
    return 0 if found is None or found.group(2) is None else number_of(found.group(2))


def operation_of(mnemonic: str) -> Callable[[int, int], int] | None:
    """What `add`, `addi` and `addl` do, and the others like them."""
    return OPERATIONS.get(mnemonic) or (OPERATIONS.get(mnemonic[:-1]) if mnemonic[-1:] in ("i", "l") else None)


class KnownRegisters:
    """The registers and predicates between two bundles; none stands for what is not known."""

    def __init__(self) -> None:
        self.words: list[int | None] = [0] * 32
        self.predicates: list[bool | None] = [True, *[False] * 7]

    def word(self, text: str) -> int | None:
        """A register's word, or a number."""
        shown = text.strip()
        return self.words[number_of(shown[1:])] if shown.startswith("r") else number_of(shown)

    def predicate(self, text: str) -> bool | None:
        """A predicate, or its negation."""
        shown = text.strip()
        value = self.predicates[number_of(shown.lstrip("! \t")[1:])]
        return value if value is None or not shown.startswith("!") else not value

    def guard(self, part: Instruction) -> bool | None:
        """Whether an instruction is done."""
        return True if not part.guard else self.predicate(part.guard)

    def base(self, operands: str) -> int | None:
        """The word of the register in brackets."""
        found = ADDRESS.search(operands)
        return None if found is None else self.word(found.group(1))

    def do(self, parts: list[Instruction]) -> None:
        """What a bundle does: both slots read the registers as they were before it."""
        words: dict[int, int | None] = {}
        predicates: dict[int, bool | None] = {}
        for part in parts:
            done = self.guard(part)
            if done is False:
                continue
            self.set_words(part, done is True, words)
            self.set_predicates(part, done is True, predicates)
        for number, word in words.items():
            self.words[number] = word if number else 0
        for number, predicate in predicates.items():
            self.predicates[number] = predicate if number else True

    def set_words(self, part: Instruction, sure: bool, words: dict[int, int | None]) -> None:
        """The register that an instruction sets, with its word where that is known."""
        left, _, right = part.operands.partition("=")
        goal = left.strip()
        if not goal.startswith("r") or not right:
            return
        operation = operation_of(part.mnemonic)
        value = None
        if operation is not None and sure:
            one, other = (self.word(text) for text in right.split(","))
            value = None if one is None or other is None else operation(one, other) % WORD
        words[number_of(goal[1:])] = value

    def set_predicates(self, part: Instruction, sure: bool, predicates: dict[int, bool | None]) -> None:
        """The predicates that an instruction sets, with their values where those are known."""
        left, _, right = part.operands.partition("=")
        goal = left.strip()
        if part.mnemonic == "mts" and goal == "s0":
            value = self.word(right)
            for number in range(8):
                predicates[number] = None if value is None or not sure else bool(value >> number & 1)
        elif goal.startswith("p") and right:
            predicates[number_of(goal[1:])] = self.compared(part.mnemonic, right) if sure else None

    def compared(self, mnemonic: str, operands: str) -> bool | None:
        """What a compare, a test of a bit or a combination of predicates gives."""
        left, right = operands.split(",")
        if mnemonic in COMBINATIONS:
            first, second = self.predicate(left), self.predicate(right)
            return None if first is None or second is None else COMBINATIONS[mnemonic](first, second)
        one, other = self.word(left), self.word(right)
        if one is None or other is None:
            return None
        found = COMPARE.fullmatch(mnemonic)
        return bool(one >> other % 32 & 1) if found is None else COMPARES[found.group(1)](one, other)
