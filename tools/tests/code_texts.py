"""Small codes in tests, as `tccode` writes them."""

from __future__ import annotations

from tcresttools.code_text import TaskCode, read_code


class Lines:
    """Writes the lines of a function: bundles of so many words, loops and calls."""

    def __init__(self) -> None:
        self.lines: list[str] = []
        self.at = 0

    def bundles(self, *texts: str) -> Lines:
        """A bundle for each text: `nop`, and one in braces takes two words."""
        for text in texts:
            size = 2 if text.startswith("{") else 1
            words = " ".join(["00000000"] * size)
            self.lines.append(f"  {text};  # {self.at} {words}")
            self.at += size
        return self

    def loop(self, label: str, iterations: int, body: Lines) -> Lines:
        """A loop around lines that were written from here on."""
        self.lines += [f"# loop {label} iterations {iterations}", f"{label}:", *body.lines, f"# end {label}"]
        self.at = body.at
        return self

    def inner(self) -> Lines:
        """Lines that go on here."""
        made = Lines()
        made.at = self.at
        return made

    def call(self, name: str) -> Lines:
        return self.bundles(f"call {name}", "nop", "nop", "nop")


TWO = "{ nop ; nop }"


def text_of(functions: dict[str, Lines], bundles: int, bound: int = 0, transactions: int = 0) -> str:
    """The text of a task on core 0 with these functions."""
    words = sum(lines.at + 1 for lines in functions.values())
    head = f"# core 0 words {words} bundles {bundles} transactions {transactions} bound {bound} persist {bound}"
    text = [head]
    for name, lines in functions.items():
        text += [f"# function {name} words {lines.at} stack 0 bundles 1 transactions 0", f".func {name}", *lines.lines]
    return "\n".join(text) + "\n"


def code_of(functions: dict[str, Lines], bundles: int) -> TaskCode:
    return read_code(text_of(functions, bundles))[0]
