"""The method cache: which functions it holds, and the transactions that a fetch takes (docs/MACHINE.md)."""

from __future__ import annotations

MOST_FUNCTIONS = 16
MOST_WORDS = 4096
WORDS_OF_TRANSACTION = 4


def fetch_words(size: int) -> list[int]:
    """The words of each transaction that fetches a function of so many words, with its size word."""
    whole, rest = divmod(size + 1, WORDS_OF_TRANSACTION)
    return [WORDS_OF_TRANSACTION] * whole + ([rest] if rest else [])


class MethodCache:
    """The functions that are held, in the order in which they were fetched: the first is the first to be evicted."""

    def __init__(self) -> None:
        self.sizes: dict[int, int] = {}

    def holds(self, function: int) -> bool:
        return function in self.sizes

    def fetch(self, function: int, size: int) -> None:
        """Takes in a function that is not held."""
        self.sizes[function] = size
        while len(self.sizes) > MOST_FUNCTIONS or sum(self.sizes.values()) > MOST_WORDS:
            del self.sizes[next(iter(self.sizes))]
