"""Names that are near to one that was written."""

from __future__ import annotations

from collections.abc import Iterable
from difflib import get_close_matches

ALIKE = 0.7


def near_names(name: str, names: Iterable[str], most: int = 3, alike: float = ALIKE) -> list[str]:
    """The names that are most like this one, those of the same letters in front; case counts for nothing."""
    by_lower: dict[str, str] = {}
    for other in names:
        by_lower.setdefault(other.lower(), other)
    found = get_close_matches(name.lower(), by_lower, most, alike)
    found.sort(key=lambda other: sorted(other) != sorted(name.lower()))
    return [by_lower[other] for other in found if by_lower[other] != name]


def quoted(names: Iterable[str], last: str = "or") -> str:
    """Names in backquotes, as a list is read."""
    shown = [f"`{name}`" for name in names]
    return shown[0] if len(shown) == 1 else ", ".join(shown[:-1]) + f" {last} {shown[-1]}" if shown else ""
