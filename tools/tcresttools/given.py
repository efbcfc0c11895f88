"""What is given to a tool as words: lists of numbers, and a number for a core."""

from __future__ import annotations

import re

from .cli import BadInput

RANGE = re.compile(r"(\d+)-(\d+)(?:/(\d+))?")
CORE_NUMBER = re.compile(r"(\d+)=(\d+)")


def numbers(text: str) -> list[int]:
    """`6,8,12`, and `6-64/2` for every second one."""
    found: list[int] = []
    for part in text.split(","):
        match = RANGE.fullmatch(part.strip())
        if match:
            step = int(match.group(3) or 1)
            if step == 0:
                raise BadInput(f"{part}: a step of 0 goes nowhere")
            found += range(int(match.group(1)), int(match.group(2)) + 1, step)
        elif part.strip().isdigit():
            found.append(int(part))
        else:
            raise BadInput(f"{part}: this is no number, and no range as 6-64/2")
    return found


def core_numbers(given: list[str], word: str) -> dict[int, int]:
    """The number of each core, where each is given as CORE=N, once."""
    found: dict[int, int] = {}
    for text in given:
        match = CORE_NUMBER.fullmatch(text)
        if match is None:
            raise BadInput(f"{text}: {word} takes CORE=N, as 0=3000")
        core, number = int(match.group(1)), int(match.group(2))
        if core in found:
            raise BadInput(f"{text}: core {core} has {word} {found[core]} already")
        found[core] = number
    return found
