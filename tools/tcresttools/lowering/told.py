"""What the tool says to its user: refusals, warnings and notes, each with a line of the source."""

from __future__ import annotations

from dataclasses import dataclass, field


@dataclass(frozen=True, order=True)
class Place:
    """A line of a source file."""

    file: str
    line: int

    def __str__(self) -> str:
        return f"{self.file}:{self.line}"


NOWHERE = Place("", 0)


class Refused(Exception):
    """A text that can't be carried over: where, why, and what to write instead."""

    def __init__(self, place: Place | None, text: str) -> None:
        super().__init__(text)
        self.place = place or NOWHERE
        self.text = text

    def __str__(self) -> str:
        return f"{self.place}: {self.text}" if self.place.line else self.text


@dataclass
class Notes:
    """Warnings and notes that do not stop the tool."""

    lines: list[tuple[Place, str]] = field(default_factory=list)

    def warn(self, place: Place | None, text: str) -> None:
        """Something whose meaning may be another one than the user thinks."""
        self.add(place, f"warning: {text}")

    def tell(self, place: Place | None, text: str) -> None:
        """Something that the tool decided."""
        self.add(place, f"note: {text}")

    def add(self, place: Place | None, text: str) -> None:
        line = (place or NOWHERE, text)
        if line not in self.lines:
            self.lines.append(line)

    def shown(self) -> list[str]:
        """The lines as they are printed."""
        return [f"{place}: {text}" if place.line else text for place, text in self.lines]
