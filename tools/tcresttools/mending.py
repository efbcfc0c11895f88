"""Texts that are mended to go on: where each byte of the mended text stands in the one that was given."""

from __future__ import annotations

from dataclasses import dataclass

from .places import Node


@dataclass(frozen=True)
class Edit:
    """Bytes of a text, and what is written in their place."""

    start: int
    end: int
    text: str


@dataclass(frozen=True)
class Advice:
    """What is to be written; where, if that is not where the program says; more places; and how the text is mended.

    Places are numbers of bytes. Where `mend` is none it is not known how the text goes on.
    """

    text: str
    at: int | None = None
    also: tuple[tuple[int, str], ...] = ()
    mend: tuple[Edit, ...] | None = None


@dataclass(frozen=True)
class Mended:
    """A text, and for each of its bytes, and its end, the byte of the first text that it comes from."""

    data: bytes
    origin: list[int]

    @classmethod
    def first(cls, data: bytes) -> Mended:
        """A text as it was given."""
        return cls(data, list(range(len(data) + 1)))

    def edited(self, edits: list[Edit]) -> Mended:
        """The text with these changes, which do not overlap."""
        data, origin = self.data, self.origin
        for edit in sorted(edits, key=lambda edit: edit.start, reverse=True):
            new = edit.text.encode()
            data = data[: edit.start] + new + data[edit.end :]
            origin = origin[: edit.start] + [origin[edit.start]] * len(new) + origin[edit.end :]
        return Mended(data, origin)


def in_file(data: bytes, string: Node, edits: tuple[Edit, ...]) -> list[Edit]:
    """Changes of a string's bytes as changes of the file that it stands in."""
    escaped = data[string.start : string.start + 1] == b'"'
    found = []
    for edit in edits:
        text = edit.text.replace("\\", "\\\\").replace('"', '\\"') if escaped else edit.text
        found.append(Edit(string.bytes_at[edit.start], string.bytes_at[edit.end], text))
    return found
