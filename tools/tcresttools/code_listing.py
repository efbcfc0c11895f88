"""The code of a C task beside its source, as rows: lines of the source, what a part is, and bundles.

Code tells its functions and loops, and no statements. So the lines of a function stand in front of the code in which
they are: those before a loop in front of the bundles before it, then the loop with its lines, and so on.
"""

from __future__ import annotations

from bisect import bisect_right
from collections.abc import Iterator
from dataclasses import dataclass
from functools import cached_property

from .c_text import Token, tokens_of
from .code_text import CodeBundle, CodeFunction, CodeItem, CodeLoop, TaskCode
from .extents import extent_of
from .job import Job, Task
from .naming import Named, named_parts


LOOPS = ("for", "while")


@dataclass(frozen=True)
class SourceRow:
    """A line of the source: its number in the job's file, and its text."""

    line: int
    text: str


@dataclass(frozen=True)
class PartHead:
    """A function or a loop begins: its number in the code, its line, and what it is."""

    part: int
    line: int | None
    depth: int
    text: str


@dataclass(frozen=True)
class BundleRow:
    """A bundle: the part that it is in, how many loops are around it, and its place in the image."""

    part: int
    depth: int
    place: int
    bundle: CodeBundle


ListingRow = SourceRow | PartHead | BundleRow


@dataclass
class CodeListing:
    """The code of a task beside its source."""

    job: Job
    task: Task
    code: TaskCode

    @cached_property
    def named(self) -> list[Named]:
        return named_parts(self.code, self.task.source)

    @cached_property
    def tokens(self) -> list[Token]:
        return tokens_of(self.task.source)

    @cached_property
    def begins(self) -> list[int]:
        """The first byte of each line of the source."""
        source = self.task.source
        return [0, *(at + 1 for at, byte in enumerate(source) if byte == 0x0A)]

    def line_at(self, at: int) -> int:
        """The line of a byte, from 0."""
        return bisect_right(self.begins, at) - 1

    def shown_line(self, at: int) -> int:
        """The line of a byte in the job's file, or in the source where that is not known."""
        place = self.job.source_place(self.task, at)
        return self.line_at(at) + 1 if place is None else place.line

    def lines_of(self, part: int, is_loop: bool) -> range:
        """The lines of a function or a loop that is in the text of its own function; none of another part."""
        named = self.named[part]
        if named.at is None or named.inlined or (is_loop and named.label not in LOOPS):
            return range(0)
        extent = extent_of(self.tokens, named.at, is_loop)
        return range(self.line_at(extent.at), self.line_at(extent.end - 1) + 1)

    def line_text(self, at: int) -> str:
        """The text of the line of a byte."""
        begin = self.begins[self.line_at(at)]
        return self.task.source[begin:].split(b"\n", 1)[0].decode("utf-8", "replace").strip()

    def rows(self) -> Iterator[ListingRow]:
        """The rows of all functions, in the order of the image."""
        for function in self.code.functions:
            yield from FunctionRows(self, function).rows()

    def loop_text(self, loop: CodeLoop) -> str:
        """What a loop is: its name, its iterations, and the calls that are inlined in it."""
        named = self.named[loop.number]
        iterations = f"{loop.iterations} iteration{'' if loop.iterations == 1 else 's'}"
        texts = [f"{named.shown}: {loop.label}, {iterations}"]
        if named.inlined and named.at is not None:
            texts[0] += f": {self.line_text(named.at)}"
        texts += [f"{call.name}() of line {self.shown_line(call.at)} is inlined" for call in named.calls]
        return "; ".join(texts)


class FunctionRows:
    """Makes the rows of a function. `cursor` is the next line of its source that is to be shown."""

    def __init__(self, listing: CodeListing, function: CodeFunction) -> None:
        self.listing = listing
        self.function = function
        self.lines = listing.lines_of(function.number, False)
        self.cursor = self.lines.start

    def rows(self) -> Iterator[ListingRow]:
        function, named = self.function, self.listing.named[self.function.number]
        line = None if named.at is None else self.listing.shown_line(named.at)
        yield PartHead(function.number, line, 0, f"{named.shown}: {function.words} words, {function.stack} stack words")
        yield from self.items(function.items, function.number, 0, self.lines.stop)

    def sources(self, stop: int) -> Iterator[ListingRow]:
        """The lines that are to be shown before another one."""
        source, begins = self.listing.task.source, self.listing.begins
        while self.cursor < stop:
            begin = begins[self.cursor]
            text = source[begin:].split(b"\n", 1)[0].decode("utf-8", "replace").rstrip()
            yield SourceRow(self.listing.shown_line(begin), text)
            self.cursor += 1

    def items(self, items: list[CodeItem], part: int, depth: int, stop: int) -> Iterator[ListingRow]:
        """The rows of a part's items, whose lines end before this one."""
        at = 0
        while at < len(items):
            item = items[at]
            if isinstance(item, CodeLoop):
                yield from self.loop(item, depth)
            elif isinstance(item, CodeBundle):
                if at == 0 or isinstance(items[at - 1], CodeLoop):
                    yield from self.sources(self.next_loop(items[at:], stop))
                yield BundleRow(part, depth, self.function.start + item.offset, item)
            at += 1
        yield from self.sources(stop)

    def next_loop(self, items: list[CodeItem], stop: int) -> int:
        """The line of the next loop that is in the function's own text; else where the part's lines end."""
        for item in items:
            if isinstance(item, CodeLoop) and len(lines := self.listing.lines_of(item.number, True)) > 0:
                return lines.start
        return stop

    def loop(self, loop: CodeLoop, depth: int) -> Iterator[ListingRow]:
        named, lines = self.listing.named[loop.number], self.listing.lines_of(loop.number, True)
        line = None if named.at is None else self.listing.shown_line(named.at)
        is_division = named.at is not None and not named.inlined and not lines
        yield from self.sources(self.listing.line_at(named.at or 0) + 1 if is_division else lines.start)
        yield PartHead(loop.number, line, depth + 1, self.listing.loop_text(loop))
        yield from self.items(loop.items, loop.number, depth + 1, lines.stop)
