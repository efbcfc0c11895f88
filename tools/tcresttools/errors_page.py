"""The entries of docs/ERRORS.md: causes, remedies, and texts with what the program answers."""

from __future__ import annotations

import re
from dataclasses import dataclass, field
from pathlib import Path

from .cli import ROOT, BadInput

PAGE = ROOT / "docs" / "ERRORS.md"
SECTIONS = {
    "What people write first": "first",
    "A job is refused": "job",
    "A schedule is refused": "grid",
    "An assembly text is refused": "asm",
    "A C text is refused": "c",
    "A task is stopped": "run",
    "Other ends": "run",
}
HINT = re.compile(r"- `((?:[^`])+)`: (.*)", re.S)
FRAME = """version = 1
cores = {cores}
slot = 6
cycles = 100000
[[task]]
core = 0
lang = "{lang}"
source = '''
{text}'''
"""


@dataclass
class Sample:
    """A text of the page: whether it is right, the command, the language, the text, and what is answered."""

    entry: str
    right: bool
    command: str
    lang: str
    text: str
    answer: list[str] = field(default_factory=list)

    @property
    def job(self) -> str:
        """The job of the text: itself, or the frame that the page shows around it."""
        if self.lang == "toml":
            return self.text
        return FRAME.format(cores=1 if self.lang == "asm" else 2, lang=self.lang, text=self.text)


@dataclass
class Entry:
    """What the page says of one fault, trap or end."""

    section: str
    name: str
    cause: str = ""
    remedy: str = ""
    hints: list[tuple[str, str]] = field(default_factory=list)
    samples: list[Sample] = field(default_factory=list)

    def hints_for(self, text: str) -> list[str]:
        """The hints for what stands at the place: those of the longest piece that it begins with."""
        fitting = [(piece, hint) for piece, hint in self.hints if begins_with(text, piece)]
        longest = max((len(piece) for piece, _ in fitting), default=0)
        return [hint for piece, hint in fitting if len(piece) == longest]


def begins_with(text: str, piece: str) -> bool:
    """The text begins with the piece; a piece that ends like a name is a whole one."""
    if not text.startswith(piece):
        return False
    behind = text[len(piece) : len(piece) + 1]
    return not (re.match(r"\w", piece[-1]) and piece[0] != "0" and re.match(r"\w", behind))


def read_page(path: Path = PAGE) -> list[Entry]:
    """All entries of the page, in their order."""
    try:
        lines = path.read_text(encoding="utf-8").splitlines()
    except OSError as error:
        raise BadInput(f"{path}: {error.strerror}") from None
    entries: list[Entry] = []
    section, fence = "", ""
    block: list[str] = []
    for line in lines:
        if fence:
            if line == "```":
                take_fence(entries[-1], fence, block)
                fence, block = "", []
            else:
                block.append(line)
        elif line.startswith("## "):
            section = SECTIONS.get(line[3:], "")
            block = []
        elif line.startswith("### "):
            entries.append(Entry(section, line[4:].replace("`", "")))
            block = []
        elif line.startswith("```") and section:
            fence, block = line[3:], []
        elif line and section and entries:
            block.append(line)
            continue
        elif block and section and entries:
            take_text(entries[-1], block)
            block = []
    return entries


def take_text(entry: Entry, block: list[str]) -> None:
    """Takes a paragraph, or a list of hints."""
    text = "\n".join(block)
    if text.startswith("- "):
        for item in re.split(r"\n(?=- )", text):
            if found := HINT.fullmatch(item):
                entry.hints.append((found.group(1), " ".join(found.group(2).split())))
    elif text.startswith("**Cause.** "):
        entry.cause = " ".join(text[len("**Cause.** ") :].split())
    elif text.startswith("**Remedy.** "):
        entry.remedy = " ".join(text[len("**Remedy.** ") :].split())


def take_fence(entry: Entry, fence: str, block: list[str]) -> None:
    """Takes a wrong or a right text, or the answer to the text before it."""
    words = fence.split()
    if words == ["answer"]:
        entry.samples[-1].answer = block
    else:
        command = words[2] if len(words) > 2 else "run"
        entry.samples.append(Sample(entry.name, words[1] == "right", command, words[0], "\n".join(block) + "\n"))


def entry_of(entries: list[Entry], section: str, name: str) -> Entry:
    """The entry of a fault; `BadInput` where the page has none."""
    for entry in entries:
        if entry.section == section and entry.name == name:
            return entry
    raise BadInput(f"docs/ERRORS.md has no entry for {name}: is the page that of this program?")
