"""The page for `man`, made from docs/JOBS_AND_REPORTS.md."""

from __future__ import annotations

import re

from . import VERSION
from .cli import ROOT, read_file
from .commands import COMMANDS

PAGE = ROOT / "docs" / "JOBS_AND_REPORTS.md"
LINK = re.compile(r"\[([^\]]*)\]\([^)]*\)")
HEADING = re.compile(r"(#+) (.*)")
CODE = re.compile(r"`([^`]*)`")
RULE = re.compile(r"\|[-| :]+\|")


def escaped(text: str) -> str:
    """A text in which nothing is a sign of roff."""
    signs = {"\\": "\\e", "-": "\\-", "^": "\\(ha", "~": "\\(ti", "`": "\\(ga", "'": "\\(aq"}
    return "".join(signs.get(sign, sign) for sign in text)


def inline(text: str) -> str:
    """A text of Markdown on one line: links are their words, code and bold words are bold."""
    pieces = CODE.split(LINK.sub(r"\1", text))
    shown = ""
    for number, piece in enumerate(pieces):
        shown += f"\\fB{escaped(piece)}\\fR" if number % 2 else escaped(piece).replace("**", "")
    return f"\\&{shown}" if shown.startswith((".", "\\(aq")) else shown


def blocks_of(page: str) -> list[list[str]]:
    """The blocks of a page: the lines between empty ones; a heading is a block of its own."""
    blocks: list[list[str]] = [[]]
    for line in page.splitlines():
        if not line.strip():
            blocks.append([])
        elif HEADING.match(line):
            blocks += [[line], []]
        else:
            blocks[-1].append(line)
    return [block for block in blocks if block]


def cells_of(row: str) -> list[str]:
    """The cells of a row of a table."""
    return [cell.strip().replace("\\|", "|") for cell in re.split(r"(?<!\\)\|", row.strip())[1:-1]]


def table(rows: list[str]) -> list[str]:
    """A table as a list: the first cell of each row, and below it the others, from the third on with their heads."""
    head, *body = [cells_of(row) for row in rows if not RULE.fullmatch(row.strip())]
    lines = []
    for cells in body:
        more = [f"{name}: {cell}" for name, cell in zip(head[2:], cells[2:], strict=True)]
        lines += [".TP", inline(cells[0]), inline("; ".join([cells[1], *more]))]
    return lines


def code(block: list[str]) -> list[str]:
    """Lines that are kept as they are."""
    return [".PP", ".RS 4", ".nf", *("\\&" + escaped(line[4:]) for line in block), ".fi", ".RE"]


def block_lines(block: list[str]) -> list[str]:
    """A block in roff."""
    heading = HEADING.fullmatch(block[0])
    if heading:
        level, words = heading.groups()
        return [f".SH {inline(words.upper())}" if len(level) == 2 else f".SS {inline(words)}"]
    if block[0].startswith("|"):
        return table(block)
    if block[0].startswith("    "):
        return code(block)
    return [".PP", inline(" ".join(line.strip() for line in block))]


def front() -> list[str]:
    """The front of the page: the name, and how the program is called."""
    lines = [
        f'.TH TCREST 1 "" "tcrest {VERSION}" "T-CREST, emulated and proved"',
        ".SH NAME",
        "tcrest \\- runs jobs on an emulated T\\-CREST multicore, and compiles C to single\\-path code",
        ".SH SYNOPSIS",
        ".nf",
        "\\fBbin/tcrest\\fR \\fICOMMAND\\fR < \\fIJOB\\fR",
        "\\fBtools/tcrest\\fR \\fICOMMAND\\fR \\fIJOB\\fR .. [\\fB\\-\\-program\\fR \\fIPATH\\fR]",
        "\\fBtools/tcrest \\-\\-help\\fR | \\fB\\-\\-version\\fR | \\fB\\-\\-man\\fR",
        ".fi",
        ".SH DESCRIPTION",
        inline(
            "`bin/tcrest` is the proved program: it reads one job on standard input. `tools/tcrest` runs it on files"
            " and on all files of a folder, and explains a refusal, a trap and what else went wrong on standard error."
        ),
    ]
    for command, text in COMMANDS.items():
        lines += [".TP", inline(f"`{command}`"), inline(f"writes {text}")]
    return lines


def man_page() -> str:
    """The whole page."""
    text = read_file(str(PAGE)).decode()
    blocks = [block for block in blocks_of(text) if not block[0].startswith("# ")]
    lines = front()
    # The sentence below the title says what the page is for: the description replaces it.
    for block in blocks[1:]:
        lines += block_lines(block)
    return "\n".join(lines) + "\n"
