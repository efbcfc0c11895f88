#!/usr/bin/env python3
"""Holds pages to the crates' words: prints each fault, and nothing where there is none.

- Each file in a crate's `specs/` begins by saying what it is: to be believed, for worked rows, or for proofs; and the
  table of docs/PROMISES.md names exactly those to be believed, with what they rest on in proofs.
- What a clause that docs/PROMISES.md cites rests on is to be believed, and stands in the column for which it is needed:
  the program's answers, the laws on compiled code, that code's own text, or a layer alone.
- Each `function: clause` of docs/PROMISES.md is there, and each function is a law, or reached from `main`, or said to be
  for users of its crate.
- docs/GLOSSARY.md has a row of each type that a crate shows to others, and of no other.

`.ci/words.py --table` prints the rows of what is to be believed as the sources and the cited clauses have them.
"""

from __future__ import annotations

import re
import sys
from pathlib import Path
from typing import Iterator

from sources import CRATES, ROOT, Function, Place, closure, functions, reached

KINDS = ("To be believed.", "For worked rows.", "For proofs.")
BELIEVED, WORKED = KINDS[:2]
EXPORT = re.compile(r"pub use [\w:]+::(?:\{([^}]*)\}|(\w+));")
TYPE = re.compile(r"^pub (?:struct|enum|trait) (\w+)", re.M)

PROMISES = "docs/PROMISES.md"
COLUMNS = ("the program's answers", "the laws on compiled code", "the code's own text", "its layer")
# The code of a program as text: what these make, of which the laws say all that a reader needs.
CODE = {
    Place("single_path", "specs", "Single", "single"),
    Place("sp_emit", "specs", "Functions", "emitted"),
    Place("sp_emit", "specs", "Functions", "codes"),
    Place("sp_emit", "specs", "Statements", "stmts_code"),
    Place("bundle_sched", "specs", "Scheduled", "scheduled"),
    Place("tc_link", "specs", "Placed", "linked"),
}

Pairs = set[tuple[str, str]]


def section(page: str, title: str) -> str:
    """The text under a title of a page."""
    text = (ROOT / page).read_text()
    return text.split(f"\n## {title}\n", 1)[1].split("\n## ", 1)[0]


def kind_of(path: Path) -> str | None:
    """What the first line says that a file of definitions is."""
    first = path.read_text().split("\n", 1)[0]
    return next((kind for kind in KINDS if first.startswith(f"-- {kind} ")), None)


def definitions() -> dict[Path, str | None]:
    """The files of definitions, each with what it says that it is."""
    paths = sorted(ROOT.glob("crates/*/specs/*.antt"))
    return {path: kind_of(path) for path in paths if path.name not in ("Lib.antt", "formers.antt")}


def believed_in_page() -> dict[tuple[str, str], str]:
    """The definitions that the table of promises names, each with its crate, and its column."""
    found: dict[tuple[str, str], str] = {}
    for line in section(PROMISES, "Definitions to be believed").split("\n"):
        crate, *cells = [cell.strip() for cell in line.strip("|").split(" | ")]
        if line.startswith("|") and crate in CRATES:
            for column, cell in zip(COLUMNS, cells):
                found |= {(crate, name): column for name in re.findall(r"`([\w.]+)`", cell)}
    return found


def file_of(place: Place) -> tuple[str, str]:
    """The file of a definition, as the table names it."""
    return place.crate, place.file if place.folder == "specs" else f"{place.folder}.{place.file}"


# ---- what the page of promises cites


def cited_in(text: str) -> Iterator[tuple[str, list[Function], str | None]]:
    """Each function that the rows of a text cite, and its clause where one is named."""
    header = ""
    lines = text.split("\n")
    for line, below in zip(lines, lines[1:] + [""]):
        last = line.strip("|").split(" | ")[-1].strip()
        if line.startswith("| ") and below.startswith("|---"):
            header = last
        elif line.startswith("| ") and re.match("clause|law", header):
            yield from cited_by(last, set(re.findall(r"\w+", header + re.sub(r"`[^`]*`", "", last))) & set(CRATES))


def cited_by(cell: str, crates: set[str]) -> Iterator[tuple[str, list[Function], str | None]]:
    """The same of a cell, whose functions stand in these crates, or in any."""
    current: list[Function] = []
    for token in re.findall(r"`([^`]*)`", cell):
        name, _, clause = token.partition(": ")
        if not clause and any(name in function.clauses for function in current):
            yield token, current, name
            continue
        owner, _, own = name.rpartition("::")
        called = [one for one in functions() if one.name == own and owner in ("", one.owner)]
        beside = {one.crate for one in called} & {one.crate for one in current}
        current = [one for one in called if one.crate in (crates or beside or CRATES)]
        yield token, current, clause or None


def citation_faults() -> list[str]:
    """Citations of what is not there, and of functions that nothing of the program calls."""
    for_users = set(re.findall(r"`(?:\w+::)?(\w+)`", section(PROMISES, "Calls for users of the crates")))
    faults = []
    for token, found, clause in cited_in((ROOT / PROMISES).read_text()):
        if not found or clause and not any(clause in function.clauses for function in found):
            faults.append(f"{PROMISES} cites {token}{' of ' + found[0].name if found else ''}, which is not there")
        elif not any(one.is_law or one in reached() or one.name in for_users for one in found):
            faults.append(f"{PROMISES} cites {token}, which neither the program calls nor is said to be for users")
    return faults


# ---- what has to be believed


def rested_on(text: str) -> set[Place]:
    """What the clauses rest on that a text cites, but for those inside a crate and for worked examples."""
    lines = "\n".join(line for line in text.split("\n") if "inside the crate" not in line)
    cited = [one for _, found, _ in cited_in(lines) for one in found if not one.name.startswith("worked_")]
    return set().union(*(one.rests_on() for one in cited))


def needed() -> dict[tuple[str, str], str]:
    """The files on which the cited clauses rest, each with the first column for which it is needed."""
    page = (ROOT / PROMISES).read_text()
    compiled = page.split("\n### Compiled code\n", 1)[1].split("\n### ", 1)[0]
    code = closure(CODE)
    text = {place for place in code if place.crate in {own.crate for own in CODE}}
    answers, laws, layers = (
        closure(rested_on(part) - text, CODE) - CODE for part in (section(PROMISES, "The program"), compiled, page)
    )
    found: dict[tuple[str, str], str] = {}
    for column, places in zip(COLUMNS, (answers, laws, code, layers)):
        for place in places:
            found.setdefault(file_of(place), column)
    return found


def believed_faults(kinds: dict[Path, str | None]) -> list[str]:
    """Where the table of what has to be believed, the files' first lines and the clauses do not say the same."""
    believed, worked = (
        {(path.parts[-3], path.stem) for path, own in kinds.items() if own == kind} for kind in (BELIEVED, WORKED)
    )
    in_page, wanted = believed_in_page(), needed()
    faults = [
        f"{PROMISES} and crates/{crate}/specs/{name}.antt do not say the same"
        for crate, name in sorted(believed ^ {pair for pair in in_page if "." not in pair[1]})
    ]
    faults += [
        f"a clause rests on {name} of {crate}, which is not to be believed"
        for crate, name in sorted(wanted.keys() - in_page.keys() - worked)
    ]
    for pair, column in sorted(in_page.items()):
        other = wanted.get(pair, COLUMNS[-1])
        if other != column:
            faults.append(f"{PROMISES} has {pair[1]} of {pair[0]} under {column}, and it is for {other}")
    return faults


def table() -> str:
    """The rows of what has to be believed, as they should stand in the page."""
    believed = {(path.parts[-3], path.stem) for path, kind in definitions().items() if kind == BELIEVED}
    wanted = needed()
    named = believed | {pair for pair in wanted if "." in pair[1]}
    rows = []
    for crate in CRATES:
        cells = [
            [f"`{pair[1]}`" for pair in sorted(named) if pair[0] == crate and wanted.get(pair, COLUMNS[-1]) == column]
            for column in COLUMNS
        ]
        if any(cells):
            rows.append(f"| {crate} | " + " | ".join(", ".join(cell) or "–" for cell in cells) + " |")
    return "\n".join(rows)


# ---- the types of the glossary


def shown_types() -> Pairs:
    """The types that crates show, each with its crate: those that the crate's first file gives on."""
    shown = set()
    for lib in ROOT.glob("crates/*/src/lib.rt"):
        given = {name.strip() for one in EXPORT.findall(lib.read_text()) for name in (one[0] or one[1]).split(",")}
        for path in lib.parent.rglob("*.rt"):
            code = path.read_text().split("#[cfg(test)]", 1)[0]
            shown |= {(lib.parts[-3], name) for name in TYPE.findall(code) if name in given}
    return shown


def types_in_page() -> Pairs:
    """The types that the glossary has, each with its crate."""
    rows = re.findall(r"^\| `(\w+)` \| .* \| (\w+) \|$", section("docs/GLOSSARY.md", "Public types"), re.M)
    return {(crate, name) for name, crate in rows}


def main() -> int:
    """Compares them."""
    if sys.argv[1:] == ["--table"]:
        print(table())
        return 0
    kinds = definitions()
    faults = [f"{path.relative_to(ROOT)} does not say what it is" for path, kind in kinds.items() if kind is None]
    faults += believed_faults(kinds) + citation_faults()
    faults += [
        f"docs/GLOSSARY.md and {crate} do not both have the type {name}"
        for crate, name in sorted(shown_types() ^ types_in_page())
    ]
    for fault in faults:
        print(f"words: {fault}")
    return 1 if faults else 0


if __name__ == "__main__":
    sys.exit(main())
