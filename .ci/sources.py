"""What the sources say: functions with their clauses and bodies, and on which definitions a clause rests."""

from __future__ import annotations

import functools
import re
from collections.abc import Collection, Mapping
from dataclasses import dataclass
from pathlib import Path

ROOT = Path(__file__).resolve().parent.parent
CRATES = {
    name: set(deps.split())
    for name, deps in re.findall(r"^(\w+)[^:#\n]*:(.*)$", (ROOT / "crates.txt").read_text(), re.M)
}
# The programs, whose `main` calls all that they do.
PROGRAMS = ("tcrest", "tccode")
USE = re.compile(
    r"^\s*(?:ghost )?use Rattle\.(\w+)\.(specs|proofs)\.([\w.\-]+?)(?:\.\{([^}]*)\})?(?: as (\w+))?;?$", re.M
)
FUNCTION = re.compile(r"^( *)(?:pub(?:\(\w+\))? )?(?:const )?fn (\w+)", re.M)
CALL = re.compile(r"(?:\b(\w+)::)?\b(\w+)(?=\(|::<)|\b(?P<o>\w+)::(?P<n>\w+)(?=,|\))")
OWNER = re.compile(r"^(?:impl(?:<[^{]*?>)? (?:[\w:<>', ]+ for )?|pub trait )(\w+)", re.M)


@dataclass(frozen=True)
class Place:
    """A definition, or a whole file of definitions where the name is None."""

    crate: str
    folder: str
    file: str
    name: str | None = None


Imports = dict[str, set[Place]]


@dataclass(frozen=True)
class Function:
    """A function of the sources: what it says in its contract, and what it does."""

    crate: str
    owner: str | None
    name: str
    docs: str
    contract: str
    body: str
    imports: dict[str, frozenset[Place]]

    def __hash__(self) -> int:
        return hash((self.crate, self.owner, self.name, self.contract))

    @property
    def clauses(self) -> set[str]:
        """The names of its clauses."""
        return set(re.findall(r"(?:ensures|requires)\*? (\w+) \{", self.contract))

    @property
    def is_law(self) -> bool:
        """It does nothing: its clauses are what it is for."""
        return "A law: it does nothing." in self.docs or self.body.strip() == "{}"

    def rests_on(self) -> set[Place]:
        """The definitions that its clauses name."""
        return named_in(self.contract, self.imports)


def without_comments(text: str) -> str:
    return re.sub(r"^\s*(?:--|//).*$", "", text, flags=re.M)


def imports_of(text: str) -> Imports:
    """What each name that a file brings in stands for; of a type of the code, what its view rests on."""
    imports: Imports = {}
    for crate, folder, path, group, alias in USE.findall(text):
        first, last = path.split(".")[0], path.split(".")[-1]
        if crate not in CRATES or first in ("contracts", "formers"):
            continue
        names = [name.strip() for name in group.split(",")] if group else []
        for name in names or ([last] if first == "declared" else []):
            own, _, other = name.partition(" as ")
            places = views().get((crate, own), set()) if first == "declared" else {Place(crate, folder, first, own)}
            imports.setdefault(other or own, set()).update(places)
        if first != "declared" and not names:
            imports.setdefault((alias or last) + ".", set()).add(Place(crate, folder, first))
    return imports


def named_in(text: str, imports: Mapping[str, Collection[Place]]) -> set[Place]:
    """The definitions of other files that a text names."""
    found: set[Place] = set()
    for token in re.findall(r"[^\s(){};,\[\]]+", text):
        head, _, tail = token.lstrip("λ").rstrip(".").partition(".")
        found.update(imports.get(token, ()), imports.get(head, ()))
        for place in imports.get(head + ".", ()) if tail else ():
            found.add(Place(place.crate, place.folder, place.file, tail.split(".")[0]))
    for name, places in imports.items():
        if "◌" in name and all(part in text for part in name.split("◌") if part):
            found.update(places)
    return found


def block(text: str, start: int) -> str:
    """The block in braces that begins at or after a place."""
    depth = 0
    begin = text.index("{", start)
    for at in range(begin, len(text)):
        depth += {"{": 1, "}": -1}.get(text[at], 0)
        if depth == 0:
            return text[begin : at + 1]
    return text[begin:]


@functools.cache
def views() -> dict[tuple[str, str], set[Place]]:
    """What the view of each type rests on that contracts see otherwise than as its fields."""
    found: dict[tuple[str, str], set[Place]] = {}
    for path in ROOT.glob("crates/*/src/**/*.rt"):
        text = path.read_text()
        for impl in re.finditer(r"impl(?:<[^>]*>)? Model for (\w+)", text):
            inside = block(text, impl.start())
            imports = direct_imports(text) | direct_imports(inside)
            told = "\n".join(line for line in inside.split("\n") if "ghost use" not in line)
            found[path.relative_to(ROOT).parts[1], impl.group(1)] = named_in(told, imports)
    return found


def direct_imports(text: str) -> Imports:
    """The definitions that a file names, without those of types."""
    own: Imports = {}
    for crate, folder, path, group, _ in USE.findall(text):
        first = path.split(".")[0]
        if crate in CRATES and first not in ("declared", "contracts", "formers"):
            for name in filter(None, map(str.strip, group.split(","))):
                own[name.split(" as ")[-1]] = {Place(crate, folder, first, name.split(" as ")[0])}
    return own


@functools.cache
def functions() -> list[Function]:
    """Every function but those of tests."""
    found = []
    for path in sorted(ROOT.glob("crates/*/src/**/*.rt")):
        crate = path.relative_to(ROOT).parts[1]
        if crate.startswith("tests_") or crate not in CRATES:
            continue
        text = re.split(r"#\[cfg\(test\)\]\n(?:#.*\n)*mod \w+ \{", path.read_text())[0]
        imports = {name: frozenset(places) for name, places in imports_of(text).items()}
        owners = [(owner.start(), owner.group(1)) for owner in OWNER.finditer(text)]
        for match in FUNCTION.finditer(text):
            indent = match.group(1)
            above = [name for start, name in owners if start < match.start()]
            end = re.compile(rf"^{indent}(?:\}}|.*\{{\}}$|(?=(?:pub |fn |#\[|///)))", re.M).search(text, match.end())
            whole = text[match.end() : end.end() if end else len(text)]
            opens = re.search(rf"^{indent}\{{|(?<= )\{{$|\{{\}}$", without_clauses(whole), re.M)
            at = opens.start() if opens else len(whole)
            docs = "\n".join(re.findall(r"///.*", text[: match.start()].rsplit("\n\n", 1)[-1]))
            owner = above[-1] if indent and above else None
            found.append(Function(crate, owner, match.group(2), docs, whole[:at], whole[at:], imports))
    return found


def without_clauses(text: str) -> str:
    """The same length of text, with what stands in the braces of clauses blanked."""
    out = text
    for clause in re.finditer(r"(?:ensures|requires|decreases)\*?(?: \w+)? (?=\{)", text):
        inside = block(text, clause.end())
        out = out[: clause.end()] + " " * len(inside) + out[clause.end() + len(inside) :]
    return out


@functools.cache
def definitions(crate: str, folder: str, file: str) -> tuple[dict[str, str], Imports]:
    """The definitions of a file, each with its text, and what the file brings in."""
    path = ROOT / "crates" / crate / folder / f"{file}.antt"
    if not path.exists():
        return {}, {}
    text = without_comments(path.read_text())
    found: dict[str, str] = {}
    name, mutual = None, False
    for line in text.split("\n"):
        indent = len(line) - len(line.lstrip())
        if not line.strip() or line.startswith(("use ", "infix", "unfolding")):
            continue
        if indent == 0:
            mutual = "mutual" in line
        if not mutual and indent == 0 or mutual and indent == 2:
            begin = re.match(r"\s*(?:abbrev |unfoldable |pub |record |data |module )*([^\s:(){]+)", line)
            name = begin.group(1) if begin else name
        if name and not (mutual and indent == 0):
            found[name] = found.get(name, "") + line + "\n"
    return found, imports_of(text)


@functools.cache
def rests_on(place: Place) -> frozenset[Place]:
    """What a definition names; what stands among proofs is told by its own statement."""
    if place.folder == "proofs":
        return frozenset()
    own, imports = definitions(place.crate, place.folder, place.file)
    if place.name is None:
        texts = list(own.values())
    elif place.name in own:
        texts = [own[place.name]]
    else:
        word = re.compile(rf"(?<![\w'-]){re.escape(place.name)}(?![\w'-])")
        texts = [text for text in own.values() if word.search(text)][:1]
    here = {name: {Place(place.crate, place.folder, place.file, name)} for name in own}
    return frozenset(set().union(*(named_in(text, here) | named_in(text, imports) for text in texts)))


def closure(places: set[Place], cut: Collection[Place] = ()) -> set[Place]:
    """These definitions and all on which they rest, without what the cut ones rest on."""
    seen: set[Place] = set()
    todo = list(places)
    while todo:
        place = todo.pop()
        if place not in seen:
            seen.add(place)
            todo += [] if place in cut else rests_on(place)
    return seen


@functools.cache
def reached() -> set[Function]:
    """The functions that `main` of a program comes to, by the names that bodies call."""
    by_name: dict[str, list[Function]] = {}
    for function in functions():
        by_name.setdefault(function.name, []).append(function)
    todo = [function for function in by_name["main"] if function.crate in PROGRAMS]
    seen: set[Function] = set()
    while todo:
        function = todo.pop()
        if function in seen:
            continue
        seen.add(function)
        near = CRATES[function.crate] | {function.crate}
        for call in CALL.finditer(without_comments(function.body)):
            owner, name = call.group(1) or call.group("o"), call.group(2) or call.group("n")
            todo += [
                one
                for one in by_name.get(name, [])
                if one.crate in near and (not owner or owner[0].islower() or owner == "Self" or one.owner == owner)
            ]
    return seen
