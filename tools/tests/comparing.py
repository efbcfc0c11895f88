"""Compares a lowered text with what gcc makes of the original: by gcc itself, and by the program's `mean`."""

from __future__ import annotations

import re
import shutil
import subprocess
import sys
from collections.abc import Mapping, Sequence
from dataclasses import dataclass, field
from importlib.util import find_spec
from pathlib import Path

HERE = Path(__file__).resolve().parent
sys.path.insert(0, str(HERE.parent))

from tcresttools.lowering.lowering import lower  # noqa: E402
from tcresttools.lowering.scopes import Options  # noqa: E402

SECONDS = 120
WORDS = re.compile(r"^(?:int|unsigned) out\[(\d+)\]", re.M)

JOB = """version = 1
cores = 1
slot = 6
cycles = 20000000
[[task]]
core = 0
lang = "c"
source = '''
{text}'''
"""


class Differs(Exception):
    """Two results that should be the same."""


@dataclass(frozen=True)
class Case:
    """A program: its files, and what the command line tells of it."""

    paths: Sequence[Path]
    depths: Mapping[str, int] = field(default_factory=dict)
    bounds: Mapping[tuple[str, int], int] = field(default_factory=dict)
    defines: Sequence[str] = ()


def missing() -> list[str]:
    """What is not here and the tests need."""
    found = [] if shutil.which("gcc") else ["gcc"]
    return found if find_spec("pycparser") else [*found, "pycparser"]


def run(words: list[str], given: str = "") -> subprocess.CompletedProcess[str]:
    return subprocess.run(words, input=given, capture_output=True, text=True, timeout=SECONDS, check=False)


def printed(paths: Sequence[Path], binary: Path, flags: Sequence[str]) -> str:
    """What a program gives, compiled by gcc."""
    counts = [WORDS.search(path.read_text(encoding="utf-8")) for path in paths]
    count = next((found.group(1) for found in counts if found), "0")
    words = ["gcc", "-std=gnu99", "-w", *flags, f"-DWORDS={count}", *map(str, paths), str(HERE / "print_words.c")]
    made = run([*words, "-o", str(binary)])
    if made.returncode != 0:
        raise Differs(f"gcc does not take {paths[0].name}: {made.stderr[:300]}")
    done = run([str(binary)])
    return done.stdout + done.stderr


def by_gcc(paths: Sequence[Path], folder: Path, flags: Sequence[str]) -> str:
    """What the original gives."""
    return printed(paths, folder / f"{paths[0].stem}.bin", ["-Dmain=task_main", *flags])


def lowered_text(case: Case) -> str:
    """The lowered text of a program."""
    options = Options(bounds=dict(case.bounds), depths=dict(case.depths))
    made = lower([str(path) for path in case.paths], options, case.defines)
    return "\n".join([*made.lines, ""])


def lowered_by_gcc(text: str, folder: Path, stem: str) -> str:
    """What the lowered text gives, compiled by gcc."""
    source = folder / f"{stem}.low.c"
    source.write_text(text, encoding="utf-8")
    return printed([source], folder / f"{stem}.low.bin", ["-fwrapv", "-include", str(HERE / "subset_words.h")])


def told(text: str, program: str, command: str = "mean") -> str:
    """What the program says of a lowered text, in the words of `print_words.c`."""
    found = run([program, command], JOB.format(text=text)).stdout
    lines = []
    for line in found.splitlines():
        line = re.sub(r"^core 0 (?:mean|done) (-?\d+).*", r"value \1", line) if " overrun" not in line else line
        if not line.startswith("platform"):
            lines.append(re.sub(r"^core 0 ", "", line))
    return "".join(line + "\n" for line in lines)


def compare(what: str, found: str, wanted: str) -> None:
    """Raises where two results differ, with the first line that does."""
    if found == wanted:
        return
    pairs = zip(found.splitlines() + [""], wanted.splitlines() + [""], strict=False)
    first = next(((one, other) for one, other in pairs if one != other), ("", ""))
    raise Differs(f"{what} gives `{first[0]}` in place of `{first[1]}`")
