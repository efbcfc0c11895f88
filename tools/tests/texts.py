"""Lowers a piece of C in a test, and tells what is made of it."""

from __future__ import annotations

import re
import subprocess
import tempfile
from dataclasses import replace
from pathlib import Path

from comparing import Differs, lowered_by_gcc
from tcresttools.lowering.lowering import Lowered, lower
from tcresttools.lowering.scopes import Options
from tcresttools.lowering.told import Refused


def lowered(text: str, options: Options | None = None) -> Lowered:
    """A lowered text, of a file `a.c`."""
    with tempfile.TemporaryDirectory() as folder:
        path = Path(folder) / "a.c"
        path.write_text(text, encoding="utf-8")
        options = options or Options()
        bounds = {(str(path), line): most for (_, line), most in options.bounds.items()}
        return lower([str(path)], replace(options, bounds=bounds))


def lines_of(text: str, options: Options | None = None) -> list[str]:
    """The lines of a lowered text, without the comments that name the source."""
    return [re.sub(r" *//.*", "", line).strip() for line in lowered(text, options).lines]


def body(text: str, function: str = "main", options: Options | None = None) -> list[str]:
    """The lines of a function."""
    lines = lines_of(text, options)
    begin = next(at for at, line in enumerate(lines) if re.match(rf"\w+ {function}\(", line))
    end = lines.index("}", begin + 1)
    depth = 0
    for at in range(begin + 1, len(lines)):
        depth += lines[at].count("{") - lines[at].count("}")
        if depth == 0:
            end = at
            break
    return lines[begin + 2 : end]


def refusal(text: str, options: Options | None = None) -> tuple[int, str]:
    """The line and the words with which a text is refused."""
    try:
        lowered(text, options)
    except Refused as error:
        return error.place.line, error.text
    raise AssertionError("the text is taken")


def notes(text: str, options: Options | None = None) -> list[tuple[int, str]]:
    """The lines and the words of what is told."""
    return [(place.line, words) for place, words in lowered(text, options).notes.lines]


def same_as_gcc(text: str, options: Options | None = None) -> None:
    """The value of `main` by gcc is that of the lowered text by gcc."""
    with tempfile.TemporaryDirectory() as name:
        folder = Path(name)
        source, binary = folder / "a.c", folder / "a.bin"
        host = '#include <stdio.h>\n#undef main\nint main(void) { printf("value %d\\n", own_main()); return 0; }\n'
        source.write_text(f"#define main own_main\n{text}\n{host}", encoding="utf-8")
        made = subprocess.run(
            ["gcc", "-std=gnu99", "-w", "-fwrapv", str(source), "-o", str(binary)],
            capture_output=True,
            text=True,
            check=False,
        )
        if made.returncode != 0:
            raise Differs(f"gcc does not take the text: {made.stderr[:300]}")
        wanted = subprocess.run([str(binary)], capture_output=True, text=True, check=False, timeout=20).stdout
        found = lowered_by_gcc("\n".join([*lowered(text, options).lines, ""]), folder, "low")
        assert found.splitlines()[0] == wanted.splitlines()[0]
