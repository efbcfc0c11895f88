#!/usr/bin/env python3
"""Runs notebooks cell by cell, without Jupyter. `tests/notebooks.py NOTEBOOK ..` writes what cells print into them."""

from __future__ import annotations

import io
import json
import os
import sys
from contextlib import redirect_stdout
from pathlib import Path
from typing import Any


def code_cells(book: dict[str, Any]) -> list[dict[str, Any]]:
    """The cells with code, in order."""
    return [cell for cell in book["cells"] if cell["cell_type"] == "code"]


def read_notebook(path: Path) -> dict[str, Any]:
    book: dict[str, Any] = json.loads(path.read_text(encoding="utf-8"))
    return book


def printed(book: dict[str, Any], folder: Path) -> list[str]:
    """What each cell prints, run one after another in one module, in a folder. Plots are drawn, and shown nowhere."""
    os.environ.setdefault("MPLBACKEND", "Agg")
    names: dict[str, Any] = {"__name__": "__main__"}
    before = Path.cwd()
    os.chdir(folder)
    try:
        return [cell_output(number, cell, names) for number, cell in enumerate(code_cells(book))]
    finally:
        os.chdir(before)


def cell_output(number: int, cell: dict[str, Any], names: dict[str, Any]) -> str:
    """What one cell prints."""
    out = io.StringIO()
    with redirect_stdout(out):
        exec(compile("".join(cell["source"]), f"cell {number}", "exec"), names)
    return out.getvalue()


def stored(cell: dict[str, Any]) -> str:
    """What a notebook says that a cell prints."""
    return "".join("".join(output["text"]) for output in cell["outputs"] if output["output_type"] == "stream")


def with_outputs(book: dict[str, Any], outputs: list[str]) -> dict[str, Any]:
    """A notebook with these outputs."""
    for cell, text in zip(code_cells(book), outputs, strict=True):
        lines = text.splitlines(keepends=True)
        cell["outputs"] = [{"output_type": "stream", "name": "stdout", "text": lines}] if lines else []
    return book


def main() -> int:
    for name in sys.argv[1:]:
        path = Path(name).resolve()
        book = read_notebook(path)
        book = with_outputs(book, printed(book, path.parent))
        path.write_text(json.dumps(book, indent=1, ensure_ascii=False) + "\n", encoding="utf-8")
    return 0


if __name__ == "__main__":
    sys.exit(main())
