"""The notebooks: their cells run, one after another, and print what is stored beside them."""

from __future__ import annotations

from pathlib import Path

import pytest
from conftest import ROOT
from notebooks import code_cells, printed, read_notebook, stored

NOTEBOOKS = sorted((ROOT / "examples" / "notebooks").glob("*.ipynb"))
# What a cell prints where matplotlib is not installed; elsewhere it draws.
NO_PLOT = "matplotlib is not installed: no plot\n"


def test_there_are_notebooks() -> None:
    assert len(NOTEBOOKS) == 2


@pytest.mark.parametrize("path", NOTEBOOKS, ids=[path.stem for path in NOTEBOOKS])
def test_cells_print_what_is_stored(path: Path, program: str, monkeypatch: pytest.MonkeyPatch) -> None:
    monkeypatch.setenv("TCREST", program)
    book = read_notebook(path)
    for cell, text in zip(code_cells(book), printed(book, path.parent), strict=True):
        assert text.replace(NO_PLOT, "") == stored(cell).replace(NO_PLOT, "")


@pytest.mark.parametrize("path", NOTEBOOKS, ids=[path.stem for path in NOTEBOOKS])
def test_a_notebook_is_one_of_version_4(path: Path) -> None:
    book = read_notebook(path)
    assert (book["nbformat"], book["metadata"]["kernelspec"]["name"]) == (4, "python3")
    assert {cell["cell_type"] for cell in book["cells"]} == {"code", "markdown"}
    assert all(len(line) <= 141 for cell in book["cells"] for line in cell["source"])
