"""Listings: the words of assembly tasks beside their statements."""

from __future__ import annotations

from pathlib import Path

import pytest
from conftest import ROOT, Tool, load

from tcresttools.assembly import code_of, instructions_of, statements_of
from tcresttools.cli import BadInput
from tcresttools.code_text import bundles_of, codes_of
from tcresttools.job import read_job

SOURCE = (
    b"# a comment; with a sign\n.func main; top: addl r2 = r0, 5 # more\n{ add r1 = r2, r0 ; nop }; br top\n.func"
    b" f\nret"
)
WORDS = [5, 0x80000001, 5, 0x80000002, 3, 4, 1, 9]


def test_statements_have_lines_and_bytes() -> None:
    found = [(one.kind, one.name, one.line) for one in statements_of(SOURCE)]
    assert found == [
        ("function", "main", 2), ("label", "top", 2), ("bundle", "", 2), ("bundle", "", 3), ("bundle", "", 3),
        ("function", "f", 4), ("bundle", "", 5),
    ]  # fmt: skip
    for one in statements_of(SOURCE):
        assert SOURCE[one.at : one.end].decode() == one.text


def test_halves_of_a_brace() -> None:
    bundle = statements_of(b".func f\n(!p1) add r1 = r2, r3\n{ (p2) nop ; subi r1 = r1, 1 }")[1:]
    assert [(part.guard, part.mnemonic, part.operands) for one in bundle for part in instructions_of(one)] == [
        ("!p1", "add", "r1 = r2, r3"), ("p2", "nop", ""), ("", "subi", "r1 = r1, 1"),
    ]  # fmt: skip


def test_code_has_places_and_offsets() -> None:
    rows = code_of(SOURCE, WORDS).rows
    assert [(row.place, row.offset, len(row.words), row.function) for row in rows] == [
        (0, None, 1, "main"), (1, 0, 0, "main"), (1, 0, 2, "main"), (3, 2, 2, "main"), (5, 4, 1, "main"),
        (6, None, 1, "f"), (7, 0, 1, "f"),
    ]  # fmt: skip


@pytest.mark.parametrize("words", [WORDS[:-1], [*WORDS, 1], [4, *WORDS[1:]], [6, *WORDS[1:]]])
def test_words_of_another_text_are_refused(words: list[int]) -> None:
    with pytest.raises(BadInput, match="the listing is not that of this text"):
        code_of(SOURCE, words)


def test_stored_listing(tool: Tool) -> None:
    done = tool("listing", "examples/two_cores.toml")
    assert (done.returncode, done.stderr) == (0, "")
    assert done.stdout == (ROOT / "tools/examples/two_cores.listing").read_text()


def test_listing_from_a_file_has_each_word(tmp_path: Path) -> None:
    job = read_job(str(ROOT / "examples/stack.toml"))
    count = len([one for one in statements_of(job.tasks[0].source) if one.kind == "bundle"])
    lines = load("listing").assembly_lines(job, job.tasks[0], [count, *range(1, count + 1)])
    assert lines[0] == f"core 0: {count + 1} words"
    assert [line.split()[2] for line in lines[2:]] == [f"{word:08x}" for word in [count, *range(1, count + 1)]]


def test_code_of_c_is_whole(tool: Tool, program: str) -> None:
    """Each bundle that `tccode` writes is there once, under its function; each line of a function is there once."""
    path = ROOT / "examples/port/route.toml"
    done = tool("listing", str(path))
    assert (done.returncode, done.stderr) == (0, "")
    (code,) = codes_of(program, path.read_bytes(), str(path)).values()
    first, head, *lines = done.stdout.splitlines()
    assert first == f"core 0: {code.words} words"
    bundles_of_all = [bundle for one in code.functions for bundle in bundles_of(one.items)]
    words = "".join(f"{word:08x}" for bundle in bundles_of_all for word in bundle.words)
    bundles = [line for line in lines if line[:5].strip()]
    assert "".join(line[13:30].replace(" ", "") for line in bundles) == words
    assert [int(line[:5]) - int(line[5:12]) for line in bundles[:1]] == [1]
    text = path.read_text(encoding="utf-8").splitlines()
    shown = [(int(line[31:36]), line[38:]) for line in lines if line[31:36].strip() and not line[38:].startswith("# ")]
    assert all(text[number - 1].rstrip() == words for number, words in shown)
    begin = next(number for number, words in enumerate(text, 1) if words.startswith("int main"))
    assert sorted(number for number, _ in shown if number >= begin) == list(range(begin, begin + 28))
    assert len({number for number, _ in shown}) == len(shown)


def test_lines_stand_in_front_of_their_code(tool: Tool) -> None:
    """The lines before a loop are in front of the bundles before it; a loop and a call that is inlined are named."""
    path = ROOT / "examples/c/filter.toml"
    lines = tool("listing", str(path)).stdout.splitlines()
    text = path.read_text(encoding="utf-8").splitlines()
    loop = next(number for number, words in enumerate(text, 1) if "for (i" in words)
    call = next(number for number, words in enumerate(text, 1) if "= step(" in words)
    head = f"{loop:36}  # for: L0, 12 iterations; step() of line {call} is inlined"
    at = lines.index(head)
    assert lines[at + 1] == f"{loop:36}  {text[loop - 1]}"
    before, behind = lines[:at], lines[at:]
    assert f"{loop - 1:36}  {text[loop - 2]}" in before
    last = next(number for number, words in enumerate(text, 1) if "return moved" in words)
    assert f"{last:36}  {text[last - 1]}" in behind
    # bundles of the loop stand further in
    inner = [line for line in behind if " br L0" in line]
    assert len(inner) == 1 and inner[0][42:].startswith("(p3) br")


def test_a_loop_of_another_text_is_named_with_its_line(tool: Tool) -> None:
    lines = tool("listing", "examples/port/route.toml").stdout.splitlines()
    found = [line.strip() for line in lines if "# while, append() inlined" in line]
    assert len(found) == 1 and found[0].endswith("8 iterations: while (entries[last + 1]) {")
