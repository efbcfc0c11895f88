"""Drawings of the pipeline, and the log for Konata."""

from __future__ import annotations

from pathlib import Path

import pytest
from conftest import ROOT, Tool, load

from tcresttools.cli import BadInput
from tcresttools.code_text import CodeLoop, codes_of
from tcresttools.code_text import bundles_of as bundles_in
from tcresttools.pipeline import bundles_of, columns_of
from tcresttools.report import Step

ENDS = "steps, as many as `trace` says, and more follow: --trace N lists more"


def test_stored_drawing_and_log(tool: Tool) -> None:
    for ending, more in (("stages", ""), ("konata", "--konata -")):
        done = tool("stages", "examples/method_cache.toml", "--trace", "14", *more.split())
        assert done.stdout == (ROOT / f"tools/examples/method_cache.{ending}").read_text()


def test_a_list_that_ends_before_the_task_says_so(tool: Tool) -> None:
    cut = tool("stages", "examples/one_core.toml").stdout.splitlines()
    assert cut[-2] == f"these are the first 4 {ENDS}"
    for trace in ("5", "99"):
        whole = tool("stages", "examples/one_core.toml", "--trace", trace).stdout
        assert ENDS not in whole
        assert whole.splitlines()[-1] == cut[-1]
    assert ENDS in tool("stages", "examples/trap.toml", "--trace", "1").stdout
    assert ENDS not in tool("stages", "examples/trap.toml", "--trace", "9").stdout


def test_no_steps_are_refused(tool: Tool) -> None:
    done = tool("stages", "examples/trap.toml", "--trace", "0")
    assert done.returncode == 2
    assert "lists no steps" in done.stderr


def steps_of(*rows: str) -> list[Step]:
    """Steps from rows of a cycle and five places."""
    made = []
    for text in rows:
        cycle, *stages = text.split()
        first, second, third, fourth, fifth = (None if word == "-" else int(word) for word in stages)
        made.append(Step(int(cycle), first, second, third, fourth, fifth))
    return made


STEPS = steps_of("12 3 2 1 - -", "13 4 3 2 1 -", "20 - 4 3 2 1")


def test_a_bundle_goes_through_its_stages() -> None:
    bundles = bundles_of(STEPS)
    assert [(one.place, one.stages, one.done) for one in bundles] == [
        (1, {0: "E", 1: "M", 2: "W"}, True),
        (2, {0: "D", 1: "E", 2: "M"}, True),
        (3, {0: "F", 1: "D", 2: "E"}, True),
        (4, {1: "F", 2: "D"}, False),
    ]


def test_steps_that_do_not_follow_are_refused() -> None:
    with pytest.raises(BadInput, match="step 1 has place 9 in D"):
        bundles_of(steps_of("12 3 2 1 - -", "13 4 9 2 1 -"))


def test_waits_are_columns_and_blocks_have_a_width() -> None:
    stages = load("stages")
    assert columns_of(STEPS) == [(0, "12"), (1, "13"), (None, ".."), (2, "20")]
    lines = stages.drawing(STEPS, bundles_of(STEPS), {1: "nop"}, 2)
    assert lines[0].split() == ["cycle", "12", "13"]
    assert lines[1].split() == ["1", "nop", "E", "M"]
    assert [line for line in lines if line.startswith("cycle")][1].split() == ["cycle", "..", "20"]


def test_konata_counts_cycles(tmp_path: Path) -> None:
    stages = load("stages")
    lines = stages.konata(STEPS, bundles_of(STEPS), {}).splitlines()
    assert lines[:2] == ["Kanata\t0004", "C=\t12"]
    assert sum(int(line.split("\t")[1]) for line in lines if line.startswith("C\t")) == 21 - 12
    retired = {line.split("\t")[1]: line.split("\t")[3] for line in lines if line.startswith("R\t")}
    assert retired == {"0": "0", "1": "0", "2": "0", "3": "1"}


def test_bundles_of_c_have_their_texts(tool: Tool, program: str) -> None:
    """Each row has the bundle that `tccode` writes for its place; the first one of a loop has the loop's label."""
    path = ROOT / "examples/c/filter.toml"
    (code,) = codes_of(program, path.read_bytes(), str(path)).values()
    main = code.functions[0]
    texts = {main.start + bundle.offset: bundle.text for bundle in bundles_in(main.items)}
    loop = next(item for item in main.items if isinstance(item, CodeLoop))
    texts[main.start + loop.first] = f"L0: {texts[main.start + loop.first]}"
    shown = tool("stages", str(path), "--trace", "40", "--columns", "100").stdout.splitlines()
    rows = [line for line in shown[1:] if line[:5].strip().isdigit()]
    assert len(rows) > 30 and any(" L0: " in line for line in rows)
    assert all(line[5:].startswith(texts[int(line[:5])]) for line in rows)
