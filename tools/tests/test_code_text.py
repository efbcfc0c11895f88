"""The reader of code: what it makes of a text by hand, and of those that the program writes."""

from __future__ import annotations

import pytest
from code_texts import TWO, Lines, text_of
from conftest import ROOT

from tcresttools.cli import BadInput
from tcresttools.code_text import (
    CodeBundle,
    CodeCall,
    CodeLoop,
    bundles_of,
    code_of_task,
    codes_of,
    read_code,
    stack_transactions,
)
from tcresttools.events import NoSequence
from tcresttools.job import Task, read_job
from tcresttools.program import run_program
from tcresttools.report import read_bounds
from tcresttools.trail import Walk

EXAMPLES = sorted(path for folder in ("c", "port") for path in (ROOT / "examples" / folder).glob("*.toml"))

BY_HAND = """\
# core 3 words 19 bundles 19 transactions 9 bound 120 persist 87
# function main words 14 stack 9 bundles 19 transactions 6
.func main
  { sres 9 ; addi r5 = r0, 0 };  # 0 83c0000f 000a0000
  addl r27 = r0, 12;  # 2 85b60000 0000000c
# loop L0 iterations 3
L0:
  (p1) swm [r4 + 0] = r3;  # 4 04464180
  br L0;  # 5 0cbfffc3
  nop;  # 6 00000000
# end L0
  { lwc r3 = [r4 + 1] ; nop };  # 7 04464180 00000000
  call f;  # 9 04c001e5
  nop;  # 10 00000000
  nop;  # 11 00000000
  sens 9;  # 12 00000000
  ret;  # 13 00000000
# function f words 3 stack 0 long
.func f
  lws r3 = [r0 + 1];  # 0 00000000
  { nop ; lwl r1 = [r2 + 0] };  # 1 00000000 00000000
"""


def test_by_hand() -> None:
    (task,) = read_code(BY_HAND)
    assert (task.core, task.words, task.bundles, task.transactions, task.bound, task.persist) == (3, 19, 19, 9, 120, 87)
    main, called = task.functions
    # a word with the size is in front of each function
    assert (main.start, main.last, called.start, called.last) == (1, 14, 16, 17)
    assert (main.bundles, main.transactions, called.bundles, called.transactions) == (19, 6, None, None)
    assert (main.stack, main.fetches, called.fetches) == (9, 4, 1)
    first, second, loop, load, *_ = main.items
    assert isinstance(first, CodeBundle) and isinstance(second, CodeBundle) and isinstance(load, CodeBundle)
    assert (first.words, first.text) == ((0x83C0000F, 0x000A0000), "{ sres 9 ; addi r5 = r0, 0 }")
    assert (first.data, first.stack, first.moves) == (0, 3, "sres 9")
    assert (second.offset, second.words, second.may_move) == (2, (0x85B60000, 12), False)
    assert isinstance(loop, CodeLoop)
    assert (loop.label, loop.iterations, loop.first, loop.last) == ("L0", 3, 4, 6)
    assert [bundle.data for bundle in bundles_of(loop.items)] == [1, 0, 0]
    assert (load.data, load.moves) == (1, "lwc")
    # the call comes behind its delay slots, and the stack is ensured in the last of them
    assert main.items[-2] == CodeCall("f")
    assert not any(bundle.may_move for bundle in bundles_of(called.items))
    places = [step.place for step in Walk(task).steps()]
    assert places == [1, 3, 5, 6, 7, 5, 6, 7, 5, 6, 7, 8, 10, 11, 12, 13, 16, 17, 14]
    assert len(places) == task.bundles


@pytest.mark.parametrize("words,transactions", [(0, 0), (1, 1), (4, 1), (5, 2), (128, 32), (400, 32)])
def test_transactions_of_the_stack(words: int, transactions: int) -> None:
    """Four words each, and never more than the stack cache has."""
    assert stack_transactions(words) == transactions


@pytest.mark.parametrize("old,new", [
    ("iterations 3", "iterations"), ("# end L0", "# end L1"), ("L0:", "L1:"), (".func f", ".func g"),
    ("# 2 85b60000", "# 3 85b60000"),
    ("call f", "call g"), ("words 19", "words 20"), ("words 14", "words 15"), ("  nop;  # 6 00000000", "  nop  # 6"),
    ("# core 3", "# core"), ("# end L0\n", ""),
])  # fmt: skip
def test_a_text_that_is_none_is_refused(old: str, new: str) -> None:
    assert old in BY_HAND
    with pytest.raises(BadInput):
        read_code(BY_HAND.replace(old, new, 1))


def test_no_task_and_several() -> None:
    assert read_code("") == []
    text = text_of({"main": Lines().bundles("nop", TWO)}, 2)
    assert [task.functions[0].words for task in read_code(text + text.replace("core 0", "core 1"))] == [3, 3]


@pytest.mark.parametrize("path", EXAMPLES, ids=lambda path: str(path.stem))
def test_examples_add_up(path: object, program: str) -> None:
    """The bundles of a walk are those of the first line, and the bounds those that `persist` tells."""
    job = read_job(str(path))
    codes = codes_of(program, job.data, job.path)
    bounds = read_bounds(run_program(program, "persist", job.data).text)
    assert codes.keys() == bounds.keys()
    for core, code in codes.items():
        assert (code.bound, code.persist) == bounds[core]
        assert sum(1 for _ in Walk(code).steps()) == code.bundles
        assert code.bundles == code.functions[0].bundles


def test_the_code_of_one_task(program: str) -> None:
    source = b"int main() { send(4, 0, 0, 1); return 1; }"
    code = code_of_task(Task(0, 2, "c", source, [], 0), program)
    assert (code.core, [one.name for one in code.functions]) == (2, ["main"])
    with pytest.raises(NoSequence, match="16 are the most"):
        code_of_task(Task(0, 2, "c", source.replace(b"4", b"99"), [], 0), program)
    with pytest.raises(NoSequence, match="Syntax at 6"):
        code_of_task(Task(0, 0, "c", b"int main() { return }", [], 0), program)
