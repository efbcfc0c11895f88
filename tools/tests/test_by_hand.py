"""The tasks of examples/by_hand, on the inputs and with the answers that cases/kernels.txt has for their C kernels."""

from __future__ import annotations

import json
import re
import tomllib
from dataclasses import dataclass

import pytest
from conftest import ROOT

from tcresttools.program import run_program
from tcresttools.report import read_report

FOLDER = ROOT / "examples" / "by_hand"
SLOT = 6
# The word of private memory with which the input begins.
FIRST = 4
JOB = """version = 1
cores = 1
slot = 6
cycles = 100000
trace = 9999
[[task]]
core = 0
lang = "asm"
input = {input}
source = '''
{source}'''
"""
# Calls the task. Its value is how many words from `out` on are those from `wanted` on, of as many as `bytes` has.
READER = """.func reader
      call main
      nop
      nop
      nop
      mts srb = r0
      addi r1 = r0, 0
      addi r2 = r0, 0
      addi r5 = r0, {bytes}
next: lwm r3 = [r2 + {out}]
      lwm r4 = [r2 + {wanted}]
      addi r2 = r2, 4
      cmpeq p1 = r3, r4
      cmpneq p2 = r2, r5
      (p2) br next
      (p1) addi r1 = r1, 1
      nop
      ret
      nop
      nop
      nop
"""


@dataclass(frozen=True)
class Kernel:
    """A kernel, and what a reader counts in its text.

    `case` is its name among the cases. Its `in` has `given` words, and its `out` begins at the word `out` of private
    memory. Its code has `code` words, the size among them. `before` has a number for each load or store of main memory:
    how many bundles are executed before it, since the one before. `after` is how many are executed after the last one.
    """

    case: str
    given: int
    out: int
    code: int
    before: list[int]
    after: int

    @property
    def bundles(self) -> int:
        return sum(self.before) + len(self.before) + self.after

    @property
    def moves(self) -> list[int]:
        """The cycles in which words move: a transaction waits for the next slot of the only core, and takes it."""
        moves = list(range(0, -(-self.code // 4) * SLOT, SLOT))
        for bundles in self.before:
            moves.append(-(-(moves[-1] + SLOT + bundles) // SLOT) * SLOT)
        return moves

    @property
    def cycles(self) -> int:
        return self.moves[-1] + SLOT + self.after


# The loop of the table has eight stores in 15 bundles. A search loads the key and seven squares, and stores an answer.
FILL = [0, 1, 0, 1, 0, 1, 1]
SEARCH = [6, *[11] * 7]
# An inner loop has a load and a store in each of 20 iterations.
MOVES = [1, 5, *[0, 5] * 19]

KERNELS = {
    "checksums": Kernel("checksum", 24, 28, 57, [5, *[12] * 23, 22, 0], 0),
    "crc32": Kernel("CRC-32", 17, 21, 92, [0, 4, *[86] * 15, 165, 0], 1),
    "filter": Kernel("FIR filter", 48, 68, 141, [4, 2, *[3] * 15, 11] * 48, 8),
    "insertion_sort": Kernel("insertion sort", 20, 24, 30, [2, *MOVES, *[4, *MOVES] * 19], 8),
    "binary_search": Kernel("binary search", 8, 76, 77, [2, *FILL, *[3, *FILL] * 7, 5, *SEARCH, *[1, *SEARCH] * 7], 5),
}


@dataclass(frozen=True)
class Case:
    """An input of a kernel, and what is known of it: the value, and the words of `out`."""

    input: list[int]
    value: int
    out: list[int]


def cases_of(kernel: Kernel) -> list[Case]:
    """The inputs of a kernel in cases/kernels.txt, with their answers."""
    text = (ROOT / "cases/kernels.txt").read_text(encoding="utf-8")
    case = text.partition(f"=== mean 0 {kernel.case}\n")[2].partition("\n=== ")[0]
    job, _, answer = case.partition("\n---\n")
    found = []
    for core, task in enumerate(tomllib.loads(job)["task"]):
        value = re.search(rf"^core {core} mean (-?\d+)$", answer, re.M)
        assert value is not None
        out = re.findall(rf"^core {core} out \d+ (-?\d+)$", answer, re.M)
        found.append(Case(task["input"], int(value[1]), [int(word) for word in out]))
    return found


def task_of(name: str) -> tuple[str, list[int]]:
    """The text and the input of an example."""
    task = tomllib.loads((FOLDER / f"{name}.toml").read_text(encoding="utf-8"))["task"][0]
    return task["source"], task["input"]


def input_of(name: str, case: Case) -> list[int]:
    """The words of `in`, and after them what the example's own input has there."""
    given = KERNELS[name].given
    return case.input + [0] * (given - len(case.input)) + task_of(name)[1][given:]


def job_of(source: str, words: list[int]) -> bytes:
    return JOB.format(input=json.dumps(words), source=source).encode()


def right_words(program: str, name: str, case: Case) -> int | None:
    """How many words of `out` are the known ones when the task has ended; these stand after `out` as further input."""
    out, count = KERNELS[name].out, len(case.out)
    words = input_of(name, case)
    words += [0] * (out + count - FIRST - len(words)) + case.out
    reader = READER.format(out=out, wanted=out + count, bytes=4 * count)
    (core,) = read_report(run_program(program, "run", job_of(reader + task_of(name)[0], words)).text).cores
    return core.value


def test_every_example_is_a_kernel() -> None:
    assert sorted(path.stem for path in FOLDER.glob("*.toml")) == sorted(KERNELS)


@pytest.mark.parametrize("name", KERNELS)
def test_value_bundles_and_times(program: str, name: str) -> None:
    """Whatever the input, the bundles and the cycle of each transaction are those that are counted in the text."""
    kernel = KERNELS[name]
    for case in cases_of(kernel):
        job = job_of(task_of(name)[0], input_of(name, case))
        stages = read_report(run_program(program, "pipe", job).text)
        (core,) = read_report(run_program(program, "run", job).text).cores
        assert (core.value, core.cycles, len(stages.steps)) == (case.value, kernel.cycles, kernel.bundles)
        assert [access.cycle for access in core.accesses] == kernel.moves


@pytest.mark.parametrize("name", KERNELS)
def test_memory(program: str, name: str) -> None:
    for case in cases_of(KERNELS[name]):
        assert right_words(program, name, case) == len(case.out)
        other = Case(case.input, case.value, [case.out[0] ^ 1, *case.out[1:]])
        assert right_words(program, name, other) == len(case.out) - 1


@pytest.mark.parametrize("name", KERNELS)
def test_the_pages_have_these_figures(name: str) -> None:
    kernel = KERNELS[name]
    row = f"| `{name}` | {kernel.case} | {kernel.bundles:,} | {len(kernel.moves):,} | {kernel.cycles:,} |"
    assert row in (FOLDER / "README.md").read_text(encoding="utf-8")
    page = (ROOT / "docs/PERFORMANCE.md").read_text(encoding="utf-8")
    by_hand = page.partition("\nBy hand, ")[2].partition("\n\n")[0]
    assert re.search(rf"\s{kernel.bundles:,}\b", by_hand)
