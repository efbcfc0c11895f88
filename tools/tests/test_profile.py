"""Profiles: each cycle of a task is that of one statement."""

from __future__ import annotations

from pathlib import Path

import pytest
from conftest import ROOT, Tool

from tcresttools.assembly import code_of
from tcresttools.cli import BadInput
from tcresttools.job import read_job
from tcresttools.program import run_program
from tcresttools.recording import assembly_layout
from tcresttools.report import read_listing, read_report

ONE_CORE = sorted(
    path.relative_to(ROOT)
    for path in (ROOT / "examples").glob("**/*.toml")
    if "\ncores = 1\n" in path.read_text() and 'lang = "asm"' in path.read_text()
)


def rows(text: str) -> dict[str, list[int]]:
    """The four numbers of each line of a profile."""
    found = [line.split() for line in text.splitlines()[1:] if not line.startswith(("core", "only"))]
    return {f"{at} {row[0]}": [int(number) for number in row[1:5]] for at, row in enumerate(found)}


@pytest.mark.parametrize("path", ONE_CORE, ids=str)
def test_sums_are_those_of_the_run(path: object, tool: Tool) -> None:
    done = tool("profile", str(path))
    assert (done.returncode, done.stderr) == (0, "")
    table = rows(done.stdout)
    sums = table.pop(next(name for name in table if name.endswith(" all")))
    assert [sum(column) for column in zip(*table.values(), strict=True)] == sums
    last = read_report("platform cores 1 slot 6 period 6\n" + done.stdout.splitlines()[-1]).cores[0]
    if last.ended == "done":
        assert sums[0] + sums[1] == last.cycles


def test_stored_profile(tool: Tool) -> None:
    done = tool("profile", "examples/method_cache.toml")
    assert done.stdout == (ROOT / "tools/examples/method_cache.profile").read_text()


def profiles(text: str) -> list[list[str]]:
    """The lines of each task."""
    return [block.splitlines() for block in text.rstrip().split("\n\n")]


def test_tasks_of_several_cores_are_replayed(tool: Tool) -> None:
    """The example of two loads in docs/MACHINE.md: core 1 of 2, whose slots are at 6, 18, 30 and so on."""
    done = tool("profile", "examples/two_cores.toml")
    assert (done.returncode, done.stderr) == (0, "")
    first, second = profiles(done.stdout)
    assert first[-1] == "core 0 done 0 cycles 46" and second[-1] == "core 1 done 5 cycles 64"
    numbers = [[int(word) for word in line.split()[1:5]] for line in second[1:-1]]
    assert numbers == [
        [0, 36, 3, 10], [1, 0, 0, 0], [1, 10, 1, 1], [1, 0, 0, 0], [1, 10, 1, 1], [1, 0, 0, 0], [1, 0, 0, 0],
        [1, 0, 0, 0], [1, 0, 0, 0], [8, 56, 5, 12],
    ]  # fmt: skip


def test_tasks_that_cannot_be_replayed_say_why(tool: Tool) -> None:
    (trapped,) = profiles(tool("profile", "examples/every_key.toml").stdout)
    assert trapped[1] == "its lines are not known: it has not ended by itself"


def test_a_task_that_sends_is_shown(tool: Tool) -> None:
    """Its stores to the network take a cycle each, as all its bundles do; only its fetch waits."""
    for block in profiles(tool("profile", "examples/packet.toml").stdout):
        sums = [int(word) for word in block[-2].split()[1:]]
        core = read_report("platform cores 2 slot 6 period 12\n" + block[-1]).cores[0]
        assert core.ended == "done" and sums[0] + sums[1] == core.cycles
        stores = [line.split() for line in block if " swl " in line]
        assert all(words[1:5] == ["1", "0", "0", "0"] for words in stores)


def test_a_task_that_is_stopped(tool: Tool) -> None:
    """The task of examples/trap.toml fetches its words in the slot at 0, does one bundle at 6, and is stopped at 7."""
    done = tool("profile", "examples/trap.toml")
    assert list(rows(done.stdout).values()) == [[0, 6, 1, 4], [1, 0, 0, 0], [1, 6, 1, 4]]


def test_a_step_that_is_no_bundle_of_the_text(program: str) -> None:
    """The task of examples/one_core.toml has one function, whose five bundles of a word are at 1 to 5."""
    job = read_job(str(ROOT / "examples/one_core.toml"))
    code = code_of(job.tasks[0].source, read_listing(run_program(program, "asm", job.data).text)[0])
    assert assembly_layout(code, [1, 5]).functions == [1, 1]
    with pytest.raises(BadInput, match="a step is at place 6, where this text has no bundle"):
        assembly_layout(code, [1, 6])


def test_steps_that_are_cut(tool: Tool, program: str, tmp_path: Path) -> None:
    """Of two steps the second is in the cycle after the first: the fetch waits up to it."""
    job = read_job(str(ROOT / "examples/one_core.toml"))
    piped = tmp_path / "pipe"
    piped.write_text(run_program(program, "pipe", job.traced(2)).text)
    done = tool("profile", "examples/one_core.toml", "--pipe", str(piped))
    assert "only its first 2 bundles are listed" in done.stdout
    assert list(rows(done.stdout).values())[-1][0] == 2


WAITS = """
version = 1
cores = 2
slot = 6
cycles = 1000
[[task]]
core = 0
lang = "asm"
source = ".func main; addl r2 = r0, 0x01000000; addi r3 = r0, 5; swm [r2 + 0] = r3; ret; nop; nop; nop"
[[task]]
core = 1
lang = "asm"
start = 100
source = '''
.func main
    addl r2 = r0, 0x01000000
    lwm r1 = [r2 + 0]
    nop
    cmpieq p1 = r1, 5
    (p1) br over
    nop
    nop
    addi r4 = r0, 1
over: ret
    nop
    nop
    nop
'''
"""


def test_a_task_that_others_lead_another_way_is_not_shown(tool: Tool, tmp_path: Path) -> None:
    path = tmp_path / "job.toml"
    path.write_text(WAITS)
    _, waits = profiles(tool("profile", str(path)).stdout)
    assert waits[1] == "its lines are not known: what it does may depend on words that other cores set"
    # where it goes one way whatever it loads, it is shown: it loads the 5 that core 0 has stored
    path.write_text(WAITS.replace("cmpieq p1 = r1, 5", "nop").replace("(p1) br over", "br over"))
    _, same = profiles(tool("profile", str(path)).stdout)
    assert len(same) > 3 and same[-1].startswith("core 1 done 5 ")


def test_a_task_in_c_is_shown_by_function_and_loop(tool: Tool) -> None:
    shown = tool("profile", "examples/c/filter.toml")
    assert (shown.returncode, shown.stderr) == (0, "")
    assert shown.stdout == tool("where", "examples/c/filter.toml").stdout
    stored = tool("profile", "examples/c/filter.toml", "--report", "examples/c/filter.report")
    assert (stored.returncode, stored.stdout) == (2, "")
