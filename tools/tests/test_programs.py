"""Whole programs as engineers write them, against the values that gcc gave for them."""

from __future__ import annotations

import os
import shutil
import sys
from dataclasses import dataclass, field
from pathlib import Path

import pytest
from comparing import JOB, Case, compare, lowered_text, run, told

pytest.importorskip("pycparser")
HERE = Path(__file__).resolve().parent
PROGRAMS = HERE / "programs"
NAMES = sorted(path.stem for path in PROGRAMS.glob("*.txt"))
RUN = ["calendar", "queue", "words"]
# A folder of programs from outside, where the environment names one.
OUTSIDE = os.environ.get("TCREST_PROGRAMS", "")
OUTSIDE_NAMES = sorted(path.stem for path in Path(OUTSIDE).glob("*.txt")) if OUTSIDE else []


@dataclass(frozen=True)
class Flags:
    """What the command line tells of a program: depths, and bounds of lines of its first file."""

    depth: dict[str, int] = field(default_factory=dict)
    bound: dict[int, int] = field(default_factory=dict)


FLAGS = {
    "radio": Flags(bound={36: 5}),
    "terms": Flags(depth={"sum": 2}),
    # From outside.
    "bitcount": Flags(depth={"bitcount_ntbl_bitcnt": 8}),
    "compress": Flags(bound={195: 50}),
    "fac": Flags(depth={"fac_fac": 6}),
    "quicksort": Flags(depth={"quicksort_qsort": 8}),
}


def case_of(paths: list[Path], name: str, defines: tuple[str, ...] = ()) -> Case:
    flags = FLAGS.get(name, Flags())
    return Case(paths, flags.depth, {(str(paths[0]), line): most for line, most in flags.bound.items()}, defines)


def own(name: str) -> Case:
    """A program of the folder: NAME.c, and what else begins with NAME_."""
    return case_of([PROGRAMS / f"{name}.c", *sorted(PROGRAMS.glob(f"{name}_*.c"))], name)


def same(case: Case, values: Path, program: str, command: str) -> None:
    compare(f"`{command}`", told(lowered_text(case), program, command), values.read_text(encoding="utf-8"))


def test_the_programs_are_there() -> None:
    assert len(NAMES) == 12 and set(RUN) <= set(NAMES)


@pytest.mark.parametrize("name", NAMES)
def test_mean(name: str, program: str) -> None:
    same(own(name), PROGRAMS / f"{name}.txt", program, "mean")


@pytest.mark.parametrize("name", RUN)
def test_run(name: str, program: str) -> None:
    same(own(name), PROGRAMS / f"{name}.txt", program, "run")


if OUTSIDE:

    def test_the_programs_from_outside_are_there() -> None:
        assert OUTSIDE_NAMES

    @pytest.mark.parametrize("name", OUTSIDE_NAMES)
    def test_outside(name: str, program: str, tmp_path: Path) -> None:
        path = Path(shutil.copy(Path(OUTSIDE) / f"{name}.c", tmp_path))
        shutil.copy(HERE / "outside_host.h", tmp_path / "host.h")
        case = case_of([path], name, ("main=bench_main",))
        same(case, Path(OUTSIDE) / f"{name}.txt", program, "mean")


def test_explain_tells_the_line_of_the_source(program: str, tmp_path: Path) -> None:
    source, job = tmp_path / "a.c", tmp_path / "job.toml"
    source.write_text("int n;\nint main(void)\n{\n    n = 5;\n    return n;\n}\n", encoding="utf-8")
    text = lowered_text(Case([source])).replace("n = 5;", "n = what;")
    job.write_text(JOB.format(text=f"// Lowered by tools/lower from a.c.\n{text}"), encoding="utf-8")
    found = run([sys.executable, str(HERE.parent / "explain"), "--program", program, str(job)])
    assert found.returncode == 1 and "a.c:4" in found.stdout


def test_the_tool_writes_a_job_and_puts_a_task_into_it(tmp_path: Path) -> None:
    source, job = tmp_path / "a.c", tmp_path / "a.toml"
    for value in ("3", "4"):
        source.write_text(f"int main(void) {{ return {value}; }}\n", encoding="utf-8")
        assert run([sys.executable, str(HERE.parent / "lower"), str(source), "--job", str(job)]).returncode == 0
        assert job.read_text(encoding="utf-8").count(f"return {value};") == 1
    assert job.read_text(encoding="utf-8").count("[[task]]") == 1


def test_statuses(tmp_path: Path) -> None:
    source = tmp_path / "a.c"
    lower = str(HERE.parent / "lower")
    for text, status in (
        ("int main(void) { return 3; }", 0),
        ("float x; int main(void) { return x; }", 1),
        ("int (", 2),
    ):
        source.write_text(text, encoding="utf-8")
        assert run([sys.executable, lower, str(source)]).returncode == status
    assert run([sys.executable, lower, str(tmp_path / "none.c")]).returncode == 2
