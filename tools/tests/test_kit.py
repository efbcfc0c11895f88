"""The kit: one archive that runs in an empty folder, with Python and nothing else on its path."""

from __future__ import annotations

import subprocess
import sys
import tarfile
from pathlib import Path

import pytest
from conftest import ROOT, Tool, load

from tcresttools.cli import code_path
from tcresttools.code_text import read_code


@pytest.fixture(scope="module")
def kit(program: str, tmp_path_factory: pytest.TempPathFactory) -> Path:
    """The archive, unpacked, beside a folder that has Python alone."""
    folder = tmp_path_factory.mktemp("kit")
    archive = folder / "tcrest-kit.tar.gz"
    module = load("kit")
    module.pack(archive, module.packed_files(ROOT, Path(program), Path(code_path(program))), "tcrest-kit")
    with tarfile.open(archive) as packed:
        packed.extractall(folder / "clean")
    (folder / "path").mkdir()
    (folder / "path" / "python3").symlink_to(Path(sys.executable).resolve())
    return folder


def call(kit: Path, *words: str, given: bytes = b"") -> subprocess.CompletedProcess[bytes]:
    """Runs a file of the kit with an empty environment, in which PATH leads to Python alone."""
    folder = kit / "clean" / "tcrest-kit"
    return subprocess.run(
        [str(folder / words[0]), *words[1:]],
        input=given, capture_output=True, cwd=folder, env={"PATH": str(kit / "path")}, check=False,
    )  # fmt: skip


def test_it_holds_what_is_needed(kit: Path) -> None:
    folder = kit / "clean" / "tcrest-kit"
    assert sorted(path.name for path in folder.iterdir()) == ["README.md", "bin", "docs", "examples", "tools"]
    assert not [path for path in folder.rglob("*") if path.name == "__pycache__" or path.suffix == ".pyc"]
    for path in (ROOT / "examples").rglob("*.toml"):
        assert (folder / path.relative_to(ROOT)).read_bytes() == path.read_bytes()


def test_the_program_runs(kit: Path) -> None:
    job = (ROOT / "examples/one_core.toml").read_bytes()
    done = call(kit, "bin/tcrest", "run", given=job)
    assert (done.returncode, done.stdout) == (0, (ROOT / "examples/one_core.report").read_bytes())


def test_the_program_that_writes_code_runs(kit: Path, program: str) -> None:
    done = call(kit, "bin/tccode", given=(ROOT / "examples/c/filter.toml").read_bytes())
    (code,) = read_code(done.stdout.decode())
    assert (done.returncode, [one.name for one in code.functions]) == (0, ["main", "step"])


@pytest.mark.parametrize(
    "line,stored",
    [
        ("tools/explain tools/examples/wrong.toml", "wrong.explain"),
        ("tools/explain examples/trap.toml", "trap.explain"),
        ("tools/lint tools/examples/mistakes.toml", "mistakes.lint"),
        ("tools/listing examples/two_cores.toml", "two_cores.listing"),
        ("tools/stages examples/method_cache.toml --trace 14", "method_cache.stages"),
        ("tools/profile examples/method_cache.toml", "method_cache.profile"),
        ("tools/timeline examples/stack.toml --svg -", "stack.svg"),
        ("tools/where examples/c/filter.toml", "filter.where"),
        ("tools/bounds examples/c/deadlines.toml --persist", "deadlines.bounds"),
        ("tools/listing examples/c/filter.toml", "filter.listing"),
        ("tools/worst examples/c/table_skewed.toml", "table_skewed.worst"),
    ],
)
def test_each_tool_runs(kit: Path, line: str, stored: str) -> None:
    done = call(kit, *line.split())
    assert (done.stderr, done.stdout) == (b"", (ROOT / "tools/examples" / stored).read_bytes())


def test_a_sweep_and_a_schema(kit: Path) -> None:
    done = call(kit, "tools/sweep", "examples/c/filter.toml", "--slot", "6", "--out", "a.csv")
    assert (done.returncode, done.stderr) == (0, b"sweep: 1 jobs, 1 of them to run\n")
    table = (kit / "clean/tcrest-kit/a.csv").read_text()
    assert table.splitlines()[1].startswith("6,0,done,11,")
    assert call(kit, "tools/schema", "job").stdout == (ROOT / "docs/job.schema.json").read_bytes()


def test_the_same_files_give_the_same_entries(program: str, tmp_path: Path) -> None:
    module = load("kit")
    files = module.packed_files(ROOT, Path(program), Path(code_path(program)))
    for name in ("a.tar.gz", "b.tar.gz"):
        module.pack(tmp_path / name, files, "kit")
    with tarfile.open(tmp_path / "a.tar.gz") as one, tarfile.open(tmp_path / "b.tar.gz") as other:
        entries = [(entry.name, entry.size, entry.mode, entry.mtime, entry.uid) for entry in one]
        assert entries == [(entry.name, entry.size, entry.mode, entry.mtime, entry.uid) for entry in other]
    assert {entry[3:] for entry in entries} == {(0, 0)}
    for name, path in (("tcrest", program), ("tccode", code_path(program))):
        assert (f"kit/bin/{name}", Path(path).stat().st_size, 0o755, 0, 0) in entries


def test_the_tool_names_what_it_packed(tool: Tool, tmp_path: Path) -> None:
    out = tmp_path / "mine.tar.gz"
    done = tool("kit", "--out", str(out))
    assert done.returncode == 0
    assert done.stdout.startswith(f"{out}: ")
    assert tool("kit", "--out", str(tmp_path / "mine.zip")).returncode == 2
