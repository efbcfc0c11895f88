"""`tools/tcrest`: what the program writes, several files, explanations, the page for `man`, and completion."""

from __future__ import annotations

import shutil
import subprocess
import sys
from pathlib import Path

import pytest
from conftest import ROOT, TOOLS, Tool

from tcresttools import VERSION
from tcresttools.cli import BadInput
from tcresttools.commands import COMMANDS, files_of
from tcresttools.job import toml_values
from tcresttools.man_page import blocks_of, inline, man_page, table
from tcresttools.program import run_program

JOB = "examples/one_core.toml"
WRONG = """version = 1
cores = 1
slot = 6
cycles = 100000
[[task]]
core = 0
lang = "asm"
source = ".func main; addi r1, r0, 7; ret; nop; nop; nop"
"""


def test_it_writes_what_the_program_writes(tool: Tool, program: str) -> None:
    for command in ("run", "asm", "pipe"):
        done = tool("tcrest", command, JOB)
        assert (done.returncode, done.stderr) == (0, "")
        assert done.stdout == run_program(program, command, (ROOT / JOB).read_bytes()).text


def test_several_files_stand_below_their_names(tool: Tool) -> None:
    done = tool("tcrest", "run", JOB, "examples/trap.toml")
    parts = done.stdout.split("== ")
    assert [part.split(" ==\n")[0] for part in parts[1:]] == [JOB, "examples/trap.toml"]
    assert done.returncode == 3
    assert "examples/trap.toml:14:7: core 0 trap 1 at 7" in done.stderr


def test_a_refusal_is_explained(tool: Tool, tmp_path: Path) -> None:
    path = tmp_path / "wrong.toml"
    path.write_text(WRONG)
    done = tool("tcrest", "run", str(path))
    assert (done.returncode, done.stdout) == (4, "core 0: Operand line 1\n")
    assert f"{path}:8:23: core 0: Operand line 1" in done.stderr
    assert "here:   what is set stands before `=`: write `addi r1 = r0, 7`." in done.stderr


def test_folders(tmp_path: Path) -> None:
    (tmp_path / "b.toml").write_text(WRONG)
    (tmp_path / "a.toml").write_text(WRONG)
    (tmp_path / "net.toml").write_text("columns = 2\nrows = 1\nlength = 1\nentries = [[0, 0, 1, 9]]\n")
    (tmp_path / "notes.txt").write_text("")
    assert files_of([str(tmp_path)], "run") == [str(tmp_path / "a.toml"), str(tmp_path / "b.toml")]
    assert files_of([str(tmp_path), "-"], "grid") == [str(tmp_path / "net.toml"), "-"]
    (tmp_path / "empty").mkdir()
    with pytest.raises(BadInput):
        files_of([str(tmp_path / "empty")], "run")


def test_generated_jobs(tool: Tool) -> None:
    done = tool("tcrest", "gen", "1")
    assert (done.returncode, toml_values(done.stdout.encode())["cores"]) == (0, 4)
    assert tool("tcrest", "gen", "one").returncode == 2


@pytest.mark.parametrize(
    "words,told",
    [([], "name a command and a file"), (["run"], "name a command"), (["fly", JOB], "`fly` is no command"),
     (["run", "none.toml"], "none.toml: ")],
)  # fmt: skip
def test_bad_words_are_refused(tool: Tool, words: list[str], told: str) -> None:
    done = tool("tcrest", *words)
    assert done.returncode == 2
    assert told in done.stderr


def test_version(tool: Tool) -> None:
    assert tool("tcrest", "--version").stdout.startswith(f"tcresttools {VERSION}, with the program ")
    assert toml_values((TOOLS / "pyproject.toml").read_bytes())["project"]["version"] == VERSION


def test_commands_are_those_of_the_usage_line(program: str) -> None:
    told = subprocess.run([program], capture_output=True, text=True, check=False).stdout
    words = told.removeprefix("usage: tcrest ").strip().replace(" N", "").split("|")
    assert sorted(words) == sorted(COMMANDS)


def test_pieces_of_the_page_for_man() -> None:
    assert inline("a [link](x.md#y), `a-b` and **more**") == "a link, \\fBa\\-b\\fR and more"
    assert inline(".dot") == "\\&.dot"
    assert inline("2^31 \\ ~") == "2\\(ha31 \\e \\(ti"
    assert blocks_of("# A\ntext\nmore\n\n    code\n") == [["# A"], ["text", "more"], ["    code"]]
    rows = ["| key | value | default |", "|---|---|---|", "| `slot` | a\\|b | 0 |"]
    assert table(rows) == [".TP", "\\fBslot\\fR", "a|b; default: 0"]


def test_the_page_for_man_is_current() -> None:
    assert (TOOLS / "tcrest.1").read_text(encoding="utf-8") == man_page()


@pytest.mark.skipif(shutil.which("groff") is None, reason="groff is not installed")
def test_the_page_for_man_is_read_without_a_warning() -> None:
    words = ["groff", "-man", "-ww", "-K", "utf8", "-T", "utf8", "-P", "-cbou", str(TOOLS / "tcrest.1")]
    done = subprocess.run(words, capture_output=True, text=True, check=False)
    assert (done.returncode, done.stderr) == (0, "")
    assert "THE COMMAND LINE" in done.stdout


def completed(*words: str) -> list[str]:
    """What bash offers for the last of these words, in the folder of the repository."""
    shell = f"""
        source {TOOLS / "completion.bash"}
        COMP_WORDS=("$@"); COMP_CWORD=$(( $# - 1 ))
        name=$(complete -p "${{1##*/}}" | sed -E 's/.*-F ([^ ]+) .*/\\1/')
        "$name" "$1" "${{COMP_WORDS[COMP_CWORD]}}" "" && printf '%s\\n' "${{COMPREPLY[@]}}"
    """
    line = ["bash", "-c", shell, "bash", *words]
    done = subprocess.run(line, capture_output=True, text=True, cwd=ROOT, check=True)
    return done.stdout.split()


def test_completion() -> None:
    assert completed("tools/tcrest", "per") == ["persist"]
    assert sorted(completed("tools/tcrest", "")) == sorted(COMMANDS)
    assert completed("tools/tcrest", "run", "examples/one") == ["examples/one_core.toml"]
    assert completed("tools/sweep", "examples/c/filt") == ["examples/c/filter.toml"]
    assert completed("tools/tables", "x.toml", "--dead") == ["--deadline"]
    assert completed("tools/tcrest", "run", "--ver") == ["--version"]


def test_completion_is_for_each_tool_that_takes_a_job() -> None:
    text = (TOOLS / "completion.bash").read_text(encoding="utf-8")
    line = next(line for line in text.splitlines() if line.startswith("complete -F _tcrest_tool"))
    for name in line.split()[3:]:
        assert (TOOLS / name).is_file()


def test_standard_input_is_explained_too(program: str) -> None:
    line = [sys.executable, str(TOOLS / "tcrest"), "--program", program, "run", "-"]
    done = subprocess.run(line, input=WRONG, capture_output=True, text=True, check=False)
    assert (done.returncode, done.stdout) == (4, "core 0: Operand line 1\n")
    assert done.stderr.startswith("\n-:8:23: core 0: Operand line 1")
