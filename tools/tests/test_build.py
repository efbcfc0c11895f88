"""`build` at the top: which crates it asks for, what it says of them, and how it ends."""

from __future__ import annotations

import os
import shutil
import subprocess
import sys
import time
from pathlib import Path

import pytest
from conftest import ROOT

# A toolchain that writes down what it is asked, and answers with the file that lies in the crate's folder.
TOOLCHAIN = """#!/bin/sh
name=$(basename "$PWD")
echo "$name: $*" >> ../../journal
if [ "$1" = run ]; then
    [ -e unbuilt ] && echo "error: no such symbol" && exit 1
    echo "logic=proved functions=3 sum=0"
    mkdir -p out && echo made > "out/$name" && exit 2
fi
cat said
[ -e waits ] && sleep 60
[ ! -e fails ]
"""

CRATES = """# what each crate stands on
words:
bundles: words
board: bundles
lexer: words itoa
code_text: lexer
tcrest may_wait=12: lexer board
tccode: lexer code_text
tests_words: words
"""
SAID = """rt: a quick pass
== words
fn words::first: proved
logic=proved functions=7 sum=0
== lexer
fn lexer::next: proved
logic=proved functions=12 sum=0
== bundles
== board
== {program}
fn {program}::main: proved
"""


class Repository:
    """A copy of `build` among made-up crates."""

    def __init__(self, top: Path) -> None:
        self.top = top
        shutil.copy(ROOT / "build", top / "build")
        (top / "crates.txt").write_text(CRATES)
        (top / "path").mkdir()
        (top / "path" / "rt").write_text(TOOLCHAIN)
        (top / "path" / "rt").chmod(0o755)
        for name in ("tcrest", "tccode", "code_text"):
            (top / "crates" / name / "out").mkdir(parents=True)
        self.write("tcrest", "said", SAID.format(program="tcrest"))
        self.write("code_text", "said", "logic=proved functions=5 sum=0\n")

    def write(self, program: str, name: str, text: str = "") -> None:
        (self.top / "crates" / program / name).write_text(text)

    def build(self, *words: str) -> subprocess.CompletedProcess[str]:
        environment = {**os.environ, "PATH": f"{self.top / 'path'}:{os.environ['PATH']}"}
        line = [sys.executable, str(self.top / "build"), *words]
        return subprocess.run(line, capture_output=True, text=True, env=environment, timeout=50, check=False)

    def journal(self) -> list[str]:
        return (self.top / "journal").read_text().splitlines()


@pytest.fixture
def repository(tmp_path: Path) -> Repository:
    return Repository(tmp_path)


def test_it_proves_what_the_programs_stand_on_and_no_more(repository: Repository) -> None:
    assert repository.build("3").returncode == 0
    assert repository.journal() == [
        "tcrest: all check --jobs 3", "tcrest: run --jobs 3", "code_text: lib --jobs 3", "tccode: run --jobs 3",
    ]  # fmt: skip


def test_it_tells_each_crate_once(repository: Repository) -> None:
    lines = repository.build("2").stdout.splitlines()
    assert lines[0].startswith("build: proving 7 crates, 2 at once;")
    told = [line for line in lines[1:] if " of 7" in line]
    assert [line.partition(" s: ")[2] for line in told] == [
        "words, 7", "lexer, 12", "bundles, kept", "board, kept", "tcrest, 3", "code_text, 5", "tccode, 3",
    ]  # fmt: skip
    assert [line.partition(",")[0] for line in told] == [f"build: {n} of 7" for n in range(1, 8)]


def test_it_leaves_the_programs(repository: Repository) -> None:
    told = [line.partition(",")[0] for line in repository.build("2").stdout.splitlines()]
    assert [line for line in told if "bin/" in line] == ["build: bin/tcrest", "build: bin/tccode"]
    assert [os.access(repository.top / "bin" / name, os.X_OK) for name in ("tcrest", "tccode")] == [True, True]


def test_it_ends_at_the_first_that_is_not_proved(repository: Repository) -> None:
    refused = "== lexer\nfn lexer::a: proved\nfn lexer::b: no proof: expected answers\nlogic=not-proved functions=1\n"
    repository.write("tcrest", "said", "== words\nlogic=proved functions=7\n" + refused)
    repository.write("tcrest", "fails")
    done = repository.build("2")
    assert done.returncode == 1
    assert done.stdout.splitlines()[-2] == "fn lexer::b: no proof: expected answers"
    assert done.stdout.splitlines()[-1].startswith("build: lexer is not proved; ended after ")
    assert repository.journal() == ["tcrest: all check --jobs 2"]
    assert not (repository.top / "bin").exists()


def test_the_program_gets_all_processors(repository: Repository) -> None:
    repository.write("tcrest", "waits")
    start = time.monotonic()
    assert repository.build("2").returncode == 0
    assert time.monotonic() - start < 30


def test_a_crate_by_itself_may_be_refused(repository: Repository) -> None:
    repository.write("code_text", "fails")
    done = repository.build("2")
    assert done.returncode == 1
    assert done.stdout.splitlines()[-1].startswith("build: code_text is not proved; ended after ")


def test_it_says_what_the_toolchain_said_last(repository: Repository) -> None:
    repository.write("tcrest", "said", "rt: mend these first\n")
    repository.write("tcrest", "fails")
    done = repository.build("2")
    assert done.returncode == 1
    assert done.stdout.splitlines()[-2] == "rt: mend these first"


def test_a_program_of_an_earlier_build_is_not_taken(repository: Repository) -> None:
    repository.write("tccode", "unbuilt")
    repository.write("tccode", "out/tccode", "old")
    done = repository.build("2")
    assert done.returncode == 1
    assert "error: no such symbol" in done.stdout
    assert not (repository.top / "bin" / "tccode").exists()
