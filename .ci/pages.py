#!/usr/bin/env python3
"""Holds pages and tools against the programs: `.ci/pages.py PROGRAM [CODE]`. Prints each fault, and else nothing.

CODE is the program that writes code, as bin/tccode; else what TCCODE says, else `tccode` beside PROGRAM.

- The texts of docs/ERRORS.md: the program answers a wrong one as it stands there, and takes a right one.
- What docs/START.md, docs/LESSONS.md, docs/TIMING.md and docs/GRID.md type after `$` gives what stands below it; so
  does docs/C_PROGRAMS.md, where pycparser and gcc are installed.
- The pieces of docs/IDIOMS.md are taken.
- What docs/ONE_PROMISE.md quotes from a file stands there.
- The jobs in examples/lessons and examples/pipeline give what stands beside them.
- Each tool gives what is stored in tools/examples, and ends well on each example.
"""

from __future__ import annotations

import os
import re
import shutil
import subprocess
import sys
import tempfile
from importlib.util import find_spec
from pathlib import Path

ROOT = Path(__file__).resolve().parent.parent
sys.path.insert(0, str(ROOT / "tools"))
sys.dont_write_bytecode = True

from tcresttools.errors_page import Sample, read_page  # noqa: E402

LOWERS = find_spec("pycparser") is not None and shutil.which("gcc") is not None
WALKS = [f"docs/{page}.md" for page in ("START", "LESSONS", "TIMING", "GRID", *(["C_PROGRAMS"] if LOWERS else []))]
EXAMPLES = sorted(path.relative_to(ROOT) for path in (ROOT / "examples").glob("**/*.toml") if path.name != "grid.toml")

Done = subprocess.CompletedProcess[str]


def unindented(text: str) -> str:
    """The lines of a text without the spaces before and after them."""
    return "\n".join(line.strip() for line in text.splitlines())


class Pages:
    """The programs under test, and how many faults were printed."""

    def __init__(self, program: str, code: str) -> None:
        self.program = program
        self.code = code
        self.faults = 0

    def fault(self, text: str) -> None:
        print(f"pages: {text}")
        self.faults += 1

    def run(self, words: list[str], given: str = "") -> Done:
        """What words write and their status, in the folder of the repository."""
        return subprocess.run(words, input=given, capture_output=True, text=True, cwd=ROOT, check=False)

    def shell(self, line: str) -> Done:
        """What a line of a page writes, with the programs under test in place of bin/tcrest and bin/tccode."""
        environment = {**os.environ, "TCREST": self.program, "TCCODE": self.code, "PYTHONDONTWRITEBYTECODE": "1"}
        words = ["bash", "-c", line.replace("bin/tcrest", self.program).replace("bin/tccode", self.code)]
        return subprocess.run(words, capture_output=True, text=True, cwd=ROOT, env=environment, check=False)

    def check_sample(self, sample: Sample) -> None:
        """A text of docs/ERRORS.md."""
        done = self.run([self.program, sample.command], sample.job)
        lines = done.stdout.splitlines()
        for wanted in sample.answer:
            if not any(line == wanted or (" trap " not in wanted and line.startswith(wanted + " ")) for line in lines):
                self.fault(f"docs/ERRORS.md, {sample.entry}: `{wanted}` is not what comes, but {lines[:3]}")
        if sample.right and done.returncode != 0:
            self.fault(
                f"docs/ERRORS.md, {sample.entry}: the right text ends with status {done.returncode}: {lines[:1]}"
            )

    def walk(self, page: str) -> None:
        """The lines of a page that are typed, and what stands below each."""
        command = ""
        wanted: list[str] = []
        for line in [*(ROOT / page).read_text(encoding="utf-8").splitlines(), ""]:
            if line.startswith("    ") and not line.startswith("    $ ") and command:
                wanted.append(line[4:])
                continue
            if command:
                found = self.shell(command).stdout.splitlines()
                if found != wanted:
                    self.fault(f"{page}: `{command}` gives {found}")
            command, wanted = (line[6:], []) if line.startswith("    $ ") else ("", [])

    def check_quotes(self, page: str) -> None:
        """Each block after "From `FILE`:", up to the next such words, has lines of that file, one after another."""
        source = ""
        for paragraph in (ROOT / page).read_text(encoding="utf-8").split("\n\n"):
            if named := re.search(r"From\s+`(crates/[^`]+)`:$", paragraph):
                source = unindented((ROOT / named[1]).read_text(encoding="utf-8"))
            elif paragraph.startswith("    ") and unindented(paragraph) not in source:
                self.fault(f"{page} quotes what does not stand so in its file: {paragraph.strip().splitlines()[0]}")

    def check_idioms(self) -> None:
        """Each piece of docs/IDIOMS.md, with what it needs around it, is a task that is taken."""
        end = "ret; nop; nop; nop\n"
        for block in blocks("docs/IDIOMS.md", "## In assembly", "## In C"):
            around = (
                f".func main\n{end}.func f\n{end}{block}"
                if block.startswith(".func g")
                else f".func main\n{block}{end}"
            )
            self.check_piece(Sample("", True, "asm", "asm", block if block.startswith(".func main") else around), block)
        names = "int i = 0; int n = 3; int x = 4; int y = 0; int sum = 0; int limit = 2; int weight = 3;"
        for block in blocks("docs/IDIOMS.md", "## In C\n", "\n## "):
            text = (
                f"{block}int main() {{ return 0; }}\n"
                if "[4];" in block or "[1];" in block
                else f"int main() {{ {names}\n{block}return 0; }}\n"
            )
            self.check_piece(Sample("", True, "asm", "c", text.replace("send(2,", "send(1,")), block)
        self.check_piece(
            Sample("", True, "asm", "asm", blocks("docs/ASSEMBLY.md", "## A task", "## Statements")[0]),
            "the task of ASSEMBLY",
        )

    def check_piece(self, sample: Sample, block: str) -> None:
        done = self.run([self.program, sample.command], sample.job)
        if done.returncode != 0:
            self.fault(f"docs/IDIOMS.md: {done.stdout.strip()} is what comes of {block}")

    def check_reports(self) -> None:
        """The jobs of the lessons and of docs/PIPELINE.md, with what stands beside them."""
        for folder, command in (("lessons", "run"), ("pipeline", "pipe")):
            for report in sorted((ROOT / "examples" / folder).glob("*.report")):
                given = report.with_suffix(".toml").read_text(encoding="utf-8")
                if self.run([self.program, command], given).stdout != report.read_text(encoding="utf-8"):
                    self.fault(f"examples/{folder}/{report.name} is not what the program writes")

    def check_stored(self) -> None:
        """The outputs that are stored: a line of tools/examples/commands.txt says how each comes about."""
        for line in (ROOT / "tools/examples/commands.txt").read_text(encoding="utf-8").splitlines():
            name, _, command = line.partition(": ")
            if not name or name.startswith("#"):
                continue
            found = self.shell(command)
            if found.stdout != (ROOT / "tools/examples" / name).read_text(encoding="utf-8"):
                self.fault(f"tools/examples/{name} is not what `{command}` writes: {found.stderr.strip()}")

    def check_tools(self) -> None:
        """Each tool ends well on each example: 2 is a bad input, which the examples are not but for some tools."""
        with tempfile.TemporaryDirectory() as folder:
            for example in EXAMPLES:
                text = (ROOT / example).read_text(encoding="utf-8")
                one_core = "\ncores = 1\n" in text
                in_c = 'lang = "c"' in text
                lines = [f"tools/explain {example}", f"tools/lint {example}", f"tools/listing {example}"]
                lines += [f"tools/timeline {example} --trace 99 --svg {folder}/a.svg --vcd {folder}/a.vcd"]
                lines += [f"tools/profile {example}", f"tools/page {example} -o {folder}/a.html"]
                lines += [f"tools/stages {example} --trace 40"] if one_core else []
                lines += [f"tools/where {example} --csv", f"tools/worst {example}"] if in_c else []
                for line in lines:
                    self.ends_with(line, (0, 1))
                # The parts of a bound that do not add up to it would end with 1.
                for line in (f"tools/bounds {example}", f"tools/bounds {example} --persist --csv") if in_c else ():
                    self.ends_with(line, (0,))
            self.check_searches(folder)
            for line in (
                "tools/explain none.toml",
                "tools/listing examples/grid.toml",
                "tools/stages examples/two_cores.toml",
                "tools/where examples/one_core.toml",
                "tools/bounds examples/one_core.toml",
                "tools/worst examples/one_core.toml",
            ):
                found = self.shell(line)
                if found.returncode != 2 or found.stderr.count("\n") != 1 or found.stdout:
                    self.fault(f"`{line}` ends with status {found.returncode}: {found.stderr.strip()}")
            sweep = f"tools/sweep examples/c/filter.toml --slot 6,8 --out {folder}/a.csv 2> {folder}/log"
            table = self.shell(f"{sweep}; cut -d, -f1-4 {folder}/a.csv").stdout
            if table != "slot,core,ended,value\n6,0,done,11\n8,0,done,11\n":
                self.fault(f"tools/sweep gives another table: {table}")

    def ends_with(self, line: str, statuses: tuple[int, ...]) -> None:
        """A line of the shell ends with one of these statuses, and writes no error."""
        found = self.shell(line)
        if found.returncode not in statuses or found.stderr:
            self.fault(f"`{line}` ends with status {found.returncode}: {found.stderr.strip()}")

    def check_searches(self, folder: str) -> None:
        """The tools that look for tables and schedules, and the program on files."""
        deadlines = "examples/c/deadlines.toml --deadline 0=3000 1=4500 2=20000"
        for line in (
            f"tools/tables {deadlines} --persist --length 6",
            "tools/tables examples/c/table_even.toml --deadline 0=4000 --length 5 --best 1",
            f"tools/network --columns 3 --rows 3 --all --out {folder}/grid.toml",
            f"tools/tcrest grid {folder}/grid.toml examples/grid.toml",
        ):
            found = self.shell(line)
            if found.returncode != 0:
                self.fault(f"`{line}` ends with status {found.returncode}: {found.stderr.strip()}")
        sweep = f"tools/sweep examples/c/filter.toml --start 0,1 --deadline 0=3000 --out {folder}/b.csv"
        if self.shell(sweep).stdout.count("kept in 2 of 2 rows") != 1:
            self.fault("tools/sweep does not give the slack of both starts")

    def check_schemas(self) -> None:
        """The schemas in docs/ are those that tools/schema writes."""
        for kind in ("job", "grid"):
            stored = (ROOT / f"docs/{kind}.schema.json").read_text(encoding="utf-8")
            if self.run([sys.executable, "tools/schema", kind]).stdout != stored:
                self.fault(f"docs/{kind}.schema.json is not what `tools/schema {kind}` writes")


def blocks(page: str, begin: str, end: str) -> list[str]:
    """The blocks of a part of a page that are set in."""
    part = (ROOT / page).read_text(encoding="utf-8").partition(begin)[2].partition(end)[0]
    found: list[list[str]] = [[]]
    for line in part.splitlines():
        if line.startswith("    "):
            found[-1].append(line[4:])
        elif found[-1]:
            found.append([])
    return ["\n".join(block) + "\n" for block in found if block]


def main() -> int:
    """Looks at all of it."""
    program = Path(sys.argv[1]).resolve()
    code = sys.argv[2] if len(sys.argv) > 2 else os.environ.get("TCCODE") or str(program.with_name("tccode"))
    pages = Pages(str(program), str(Path(code).resolve()))
    for entry in read_page():
        for sample in entry.samples:
            pages.check_sample(sample)
    for page in WALKS:
        if (ROOT / page).exists():
            pages.walk(page)
    pages.check_idioms()
    pages.check_quotes("docs/ONE_PROMISE.md")
    pages.check_reports()
    pages.check_stored()
    pages.check_tools()
    pages.check_schemas()
    return 1 if pages.faults else 0


if __name__ == "__main__":
    sys.exit(main())
