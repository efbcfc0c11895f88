"""Runs the program on a job."""

from __future__ import annotations

import subprocess
from dataclasses import dataclass

from .cli import BadInput, code_path, program_path, read_file

STATUSES = range(8)


@dataclass(frozen=True)
class Written:
    """What the program wrote, and its status; none where the text comes from a file."""

    text: str
    status: int | None

    @property
    def lines(self) -> list[str]:
        return self.text.splitlines()

    @property
    def refusal(self) -> str | None:
        """The one line with which the job or a task is refused."""
        first = self.text.split("\n", 1)[0]
        refused = first.startswith(("job: ", "grid: ")) or (first.startswith("core ") and ": " in first)
        return first if refused else None


def run_program(program: str | None, command: str, job: bytes) -> Written:
    """What a command of the program writes for a job."""
    return run_words(program, [command], job)


def run_words(program: str | None, words: list[str], given: bytes = b"") -> Written:
    """What the program writes when it is called with these words."""
    return run_path(program_path(program), words, given)


def run_code(program: str | None, job: bytes) -> Written:
    """What `tccode`, the program beside this one, writes of the code of a job's C tasks."""
    return run_path(code_path(program), [], job)


def run_path(path: str, words: list[str], given: bytes) -> Written:
    """What the program at this path writes when it is called with these words."""
    try:
        done = subprocess.run([path, *words], input=given, capture_output=True, check=False)
    except OSError as error:
        raise BadInput(f"{path}: {error.strerror}") from None
    if done.returncode not in STATUSES:
        raise BadInput(f"{' '.join([path, *words])} ended with status {done.returncode}, which the program has not")
    text = done.stdout.decode("utf-8", "replace")
    if done.returncode == 1:
        raise BadInput(f"{path} does not know the command `{' '.join(words)}`: {text.strip()}")
    if done.returncode == 7:
        raise BadInput(f"{' '.join([path, *words])}: memory was refused")
    return Written(text, done.returncode)


def written(program: str | None, command: str, job: bytes, stored: str | None) -> Written:
    """What a command writes, from a file where one is given in place of running the program."""
    if stored is None:
        return run_program(program, command, job)
    return Written(read_file(stored).decode("utf-8", "replace"), None)


def accepted(found: Written, job: str) -> Written:
    """What was written, where the job was not refused."""
    if found.refusal is not None:
        raise BadInput(f"{job} is refused with `{found.refusal}`: tools/explain says more")
    return found
