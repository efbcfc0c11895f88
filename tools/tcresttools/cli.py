"""How each tool is called: the words that all share, and one clear line with status 2 on bad input."""

from __future__ import annotations

import argparse
import os
import sys
import textwrap
from collections.abc import Callable
from pathlib import Path

ROOT = Path(__file__).resolve().parent.parent.parent


class BadInput(Exception):
    """What is wrong with what the tool was given, in one line; and the status with which the tool then ends."""

    status = 2


def parser(description: str, job: bool = True, program: bool = True, epilog: str = "") -> argparse.ArgumentParser:
    """A reader of the command line, with the words that all tools share. What stands behind them keeps its lines."""
    kept = argparse.RawDescriptionHelpFormatter if epilog else argparse.HelpFormatter
    shown = "\n".join(textwrap.wrap(description, 78)) if epilog else description
    made = argparse.ArgumentParser(description=shown, epilog=epilog, formatter_class=kept, allow_abbrev=False)
    if job:
        made.add_argument("job", metavar="JOB", help="a job, a file of TOML")
    if program:
        made.add_argument(
            "--program",
            metavar="PATH",
            help="the program; else what TCREST says, else bin/tcrest of this repository",
        )
    return made


def program_path(given: str | None) -> str:
    """Where the program is: as it was given, else what TCREST says, else as `./build` leaves it."""
    path = given or os.environ.get("TCREST") or str(ROOT / "bin" / "tcrest")
    if not os.path.isfile(path):
        raise BadInput(f"there is no program {path}: run ./build, or name it with --program or TCREST")
    return path


def code_path(given: str | None) -> str:
    """Where `tccode` is: as TCCODE says, else beside the program."""
    path = os.environ.get("TCCODE") or str(Path(program_path(given)).parent / "tccode")
    if not os.path.isfile(path):
        raise BadInput(f"there is no program {path}, which writes code: run ./build, or name it with TCCODE")
    return path


def read_file(path: str) -> bytes:
    """The bytes of a file, `-` for standard input."""
    try:
        return sys.stdin.buffer.read() if path == "-" else Path(path).read_bytes()
    except OSError as error:
        raise BadInput(f"{path}: {error.strerror}") from None


def write_file(path: str, text: str) -> None:
    """Writes a text into a file, `-` for standard output."""
    try:
        if path == "-":
            sys.stdout.write(text)
        else:
            Path(path).write_text(text, encoding="utf-8")
    except OSError as error:
        raise BadInput(f"{path}: {error.strerror}") from None


def run_tool(main: Callable[[], int]) -> None:
    """Runs a tool and ends with its status; 2 and one line where its input is bad."""
    name = Path(sys.argv[0]).name
    if sys.version_info < (3, 11):
        print(f"{name}: Python 3.11 or newer is needed, and this is {sys.version.split()[0]}", file=sys.stderr)
        sys.exit(2)
    try:
        status = main()
        sys.stdout.flush()
    except BadInput as error:
        print(f"{name}: {error}", file=sys.stderr)
        status = error.status
    except BrokenPipeError:
        os.dup2(os.open(os.devnull, os.O_WRONLY), sys.stdout.fileno())
        status = 0
    sys.exit(status)
