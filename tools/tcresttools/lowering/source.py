"""Reads a C file: the preprocessor of this machine, and the parser `pycparser`."""

from __future__ import annotations

import re
import shutil
import subprocess
from collections.abc import Sequence
from importlib import import_module
from pathlib import Path
from typing import Any

from ..cli import BadInput

HEADERS = Path(__file__).resolve().parent / "include"
# What compilers add to C, as far as it says nothing about the meaning.
IGNORED = ["__attribute__(x)=", "__extension__=", "__restrict=", "__restrict__=", "__inline=inline",
           "__inline__=inline",
           "__const=const", "__volatile__=volatile", "__signed__=signed"]  # fmt: skip
PARSE_ERROR = re.compile(r"(?P<file>.*?):(?P<line>\d+):(?:\d+:)? *(?:before: *)?(?P<what>.*)", re.S)


def preprocessor() -> list[str]:
    """The preprocessor of this machine."""
    for words in (["gcc", "-E"], ["cpp"], ["clang", "-E"], ["cc", "-E"]):
        if shutil.which(words[0]):
            return words
    raise BadInput("there is no preprocessor: install gcc or cpp (Debian: `apt-get install cpp`)")


def preprocessed(path: str, defines: Sequence[str], folders: Sequence[str]) -> str:
    """The text of a file behind the preprocessor, with its marks of lines."""
    if not Path(path).is_file():
        raise BadInput(f"{path}: there is no such file")
    words = [*preprocessor(), "-std=gnu99", "-undef", "-nostdinc", "-isystem", str(HEADERS)]
    words += [f"-I{folder}" for folder in folders]
    words += [f"-D{define}" for define in [*IGNORED, *defines]]
    done = subprocess.run([*words, path], capture_output=True, text=True, check=False)
    if done.returncode != 0:
        lines = [line for line in done.stderr.splitlines() if "error" in line] or done.stderr.splitlines()
        raise BadInput(f"the preprocessor says: {lines[0].strip() if lines else 'nothing'}")
    return done.stdout


def parsed(path: str, text: str) -> Any:
    """The tree of a text, as pycparser makes it."""
    try:
        parser = import_module("pycparser.c_parser")
    except ImportError:
        raise BadInput(
            "the Python package pycparser is missing (Debian: `apt-get install python3-pycparser`)"
        ) from None
    try:
        return parser.CParser().parse(text, path)
    except Exception as error:  # the parser's own class of errors has moved between its versions
        if type(error).__name__ != "ParseError":
            raise
        found = PARSE_ERROR.fullmatch(str(error))
        if found is None:
            raise BadInput(f"{path}: this is no C that pycparser reads: {error}") from None
        where = f"{found['file'] or path}:{found['line']}"
        raise BadInput(f"{where}: this is no C that pycparser reads, at `{found['what'].strip()}`") from None


def read_source(path: str, defines: Sequence[str], folders: Sequence[str]) -> Any:
    """The tree of a file."""
    return parsed(path, preprocessed(path, defines, folders))
