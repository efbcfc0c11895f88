"""The commands of the program, and the files that each is for."""

from __future__ import annotations

from pathlib import Path

from .cli import BadInput
from .job import NoToml, toml_values

# What each command writes, in a few words.
COMMANDS = {
    "run": "the report of a job",
    "bound": "the bounds of its C tasks",
    "persist": "the bounds, and beside each a tighter one",
    "asm": "the words of its assembly tasks",
    "mean": "what its C tasks mean",
    "pipe": "its only core, bundle by bundle",
    "grid": "the check of a schedule of the network",
    "gen": "the text of a generated job, from a number",
    "bench": "the report of that job, from the number",
}
OF_NUMBERS = ["gen", "bench"]


def is_schedule(path: Path) -> bool:
    """The file is a schedule of the network and no job."""
    try:
        return "columns" in toml_values(path.read_bytes())
    except (NoToml, OSError):
        return False


def files_of(names: list[str], command: str) -> list[str]:
    """The files that are named, and of a folder those that the command is for: schedules for `grid`, else jobs."""
    found = []
    for name in names:
        if not Path(name).is_dir():
            found.append(name)
            continue
        inside = [path for path in sorted(Path(name).glob("*.toml")) if is_schedule(path) == (command == "grid")]
        if not inside:
            raise BadInput(f"{name}: there is no {'schedule' if command == 'grid' else 'job'} in this folder")
        found += [str(path) for path in inside]
    return found
