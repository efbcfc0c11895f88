"""Schedules of the network: routes and loads by hand, no link used twice, and lengths near the least possible."""

from __future__ import annotations

from pathlib import Path

import pytest
from conftest import Tool

from tcresttools.cli import BadInput
from tcresttools.grid_schedule import (
    Grid,
    Schedule,
    checked_grid,
    loads,
    most_loaded,
    packets_of,
    schedule_of,
)
from tcresttools.job import toml_values
from tcresttools.program import run_program


def all_pairs(grid: Grid, count: int = 1) -> dict[tuple[int, int], int]:
    cores = range(grid.cores)
    return {(sender, target): count for sender in cores for target in cores if sender != target}


def test_routes() -> None:
    # docs/GRID.md has this one.
    assert Grid(2, 2).route(3, 0) == ["inject 3", "(1,1)>(0,1)", "(0,1)>(0,0)", "eject 0"]
    assert Grid(3, 2).route(0, 5) == ["inject 0", "(0,0)>(1,0)", "(1,0)>(2,0)", "(2,0)>(2,1)", "eject 5"]
    assert Grid(1, 3).route(2, 0) == ["inject 2", "(0,2)>(0,1)", "(0,1)>(0,0)", "eject 0"]


def test_loads_by_hand() -> None:
    found = loads(packets_of(Grid(4, 4), all_pairs(Grid(4, 4))))
    assert found["inject 5"] == found["eject 5"] == 15
    # Two cores of the row send to the two columns behind the link, of four cores each; and so in a column.
    assert found["(1,0)>(2,0)"] == found["(0,1)>(0,2)"] == 2 * 8
    # One core of the row sends over it, to three columns.
    assert found["(0,0)>(1,0)"] == 12


def cycles_used(schedule: Schedule, periods: int) -> list[tuple[str, int]]:
    """Each link and cycle that a packet of the first periods has."""
    used = []
    for packet, slot in zip(schedule.packets, schedule.slots, strict=True):
        assert slot is not None
        for period in range(periods):
            sent = 3 * (slot + period * schedule.length)
            used += [(link, sent + 3 * hop + cycle) for hop, link in enumerate(packet.route) for cycle in range(3)]
    return used


@pytest.mark.parametrize("columns,rows,least,found", [(2, 1, 1, 1), (2, 2, 3, 4), (3, 3, 8, 9), (4, 4, 16, 18)])
def test_all_pairs(columns: int, rows: int, least: int, found: int) -> None:
    # On 2 x 2 no period of 3 slots is possible: all 6 ^ 4 orders in which each core could send were looked at.
    grid = Grid(columns, rows)
    packets = packets_of(grid, all_pairs(grid))
    assert most_loaded(packets)[1] == least
    schedule = schedule_of(packets)
    assert least <= schedule.length <= found
    used = cycles_used(schedule, 3)
    assert len(used) == len(set(used))


def test_entries_say_when_packets_arrive() -> None:
    grid = Grid(2, 2)
    schedule = schedule_of(packets_of(grid, {(3, 0): 1, (0, 1): 2}))
    assert sorted(entry[1:] for entry in schedule.entries()) == [(0, 1, 9), (0, 1, 9), (3, 0, 12)]
    assert schedule.length == 2


@pytest.mark.parametrize("columns,rows", [(0, 4), (1, 1), (17, 1), (5, 4)])
def test_no_such_grid(columns: int, rows: int) -> None:
    with pytest.raises(BadInput):
        checked_grid(columns, rows)


def test_no_such_packets() -> None:
    for counts in ({(0, 0): 1}, {(0, 4): 1}, {(0, 1): 4097}, {(0, 1): 0}):
        with pytest.raises(BadInput):
            packets_of(Grid(2, 2), counts)


def test_the_program_takes_a_schedule(tool: Tool, program: str, tmp_path: Path) -> None:
    out = tmp_path / "grid.toml"
    done = tool("network", "--columns", "3", "--rows", "2", "--all", "--pair", "0-5=3", "--out", str(out))
    assert (done.returncode, done.stdout) == (0, "")
    assert run_program(program, "grid", out.read_bytes()).lines[1] == "ok"
    keys = toml_values(out.read_bytes())
    assert len(keys["entries"]) == 6 * 5 + 2
    assert f"32 packets in {keys['length']} slots; no schedule has fewer than 7, the load of " in done.stderr


@pytest.mark.parametrize(
    "words,told",
    [
        (["--columns", "2", "--rows", "2"], "name what is to be sent"),
        (["--columns", "2", "--rows", "2", "--pair", "0>1"], "--pair takes FROM-TO"),
        (["--columns", "2", "--rows", "2", "--pair", "0-4"], "from one core of the grid to another"),
        (["--columns", "4", "--rows", "5", "--all"], "a grid has 2 to 16 routers"),
        (["--columns", "2", "--rows", "2", "--all", "0"], "take a number from 1 on"),
    ],
)
def test_bad_words_are_refused(tool: Tool, words: list[str], told: str) -> None:
    done = tool("network", *words)
    assert (done.returncode, done.stdout) == (2, "")
    assert told in done.stderr
