#!/usr/bin/env python3
"""Lowers random programs and compares them with gcc: `compare_random.py PROGRAM [COUNT] [--first SEED] [--keep
FOLDER] [--processes N]`.

For each seed the original by gcc -O0 -fwrapv and -O2 -fwrapv, the lowered text by gcc, and by the program's `mean`
give the same value and the same words. Status 0: they do; 1: one does not, or is refused for more than its weight; 2:
bad input.
"""

from __future__ import annotations

import argparse
import sys
import tempfile
from collections import Counter
from concurrent.futures import ProcessPoolExecutor
from pathlib import Path

from comparing import Case, Differs, by_gcc, compare, lowered_by_gcc, lowered_text, missing, told
from random_c import DEPTHS, program

PROCESSES = 2


def one(seed: int, binary: str, folder: str) -> str:
    """What became of a seed: `same`, or what differs."""
    from tcresttools.lowering.told import Refused

    place = Path(folder)
    path = place / f"random{seed}.c"
    path.write_text(program(seed), encoding="utf-8")
    try:
        wanted = by_gcc([path], place, ["-O0", "-fwrapv"])
        compare("gcc -O2", by_gcc([path], place, ["-O2", "-fwrapv"]), wanted)
        text = lowered_text(Case([path], DEPTHS))
        compare("the lowered text by gcc", lowered_by_gcc(text, place, path.stem), wanted)
        compare("`mean`", told(text, binary), wanted)
    except Differs as error:
        return str(error)
    except Refused as error:
        return f"refused: {error}"
    except Exception as error:  # a defect of the tool, which the report names with its seed
        return f"{type(error).__name__}: {error}"
    for made in place.glob(f"random{seed}.*"):
        made.unlink()
    return "same"


def main() -> int:
    words = argparse.ArgumentParser(description="Lowers random programs and compares them with gcc.")
    words.add_argument("program", help="the program, for `mean`")
    words.add_argument("count", nargs="?", type=int, default=1000, help="how many programs; else 1000")
    words.add_argument("--first", type=int, default=0, help="the first seed; else 0")
    words.add_argument("--keep", metavar="FOLDER", help="where programs that differ stay")
    words.add_argument("--processes", type=int, default=PROCESSES, help=f"how many work at once; else {PROCESSES}")
    given = words.parse_args()
    if gone := missing():
        print(f"random programs are passed over: {' and '.join(gone)} is missing")
        return 0
    results: Counter[str] = Counter()
    with tempfile.TemporaryDirectory() as temporary, ProcessPoolExecutor(given.processes) as pool:
        folder = given.keep or temporary
        Path(folder).mkdir(parents=True, exist_ok=True)
        seeds = range(given.first, given.first + given.count)
        found = pool.map(one, seeds, [given.program] * len(seeds), [folder] * len(seeds))
        for seed, result in zip(seeds, found, strict=True):
            results[result.split(":")[0] if result != "same" else "same"] += 1
            if result != "same":
                print(f"seed {seed}: {result}", flush=True)
    print(f"{results['same']} of {given.count} random programs give the same")
    return 0 if results["same"] == given.count else 1


if __name__ == "__main__":
    sys.exit(main())
