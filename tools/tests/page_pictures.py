#!/usr/bin/env python3
"""Makes the pictures of pages that docs/ shows, by Chromium: `tests/page_pictures.py FOLDER`, the program in TCREST.

A page is made of each job, a part of it is clicked on and the timeline is pointed at, and the picture is taken from the
top of the page.
"""

from __future__ import annotations

import sys
import tempfile
from dataclasses import dataclass
from pathlib import Path

TESTS = Path(__file__).resolve().parent
ROOT = TESTS.parent.parent
sys.path[:0] = [str(TESTS), str(TESTS.parent)]
sys.dont_write_bytecode = True

from browser import Browser, browser, browser_path  # noqa: E402

from tcresttools.cli import BadInput, run_tool  # noqa: E402
from tcresttools.job import MOST_TRACE  # noqa: E402
from tcresttools.pages.document import page  # noqa: E402
from tcresttools.pages.facts import facts_of  # noqa: E402

WIDE, MARGIN = 1240, 18


@dataclass(frozen=True)
class Picture:
    """A picture: its name, its job, light or dark, the last part that it shows, what is clicked on, and where the mouse
    then points.
    """

    name: str
    job: str
    scheme: str
    last: str
    clicked: str
    at: tuple[float, float]


PICTURES = [
    Picture("page_assembly", "examples/method_cache.toml", "light", "#pipeline", ".code tr:nth-child(11) a", (640, 30)),
    Picture("page_two_cores", "examples/packet.toml", "light", "#core-0", ".code tr:nth-child(8) a", (925, 30)),
    Picture("page_c", "examples/c/filter.toml", "light", "#core-0", ".time tr.loop a", (480, 30)),
    Picture("page_c_dark", "examples/c/filter.toml", "dark", "#core-0", ".time tr.loop a", (480, 30)),
]


def take(chromium: Browser, picture: Picture, folder: Path) -> Path:
    """Makes the page and takes its picture."""
    made = folder / f"{picture.name}.html"
    made.write_text(page(facts_of(str(ROOT / picture.job), None, MOST_TRACE)), encoding="utf-8")
    chromium.scheme(picture.scheme)
    chromium.open(made)
    chromium.click(picture.clicked)
    chromium.mouse("mouseMoved", chromium.point("#timeline", *picture.at))
    chromium.value("scrollTo(0, 0)")
    out = folder / f"{picture.name}.png"
    bottom = chromium.value(f"document.querySelector('{picture.last}').getBoundingClientRect().bottom")
    chromium.picture(out, round(bottom) + MARGIN)
    made.unlink()
    return out


def main() -> int:
    if len(sys.argv) != 2:
        raise BadInput("name the folder into which the pictures go")
    path = browser_path()
    if path is None:
        raise BadInput("Chromium is not installed")
    folder = Path(sys.argv[1])
    folder.mkdir(parents=True, exist_ok=True)
    with tempfile.TemporaryDirectory() as profile, browser(path, Path(profile)) as chromium:
        chromium.size(WIDE, 900)
        for picture in PICTURES:
            out = take(chromium, picture, folder)
            print(f"{out}: {out.stat().st_size:,} bytes")
    return 0


if __name__ == "__main__":
    run_tool(main)
