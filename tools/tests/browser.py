"""A headless Chromium for tests, by its DevTools protocol over a pipe."""

from __future__ import annotations

import base64
import json
import os
import select
import shutil
import subprocess
import time
from collections.abc import Iterator
from contextlib import contextmanager
from pathlib import Path
from typing import Any

NAMES = ["chromium", "chromium-browser", "google-chrome", "chrome"]
FLAGS = [
    "--headless=new",
    "--no-sandbox",
    "--disable-gpu",
    "--disable-dev-shm-usage",
    "--disable-extensions",
    "--disable-background-networking",
    "--no-first-run",
    "--hide-scrollbars",
    "--force-color-profile=srgb",
    "--remote-debugging-pipe",
]
# A busy machine starts a browser slowly.
PATIENCE = 300.0


def browser_path() -> str | None:
    """Where the browser is; none where it is not installed."""
    return next((found for name in NAMES if (found := shutil.which(name))), None)


class Failed(Exception):
    """What the browser says went wrong, or that it did not answer."""


class Browser:
    """A browser with one page."""

    def __init__(self, process: subprocess.Popen[bytes], into: int, out: int) -> None:
        self.process = process
        self.into = into
        self.out = out
        self.number = 0
        self.left = b""
        self.session: str | None = None
        self.events: list[dict[str, Any]] = []
        target = self.call("Target.createTarget", url="about:blank")["targetId"]
        self.session = self.call("Target.attachToTarget", targetId=target, flatten=True)["sessionId"]
        for domain in ("Page", "Runtime", "Log"):
            self.call(f"{domain}.enable")

    def message(self, until: float) -> dict[str, Any]:
        """The next message of the browser."""
        while b"\0" not in self.left:
            ready, _, _ = select.select([self.out], [], [], max(until - time.monotonic(), 0))
            piece = os.read(self.out, 1 << 20) if ready else b""
            if not piece:
                raise Failed("the browser does not answer")
            self.left += piece
        text, _, self.left = self.left.partition(b"\0")
        made = json.loads(text)
        assert isinstance(made, dict)
        return made

    def call(self, method: str, **words: Any) -> dict[str, Any]:
        """What a command of the protocol answers."""
        self.number += 1
        asked: dict[str, Any] = {"id": self.number, "method": method, "params": words}
        if self.session is not None:
            asked["sessionId"] = self.session
        os.write(self.into, json.dumps(asked).encode() + b"\0")
        until = time.monotonic() + PATIENCE
        while True:
            answer = self.message(until)
            if answer.get("id") != self.number:
                self.events.append(answer)
                continue
            if "error" in answer:
                raise Failed(f"{method}: {answer['error']}")
            found = answer["result"]
            assert isinstance(found, dict)
            return found

    def wait_for(self, method: str) -> None:
        """Waits for an event of this name."""
        until = time.monotonic() + PATIENCE
        while not any(event.get("method") == method for event in self.events):
            self.events.append(self.message(until))

    def open(self, page: Path, fragment: str = "") -> None:
        """Loads a page, up to its event `load`."""
        self.events.clear()
        self.call("Page.navigate", url=page.resolve().as_uri() + fragment)
        self.wait_for("Page.loadEventFired")
        # Two frames, so that what is drawn by the script is drawn.
        self.value("new Promise(done => requestAnimationFrame(() => requestAnimationFrame(() => done(1))))")

    def value(self, script: str) -> Any:
        """The value of an expression in the page."""
        found = self.call("Runtime.evaluate", expression=script, returnByValue=True, awaitPromise=True)
        if "exceptionDetails" in found:
            raise Failed(f"{script}: {found['exceptionDetails']}")
        return found["result"].get("value")

    def complaints(self) -> list[str]:
        """The errors and warnings of the page's console since it was opened."""
        found = []
        for event in self.events:
            words = event.get("params", {})
            if event.get("method") == "Runtime.exceptionThrown":
                found.append(json.dumps(words["exceptionDetails"]))
            elif event.get("method") == "Log.entryAdded" and words["entry"]["level"] in ("error", "warning"):
                found.append(str(words["entry"]["text"]))
            elif event.get("method") == "Runtime.consoleAPICalled" and words["type"] in ("error", "warning"):
                found.append(json.dumps(words["args"]))
        return found

    def size(self, wide: int, tall: int, scale: float = 1) -> None:
        """The size of the window."""
        self.call("Emulation.setDeviceMetricsOverride", width=wide, height=tall, deviceScaleFactor=scale, mobile=False)

    def scheme(self, name: str) -> None:
        """`light` or `dark`, as the user prefers."""
        self.call("Emulation.setEmulatedMedia", features=[{"name": "prefers-color-scheme", "value": name}])

    def point(self, selector: str, x: float | None = None, y: float | None = None) -> tuple[float, float]:
        """A point of an element in the window: its middle, or so far from its left upper corner."""
        script = (
            f"(() => {{ const e = document.querySelector({json.dumps(selector)});"
            " e.scrollIntoView({block: 'center'}); const b = e.getBoundingClientRect();"
            " return [b.left, b.top, b.width, b.height]; })()"
        )
        left, top, wide, tall = self.value(script)
        return left + (wide / 2 if x is None else x), top + (tall / 2 if y is None else y)

    def mouse(self, kind: str, at: tuple[float, float], **more: Any) -> None:
        self.call("Input.dispatchMouseEvent", type=kind, x=at[0], y=at[1], **more)

    def click(self, selector: str) -> None:
        """A click with the mouse on the middle of an element."""
        at = self.point(selector)
        self.mouse("mouseMoved", at)
        for kind in ("mousePressed", "mouseReleased"):
            self.mouse(kind, at, button="left", clickCount=1)

    def key(self, name: str, shift: bool = False) -> None:
        """A key that is pressed and let go."""
        more = {"key": name, "modifiers": 8 if shift else 0}
        if name == "Enter":
            more |= {"text": "\r", "windowsVirtualKeyCode": 13}
        elif name == "Tab":
            more |= {"windowsVirtualKeyCode": 9}
        self.call("Input.dispatchKeyEvent", type="keyDown", **more)
        self.call("Input.dispatchKeyEvent", type="keyUp", **more)

    def picture(self, path: Path, tall: int | None = None) -> None:
        """A picture of the page, from its top, as tall as it is or so tall."""
        size = self.call("Page.getLayoutMetrics")["cssContentSize"]
        clip = {"x": 0, "y": 0, "width": size["width"], "height": tall or size["height"], "scale": 1}
        found = self.call("Page.captureScreenshot", format="png", clip=clip, captureBeyondViewport=True)
        path.write_bytes(base64.b64decode(found["data"]))


@contextmanager
def browser(path: str, folder: Path) -> Iterator[Browser]:
    """A browser that is started, and ended behind the block."""
    from_us, into = os.pipe()
    out, to_us = os.pipe()
    words = [path, *FLAGS, f"--user-data-dir={folder}", "about:blank"]
    process = subprocess.Popen(
        ["bash", "-c", f'exec "$@" 3<&{from_us} 4>&{to_us}', "bash", *words],
        pass_fds=(from_us, to_us),
        stdin=subprocess.DEVNULL,
        stdout=subprocess.DEVNULL,
        stderr=subprocess.DEVNULL,
    )
    os.close(from_us)
    os.close(to_us)
    try:
        yield Browser(process, into, out)
    finally:
        os.close(into)
        try:
            process.wait(20)
        except subprocess.TimeoutExpired:
            process.terminate()
            process.wait()
        os.close(out)
