"""How long the program takes for long C texts, and how much memory: `.ci/speed.py PROGRAM`.

Each text fills a job of 1 MiB. Reading one (tokens and tree) is to take at most 1 second and 200 MB, and with the
checks 2 seconds. The gate does not run this: what it prints depends on the machine.
"""

from __future__ import annotations

import resource
import subprocess
import sys
import time

HEAD = "version = 1\ncores = 1\nslot = 6\ncycles = 9\n[[task]]\ncore = 0\nlang = \"c\"\nsource = '''"
TAIL = "'''\n"
ROOM = 1_048_576 - len(HEAD) - len(TAIL)


def filled(before: str, piece: str, after: str) -> str:
    """A text that repeats a piece as often as there is room."""
    return before + piece * ((ROOM - len(before) - len(after)) // len(piece)) + after


def numbered(before: str, piece: str, after: str) -> str:
    """A text that repeats a piece, each time with another number in place of `#`, as often as there is room."""
    pieces, left, number = [before], ROOM - len(before) - len(after), 0
    while len(next_piece := piece.replace("#", str(number))) <= left:
        pieces.append(next_piece)
        left -= len(next_piece)
        number += 1
    return "".join(pieces) + after


TEXTS = {
    "one chain": filled("int main() { return 1", "+1", "; }"),
    "empty blocks": filled("int main() { ", "{}", " }"),
    "statements": filled("int main() { int i; ", "i=1;", " }"),
    "one comment": filled("/*", " ", "*/ int main() { }"),
    "long names": filled("int ", "a" * 100_000 + "; int ", "b;"),
    "functions": filled("", "void f(){} ", ""),
    "signs": filled("int main() { return ", "-(", ""),
    "globals": numbered("", "int a#;", "int main() { return 0; }"),
    "locals": numbered("int main() { ", "int a#;", " }"),
    "one name": filled("int main() { int x; ", "x=x;", " }"),
    "its scopes": filled("int main() { ", "{int x;}", " }"),
    "small functions": numbered("", "void f#(){}", "int main(){}"),
    "else if": filled("int main() { if (1) { } ", "else if (1) { } ", "}"),
}


def main(program: str) -> None:
    """Asks the program about each text, and prints how long it took."""
    for name, text in TEXTS.items():
        job = (HEAD + text + TAIL).encode()
        start = time.monotonic()
        done = subprocess.run([program, "run"], input=job, capture_output=True, check=False)
        seconds = time.monotonic() - start
        most = resource.getrusage(resource.RUSAGE_CHILDREN).ru_maxrss // 1024
        print(
            f"{name:15} {len(job):8} bytes {seconds:6.2f} s, at most {most} MB so far: {done.stdout.decode().strip()}"
        )


if __name__ == "__main__":
    main(sys.argv[1])
