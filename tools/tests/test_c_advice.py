"""Advice on C texts that went wrong by chance: there is always some, at a place of the text, and mending is sound."""

from __future__ import annotations

import random
import tomllib

import pytest
from conftest import ROOT

from tcresttools import c_advice
from tcresttools.c_syntax import constant_value
from tcresttools.c_text import NoTokens, tokens_of
from tcresttools.c_tree import Wrong, unit_of
from tcresttools.mending import Mended
from tcresttools.near import near_names, quoted

WORDS = [
    b"++",
    b"3L ",
    b"const ",
    b"char ",
    b"uint8_t ",
    b"*",
    b"&",
    b";",
    b")",
    b"}",
    b"{",
    b"(",
    b"retrun ",
    b"]",
    b",",
]


def sources() -> list[bytes]:
    """The texts in C of the examples."""
    jobs = [tomllib.loads(path.read_text(encoding="utf-8")) for path in sorted((ROOT / "examples/c").glob("*.toml"))]
    return [task["source"].encode() for job in jobs for task in job.get("task", []) if task["lang"] == "c"]


def refusal(source: bytes) -> tuple[str, int] | None:
    """How a text is refused before its names are looked at."""
    try:
        unit_of(tokens_of(source))
    except NoTokens as error:
        return error.fault, error.at
    except Wrong as wrong:
        return "Syntax", wrong.at
    return None


def broken(source: bytes, dice: random.Random) -> bytes:
    """The text with one token left out, twice, in place of another, or with a word in front of it."""
    tokens = tokens_of(source)
    token, other = dice.choice(tokens), dice.choice(tokens)
    front, text, behind = source[: token.at], source[token.at : token.end], source[token.end :]
    return (
        front + dice.choice([b"", text + b" " + text, other.text.encode() + b" ", dice.choice(WORDS) + text]) + behind
    )


@pytest.mark.parametrize("seed", range(12))
def test_advice_on_broken_texts(seed: int) -> None:
    dice = random.Random(seed)
    texts, told = sources(), 0
    for _ in range(60):
        text = broken(dice.choice(texts), dice)
        found = refusal(text)
        if found is None:
            continue
        told += 1
        advice = c_advice.advise(text, *found, 0, 4)
        assert advice is not None or found[0] == "Char"
        if advice is None:
            continue
        assert advice.text
        assert advice.at is None or 0 <= advice.at <= len(text)
        assert all(0 <= at < len(text) and words for at, words in advice.also)
        mended = Mended.first(text).edited(list(advice.mend or ()))
        assert len(mended.origin) == len(mended.data) + 1
        assert mended.origin == sorted(mended.origin) or "outside functions" in advice.text
        assert advice.mend is None or mended.data != text
    assert told > 20


MENDED = [
    b"int main() { int a = 1 return a; }",
    b"int f() { if (1) { return 2; } int main() { return 0; }",
    b"int main() { int x = (1 + 2; return x; }",
    b"int main() { int a[4]; a[0] = 1; return a[0]; }",
    b"int main() { if (1) if (0) return 1; else return 2; return 3; }",
    b"int main() { uint32_t x = 0UL; bool y = 2e3; return x + y; }",
    b"typedef_ int main() { return 4; }".replace(b"typedef_ ", b"const static "),
    b"int a[] = {1, 2}; int b = 3 * 4, c; int main() { return a[1]; }",
    b"int f(int); int main() { for (int i = 0; i < 3; i++) i += 2; retrun 'a'; }".replace(
        b"int f(int);", b"void f() { };"
    ),
    b"int main() { while (0); ; { return 1; } } }",
]


@pytest.mark.parametrize("text", MENDED)
def test_known_faults_are_mended_one_after_another(text: bytes) -> None:
    mended = Mended.first(text)
    for _ in range(12):
        found = refusal(mended.data)
        if found is None:
            break
        advice = c_advice.advise(mended.data, *found, 0, 4)
        assert advice is not None and advice.mend is not None, mended.data
        mended = mended.edited(list(advice.mend))
    assert refusal(mended.data) is None


@pytest.mark.parametrize(
    "text,value",
    [
        ("1 + 2", 3),
        ("(3)*(4)", 12),
        ("1 << 31", 2**31),
        ("1 << 32", None),
        ("a + 1", None),
        ("1 + 2 + 3", None),
        ("9" * 99, None),
    ],
)
def test_values_of_constants(text: str, value: int | None) -> None:
    assert constant_value(text) == value


def test_near_names() -> None:
    assert near_names("totl", ["total", "count", "tool"])[0] == "total"
    assert near_names("cmplti", ["cmplt", "cmpilt", "cmple"])[0] == "cmpilt"
    assert near_names("x", ["yellow", "zebra"]) == []
    assert near_names("Return", ["return"]) == ["return"]
    assert (quoted([]), quoted(["a"]), quoted(["a", "b", "c"])) == ("", "`a`", "`a`, `b` or `c`")
