"""Tokens, the grammar and the weights of C texts, against the cases of the language."""

from __future__ import annotations

import tomllib

import pytest
from conftest import ROOT, load

from tcresttools.c_text import NoTokens, Token, number_of, token_at, tokens_of
from tcresttools.c_tree import Wrong, unit_of

CASES = [
    (line.split("\t")[0], tomllib.loads("text = " + line.split("\t")[1])["text"].encode())
    for line in (ROOT / "cases/c_texts.txt").read_text(encoding="utf-8").splitlines()
    if not line.startswith("#")
]


def read(source: bytes) -> str:
    """How a text is refused before its names are looked at, or nothing."""
    try:
        unit_of(tokens_of(source))
    except NoTokens as error:
        return str(error)
    except Wrong as wrong:
        return f"Syntax at {wrong.at}"
    return ""


def test_cases_are_there() -> None:
    assert len(CASES) > 200


@pytest.mark.parametrize("answer,source", CASES, ids=[f"{at}: {answer}" for at, (answer, _) in enumerate(CASES)])
def test_refused_as_the_cases_say(answer: str, source: bytes) -> None:
    assert read(source) == (answer if answer.startswith(("Char", "Wide", "Syntax")) else "")


def test_tokens_have_their_places() -> None:
    source = b"int /* x */ a;\n// y\n\ta<<=b"
    with pytest.raises(NoTokens) as error:
        tokens_of(source)
    assert (error.value.fault, error.value.at) == ("Char", 22)
    assert tokens_of(source[:22]) == [Token("int", 0), Token("a", 12), Token(";", 13), Token("a", 21)]
    assert token_at(b"a b", 1) == Token("b", 2)
    assert token_at(b"a b", 2) is None


def test_long_signs_are_taken() -> None:
    assert [
        token.text for token in tokens_of(b"a<<b< <c&&d&e||f|g>=h!=!i")
    ] == "a << b < < c && d & e || f | g >= h != ! i".split()


@pytest.mark.parametrize("text,value", [("0", 0), ("0x1fU", 31), ("4294967295u", 2**32 - 1), ("x", None)])
def test_numbers(text: str, value: int | None) -> None:
    assert number_of(tokens_of(text.encode())[0]) == value


def test_numbers_of_thousands_of_digits() -> None:
    assert tokens_of(b"0x" + b"0" * 9000 + b"4") == [Token("0x" + "0" * 9000 + "4", 0)]
    for text in (b"9" * 9000, b"0x" + b"f" * 9000):
        with pytest.raises(NoTokens, match="Wide at 0"):
            tokens_of(text)


def test_bounds_of_loops() -> None:
    text = b'_Pragma("loopbound min 1 max 10")'
    assert [token.is_bound for token in tokens_of(text + b" while")] == [True, False]
    assert tokens_of(b"\t#pragma loopbound min 1 max 10 \r\nx")[1].text == "x"
    with pytest.raises(NoTokens, match="Wide at 29"):
        tokens_of(text.replace(b"10", b"4294967296"))


def test_a_bracket_too_deep_is_wrong_there() -> None:
    text = b"int main() { return " + b"(" * 63 + b"1" + b")" * 63 + b"; }"
    assert read(text) == ""
    assert read(text.replace(b"(1)", b"((1))")) == f"Syntax at {6 + 63}"


def test_weights_and_frames_by_hand() -> None:
    text = b"""
    int g; int a[4];
    int f(int x, int y) { int s = x + y; a[1] = s * 2; return a[s & 3]; }
    int main() {
        int i; int r;
        _Pragma("loopbound min 0 max 4") for (i = 0; i < 4; i = i + 1) { r = f(i, g); }
        if (r > 1) { g = -r; } else if (r) { break_not = 1; } else { send(1, 0, 0, 1); }
        return 0;
    }
    """
    f, main = unit_of(tokens_of(text)).functions
    # 12 + (4 + 8 + 4); 28 + 4 + (4 + 10 + 4); 16 + (16 + (4 + 8 + 4))
    assert f.weight == 64 + 28 + 50 + 48
    assert (f.params, f.variables, f.frame) == (2, 1, 27)
    # two declarations; the loop with twice its condition and its two assignments; the call; two arms; send; return
    loop = 48 + 2 * 16 + (12 + 4) + (12 + 16)
    call = 12 + 48 + 2 * 6 + 4 + 4
    arms = (24 + 16 + 12 + 10) + (24 + 4 + 12 + 4)
    assert main.weight == 64 + 2 * 16 + loop + call + arms + (32 + 12) + (16 + 4)
    assert (main.variables, main.loops, main.arms, main.frame) == (2, 1, 2, 24 + 2 + 2 + 2)
    assert f.by_sort == {"+": 8, "*": 10, "&": 8}


@pytest.mark.parametrize("kind", ["products", "quotients", "elements", "arms", "words of the frame"])
@pytest.mark.parametrize("weight", [2048, 4096, 4098])
def test_weights_are_those_of_the_texts_at_the_limits(kind: str, weight: int) -> None:
    """The texts that the gate makes at each limit are made of statements whose weights are counted there."""
    _, text = load("../.ci/hostile.py").heavy_function("f", kind, weight)
    (function,) = unit_of(tokens_of(text.encode())).functions
    assert function.weight == weight


@pytest.mark.parametrize("more,frame", [(0, 120), (1, 121)])
def test_frames_are_those_of_the_texts_at_the_limits(more: int, frame: int) -> None:
    text = load("../.ci/hostile.py").frame_function(0, more)
    assert [one.frame for one in unit_of(tokens_of(text.encode())).functions] == [frame]
