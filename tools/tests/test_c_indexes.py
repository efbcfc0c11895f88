"""Indexes that go past their array, by the values of the loops around them; and right ones, which are passed over."""

from __future__ import annotations

from dataclasses import dataclass
from pathlib import Path

import pytest
from conftest import Tool

from tcresttools.job import Task, toml_string
from tcresttools.linting import lint

MARK = "@"
BOUND = '_Pragma("loopbound min 0 max 99")'


def found(text: str) -> list[tuple[int, str]]:
    source = text.replace(MARK, "").encode()
    return [(one.at, one.text) for one in lint(Task(0, 0, "c", source, [], 0))]


def main(body: str, length: int = 16, kind: str = "int") -> str:
    """A text with an array `a` of this length, a smaller one, and variables."""
    return f"int a[{length}]; int b[4]; int g;\nint main() {{ {kind} i; {kind} j; int n; {body} return n; }}\n"


def up(name: str, limit: int, body: str, step: int = 1) -> str:
    """A loop over the numbers from 0 up to a limit."""
    return f"{BOUND} for ({name} = 0; {name} < {limit}; {name} = {name} + {step}) {{ {body} }}"


def nest(index: str, outer: int = 4, inner: int = 4) -> str:
    """An element in two loops."""
    return up("i", outer, up("j", inner, f"@a[{index}] = i;"))


@dataclass(frozen=True)
class Wrong:
    """A text with a mark at the element that is wrong, and what is said of it."""

    text: str
    says: str


PAST = "goes past the array, which has 16 elements: where"
NONE = "an index is an unsigned word"

WRONG = [
    # N - i
    Wrong(main(up("i", 16, "@a[16 - i] = i;")), f"`a[16 - i]` {PAST} `i` is 0 it is `a[16]`"),
    Wrong(main(up("i", 17, "@a[15 - i] = i;")), f"`a[15 - i]` is no element where `i` is 16: {NONE}"),
    # i * N
    Wrong(main(up("i", 5, "@a[i * 4] = i;")), f"`a[i * 4]` {PAST} `i` is 4 it is `a[16]`"),
    Wrong(main(up("i", 5, "@a[4 * i] = i;")), f"`a[4 * i]` {PAST} `i` is 4 it is `a[16]`"),
    Wrong(main(up("i", 9, "n = n + @a[i * 2];", step=2)), f"{PAST} `i` is 8 it is `a[16]`"),
    # i * N + j
    Wrong(main(nest("i * 4 + j", inner=5)), f"`a[i * 4 + j]` {PAST} `i` is 3 and `j` is 4 it is `a[16]`"),
    Wrong(main(nest("j + 4 * i", outer=5)), f"{PAST} `j` is 3 and `i` is 4 it is `a[19]`"),
    Wrong(main(nest("i * 4 + j - 1")), f"is no element where `i` is 0 and `j` is 0: {NONE}"),
    Wrong(main(nest("(i + 1) * 4 + j")), f"{PAST} `i` is 3 and `j` is 3 it is `a[19]`"),
    # N * i + M
    Wrong(main(up("i", 5, "@a[3 * i + 4] = i;")), f"`a[3 * i + 4]` {PAST} `i` is 4 it is `a[16]`"),
    Wrong(main(up("i", 5, "@a[3 * i - 1] = i;")), f"`a[3 * i - 1]` is no element where `i` is 0: {NONE}"),
    # i % N and i & N
    Wrong(main(up("i", 40, "@a[i % 17] = i;")), f"`a[i % 17]` {PAST} `i` is 16 it is `a[16]`"),
    Wrong(main(up("i", 20, "@b[i & 7] = i;")), "which has 4 elements: where `i` is 7 it is `b[7]`"),
    Wrong(main(up("i", 4, "@b[(i - 1) % 4] = i;")), f"`b[(i - 1) % 4]` is no element where `i` is 0: {NONE}"),
    Wrong(main(up("i", 9, "@b[(i >> 1) % 5] = i;")), "where `i` is 8 it is `b[4]`"),
    # a variable that stands in it twice
    Wrong(main(up("i", 5, "@a[i * i] = i;")), f"`a[i * i]` {PAST} `i` is 4 it is `a[16]`"),
    Wrong(main(up("i", 6, "@a[i * (i + 1) / 2 + i] = i;")), f"{PAST} `i` is 5 it is `a[20]`"),
    # constants
    Wrong(main("@a[4 * 4] = 1;"), "`a[4 * 4]` is past the array, which has 16 elements"),
    Wrong(main("if (n) { @a[0x10] = 1; }"), "`a[0x10]` is past the array"),
    Wrong(main("n = @a[3 - 4];"), "`a[3 - 4]` is past the array"),
    Wrong(main("@a[4294967295] = 1;"), "`a[4294967295]` is past the array"),
    # as it is written, over lines too
    Wrong(main(up("i", 17, "@a[ i\n ] = 0;")), "`a[ i ]` goes past the array, which has 16 elements: `i` goes up to"),
    # in the condition of an `if`, in a loop that the value of the index does not end, and behind another test
    Wrong(main(up("i", 5, "if (@a[i * 4] > 3) { n = 1; }")), f"{PAST} `i` is 4 it is `a[16]`"),
    Wrong(main(up("i", 5, f"{BOUND} while (n > 0) {{ @a[i * 4] = 1; n = n - 1; }}")), "`i` is 4"),
    Wrong(main(up("i", 5, "if (n > 0 && @a[i * 4] > 3) { n = 1; }")), "`i` is 4"),
    Wrong(main(up("i", 5, "n = (i < 4 && n) + @a[i * 4];")), "`i` is 4"),
    # a loop of many iterations
    Wrong(main(up("i", 65_535, "@a[i * 4 + 3] = i;")), "where `i` is 65534 it is `a[262139]`"),
    # a loop that counts inside an `if`: its own variable takes all values
    Wrong(main(f"if (n) {{ {up('i', 5, '@a[i * 4] = 1;')} }}"), "`i` is 4"),
    # memory that all texts have
    Wrong(main(up("i", 5, "@comm[i * 128] = i;")), "where `i` is 4 it is `comm[512]`"),
]

RIGHT = [
    main(up("i", 16, "a[15 - i] = i;")),
    main(up("i", 4, "a[i * 4] = i; a[4 * i + 3] = i; a[3 * i + 6] = i;")),
    main(nest("i * 4 + j")),
    main(nest("(3 - i) * 4 + 3 - j")),
    main(nest("i * 8 + j", outer=2, inner=8)),
    main(up("i", 40, "a[i % 16] = i; a[i & 15] = i; b[(i + 3) % 4] = i; b[i >> 4] = i;")),
    main(up("i", 3, "b[i % 8] = i; b[i & 7] = i;")),
    main(up("i", 16, "b[i % 8] = i;", step=8)),
    main(up("i", 5, "b[(i - 1) & 3] = i;")),
    main(up("i", 5, "b[(i - 1) % 4] = i;"), kind="unsigned"),
    main(up("i", 4, "a[i * i] = i; a[i * (i + 1) / 2] = i;")),
    main("a[4 * 4 - 1] = 1; a[15] = 1; a[0] = 1;"),
    # the index depends on more than the loops say
    main(up("i", 5, "a[i * n] = i; a[i * 4 + b[0]] = i; a[i * g] = i;")),
    main(up("i", 5, "if (i < 4) { a[i * 4] = i; }")),
    main(up("i", 5, "if (i == 4) { n = 1; } else { a[i * 4] = i; }")),
    main(up("i", 5, "if (i == 4) { n = 1; } else if (a[i * 4] > 0) { n = 2; }")),
    main(up("i", 5, "if (i < 4 && a[i * 4] > 0) { n = 1; }")),
    main(up("i", 5, "n = i > 3 || a[i * 4];")),
    main(up("i", 5, f"if (i < 4) {{ {up('j', 4, 'a[i * 4 + j] = i;')} }}")),
    main(up("i", 5, f"{BOUND} while (i < 4 && n) {{ a[i * 4] = i; n = n - 1; }}")),
    main(up("i", 5, f"{BOUND} for (j = i; j < 4; j = j + 1) {{ a[i * 4] = j; }}")),
    main(up("i", 5, f"{BOUND} while (1) {{ if (i > 3) {{ break; }} a[i * 4] = i; break; }}")),
    main(up("i", 5, "a[i * 4] = i; if (i == 3) { break; }")),
    main(up("i", 5, "a[i * 4] = i; if (i == 3) { i = 5; }")),
    main(up("i", 5, up("j", 3, "a[i * 4] = j; i = i + 1;"))),
    main(up("j", 20, "a[i * 4] = j;")),
    # rows that get shorter
    main(up("i", 4, f"{BOUND} for (j = 0; j < 4 - i; j = j + 1) {{ a[i * 4 + j] = 1; b[i + j] = 1; }}")),
]


@pytest.mark.parametrize("wrong", WRONG, ids=[wrong.says for wrong in WRONG])
def test_wrong_indexes(wrong: Wrong) -> None:
    ((at, text),) = found(wrong.text)
    assert at == wrong.text.index(MARK)
    assert wrong.says in text


@pytest.mark.parametrize("text", RIGHT)
def test_right_indexes(text: str) -> None:
    assert found(text) == []


def test_the_first_of_two_is_enough() -> None:
    """Each element is named once, whatever loops are around it, in the order of the text."""
    text = main(up("i", 5, up("j", 5, "@a[i * 4 + j] = n; @b[j] = @a[j * 4];")))
    places = [number for number, letter in enumerate(text) if letter == MARK]
    assert [at for at, _ in found(text)] == [place - number for number, place in enumerate(places)]


LONG = [
    ("brackets", "a[" + "(" * 5_000 + "i" + ")" * 5_000 + "]", 0),
    ("signs", "a[" + "- " * 5_000 + "i]", 0),
    ("sums", "a[" + "1 + " * 5_000 + "i]", 0),
    ("values", "a[i % 70 + j % 70]", 0),
    ("tests", "n" + " && n" * 5_000 + " && a[i]", 0),
    ("elements", "n" + " + a[i]" * 1_000, 1_000),
]


@pytest.mark.parametrize("name,value,count", LONG, ids=[name for name, _, _ in LONG])
def test_what_is_too_long_is_passed_over(name: str, value: str, count: int) -> None:
    assert len(found(main(up("i", 5_000, f"{BOUND} while (n) {{ {up('j', 5_000, f'n = {value};')} }}")))) == count


def test_two_kinds_of_a_name() -> None:
    """Nothing is said of the remainder of a negative number whose kind is not known; others have one in both kinds."""
    text = "void f() { unsigned i; }\n" + main(up("i", 5, "b[(i - 1) % 4] = 1; @b[i % 5] = 1;"))
    ((at, says),) = found(text)
    assert at == text.index(MARK) and "where `i` is 4 it is `b[4]`" in says


def test_explain_shows_it_where_nothing_is_wrong_else(tool: Tool, tmp_path: Path) -> None:
    """The program takes such a task, and `tools/explain` shows the place."""
    text = main(nest("i * 4 + j", outer=5))
    path = tmp_path / "job.toml"
    head = 'version = 1\ncores = 1\nslot = 6\ncycles = 1000000\n\n[[task]]\ncore = 0\nlang = "c"\nsource = '
    path.write_text(f"{head}{toml_string(text.replace(MARK, '').encode())}\n", encoding="utf-8")
    done = tool("explain", str(path))
    assert done.returncode == 0
    assert "there is nothing to explain; `tools/lint` has 1 warning for it" in done.stdout
    assert f"{path}:9:" in done.stdout and "where `i` is 4 and `j` is 3 it is `a[19]`" in done.stdout
