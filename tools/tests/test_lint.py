"""Mistakes that the program takes: each is found at its place, and no example has one that it does not show."""

from __future__ import annotations

import pytest
from conftest import ROOT, Tool

from tcresttools.job import Task, read_job
from tcresttools.linting import lint

MARK = "@"
ENDS = "ret; nop; nop; nop\n"


def found(text: str, lang: str = "asm", words: list[int] | None = None) -> list[tuple[int, str]]:
    source = text.replace(MARK, "").encode()
    return [(one.at, one.text) for one in lint(Task(0, 0, lang, source, words or [], 0))]


ASSEMBLY = [
    ("a load's value", f".func main\nlwm r1 = [r0 + 4]\n@add r2 = r1, r0\n{ENDS}", "r1 is not loaded yet"),
    ("a product", f".func main\nmul r1, r2\n@mfs r3 = sl\n{ENDS}", "the product is not there yet"),
    ("a stored value", f".func main\nlwm r1 = [r0 + 4]\n@swm [r0 + 5] = r1\n{ENDS}", "r1 is not loaded yet"),
    ("no slots", ".func main\n@ret\nnop\n", "`ret` has 3 delay slots, and 1 bundles follow"),
    ("a flow in a slot", f".func main\nx: br x\n@br x\nnop\nnop\n{ENDS}", "`br` stands in a delay slot of `br` above"),
    ("a label in a slot", f".func main\nbr x\n@x: nop\nnop\n{ENDS}", "the label `x` stands in a delay slot"),
    ("a return for ever", f".func main\ncall f; nop; nop; nop\n@{ENDS}.func f\n{ENDS}", "put `mts srb = r0` before it"),
    (
        "a return to the caller",
        f".func main\n{ENDS}.func f\ncall g; nop; nop; nop\n@{ENDS}.func g\n{ENDS}",
        "keep `srb` and `sro`",
    ),
    ("a poll", f".func main\nx: @lwc r3 = [r2]\nnop\ncmpieq p1 = r3, 0\n(p1) br x; nop; nop\n{ENDS}", "write `lwm`"),
]  # fmt: skip


@pytest.mark.parametrize("name,text,says", ASSEMBLY, ids=[name for name, _, _ in ASSEMBLY])
def test_assembly(name: str, text: str, says: str) -> None:
    warnings = found(text)
    assert any(at == text.index(MARK) and says in told for at, told in warnings), warnings


QUIET = [
    f".func main\nlwm r1 = [r0 + 4]\nnop\nadd r2 = r1, r0\n{ENDS}",
    f".func main\n(p1) lwm r1 = [r0 + 4]\n(!p1) add r2 = r1, r0\n{ENDS}",
    f".func main\ncall f; nop; nop; nop\nmts srb = r0\n{ENDS}.func f\n{ENDS}",
    f".func main\nx: lwm r3 = [r2]\nnop\ncmpieq p1 = r3, 0\n(p1) br x; nop; nop\n{ENDS}",
    f".func main\nx: lwc r3 = [r2]\naddi r2 = r2, 4\ncmpieq p1 = r3, 0\n(p1) br x; nop; nop\n{ENDS}",
    f".func main\nx: lwc r3 = [r2]\nnop\nsubi r4 = r4, 1\ncmpineq p1 = r4, 0\n(p1) br x; nop; nop\n{ENDS}",
]


@pytest.mark.parametrize("text", QUIET)
def test_right_assembly_is_quiet(text: str) -> None:
    assert found(text) == []


def for_loop(head: str, body: str) -> str:
    return (
        f'int a[4];\nint main() {{ int i; _Pragma("loopbound min 0 max 9") for ({head}) {{ {body} }} return a[0]; }}\n'
    )


def while_loop(body: str) -> str:
    bound = '_Pragma("loopbound min 0 max 9")'
    return f"int a[4];\nint main() {{ int i = 0; {bound} while (i <= 4) {{ {body} }} return a[0]; }}\n"


C_TEXTS = [
    (while_loop("@a[i] = i; i = i + 1;"), "`i` goes up to 4"),
    (while_loop("a[0] = i; if (@a[i - 1] > 0) { a[1] = 1; } i = i + 2;"), "`a[i - 1]` is no element where `i` is 0"),
    ("int a[3]; int main() { @a[3] = 1; return 0; }", "`a[3]` is past the array, which has 3 elements"),
    ("int main() { return @comm[512]; }", "`comm[512]` is past the array"),
    ("int main() { return @shared[-1]; }", "`shared[-1]` is past the array"),
    (for_loop("i = 0; i <= 4; i = i + 1", "@a[i] = i;"), "`i` goes up to 4"),
    (for_loop("i = 1; i < 9; i = i + 3", "@a[i] = i;"), "`i` goes up to 7"),
    (for_loop("i = 0; i < 4; i = i + 1", "@a[i + 1] = i;"), "`a[i + 1]` goes past the array"),
    (for_loop("i = 0; i < 4; i = i + 1", "@a[i - 1] = i;"), "`a[i - 1]` is no element where `i` is 0"),
    (for_loop("i = 4; i > 0; i = i - 1", "@a[i] = i;"), "`i` goes up to 4"),
    (for_loop("i = 0; i < 5; i = i + 1", "while (a[0]) { break; } @a[i] = i;"), "`i` goes up to 4"),
    (for_loop("i = 4; i >= 0; i = i - 2", "if (@a[i] > 3) { a[0] = 1; }"), "`i` goes up to 4"),
]


@pytest.mark.parametrize("text,says", C_TEXTS)
def test_c(text: str, says: str) -> None:
    ((at, told),) = found(text, "c")
    assert at == text.index(MARK)
    assert says in told


RIGHT_HEADS = [
    "i = 0; i < 4; i = i + 1",
    "i = 0; i <= 3; i = i + 1",
    "i = 0; i < 6; i = i + 3",
    "i = 3; i >= 0; i = i - 1",
    "i = 3; i > 4; i = i - 1",
]


@pytest.mark.parametrize("head", RIGHT_HEADS)
def test_right_loops_are_quiet(head: str) -> None:
    assert found(for_loop(head, "a[i] = i;"), "c") == []


OTHER_BODIES = [
    "if (i < 4) { a[i] = i; }",
    "if (i > 3) { a[0] = 1; } else { a[i] = i; }",
    "a[i] = i; if (i == 3) { break; }",
    "a[i] = i; i = i + 1;",
]


@pytest.mark.parametrize("body", ["i = i + 1; a[i - 1] = i;", "a[i] = i; i = i + 3; i = i + 1;", "a[i] = i;"])
def test_other_while_loops_are_quiet(body: str) -> None:
    assert found(while_loop(body), "c") == []


@pytest.mark.parametrize("body", OTHER_BODIES)
def test_loops_that_may_stay_inside_are_quiet(body: str) -> None:
    assert found(for_loop("i = 0; i < 5; i = i + 1", body), "c") == []


def test_input_that_nothing_takes() -> None:
    text = "int main() { return 0; }"
    assert "nothing takes the input" in found(text, "c", [1])[0][1]
    assert "the input has 3 words, and `in` takes 2" in found("int in[2]; " + text, "c", [1, 2, 3])[0][1]
    assert found("int in[2]; " + text, "c", [1, 2]) == []
    assert "in the scratchpad" in found("_SPM int in[2]; " + text, "c", [1, 2])[0][1]


def test_stored_mistakes(tool: Tool) -> None:
    done = tool("lint", "tools/examples/mistakes.toml")
    assert done.returncode == 1
    assert done.stdout == (ROOT / "tools/examples/mistakes.lint").read_text()


def test_examples_are_quiet_but_for_what_they_show() -> None:
    """Three examples show what happens where a load's value is read too early; all others are quiet."""
    paths = [path for path in sorted((ROOT / "examples").glob("**/*.toml")) if path.name != "grid.toml"]
    loud = {str(path.relative_to(ROOT)): told for path in paths if (told := texts_of(str(path)))}
    assert loud == {
        f"examples/{name}.toml": ["r1 is not loaded yet: the bundle still reads its old value"]
        for name in ("lessons/load", "pipeline/load", "pipeline/load_later")
    }


def texts_of(path: str) -> list[str]:
    return [one.text for task in read_job(path).tasks for one in lint(task)]
