"""Outlines of C texts: the order of loops, divisions and calls in the code, by the rules of docs/COMPILER.md."""

from __future__ import annotations

import pytest

from tcresttools.attribution import parts_of
from tcresttools.c_outline import Call, Division, Item, Loop, image_order, is_long, outline_of
from tcresttools.code_text import CodeLoop, bundles_of, code_of_task
from tcresttools.job import Task

BOUND = '_Pragma("loopbound min 0 max 5")'
ONCE = '_Pragma("loopbound min 0 max 1")'
NEVER = '_Pragma("loopbound min 0 max 0")'


def shown(source: bytes, items: list[Item]) -> str:
    """The items in one line: a division by what is behind its sign, a call by its name, a loop with its iterations."""
    words = []
    for item in items:
        if isinstance(item, Division):
            mark = "'" if item.is_after_iterations else ""
            words.append(source[item.at : item.at + 2].decode() + mark)
        elif isinstance(item, Call):
            words.append(item.name)
        else:
            words.append(f"{item.word}{item.most}({shown(source, item.items)})")
    return " ".join(words)


def order(body: str) -> str:
    source = f"int a; int t[4]; int p; int q; int r; int s; int main() {{ int x; int y; {body} }}".encode()
    return shown(source, outline_of(source)[-1].items)


@pytest.mark.parametrize(
    "expression,wanted",
    [
        ("x/p + x/q", "/p /q"),
        # a value is used by the operator around it
        ("x/p/q % r", "/p /q % "),
        ("-(x/p) * !(y/q)", "/p /q"),
        # `a > b` is `b < a`
        ("x/p > x/q", "/q /p"),
        ("x/p >= x/q", "/q /p"),
        ("x/p < x/q", "/p /q"),
        # the right operand needs two registers, and the left one needs two too: the left one comes first
        ("x/p + (y/q)", "/p /q"),
        # the left one needs one register, and the right one two
        ("t[x] + x/p", "/p"),
        # the left one needs two registers, and the right one three
        ("x/p + (x/q + (y/r + x/s))", "/r /s /q /p"),
        ("x/p + (x/q + y/r)", "/q /r /p"),
        ("(x/q + y/r) + x/p", "/q /r /p"),
        # an element needs what its index needs
        ("t[x/p + x/q] + y/r", "/p /q /r"),
        ("y/r + t[x/p + x/q]", "/p /q /r"),
        ("x/p || (y/q && y/r)", "/q /r /p"),
    ],
)
def test_order_of_operands(expression: str, wanted: str) -> None:
    assert order(f"x = {expression};") == wanted


@pytest.mark.parametrize(
    "body,wanted",
    [
        # an index is worked out after the value that is stored
        ("t[x/p] = y/q;", "/q /p"),
        ("t[x/p] = f(y/q, y/r);", "/q /r f /p"),
        ("int z = f(x/p); g(z);", "/p f g"),
        ("send(1, x/p, x/q, x/r);", "/p /q /r"),
        # all arms are done
        ("if (x/p) { f(x); } else if (x/q) { x = x/r; } else { g(x/s); }", "/p f /q /r /s g"),
        # nothing that follows in the block has code
        ("if (x) { return x/p; f(x); } x = x/q;", "/p /q"),
        ("{ return; } x = x/q;", ""),
        (f"{BOUND} while (x) {{ if (x) {{ break; x = x/p; }} continue; x = x/q; }} x = x/r;", "while5() /r"),
        # a condition is tested in each iteration, and once more
        (f"{BOUND} while (x/p) {{ x = x/q; }}", "while5(/p /q) /p'"),
        (f"{BOUND} for (x = y/p; x < y/q; x = x + y/r) {{ f(x/s); }}", "/p for5(/q /s f /r) /q'"),
        (f"{NEVER} for (x = y/p; x < y/q; x = x + y/r) {{ f(x/s); }}", "/p /q"),
        (f"{ONCE} while (x) {{ {BOUND} while (y) {{ x = x/p; }} }}", "while1(while5(/p))"),
    ],
)
def test_order_of_statements(body: str, wanted: str) -> None:
    assert order(body) == wanted


SEVERAL = b"""
_SPM unsigned int spare[3]; int one = 1; int list[2] = {1, -2};
int leaf(int x) { return x; }
void unused(void) { leaf(1); }
unsigned int twice(int x) { x = leaf(x); return x; }
int main() { int r; if (0) { r = twice(1); } return r; unused(); }
int last() { return 1; }
"""


def test_functions_in_the_order_of_the_image() -> None:
    functions = outline_of(SEVERAL)
    assert [one.name for one in functions] == ["leaf", "unused", "twice", "main", "last"]
    assert [one.name for one in image_order(functions)] == ["main", "leaf", "unused", "twice", "last"]
    # what stands behind `return` is not called, and a masked call is
    calls = [[item.name for item in one.items if isinstance(item, Call)] for one in functions]
    assert calls == [[], ["leaf"], ["leaf"], ["twice"], []]


def test_places_of_items() -> None:
    source = f"int main() {{ int x = 1; x = 1 / x; {BOUND} while (x) {{ }} return 0; }}".encode()
    (main,) = outline_of(source)
    assert source[main.at : main.at + 4] == b"main"
    assert source[main.end : main.end + 1] == b"}"
    division, loop = main.items
    assert isinstance(division, Division) and source[division.at : division.at + 1] == b"/"
    assert isinstance(loop, Loop) and source[loop.at : loop.at + 5] == b"while"


def first_loop(expression: str, program: str) -> int:
    """The place of the first loop in the code of an expression."""
    source = "int in[4]; int main() { int x = in[0]; int y = in[1]; unsigned u = in[2]; unsigned v = in[3];"
    text = f"{source} return {expression}; }}".encode()
    parts = parts_of(code_of_task(Task(0, 0, "c", text, [], 0), program))
    return next(part.first for part in parts if part.is_loop)


def test_order_in_the_code(program: str) -> None:
    # signs are taken off before a signed division, so its loop begins later than that of an unsigned one
    signed, unsigned = first_loop("x/y + u/v", program), first_loop("u/v + x/y", program)
    assert signed > unsigned
    for expression, wanted in (("x/y > u/v", unsigned), ("x/y + (u/v + (y + x))", unsigned), ("x/y < u/v", signed)):
        assert first_loop(expression, program) == wanted


DIVISORS = [0, 1, 2, 3, 5, 6, 7, 8, 10, 14, 19, 641, 1000, 4095, 4096, 4097, 8192, 65537, 2**30, 2**31 - 1]


def test_divisions_by_numbers(program: str) -> None:
    """Each quotient and remainder is a loop of the code where `is_long` says so: in `int` and in `unsigned`."""
    more = [2**31, 2**31 + 1, 2**32 - 1]
    for kind, numbers in (("int", DIVISORS), ("unsigned", DIVISORS + more)):
        for sign in "/%":
            lines = " ".join(f"x = x {sign} {number};" for number in numbers)
            text = f"int main() {{ {kind} x = in[0]; {lines} return x; }}".encode()
            code = code_of_task(Task(0, 0, "c", b"int in[1]; " + text, [], 0), program)
            loops = [item for item in code.functions[0].items if isinstance(item, CodeLoop)]
            assert [loop.iterations for loop in loops] == [8] * len(loops)
            assert len(list(bundles_of(code.functions[0].items))) > len(numbers)
            assert len(loops) == sum(is_long(number, kind == "unsigned") for number in numbers)


def test_divisors_of_either_type() -> None:
    """7 and 14 are loops for unsigned words alone, and a number that is no divisor of `int` makes the type unsigned."""
    body = "int a = 1; unsigned b = 1; a = a / 7; a = b / 7; a = a % 7u; a = a / +7; a = a / -7; a = (a < b) / 7;"
    more = " { unsigned a = 1; b = a / 14; } a = a / 14; a = (a << b) / 7; a = (b >> a) / 7; a = ~b / 7; a = !b / 7;"
    source = f"int main() {{ {body}{more} return a; }}".encode()
    (main,) = outline_of(source)
    found = [source[: one.at].rpartition(b"a = ")[2] + source[one.at : one.at + 3] for one in main.items]
    assert found == [b"b / 7", b"a % 7", b"a / -", b"1; b = a / 1", b"(b >> a) / 7", b"~b / 7"]
