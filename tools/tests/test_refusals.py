"""What can't be carried over is refused at its line, and what may mean another thing is warned of at its line."""

from __future__ import annotations

import pytest
from texts import notes, refusal

pytest.importorskip("pycparser")

REFUSED = {
    "a type with floating point": ("int main(void) {\n  float x = 1;\n  return x; }", 2, "floating point"),
    "a floating constant": ("int main(void) {\n  int x;\n  x = 2.5 * 4;\n  return x; }", 3, "floating point"),
    "a cast that looks at bytes": (
        "int a[4];\nint main(void) {\n  unsigned char *p = (unsigned char *)a;\n  return p[1]; }",
        3,
        "shifts and masks",
    ),
    "a cast to larger elements": (
        "short a[4];\nint main(void) {\n  int *p;\n  p = (int *)a;\n  return *p; }",
        4,
        "shifts and masks",
    ),
    "the address of a byte in a union": (
        "union { int w; char b[4]; char c; } u;\nint main(void) {\n  char *p = &u.c;\n  return *p; }",
        3,
        "union",
    ),
    "a pointer to the bytes of a union": (
        "union { int w; char b[4]; } u;\nint main(void) {\n  char *p = u.b;\n  return *p; }",
        3,
        "union",
    ),
    "a union with a pointer": ("int x;\nunion { int w; int *p; } u;\nint main(void) { return u.w; }", 2, "union"),
    "a function as a value": (
        "int f(void) { return 1; }\nint main(void) {\n  int x = f != 0;\n  return x; }",
        3,
        "pointers to functions",
    ),
    "a call through a pointer": (
        "int f(void) { return 1; }\nint (*g)(void);\nint main(void) {\n  return g(); }",
        2,
        "function",
    ),
    "a parameter that is a function": (
        "int f(int (*g)(int)) {\n  return g(1); }\nint h(int x) { return x; }\nint main(void) { return" " f(h); }",
        1,
        "function",
    ),
    "recursion without a depth": (
        "int f(int n) { return n ? f(n - 1) : 0; }\nint main(void) {\n  return f(3); }",
        1,
        "--depth f=N",
    ),
    "a loop without a bound": (
        "int g = 3;\nint main(void) {\n  while (g > 1)\n    g = g * 3 % 7;\n  return g; }",
        3,
        "bound",
    ),
    "a jump into a block": (
        "int main(void) {\n  int x = 1;\n  goto in;\n  if (x) {\n    in: x = 2;\n  }\n  return x; }",
        3,
        "goto",
    ),
    "a jump back without a bound": (
        "int main(void) {\n  int x = 1;\nup: x++;\n  if (x < 5) goto up;\n  return x; }",
        3,
        "bound",
    ),
    "a case inside a loop": (
        "int main(void) {\n  int n = 3;\n  switch (n) {\n  case 0: do { n--;\n  case 1: n--; } while (n > 0);\n  }\n"
        "  return n; }",
        5,
        "case",
    ),
    "a call of what has no text": (
        'int printf(const char *, int);\nint main(void) {\n  return printf("", 1); }',
        3,
        "no text",
    ),
    "variable arguments": ("int f(int a, ...)\n{ return a; }\nint main(void) { return f(1); }", 1, "..."),
    "a number as a pointer": ("int main(void) {\n  int *p = (int *)0x1000;\n  return *p; }", 2, "number as a pointer"),
    "a pointer as a number": ("int a[3];\nint main(void) {\n  return (int)(a + 1); }", 3, "pointer as a number"),
    "an array whose length is no constant": (
        "int f(int n) {\n  int a[n];\n  return a[0]; }\nint main(void) { return f(3); }",
        2,
        "constant",
    ),
    "main with parameters": ("int main(int argc, char **argv) { return argc; }", 1, "parameters"),
    "a program without main": ("int f(void) { return 1; }", 0, "main"),
    "a bound above the most": (
        "int main(void) { int i, s = 0;\n  for (i = 0; i < 70000; i++) s += i;\n  return s; }",
        2,
        "65535",
    ),
    "arrays that are too long": ("int a[50000];\nint main(void) { return a[3]; }", 1, "50000"),
    "a name that is not declared": ("int main(void) {\n  return x; }", 2, "not declared"),
    "too few arguments": ("int f(int a, int b) { return a + b; }\nint main(void) {\n  return f(1); }", 3, "arguments"),
    "a value of a type in brackets": (
        "struct p { int x, y; };\nint main(void) {\n  struct p a;\n  a = (struct p){1, 2};\n  return a.y; }",
        4,
        "declare a variable",
    ),
    "a first value behind a part of a part": (
        "struct p { struct { int x, y; } in; int z; };\nint main(void) {\n  struct p a = {\n    .in.x = 1, 2};\n"
        "  return a.z; }",
        4,
        "name its part",
    ),
    "the output array with others": (
        "int out[4], b[4];\nint f(int *p) { return *p; }\nint main(void) { return f(out) + f(b); }",
        1,
        "out",
    ),
}


@pytest.mark.parametrize("name", REFUSED)
def test_refused(name: str) -> None:
    text, line, words = REFUSED[name]
    at, found = refusal(text)
    assert at == line and words in found


WARNED = {
    "volatile": ("volatile int x;\nint main(void) {\n  return x; }", 1, "volatile"),
    "an order that C leaves open": (
        "int g = 1;\nint f(void) { g = 5; return 1; }\nint main(void) {\n  return g * 2 + f(); }",
        4,
        "leaves open",
    ),
    "two calls whose order C leaves open": (
        "int g;\nint f(void) { return g++; }\nint main(void) {\n  return f() * 2 + f(); }",
        4,
        "leaves open",
    ),
    "a decimal number without a suffix": (
        "int main(void) {\n  int x = -1;\n  return x < 3000000000; }",
        3,
        "long long",
    ),
}


@pytest.mark.parametrize("name", WARNED)
def test_warned(name: str) -> None:
    text, line, words = WARNED[name]
    assert any(at == line and "warning" in told and words in told for at, told in notes(text))


def test_long_is_told() -> None:
    assert any("`long` has 32 bits" in told for _, told in notes("long x; int main(void) { return x; }"))


def test_a_program_that_is_too_heavy_says_by_how_much() -> None:
    lines = "\n".join(
        f"if (a[{n % 9}] > {n}) {{ s = s * {n} + a[(s + {n}) & 7] {'+-^&|*'[n % 6]} {n * 7 % 31}; }}" * 1
        for n in range(600)
    )
    shapes = "".join(
        f"a[{n % 7}] = s {'+-*^|&'[n % 6]} (s {'+-*^|&'[n // 6 % 6]} a[{n % 5}] {'+-*^|&'[n // 36 % 6]}" f" s);\n"
        for n in range(216)
    )
    _, told = refusal(f"int a[9]; int main(void) {{ int s = 1;\n{lines}\n{shapes * 6}\nreturn s; }}")
    assert "more than a task may" in told and "weighs most" in told
