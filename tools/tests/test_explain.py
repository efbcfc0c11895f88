"""Wrong jobs: what `explain` says of each, and at which place, which `@` marks in the texts here."""

from __future__ import annotations

from dataclasses import dataclass
from pathlib import Path

import pytest
from conftest import ROOT, Tool

from tcresttools.explaining import Asked, Explainer, Finding, shown
from tcresttools.places import place_at

MARK = "@"


@dataclass(frozen=True)
class Wrong:
    """A wrong text: its name, the text with its place, what the program writes, and what must be said."""

    name: str
    text: str
    line: str
    says: str


def name_of(wrong: Wrong) -> str:
    return wrong.name


def c_job(text: str, cores: int = 1) -> str:
    """A job with the text as the task of core 0."""
    head = f'version = 1\ncores = {cores}\nslot = 6\ncycles = 100000\n[[task]]\ncore = 0\nlang = "c"\n'
    return f"{head}source = '''\n{text}'''\n"


def asm_job(text: str, cores: int = 1, more: str = "") -> str:
    return c_job(text, cores).replace('lang = "c"', f'lang = "asm"{more}')


def explained(folder: Path, program: str, job: str) -> tuple[bytes, list[Finding]]:
    """The job without marks, and what is found in it."""
    data = job.replace(MARK, "").encode()
    path = folder / "job.toml"
    path.write_bytes(data)
    return data, Explainer(Asked(str(path), program)).findings()


def check(folder: Path, program: str, job: str, wrong: Wrong) -> None:
    """The first finding is that of the program's line, at the mark, and says what must be said."""
    data, findings = explained(folder, program, job)
    assert findings, "nothing is found"
    first = findings[0]
    assert first.line == wrong.line or (" trap " in wrong.line and first.line.startswith(wrong.line))
    said = " ".join(first.here)
    assert wrong.says in said
    at = job.encode().find(MARK.encode())
    assert at >= 0, "the text has no mark"
    assert first.place == place_at(data, at)
    # The hint comes first, and the words that fit any text of the kind are then left out.
    text = shown("job.toml", first).split("\n")
    assert text[3].startswith("here:   ")
    assert not any(line.startswith(("cause:", "remedy:")) for line in text)


C_TEXTS = [
    Wrong(
        "a missing ; before uint32_t",
        "int main()\n{\n    int a = 1@\n    uint32_t b = 2;\n    return a;\n}\n",
        "core 0: Syntax at 9",
        "`;` is missing after `1`",
    ),
    Wrong(
        "a missing ; before char",
        "int main()\n{\n    int a@\n    char b = 2;\n    return a;\n}\n",
        "core 0: Syntax at 7",
        "`;` is missing after `a`",
    ),
    Wrong("a missing ) of main", "int main(@\n{\n    return 0;\n}\n", "core 0: Syntax at 3", "`)` is missing"),
    Wrong(
        "a missing ;",
        "int main()\n{\n    int a = 1@\n    int b = 2;\n    return a;\n}\n",
        "core 0: Syntax at 9",
        "`;` is missing after `1`",
    ),
    Wrong(
        "a missing ; before a name",
        "int main()\n{\n    int a = 1;\n    a = 2@\n    a = 3;\n    return a;\n}\n",
        "core 0: Syntax at 13",
        "`;` is missing after `2`",
    ),
    Wrong(
        "a missing ; before return",
        "int main()\n{\n    int a@\n    return a;\n}\n",
        "core 0: Syntax at 7",
        "`;` is missing after `a`",
    ),
    Wrong(
        "a missing ; before }", "int main()\n{\n    return 4@\n}\n", "core 0: Syntax at 7", "`;` is missing after `4`"
    ),
    Wrong(
        "a missing ; outside", "int g@\nint main() { return g; }\n", "core 0: Syntax at 2", "`;` is missing after `g`"
    ),
    Wrong(
        "a missing ; after a call",
        "void f() { }\nint main()\n{\n    f()@\n    return 1;\n}\n",
        "core 0: Syntax at 14",
        "`;` is missing after `)`",
    ),
    Wrong(
        "a missing } before a function",
        "int f(int a)\n{\n    if (a) {\n        return 1;\n    return 2;\n}\n@int main()\n{\n    return 0;\n}\n",
        "core 0: Syntax at 21",
        "`f` has not ended: a `}` is missing",
    ),
    Wrong(
        "a missing } at the end",
        "int main()\n{\n    int i = 0;\n    if (i) {\n        i = 1;\n    return i;\n}@\n",
        "core 0: Syntax at 23",
        "a `}` is missing",
    ),
    Wrong(
        "a missing )",
        "int main()\n{\n    int x = (1 + 2@;\n    return x;\n}\n",
        "core 0: Syntax at 12",
        "`)` is missing after `2`",
    ),
    Wrong(
        "a missing ) of an if",
        "int main()\n{\n    int x = 1;\n    if (x == 1@ {\n        x = 2;\n    }\n    return x;\n}\n",
        "core 0: Syntax at 15",
        "`)` is missing after `1`",
    ),
    Wrong(
        "a missing ) of a call",
        "int f(int a) { return a; }\nint main()\n{\n    int x = f(1@;\n    return x;\n}\n",
        "core 0: Syntax at 22",
        "`)` is missing after `1`",
    ),
    Wrong(
        "a missing ]",
        "int a[4];\nint main()\n{\n    return a[1@;\n}\n",
        "core 0: Syntax at 15",
        "`]` is missing after `1`",
    ),
    Wrong(
        "an array in a function",
        "int main()\n{\n    int @a[4];\n    a[0] = 1;\n    return a[0];\n}\n",
        "core 0: Syntax at 7",
        "write `int a[4];` before `main`",
    ),
    Wrong(
        "while without braces",
        (
            'int main()\n{\n    int x = 0;\n    _Pragma("loopbound min 0 max 3")\n    while (x < 3) @x = x + 1;\n   '
            " return x;\n}\n"
        ),
        "core 0: Syntax at 17",
        "what is under `while` stands in braces: write `{ x = x + 1; }`",
    ),
    Wrong(
        "else without braces",
        "int main()\n{\n    int x = 0;\n    if (x) { x = 1; } else @x = 2;\n    return x;\n}\n",
        "core 0: Syntax at 21",
        "what is under `else` stands in braces: write `{ x = 2; }`",
    ),
    Wrong(
        "for without braces",
        (
            'int main()\n{\n    int i;\n    int s = 0;\n    _Pragma("loopbound min 3 max 3")\n    for (i = 0; i < 3; i'
            " = i + 1) @s = s + i;\n    return s;\n}\n"
        ),
        "core 0: Syntax at 30",
        "what is under `for` stands in braces",
    ),
    Wrong(
        "if without braces",
        "int main() { if (1) @return 1; return 0; }\n",
        "core 0: Syntax at 9",
        "write `{ return 1; }`",
    ),
    Wrong(
        "a loop without a body",
        'int main() { _Pragma("loopbound min 0 max 3") while (0)@; return 0; }\n',
        "core 0: Syntax at 10",
        "an empty body is `{ }`",
    ),
    Wrong(
        "a pointer",
        "int main()\n{\n    int @*p;\n    return 0;\n}\n",
        "core 0: Syntax at 6",
        "there are no pointers and no addresses",
    ),
    Wrong(
        "a pointer as a parameter",
        "int f(int @*p) { return 0; }\nint main() { return 0; }\n",
        "core 0: Syntax at 4",
        "a function reaches an array outside functions by its name",
    ),
    Wrong(
        "an address",
        "int x;\nint main() { return @&x; }\n",
        "core 0: Syntax at 9",
        "there are no pointers and no addresses",
    ),
    Wrong(
        "a word at a pointer",
        "int x;\nint main() { @*x = 3; return 0; }\n",
        "core 0: Syntax at 8",
        "there are no pointers and no addresses",
    ),
    Wrong(
        "uint32_t",
        "int main()\n{\n    @uint32_t x = 1;\n    return x;\n}\n",
        "core 0: Syntax at 6",
        "write `unsigned` in place of `uint32_t`",
    ),
    Wrong(
        "uint8_t outside",
        "@uint8_t x = 1;\nint main() { return x; }\n",
        "core 0: Syntax at 0",
        "write `unsigned` in place of `uint8_t`",
    ),
    Wrong(
        "bool",
        "int main()\n{\n    @bool b = 1;\n    return b;\n}\n",
        "core 0: Syntax at 6",
        "write `int` in place of `bool`",
    ),
    Wrong(
        "a parameter of bool",
        "int f(@bool b) { return b; }\nint main() { return 0; }\n",
        "core 0: Syntax at 3",
        "write `int` in place of `bool`",
    ),
    Wrong(
        "unsigned char",
        "unsigned @char c;\nint main() { return c; }\n",
        "core 0: Syntax at 1",
        "write `unsigned` in place of `unsigned char`",
    ),
    Wrong(
        "long long",
        "@long long c;\nint main() { return c; }\n",
        "core 0: Syntax at 0",
        "write `int` in place of `long long`",
    ),
    Wrong("retrun", "int main()\n{\n    @retrun 4;\n}\n", "core 0: Syntax at 6", "is `return` meant?"),
    Wrong(
        "whlie",
        "int main()\n{\n    int i = 0;\n    @whlie (i < 3) { i = i + 1; }\n    return i;\n}\n",
        "core 0: Syntax at 16",
        "is `while` meant?",
    ),
    Wrong("viod", "@viod f() { }\nint main() { return 0; }\n", "core 0: Syntax at 0", "is `void` meant?"),
    Wrong(
        "an array without its length",
        "int a[@] = {1, 2, 3};\nint main() { return a[0]; }\n",
        "core 0: Syntax at 3",
        "the length is written: `a[3]`",
    ),
    Wrong(
        "a length that is a name",
        "int n = 4;\nint a[@n];\nint main() { return a[0]; }\n",
        "core 0: Syntax at 8",
        "the length of an array is a number",
    ),
    Wrong("two indexes", "int a[4]@[4];\nint main() { return 0; }\n", "core 0: Syntax at 5", "an array has one index"),
    Wrong(
        "an expression outside",
        "int x = 1 @+ 2;\nint main() { return x; }\n",
        "core 0: Syntax at 4",
        "write its value, 3",
    ),
    Wrong(
        "a name as a first value",
        "int x = 1;\nint y = @x;\nint main() { return y; }\n",
        "core 0: Syntax at 8",
        "outside functions a first value is a number",
    ),
    Wrong(
        "send to a variable core",
        "int main()\n{\n    int d = 1;\n    send(@d, 0, 0, 1);\n    return 0;\n}\n",
        "core 0: Syntax at 12",
        "the core of a `send` is a number",
    ),
    Wrong("10L", "int main() { return @10L; }\n", "core 0: Char at 20", "write `10`"),
    Wrong("0UL", "int main() { return @0UL; }\n", "core 0: Char at 20", "write `0u`"),
    Wrong("3L", "int x = @3L;\nint main() { return x; }\n", "core 0: Char at 8", "write `3`"),
    Wrong("2e6", "int main() { return @2e6; }\n", "core 0: Char at 20", "write `2000000`"),
    Wrong("1.5", "int main() { return 1@.5; }\n", "core 0: Char at 21", "no numbers with a point"),
    Wrong("017", "int main() { return @017; }\n", "core 0: Char at 20", "write `15` if this is octal"),
    Wrong("0b101", "int main() { return @0b101; }\n", "core 0: Char at 20", "write `5`"),
    Wrong("a character", "int main() { return @'A'; }\n", "core 0: Char at 20", "write the number, 65"),
    Wrong("i++", "int main() { int i = 0; i@++; return i; }\n", "core 0: Char at 25", "write `i = i + 1`"),
    Wrong("--n", "int main() { int n = 5; @--n; return n; }\n", "core 0: Char at 24", "write `n = n - 1`"),
    Wrong(
        "total += 4",
        "int main() { int total = 0; total @+= 4; return total; }\n",
        "core 0: Char at 34",
        "write `total = total + ..`",
    ),
    Wrong(
        "#define",
        "@#define N 4\nint main() { return N; }\n",
        "core 0: Char at 0",
        "write the number 4 where `N` stands",
    ),
    Wrong(
        "#include",
        "@#include <stdint.h>\nint main() { return 0; }\n",
        "core 0: Char at 0",
        "no preprocessor and no library",
    ),
    Wrong("a sign outside ASCII", "int main() { return 2 @× 3; }\n", "core 0: Char at 22", "is no ASCII"),
    Wrong(
        "const", "int main()\n{\n    @const int n = 4;\n    return n;\n}\n", "core 0: Syntax at 5", "leave `const` out"
    ),
    Wrong("const outside", "@const int n = 4;\nint main() { return n; }\n", "core 0: Syntax at 0", "leave `const` out"),
    Wrong(
        "static",
        "@static int f() { return 1; }\nint main() { return 0; }\n",
        "core 0: Syntax at 0",
        "leave `static` out",
    ),
    Wrong(
        "typedef",
        "@typedef int word;\nint main() { return 0; }\n",
        "core 0: Syntax at 0",
        "there is no `typedef`: write `int` or `unsigned`",
    ),
    Wrong(
        "struct",
        "@struct point { int x; };\nint main() { return 0; }\n",
        "core 0: Syntax at 0",
        "there are no structures",
    ),
    Wrong(
        "do",
        "int main()\n{\n    int i = 0;\n    @do { i = i + 1; } while (i < 3);\n    return i;\n}\n",
        "core 0: Syntax at 10",
        "write a `while` loop",
    ),
    Wrong("switch", "int main()\n{\n    @switch (1) { }\n    return 0;\n}\n", "core 0: Syntax at 5", "else if"),
    Wrong(
        "for (int i",
        (
            'int main()\n{\n    int s = 0;\n    _Pragma("loopbound min 3 max 3")\n    for (@int i = 0; i < 3; i = i +'
            " 1) { s = s + i; }\n    return s;\n}\n"
        ),
        "core 0: Syntax at 13",
        "a variable is declared before the loop, not in it: write `int i;`",
    ),
    Wrong(
        "if (x = 1)",
        "int main()\n{\n    int x = 0;\n    if (x @= 1) { x = 2; }\n    return x;\n}\n",
        "core 0: Syntax at 13",
        "`==` compares",
    ),
    Wrong(
        "int x, y",
        "int main() { int x@, y; return 0; }\n",
        "core 0: Syntax at 7",
        "a declaration has one name: write `;`, and then `int y`",
    ),
    Wrong(
        "a call in an expression",
        "int f(int a) { return a; }\nint main() { return @f(1); }\n",
        "core 0: Syntax at 18",
        "`int y = f(1);`",
    ),
    Wrong(
        "a call and more",
        "int f(int a) { return a; }\nint main() { int x = f(1) @+ 1; return x; }\n",
        "core 0: Syntax at 23",
        "a call stands alone, or is a whole right side",
    ),
    Wrong(
        "a prototype",
        "int twice(int a)@;\nint main() { int x = twice(4); return x; }\nint twice(int a) { return a + a; }\n",
        "core 0: Syntax at 6",
        "write `twice` with its block before",
    ),
    Wrong("an empty statement", "int main() { @; return 0; }\n", "core 0: Syntax at 5", "there is no empty statement"),
    Wrong("a } too many", "int main()\n{\n    return 0;\n}\n@}\n", "core 0: Syntax at 9", "this `}` closes nothing"),
    Wrong("a ) too many", "int main() { int x = 1 + 2@); return x; }\n", "core 0: Syntax at 11", "a `)` too many"),
    Wrong("no kind", "@main() { return 0; }\n", "core 0: Syntax at 0", "`int main(..)`"),
    Wrong(
        "a cast", "int main() { unsigned u = (@unsigned) 3; return u; }\n", "core 0: Syntax at 9", "there are no casts"
    ),
    Wrong(
        "an operand missing",
        "int main() { int x = 1 +@; return x; }\n",
        "core 0: Syntax at 10",
        "a value is missing after `+`",
    ),
    Wrong(
        "an array as a parameter",
        "int f(int @a[]) { return 0; }\nint main() { return 0; }\n",
        "core 0: Syntax at 5",
        "an array is no parameter",
    ),
    Wrong(
        "totl",
        "int main()\n{\n    int total = 4;\n    return @totl;\n}\n",
        "core 0: Unknown at 11",
        "is `total` meant?",
    ),
    Wrong(
        "a function further down",
        "int main() { int x = @f(1); return x; }\nint f(int a) { return a; }\n",
        "core 0: Unknown at 8",
        "`f` is declared further down",
    ),
    Wrong(
        "a name whose block has ended",
        "int main() { { int k = 1; } return @k; }\n",
        "core 0: Unknown at 13",
        "`k` is known up to the end of its block",
    ),
    Wrong("printf", "int main() { @printf(3); return 0; }\n", "core 0: Unknown at 5", "`int out[4];`"),
    Wrong("true", "int main() { int b = @true; return b; }\n", "core 0: Unknown at 8", "write 1"),
    Wrong(
        "a name twice",
        "int main() { int a; int @a; return a; }\n",
        "core 0: Twice at 9",
        "`a` is declared in this block already",
    ),
    Wrong(
        "an array as a value",
        "int a[2];\nint main() { return @a; }\n",
        "core 0: WrongType at 12",
        "name one of its elements, `a[0]`",
    ),
    Wrong(
        "a value of void",
        "void f() { }\nint main() { int x = @f(); return x; }\n",
        "core 0: WrongType at 14",
        "`f` is `void`, and gives no value",
    ),
    Wrong(
        "break outside",
        "int main() { @break; return 0; }\n",
        "core 0: WrongType at 5",
        "`break` stands in a loop alone",
    ),
    Wrong("return; of int", "int main() { @return; }\n", "core 0: WrongType at 5", "returns a value"),
    Wrong(
        "no bound of a for",
        "int main() { int i; @for (i = 0; i < 10; i = i + 3) { } return i; }\n",
        "core 0: NoBound at 8",
        "min 4 max 4",
    ),
    Wrong(
        "no bound of a while",
        "int main() { int i = 0; @while (i < 3) { i = i + 1; } return i; }\n",
        "core 0: NoBound at 10",
        "right before it",
    ),
    Wrong(
        "too many iterations",
        'int main() { @_Pragma("loopbound min 0 max 100000") while (0) { } return 0; }\n',
        "core 0: BoundRange at 5",
        "and not 100,000",
    ),
    Wrong(
        "too many arguments",
        "int f(int a) { return a; }\nint main() { @f(1, 2); return 0; }\n",
        "core 0: Params at 16",
        "`f` has 1 parameter, and here are 2 arguments",
    ),
    Wrong(
        "more values than elements",
        "int @a[2] = {1, 2, 3};\nint main() { return 0; }\n",
        "core 0: Data at 1",
        "write `a[3]`",
    ),
    Wrong(
        "a large array",
        "int small[4];\nint @large[60000];\nint main() { return 0; }\n",
        "core 0: Data at 21",
        "`large` has 60,000 words",
    ),
    Wrong(
        "a large scratchpad",
        "_SPM int @a[3000];\nint main() { return 0; }\n",
        "core 0: Scratch at 16",
        "952 more than the 2,048 of the scratchpad",
    ),
    Wrong("void main", "void @main() { }\n", "core 0: NoMain at 6", "write `int main()` in place of `void main`"),
    Wrong("main(int argc)", "int @main(int argc) { return 0; }\n", "core 0: NoMain at 11", "without parameters"),
    Wrong("mian", "int @mian() { return 0; }\n", "core 0: NoMain at 9", "is `mian` it?"),
    Wrong(
        "a send to itself",
        "int main() { send(@0, 0, 0, 1); return 0; }\n",
        "core 0: Target at 7",
        "core 0 is this task's own",
    ),
]


@pytest.mark.parametrize("wrong", C_TEXTS, ids=name_of)
def test_c_text(wrong: Wrong, tmp_path: Path, program: str) -> None:
    check(tmp_path, program, c_job(wrong.text), wrong)


def asm(lines: str) -> str:
    return f".func main\n{lines}\nret; nop; nop; nop\n"


ASM_TEXTS = [
    Wrong("li", asm("@li r1, 4"), "core 0: Mnemonic line 2", "write `addi rD = r0, NUMBER` below 4,096"),
    Wrong("cmplti", asm("@cmplti p1 = r2, 5"), "core 0: Mnemonic line 2", "is `cmpilt`, `cmplt` or `cmpult` meant?"),
    Wrong("addii", asm("@addii r1 = r0, 4"), "core 0: Mnemonic line 2", "`addi`"),
    Wrong("lw", asm("@lw r1 = [r0 + 4]"), "core 0: Mnemonic line 2", "with the letter of its memory"),
    Wrong("ADDI", asm("@ADDI r1 = r0, 7"), "core 0: Mnemonic line 2", "in lower case: `addi`"),
    Wrong("frobnicate", asm("@frobnicate r1"), "core 0: Mnemonic line 2", "docs/ASSEMBLY.md lists all"),
    Wrong("a guard of two", asm("@(p1 p2) nop"), "core 0: Mnemonic line 2", "a guard is `(p1)` or `(!p1)`"),
    Wrong("// behind", asm("@addi r1 = r0, 7 // seven"), "core 0: Operand line 2", "a comment begins with `#`"),
    Wrong("// alone", asm("@// seven"), "core 0: Mnemonic line 2", "a comment begins with `#`"),
    Wrong(
        "; as a comment", asm("addi r1 = r0, 7 ; @the value"), "core 0: Mnemonic line 2", "a comment begins with `#`"
    ),
    Wrong("a negative immediate", asm("@addi r3 = r3, -1"), "core 0: Operand line 2", "write `subi r3 = r3, 1`"),
    Wrong("a negative long one", asm("@addl r3 = r0, -7"), "core 0: Operand line 2", "`subl r3 = r0, 7`"),
    Wrong(
        "a negative place", asm("@lwm r1 = [r2 + -1]"), "core 0: Operand line 2", "the number in brackets has no sign"
    ),
    Wrong("a negative compare", asm("@cmpilt p1 = r2, -1"), "core 0: Operand line 2", "`addl r2 = r0, 0xFFFFFFFF`"),
    Wrong("a number for a register", asm("@add r1 = r0, 7"), "core 0: Operand line 2", "write `addi r1 = r0, 7`"),
    Wrong("a register for a number", asm("@addi r1 = r0, r2"), "core 0: Operand line 2", "write `add r1 = r0, r2`"),
    Wrong("a comma for =", asm("@addi r1, r0, 7"), "core 0: Operand line 2", "write `addi r1 = r0, 7`"),
    Wrong("a load without brackets", asm("@lwm r1 = r2"), "core 0: Operand line 2", "an address stands in brackets"),
    Wrong(
        "a store the other way", asm("@swm r1 = [r2 + 0]"), "core 0: Operand line 2", "a store names its address first"
    ),
    Wrong("0X10", asm("@addi r1 = r0, 0X10"), "core 0: Operand line 2", "begins with `0x`"),
    Wrong("too large a number", asm("@addi r1 = r0, 4096"), "core 0: Range line 2", "`addl` takes any word"),
    Wrong("r32", asm("@addi r32 = r0, 4"), "core 0: Range line 2", "there is no `r32`"),
    Wrong("too large a compare", asm("@cmpilt p1 = r2, 100"), "core 0: Range line 2", "100 is above 31"),
    Wrong("too far a place", asm("@lwm r1 = [r2 + 128]"), "core 0: Range line 2", "128 is above 127"),
    Wrong(
        "a wrong second half",
        asm("@{ nop ; lwm r1 = [r0 + 4] }"),
        "core 0: Slot line 2",
        "`lwm` can't stand in the second half: exchange",
    ),
    Wrong(
        "a label spelled otherwise",
        ".func main\nloop: nop\n@br lop; nop; nop\nret; nop; nop; nop\n",
        "core 0: NoLabel line 3",
        "is `loop` meant?",
    ),
    Wrong(
        "a label of another function",
        ".func main\n@br away; nop; nop\n.func f\naway: ret; nop; nop; nop\n",
        "core 0: NoLabel line 2",
        "`away` is in another",
    ),
    Wrong(
        "a label twice",
        ".func main\nx: nop\n@x: ret; nop; nop; nop\n",
        "core 0: LabelTwice line 3",
        "`x` is there already",
    ),
    Wrong(
        "a label as a function", "@main:\nret; nop; nop; nop\n", "core 0: NoFunction line 1", "begins with `.func main`"
    ),
]


@pytest.mark.parametrize("wrong", ASM_TEXTS, ids=name_of)
def test_assembly_text(wrong: Wrong, tmp_path: Path, program: str) -> None:
    check(tmp_path, program, asm_job(wrong.text), wrong)


RIGHT = '[[task]]\ncore = 0\nlang = "c"\nsource = "int main() { return 0; }"\n'
TWO = RIGHT + RIGHT.replace("core = 0", "core = 1")

JOBS = [
    Wrong(
        "a key below [[task]]",
        f"version = 1\ncores = 1\nslot = 6\n{RIGHT}@cycles = 100\n",
        "job: Missing cycles",
        "`cycles` stands below `[[task]]`",
    ),
    Wrong(
        "a key of the job in a task",
        f"version = 1\ncores = 1\nslot = 6\ncycles = 100\n{RIGHT}@trace = 4\n",
        "job: Key task 0 trace",
        "`trace` is a key of the job: it stands before the first `[[task]]`",
    ),
    Wrong(
        "a key spelled otherwise",
        f"version = 1\n@core = 1\nslot = 6\ncycles = 100\n{RIGHT}",
        "job: Key core",
        "is `cores` meant?",
    ),
    Wrong(
        "sorce",
        f"version = 1\ncores = 1\nslot = 6\ncycles = 100\n{RIGHT.replace('source', '@sorce')}",
        "job: Key task 0 sorce",
        "is `source` meant?",
    ),
    Wrong(
        "table in version 1",
        f"version = 1\ncores = 1\nslot = 6\n@table = [0]\ncycles = 100\n{RIGHT}",
        "job: Key table",
        "`table` is a key in version 2 alone",
    ),
    Wrong(
        "a core that is not in the table",
        f"version = 2\ncores = 3\nslot = 6\n@table = [0, 1]\ncycles = 100\n{RIGHT}",
        "job: Range table",
        "core 2 of `cores = 3` is not in the table",
    ),
    Wrong(
        "a core too many in the table",
        f"version = 2\ncores = 2\nslot = 6\n@table = [0, 1, 2]\ncycles = 100\n{RIGHT}",
        "job: Range table",
        "there is no core 2",
    ),
    Wrong(
        "a core that is not there",
        f"version = 1\ncores = 1\nslot = 6\ncycles = 100\n{RIGHT.replace('core = 0', '@core = 1')}",
        "job: Range task 0 core",
        "`cores = 1`, so the cores are 0 to 0",
    ),
    Wrong(
        "C in capitals",
        (
            "version = 1\ncores = 1\nslot = 6\ncycles ="
            f" 100\n{RIGHT.replace('lang = ', '@lang = ').replace(chr(34) + 'c' + chr(34), chr(34) + 'C' + chr(34))}"
        ),
        "job: Range task 0 lang",
        'is `"c"` meant?',
    ),
    Wrong("nine cores", f"version = 1\n@cores = 9\nslot = 6\ncycles = 100\n{RIGHT}", "job: Range cores", "1 to 8"),
    Wrong(
        "a short slot", f"version = 1\ncores = 1\n@slot = 4\ncycles = 100\n{RIGHT}", "job: Range slot", "6 to 64 cycles"
    ),
    Wrong(
        "a slot in quotes", f'version = 1\ncores = 1\n@slot = "6"\ncycles = 100\n{RIGHT}', "job: Kind slot", "a number"
    ),
    Wrong(
        "two tasks of one core",
        f"version = 1\ncores = 2\nslot = 6\ncycles = 100\n{RIGHT}{RIGHT.replace('core = 0', '@core = 0')}",
        "job: CoreTwice task 1 core",
        "core 1 has none",
    ),
    Wrong(
        "a word that is none",
        f"version = 1\ncores = 1\nslot = 6\ncycles = 100\n{RIGHT}input = [1, @4294967296]\n",
        "job: Input task 0 input",
        "4294967296 is no word of 32 bits",
    ),
    Wrong(
        "[task]",
        f"version = 1\ncores = 1\nslot = 6\ncycles = 100\n{RIGHT.replace('[[task]]', '[@task]')}",
        "job: Kind task",
        "begin each task with `[[task]]`",
    ),
]


@pytest.mark.parametrize("wrong", JOBS, ids=name_of)
def test_job(wrong: Wrong, tmp_path: Path, program: str) -> None:
    check(tmp_path, program, wrong.text, wrong)


def test_missing_key_is_told_with_its_line(tmp_path: Path, program: str) -> None:
    _, findings = explained(tmp_path, program, f"version = 1\ncores = 1\ncycles = 100\n{RIGHT}")
    assert [finding.line for finding in findings] == ["job: Missing slot"]
    assert findings[0].place is None
    assert findings[0].here == ["add `slot = 6` before the first `[[task]]`."]


def test_missing_brace_names_the_one_that_lacks_it(tmp_path: Path, program: str) -> None:
    text = "int f(int a)\n{\n    if (a) @{\n        return 1;\n    return 2;\n}\nint main()\n{\n    return 0;\n}\n"
    data, findings = explained(tmp_path, program, c_job(text))
    place, told = findings[0].there[0]
    assert place == place_at(data, c_job(text).index(MARK))
    assert "no `}`" in told


# Weights and frames.


def test_frame_tells_by_how_much(tmp_path: Path, program: str) -> None:
    text = "int main()\n{\n" + "".join(f"    int v{at};\n" for at in range(99)) + "    return 0;\n}\n"
    data, findings = explained(tmp_path, program, c_job(text))
    assert findings[0].line == "core 0: Frame at 1"
    assert findings[0].place == place_at(data, data.index(b"main"))
    assert findings[0].here == [
        "`main` needs 123 words, 3 too many: 24 in any case, 99 for variables. Most are for variables."
    ]


def test_heavy_function_tells_by_how_much_and_what(tmp_path: Path, program: str) -> None:
    # 64, the return of 16 and 4, and 60 divisions of 64 and 4
    text = "int main()\n{\n    @return 9" + " / 1" * 60 + ";\n}\n"
    data, findings = explained(tmp_path, program, c_job(text))
    assert findings[0].line == "core 0: Heavy at 1"
    assert "`main` weighs 4,164, 68 too many. Its 60 signs `/` weigh 3,840" in findings[0].here[0]
    place, told = findings[0].there[0]
    assert place == place_at(data, c_job(text).index(MARK))
    assert told == "the part that weighs most: `return`, 4,100."


def test_heavy_task_marks_the_heaviest_function(tmp_path: Path, program: str) -> None:
    # 513 functions of 64 each, one of which has a return of 16 and 4 besides
    text = "".join(f"void f{at}() {{ }}\n" for at in range(512)) + "int @main() { return 0; }\n"
    data, findings = explained(tmp_path, program, c_job(text))
    assert findings[0].line == f"core 0: Heavy at {512 * 6 + 9}"
    assert findings[0].place == place_at(data, c_job(text).index(MARK))
    assert findings[0].here == ["the task weighs 32,852, 84 too many, and `main` the most of it, 84."]


# Traps, and tasks that do not end.


def test_trap_of_two_cores_has_its_bundle(tmp_path: Path, program: str) -> None:
    job = asm_job(".func main\naddl r2 = r0, 0x40000\n@lwm r1 = [r2 + 0]\nret; nop; nop; nop\n", cores=2)
    data, findings = explained(tmp_path, program, job)
    assert findings[0].line.startswith("core 0 trap 1 at ")
    assert findings[0].place == place_at(data, job.index(MARK))


def test_trap_of_two_cores_has_what_lint_finds(tmp_path: Path, program: str) -> None:
    job = asm_job(".func main\naddi r1 = r0, 7\n@ret\n", cores=2)
    data, findings = explained(tmp_path, program, job)
    assert findings[0].line.startswith("core 0 trap 4 at ")
    assert findings[0].place == place_at(data, job.index(MARK))
    assert findings[0].here == ["`ret` has 3 delay slots, and 0 bundles follow."]


def test_return_that_loops(tmp_path: Path, program: str) -> None:
    job = asm_job(".func main\ncall f; nop; nop; nop\n@ret; nop; nop; nop\n.func f\nret; nop; nop; nop\n")
    data, findings = explained(tmp_path, program, job)
    assert findings[0].line == "core 0 limit"
    assert findings[0].place == place_at(data, job.index(MARK))
    assert "put `mts srb = r0` before it" in findings[0].here[0]


def test_poll_through_the_data_cache(tmp_path: Path, program: str) -> None:
    waits = (
        ".func main\naddl r2 = r0, 0x01000000\ntop: @lwc r3 = [r2 + 0]\nnop\ncmpieq p1 = r3, 0\n(p1) br top; nop;"
        " nop\nret; nop; nop; nop\n"
    )
    job = asm_job(waits, cores=2)
    data, findings = explained(tmp_path, program, job)
    assert findings[0].line == "core 0 limit"
    assert findings[0].place == place_at(data, job.index(MARK))
    assert "write `lwm`" in findings[0].here[0]


def test_limit_of_a_c_task_tells_how_many_are_enough(tmp_path: Path, program: str) -> None:
    job = c_job("int main() { return 0; }\n").replace("cycles = 100000", "cycles = 10")
    _, findings = explained(tmp_path, program, job)
    found = findings[0].here[0]
    assert found.startswith("it starts at 0 and takes at most ")
    enough = int(found.split("`cycles` = ")[1].split()[0])
    assert explained(tmp_path, program, job.replace("cycles = 10", f"cycles = {enough}"))[1] == []


def test_trap_behind_the_last_bundle_is_at_what_lint_finds(tmp_path: Path, program: str) -> None:
    """The bundle behind `nop` is not in the function: it is the `ret` above that lacks two delay slots."""
    job = asm_job(".func main\n@ret\nnop\n", cores=2)
    data, findings = explained(tmp_path, program, job)
    assert findings[0].line.startswith("core 0 trap 4 at ")
    assert findings[0].place == place_at(data, job.index(MARK))
    assert findings[0].here == ["`ret` has 3 delay slots, and 1 bundles follow."]
    assert (findings[0].there, findings[0].notes) == ([], [])


# Loops that are cut off by their bounds.


def counting(most: int, name: str, limit: str) -> str:
    """A loop that counts a variable from 0 up to a limit, with the most iterations that its bound allows."""
    bound = f'_Pragma("loopbound min 0 max {most}")'
    return f"{name} = 0;\n{bound}\n@while ({name} < {limit}) {{ {name} = {name} + 1; }}\n"


def test_overrun_is_at_its_loop(tmp_path: Path, program: str) -> None:
    loops = counting(9, "i", "9").replace(MARK, "") + counting(3, "i", "8")
    job = c_job(f"int main() {{\nint i;\n{loops}return i; }}\n")
    data, findings = explained(tmp_path, program, job)
    assert [finding.line.endswith("overrun") for finding in findings] == [True]
    assert findings[0].place == place_at(data, job.index(MARK))
    assert "after 3 iterations" in findings[0].here[0]
    assert "`max 8` is enough" in findings[0].here[0]
    assert findings[0].there == []


def test_two_overruns_are_at_their_loops(tmp_path: Path, program: str) -> None:
    """The second one's limit is what the first one counts up to: 8 where it is not cut off."""
    loops = counting(3, "i", "8") + counting(2, "j", "i")
    job = c_job(f"int main() {{\nint i; int j;\n{loops}return i; }}\n")
    data, findings = explained(tmp_path, program, job)
    ((place, told),) = findings[0].there
    assert [findings[0].place, place] == [place_at(data, at - number) for number, at in enumerate(marks(job))]
    assert "`max 8` is enough" in findings[0].here[0]
    assert "after 2 iterations" in told and "`max 8` is enough" in told


def test_endless_loop_has_the_general_words(tmp_path: Path, program: str) -> None:
    job = c_job('int main() { _Pragma("loopbound min 0 max 3") while (1) { } return 0; }\n')
    _, findings = explained(tmp_path, program, job)
    assert findings[0].here == []
    assert "Raise `max` of the bound" in findings[0].entry.remedy


# Several faults, and several cores.


def test_several_faults_of_one_text(tmp_path: Path, program: str) -> None:
    text = (
        "int g@\nint main()\n{\n    @const int n = 4;\n    int total = 0;\n    int i;\n    @for (i = 0; i < 4; i = i +"
        " 1) {\n        total @+= @3L;\n    }\n    if (total) @return @totl;\n    @retrun n;\n}\n"
    )
    job = c_job(text)
    data, findings = explained(tmp_path, program, job)
    places = [place_at(data, at - number) for number, at in enumerate(marks(job))]
    assert {finding.place for finding in findings} == set(places)
    assert len(findings) == len(places) == 8
    assert [finding.later for finding in findings] == [False] + [True] * 7


def marks(text: str) -> list[int]:
    return [at for at, letter in enumerate(text) if letter == MARK]


def test_each_bundle_of_an_assembly_text_is_looked_at(tmp_path: Path, program: str) -> None:
    job = asm_job(".func main\n@li r1, 4\nnop\n@addi r1 = r0, -1\n@add r1 = r0, 5; nop; @foo r4\nret; nop; nop; nop\n")
    data, findings = explained(tmp_path, program, job)
    assert [finding.place for finding in findings] == [
        place_at(data, at - number) for number, at in enumerate(marks(job))
    ]


def test_each_core_is_looked_at(tmp_path: Path, program: str) -> None:
    first = c_job("int main() { int x = f(1); return x; }\n", cores=2)
    second = '[[task]]\ncore = 1\nlang = "asm"\nsource = ".func main; movv r1 = r0; ret; nop; nop; nop"\n'
    _, findings = explained(tmp_path, program, first + second)
    assert [finding.line for finding in findings] == ["core 0: Unknown at 8", "core 1: Mnemonic line 1"]
    assert findings[1].place is not None
    assert findings[1].place.line == 14


def test_mended_in_double_quotes(tmp_path: Path, program: str) -> None:
    job = 'version = 1\ncores = 1\nslot = 6\ncycles = 1000\n[[task]]\ncore = 0\nlang = "c"\n'
    job += 'source = "int main() { int i = 0; @while (i < 3) { i = i + 1; } return @j; }"\n'
    data, findings = explained(tmp_path, program, job)
    assert [finding.line for finding in findings] == ["core 0: NoBound at 10", "core 0: Unknown at 26"]
    assert [finding.place for finding in findings] == [
        place_at(data, at - number) for number, at in enumerate(marks(job))
    ]


def test_job_and_text_in_one_run(tmp_path: Path, program: str) -> None:
    job = f"version = 1\ncores = 1\nslot = 4\n{RIGHT.replace('return 0', 'retrun 0')}cycles = 100\n"
    _, findings = explained(tmp_path, program, job)
    assert [finding.line for finding in findings] == ["job: Range slot", "job: Missing cycles", "core 0: Syntax at 6"]


# The tool.


def test_status_and_order(tool: Tool) -> None:
    done = tool("explain", "tools/examples/wrong.toml")
    assert done.returncode == 1
    assert done.stdout == (ROOT / "tools/examples/wrong.explain").read_text()
    assert tool("explain", "examples/one_core.toml").returncode == 0
    assert tool("explain", "none.toml").returncode == 2


def test_nothing_to_explain_names_lint(tool: Tool, tmp_path: Path) -> None:
    path = tmp_path / "quiet.toml"
    path.write_text(c_job("int main() { return 0; }\n").replace('lang = "c"', 'lang = "c"\ninput = [1]'))
    done = tool("explain", str(path))
    assert done.returncode == 0
    assert "`tools/lint` has 1 warning for it" in done.stdout
    assert "quiet.toml:8:1: the task has an input" in done.stdout


def test_windows_line_ends_and_tabs(tmp_path: Path, program: str) -> None:
    job = c_job("int main()\r\n{\r\n\tint a = 1@\r\n\treturn a;\r\n}\r\n").replace("'''\nint", "'''\r\nint")
    data, findings = explained(tmp_path, program, job)
    assert findings[0].place == place_at(data, job.index(MARK))
    assert findings[0].place.column == len("\tint a = 1") + 1
