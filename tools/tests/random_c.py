"""Random programs of ordinary C whose meaning C defines (with -fwrapv): for comparing a lowered text with what gcc
makes.

What C leaves undefined or open is kept out: shifts count below their width, divisors are positive, indices are
masked, every variable begins with a value, and an expression with an effect names nothing else that the effect
changes.
"""

from __future__ import annotations

import random
from dataclasses import dataclass, field

TYPES = ["int", "unsigned", "char", "signed char", "unsigned char", "short", "unsigned short", "int", "unsigned"]
WIDE = ["long long", "unsigned long long"]
SIZES = {"a1": 7, "a2": 7, "table": 15, "names": 7}
HEAD = """typedef unsigned char byte;
enum colour { RED, GREEN = 5, BLUE };
struct point { int x; short y; unsigned char tag; };
struct node { int value; struct node *next; };
union view { unsigned word; unsigned char part[4]; unsigned short half[2]; };
struct flags { unsigned low : 3; int signed_part : 5; unsigned high : 9; };
"""


@dataclass
class Names:
    """The variables that an expression may read, and those of 64 bits."""

    narrow: list[str]
    wide: list[str] = field(default_factory=list)
    arrays: list[str] = field(default_factory=list)

    def without(self, *gone: str) -> Names:
        return Names(
            [name for name in self.narrow if name not in gone], [n for n in self.wide if n not in gone], self.arrays
        )

    def local_only(self) -> Names:
        """What no called function changes."""
        return Names([name for name in self.narrow if not name.startswith("g")], self.wide, [])


class Generator:
    """Writes one program for each seed."""

    def __init__(self, seed: int) -> None:
        self.random = random.Random(seed)
        self.count = 0
        self.functions: list[tuple[str, int]] = []
        self.element = self.random.choice(TYPES)

    def name(self, begin: str) -> str:
        self.count += 1
        return f"{begin}{self.count}"

    def pick(self, *choices: str) -> str:
        return self.random.choice(choices)

    def chance(self, share: float) -> bool:
        return self.random.random() < share

    # Expressions without effects.

    def constant(self) -> str:
        draw = self.random
        return self.pick(
            str(draw.randrange(10)),
            str(draw.randrange(300)),
            self.pick("65535", "32768", "127", "128", "255", "2147483647"),
            f"{draw.randrange(1 << 32):#x}",
            f"{draw.randrange(1, 99)}u",
            f"'{draw.choice('azAZ09')}'",
            "010",
            "GREEN",
            "BLUE",
            "'\\xf0'",
            "(int)sizeof(struct point)",
            "-1",
        )

    def value(self, names: Names, depth: int = 3) -> str:
        """A number of at most 32 bits."""
        if depth <= 0 or self.chance(0.15):
            return self.random.choice([self.constant(), *names.narrow, *names.narrow, *names.narrow])

        def below() -> str:
            return self.value(names, depth - 1)

        kind = self.random.randrange(18)
        if kind < 5:
            return f"({below()} {self.pick('+', '-', '*', '&', '|', '^')} {below()})"
        if kind == 5:
            return f"({below()} {self.pick('<<', '>>')} ({below()} & {self.pick('7', '15', '31')}))"
        if kind == 6:
            return f"({below()} {self.pick('/', '%')} {self.pick(f'(({below()} & 15) + 1)', '7', '8', '16', '100u')})"
        if kind == 7:
            return f"({below()} {self.pick('<', '>', '<=', '>=', '==', '!=')} {below()})"
        if kind == 8:
            return f"({below()} {self.pick('&&', '||')} {below()})"
        if kind == 9:
            return f"({self.pick('-', '~', '!', '+', '!!')} {below()})"
        if kind in (10, 11):
            return f"(({self.pick(*TYPES, 'byte', '_Bool')}){below()})"
        if kind == 12:
            return f"({below()} ? {below()} : {below()})"
        if kind in (13, 14) and names.arrays:
            array = self.random.choice(names.arrays)
            return f"{array}[{below()} & {SIZES.get(array, 7)}]"
        if kind == 15 and names.arrays:
            return f"m2[{below()} & 3][{below()} & 3]"
        if kind == 16 and names.wide:
            return f"(({self.pick('int', 'unsigned', 'short')})({self.wide(names, depth - 1)}))"
        if kind == 17 and names.wide:
            return f"({self.wide(names, depth - 2)} {self.pick('<', '>=', '==', '!=')} {self.wide(names, depth - 2)})"
        return f"({below()} {self.pick('+', '-', '^')} {below()})"

    def wide(self, names: Names, depth: int = 2) -> str:
        """A number of 64 bits."""
        if depth <= 0 or self.chance(0.2):
            return self.random.choice(
                [*names.wide, *names.wide, f"(long long){self.value(names, 0)}", "0x123456789abcLL", "-5LL"]
            )

        def below() -> str:
            return self.wide(names, depth - 1)

        kind = self.random.randrange(10)
        if kind < 3:
            return f"({below()} {self.pick('+', '-', '&', '|', '^')} {below()})"
        if kind == 3:
            return f"((long long){self.value(names, 1)} * {self.value(names, 1)})"
        if kind == 4:
            return f"({below()} * {below()})"
        if kind == 5:
            return (
                f"({below()} {self.pick('<<', '>>')}"
                f" {self.pick('1', '15', '31', '32', '40', f'({self.value(names, 1)} & 63)')})"
            )
        if kind == 6:
            small = f"((unsigned)({self.value(names, 1)} & 4095) + 1)"
            large = f"(({below()} & 0x7fffffffffLL) + 1)"
            return f"({below()} {self.pick('/', '%')} {self.pick('7', '1000', small, large)})"
        if kind == 7:
            return f"({self.pick('-', '~')} {below()})"
        if kind == 8:
            return f"({self.value(names, 1)} ? {below()} : {below()})"
        return f"(unsigned long long){self.value(names, depth)}"

    # One effect, on something that stands nowhere else in the expression.

    def effect(self, names: Names, depth: int = 2) -> str:
        changed = self.random.choice(names.narrow)
        others = names.without(changed)
        if not others.narrow:
            others = Names(["1"], others.wide, others.arrays)
        kind = self.random.randrange(8)
        if kind == 4 and self.functions:
            others = others.local_only()
            others = others if others.narrow else Names(["2"])
            function, count = self.random.choice(self.functions)
            done = f"{function}({', '.join(self.value(others, 1) for _ in range(count))})"
        elif kind in (0, 5):
            done = f"{changed}{self.pick('++', '--')}"
        elif kind == 1:
            done = f"{self.pick('++', '--')}{changed}"
        elif kind == 2:
            done = f"({changed} {self.pick('+=', '-=', '*=', '&=', '|=', '^=')} {self.value(others, 1)})"
        elif kind == 3:
            done = f"({changed} = {self.value(others, 1)})"
        elif kind == 6:
            done = f"({changed} = {self.value(others, 1)}, {self.value(names, 1)})"
            return done
        else:
            done = f"({changed} {self.pick('<<=', '>>=')} ({self.value(others, 1)} & 7))"
        return self.around(done, others, depth)

    def around(self, done: str, others: Names, depth: int) -> str:
        """An effect inside an expression."""
        match self.random.randrange(6):
            case 0:
                return done
            case 1:
                return f"({self.value(others, depth)} {self.pick('+', '-', '^', '&')} {done})"
            case 2:
                return f"({self.value(others, 1)} {self.pick('&&', '||')} {done})"
            case 3:
                return f"({self.value(others, 1)} ? {done} : {self.value(others, 1)})"
            case 4:
                return f"(({self.pick(*TYPES)}){done} {self.pick('<', '==', '*', '>>')} {self.random.randrange(1, 9)})"
        return f"({done} {self.pick('<', '==', '*', '>>')} {self.random.randrange(1, 9)})"

    # Statements.

    def statement(self, names: Names, depth: int, in_loop: bool) -> list[str]:
        kind = self.random.randrange(22) if depth > 0 else self.random.randrange(6)
        target = self.random.choice(names.narrow)
        if kind < 3:
            return [f"{target} {self.pick('=', '+=', '-=', '^=', '*=', '|=')} {self.value(names)};"]
        if kind == 3:
            return [f"{self.effect(names)};"]
        if kind == 4:
            return self.stored(names)
        if kind == 5:
            if names.wide:
                return [
                    f"{self.random.choice(names.wide)} {self.pick('=', '+=', '-=', '^=', '*=')} {self.wide(names)};"
                ]
            return [f"{target} = {self.value(names)};"]
        if kind in (6, 7):
            made = [
                f"if ({self.random.choice([self.value, self.effect])(names)})",
                *self.body(names, depth - 1, in_loop),
            ]
            return made + (["else", *self.body(names, depth - 1, in_loop)] if self.chance(0.5) else [])
        if kind in (8, 9, 10):
            return self.loop(names, depth, kind)
        if kind in (11, 12):
            return self.switch(names, depth, in_loop)
        if kind == 13 and in_loop:
            return [f"if ({self.value(names, 1)}) {self.pick('break', 'continue')};"]
        if kind == 14 and self.chance(0.3):
            return [f"if ({self.value(names, 1)}) return {self.value(names, 1)};"]
        if kind == 15:
            return self.jump(names, depth)
        if kind == 16:
            inner = self.name("v")
            body = self.statement(Names([*names.narrow, inner], names.wide, names.arrays), depth - 1, in_loop)
            return ["{", f"{self.pick(*TYPES)} {inner} = {self.value(names, 1)};", *body, f"{target} ^= {inner};", "}"]
        if kind == 17:
            return self.records(names, target)
        if kind == 18:
            return self.view(names, target)
        return self.stored(names)

    def stored(self, names: Names) -> list[str]:
        """An element or a member is set."""
        if not names.arrays:
            return [f"{self.random.choice(names.narrow)} += {self.value(names, 1)};"]
        array = self.random.choice([array for array in names.arrays if array not in ("table", "names")])
        match self.random.randrange(5):
            case 0:
                return [
                    f"m2[{self.value(names, 1)} & 3][{self.value(names, 1)} & 3] {self.pick('=', '+=', '^=')}"
                    f" {self.value(names)};"
                ]
            case 1:
                first, second = self.random.choice(names.narrow), self.random.choice(names.narrow)
                others = names.without(first, second)
                others = others if others.narrow else Names(["3"])
                return [f"{array}[{self.value(others, 1)} & 7] = {first} = {self.value(others)};"]
            case 2:
                index = self.random.choice(names.narrow)
                others = names.without(index)
                others = others if others.narrow else Names(["3"])
                return [
                    f"{index} &= 3;",
                    f"{array}[{index}{self.pick('++', '--')} & 7] {self.pick('=', '+=')} {self.value(others)};",
                ]
            case 3:
                return [f"{array}[{self.value(names, 1)} & 7]{self.pick('++', '--')};"]
        return [f"{array}[{self.value(names, 1)} & 7] {self.pick('=', '+=', '|=', '-=', '*=')} {self.value(names)};"]

    def body(self, names: Names, depth: int, in_loop: bool) -> list[str]:
        count = self.random.randrange(1, 4)
        return ["{", *(line for _ in range(count) for line in self.statement(names, depth, in_loop)), "}"]

    def loop(self, names: Names, depth: int, kind: int) -> list[str]:
        """A loop of one of the three kinds, whose counter nothing else sets."""
        counter, iterations = self.name("c"), self.random.randrange(1, 5)
        inner = Names([*names.narrow], names.wide, names.arrays)
        body = self.body(inner, depth - 1, True)
        if kind == 8:
            step = self.pick(f"{counter}++", f"{counter} += 1", f"++{counter}", f"{counter}++, g1 ^= {iterations}")
            read = [f"{self.random.choice(names.narrow)} += {counter};"]
            return [f"for (int {counter} = 0; {counter} < {iterations}; {step})", "{", *read, *body[1:]]
        if kind == 9:
            test = self.pick(f"{counter}-- > 0", f"--{counter}", f"{counter}-- && {self.value(names, 1)}")
            pragma = f'_Pragma( "loopbound min 0 max {iterations + 1}" )'
            return ["{", f"int {counter} = {iterations};", pragma, f"while ({test})", *body, "}"]
        test = self.pick(f"{counter}-- > 1", f"--{counter} > 0", f"{counter}++ < {iterations}")
        pragma = f'_Pragma( "loopbound min 1 max {iterations + 2}" )'
        begin = 0 if "++" in test else iterations
        return ["{", f"int {counter} = {begin};", pragma, "do", *body, f"while ({test});", "}"]

    def switch(self, names: Names, depth: int, in_loop: bool) -> list[str]:
        made = [f"switch ({self.value(names, 2)} & 7) {{"]
        labels = self.random.sample(range(8), self.random.randrange(2, 6))
        default = self.random.randrange(len(labels) + 2)
        for at, label in enumerate(labels):
            if at == default:
                made.append("default:")
            made.append(f"case {label}:")
            if self.chance(0.85):
                made += self.statement(names, depth - 1, in_loop)
            if self.chance(0.3):
                made.append(f"if ({self.value(names, 1)}) break;")
            if self.chance(0.65):
                made.append("break;")
        if made[-1].endswith(":"):
            made.append(";")
        return [*made, "}"]

    def jump(self, names: Names, depth: int) -> list[str]:
        """A jump forward."""
        label = self.name("over")
        inner = [line for _ in range(2) for line in self.statement(names, depth - 1, False)]
        target = self.random.choice(names.narrow)
        return ["{", f"if ({self.value(names, 1)}) goto {label};", *inner, f"{label}:", f"{target} ^= 1;", "}"]

    def records(self, names: Names, target: str) -> list[str]:
        made = self.name("r")
        value = self.value(names, 1)
        return [
            "{",
            f"struct point {made} = {{ {value}, {self.value(names, 1)} }};",
            f"{made}.tag = {self.value(names, 1)};",
            f"points[{self.value(names, 1)} & 1] = turn({made}, {self.value(names, 1)});",
            f"put(&points[1], {self.value(names, 1)}); {target} += points[0].x ^ points[1].y -" f" {made}.tag;",
            "}",
        ]

    def view(self, names: Names, target: str) -> list[str]:
        made = self.name("u")
        return [
            "{",
            f"union view {made}; {made}.word = {self.value(names, 2)}; {made}.part[{self.value(names, 1)} & 3] ="
            f" {self.value(names, 1)};",
            f"bits.low = {self.value(names, 1)}; bits.signed_part += {self.value(names, 1)};",
            f"{target} ^= {made}.half[1] + {made}.part[{self.value(names, 1)} & 3] + bits.low *" f" bits.signed_part;",
            "}",
        ]

    # Programs.

    def function(self, number: int) -> list[str]:
        """A function of numbers."""
        count = self.random.randrange(1, 4) if number else 8
        parameters = [f"q{at}" for at in range(count)]
        inner = [self.name("v") for _ in range(2)]
        wide = [self.name("w")]
        names = Names([*parameters, *inner, "g1"], wide, ["a1", "a2", "table"])
        made = [
            f"{self.pick('static ', '')}{self.pick(*TYPES)}"
            f" f{number}({', '.join(self.pick(*TYPES) + ' ' + p for p in parameters)})",
            "{",
        ]
        made += [f"{self.pick(*TYPES)} {name} = {self.random.randrange(70)};" for name in inner]
        made += [f"{self.pick(*WIDE)} {name} = {self.random.randrange(-70, 70)};" for name in wide]
        made.append(f"static {self.pick(*TYPES)} kept = 3;")
        for _ in range(self.random.randrange(1, 3)):
            made += self.statement(names, 2, False)
        made += [
            f"g1 += {inner[0]}; kept += {parameters[0]}; g2 ^= {wide[0]};",
            f"return {self.value(names, 2)} + kept;",
            "}",
        ]
        self.functions.append((f"f{number}", count))
        return made

    def pointers(self) -> list[str]:
        """Functions with pointers, lists and records."""
        kind = self.element
        loop = self.pick(
            "s += *p++ * *q++;",
            "*q++ = *p++ + 1;",
            "{ *p += s; s ^= *q++; p++; }",
            "s += (*p++)++;",
            "{ q[1] = p[0]; q++, p++; s += p[0] > 0; }",
            "s ^= *p++ - (q++)[1];",
        )
        return [
            f"{kind} b1[12], b2[12];",
            f"{kind} *a2_end = a2 + 8;",
            f"int walk({kind} *p, {kind} *q, int n)",
            "{ int s = 0;",
            '_Pragma( "loopbound min 0 max 6" )',
            f"while (n-- > 0) {loop}",
            "return s; }",
            "struct point turn(struct point p, int by) { struct point r; r.x = p.y + by; r.y = p.x; r.tag ="
            " p.tag + by; return r; }",
            "void put(struct point *p, int k) { p->x = k; p->y += p->x; (p + 0)->tag--; }",
            "int sum(struct node *list)",
            "{ int s = 0;",
            '_Pragma( "loopbound min 0 max 5" )',
            "while (list) { s = s * 3 + list->value; list = list->next; }",
            "return s; }",
            "static int deep(int n, int x) { return n <= 0 ? x : deep(n - 1, x * 3 + n) ^ n; }",
            "long long twice(long long x, int by) { return x * 2 + by; }",
        ]

    def whole(self) -> list[str]:
        inner = [self.name("v") for _ in range(4)]
        wide = [self.name("w") for _ in range(2)]
        names = Names([*inner, "g1"], wide, ["a1", "a2", "table", "names", "loc"])
        made = ["int whole(void)", "{"]
        made += [f"{self.pick(*TYPES)} {name} = {self.constant()};" for name in inner]
        made += [f"{self.pick(*WIDE)} {name} = {self.constant()};" for name in wide]
        begin = self.pick("0", "loc", "loc + 1")
        made += [f"{self.element} loc[8] = {{ 5, {inner[0]} }}, *step = {begin};", "struct node list[4];", "int at;"]
        made.append("for (at = 0; at < 12; at++) { b1[at] = at * 37; b2[at] = 100 - at; }")
        made.append(
            "for (at = 0; at < 4; at++) { list[at].value = at * 7; list[at].next = at < 3 ? &list[at + 1] : 0; }"
        )
        for _ in range(self.random.randrange(3, 6)):
            made += self.statement(names, 3, False)
        made.append(f"{inner[0]} += walk(b1 + {self.random.randrange(4)}, &b2[{self.random.randrange(5)}], 5);")
        made.append(
            f"{inner[1]} ^= walk(b2, b2 + 3, 4) + sum(list) + sum(list + 2) + deep({self.random.randrange(4)},"
            f" {inner[2]});"
        )
        made.append(f"{wide[0]} = twice({wide[1]}, {inner[3]}) + twice({inner[0]}, 3);")
        made.append(f"{inner[2]} += !step ? 3 : {inner[3]};")
        made.append("for (step = loc; step < loc + 8; step++) *step ^= 3;")
        made.append(f"step = points[0].tag & 1 ? loc + 1 : a2_end; if (step && {inner[1]}) {inner[2]} ^= *--step;")
        made.append(f"g2 += {wide[0]} ^ {wide[1]}; g1 += loc[3];")
        return [*made, f"return {self.value(names)};", "}"]

    def program(self) -> str:
        """The text of a program."""
        made = [HEAD, f"static {self.pick(*TYPES)} a1[8] = {{1, 2, 3, 250, -5}};", f"{self.element} a2[8];"]
        made.append(f"static const {self.pick(*TYPES)} table[16] = {{ 3, 1, 4, 1, 5, 9, 2, 6, [9] = 77, -8 }};")
        made.append('char names[8] = "qwerty";')
        made.append(f"{self.pick(*TYPES)} m2[4][4] = {{{{1, 2}}, {{3}}, {{-1, -2, 40000, 7}}}};")
        made.append(f"struct point points[2]; struct flags bits; {self.pick(*TYPES)} g1; {self.pick(*WIDE)} g2 = 7;")
        made += self.pointers()
        for number in range(self.random.randrange(1, 4)):
            made += self.function(number)
        made += self.whole()
        words = (
            "i < 8 ? a1[i] : i < 16 ? a2[i - 8] : i < 32 ? m2[(i - 16) / 4][i & 3] : i < 44 ? b1[i - 32] : i < 56 ?"
            " b2[i - 44]"
            " : i == 56 ? g1 : i == 57 ? points[0].x : i == 58 ? points[1].y : i == 59 ? points[0].tag : i"
            " == 60 ? (int)g2"
            " : (int)(g2 >> 32)"
        )
        made += ["int out[62];", "int main(void)", "{", "int value = whole(), i;"]
        made += [f"for (i = 0; i < 62; i++) out[i] = {words};", "return value;", "}", ""]
        return "\n".join(made)


def program(seed: int) -> str:
    """The program of a seed."""
    return Generator(seed).program()


# How deep the generated programs call themselves.
DEPTHS = {"deep": 5}
