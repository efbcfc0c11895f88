"""Pieces of C that are easy to get wrong: the lowered text gives what gcc gives for the original."""

from __future__ import annotations

from pathlib import Path

import pytest
from comparing import Case, by_gcc, lowered_by_gcc, lowered_text
from tcresttools.lowering.scopes import Options
from tcresttools.lowering.told import Refused
from texts import same_as_gcc

pytest.importorskip("pycparser")

PIECES = {
    "pointers to pointers": """
int a[4] = {1, 2, 3, 4}, b = 9;
void move(int **p) { *p = *p + 1; }
int main(void) { int *p = a, **q = &p; move(q); **q += 5; move(&p); *p = b; return a[1] * 100 + a[2] * 10 + (p - a);
}""",
    "an array of pointers": """
int a = 3, b = 4, c[2] = {5, 6};
int *all[4] = {&a, &b, c + 1};
int main(void) { int i, s = 0; for (i = 0; i < 4; i++) if (all[i]) s = s * 10 + *all[i]; *all[2] = 1; return s * 10 +
c[1]; }""",
    "strings in a table": """
static const char *const names[] = {"ab", "xyz", ""};
int length(const char *s) { int n = 0;
_Pragma("loopbound min 0 max 9") while (*s++) n++; return n; }
int main(void) { return length(names[0]) * 100 + length(names[1]) * 10 + length(names[2]) + names[1][2]; }""",
    "a pointer that runs backwards": """
int a[6] = {1, 2, 3, 4, 5, 6};
int main(void) { int *p, s = 0; for (p = a + 5; p > a; p -= 2) s = s * 7 + *p; return s * (p == a - 0) + (p - a);
}""",
    "a pointer to an array": """
int m[3][4] = {{1, 2}, {3, 4, 5, 6}, {7}};
int sum(int (*p)[4], int n) { int i, j, s = 0; for (i = 0; i < n; i++) for (j = 0; j < 4; j++) s = s * 3 + p[i][j];
return s; }
int main(void) { return sum(m + 1, 2) + sum(m, 3) + (*m)[1]; }""",
    "a function that gives a pointer": """
struct s { int k; struct s *up; } all[4];
struct s *find(int k) { int i; for (i = 0; i < 4; i++) if (all[i].k == k) return &all[i]; return 0; }
int main(void) { all[2].k = 7; all[2].up = &all[1]; all[1].k = 5; return find(7)->up->k * 10 + !find(99) + (find(5)
== all + 1); }""",
    "records with arrays": """
struct in { short v[3]; int w; }; struct out { struct in a[2]; char t; } x, y;
int main(void) { struct out z; x.a[1].v[2] = 70000; x.a[1].w = 3; x.t = 200; y = x; z = y; z.a[0] = z.a[1];
return z.a[0].v[2] + z.a[0].w * 1000 + z.t + sizeof(struct out); }""",
    "loops that are left and gone on with": """
int main(void) { int i, j, s = 0;
for (i = 0; i < 6; i++) { switch (i) { case 1: continue; case 4: goto end; default: break; }
for (j = 0; j < 5; j++) { if (j == i) continue; if (j > 3) break; s = s * 2 + j; if (s > 5000) goto next; } s += 100;
next: s ^= i; }
end: return s * 10 + i; }""",
    "a jump back and forth": """
int main(void) { int n = 0, s = 0;
again: n++; if (n == 3) goto over; s += n;
over: if (n < 6) goto again;
return s * 10 + n; }""",
    "continue in a do": """
int main(void) { int n = 0, s = 0;
_Pragma("loopbound min 1 max 9")
do { if (n & 1) continue; s += n; } while (++n < 7); return s * 10 + n; }""",
    "assignments in conditions": """
char t[] = "hello";
int main(void) { char *p = t, c; int s = 0, d;
_Pragma("loopbound min 0 max 9")
while ((c = *p++) && (d = c - 'a') != 14) s = s * 3 + d; return s * 100 + c; }""",
    "counting down without a sign": """
int main(void) { unsigned i; int s = 0;
_Pragma("loopbound min 0 max 9")
for (i = 5; i-- > 0;) s = s * 10 + i; return s + (i == 4294967295u); }""",
    "a counter that wraps": """
int main(void) { unsigned char i = 250; int n = 0;
_Pragma("loopbound min 0 max 20")
while (i != 5) { i++; n++; } return n * 1000 + i; }""",
    "recursion with an array of its own": """
int deep(int n, int *up) { int own[3], i; for (i = 0; i < 3; i++) own[i] = n * i + *up; if (n > 0) own[1] += deep(n -
1, own + 2);
return own[0] + own[1] * 3 + *up; }
int main(void) { int x = 2; return deep(3, &x); }""",
    "numbers of 64 bits in records and arrays": """
struct w { int a; long long b; unsigned long long c[2]; } x, y;
long long t[3] = {-1, 0x100000000LL, 5};
long long f(int a, int b, int c, int d, struct w e, long long g) { return a + e.b * g + (long long)e.c[0] + d; }
struct v { int a; long long b; };
struct v h(struct v p) { p.b = p.b * 3 - p.a; p.a++; return p; }
int main(void) { struct v p = {4, -5000000000LL}; x.b = t[0] - t[1]; x.c[1] = x.b; y = x; t[y.a & 3] += y.c[1]--; p =
h(h(p));
return (int)(t[0] >> 3) ^ (int)(p.b >> 20) ^ p.a ^ (t[0] < 0 ? 77 : 5) ^ (int)y.c[1] ^ (!t[2]) ^ (y.b && t[1]) ^
(int)(x.b ? t[0] : t[1]); }""",
    "short numbers and long ones": """
int main(void) { char c = 5; short s = -7; int x = 3; unsigned u = 9; long long w = 5000000123LL;
c += w; s *= w; x <<= (w & 3); u -= w; w += c; w >>= s & 7; x = w > u ? c : s; return c * 3 + s + x + (int)u +
(int)w; }""",
    "bytes and halves of a union": """
union u { long long w; struct { short a; signed char b; unsigned char c; } p; int i[2]; } x;
struct h { int k; union { unsigned char b[8]; unsigned short s[4]; int i; } u; } y[2];
int main(void) { int k = 1; x.w = 0x8182838485868788LL; x.p.b = -3; y[k].u.i = x.i[1]; y[k].u.b[k + 1] ^= 255;
y[k].u.s[0] += 0x7000;
return x.p.a * 3 + x.p.b + x.p.c * 7 + x.i[0] + y[1].u.i + y[1].u.s[1] + (int)sizeof y[0]; }""",
    "counts and indices of 64 bits": """
int a[5] = {1, 2, 3, 4, 5}; long long w = 0x300000002LL;
int main(void) { int x = 3, *p = a; x <<= w - 0x300000000LL; p += w >> 33; return (x << (w >> 33)) + a[w & 3] + *(p +
(w & 1))
+ ((w >> 32) == 3) + (5 >> (w / 0x200000000LL)); }""",
    "old functions": """
int add(a, b) int a; short b; { return a + b; }
int twice();
int main() { register int i = 3; return add(i, 70000) + twice(4); }
int twice(int x) { return x * 2; }""",
    "a switch with its default in the middle": """
int f(int x) { int n = 1; switch (x * 3 - 7) { case -7: n = 2; case 2: n *= 5; default: n += 3; case 100: n *= 7;
break; case -1: n = 0; }
return n; }
int main(void) { return f(0) + f(2) * 100 + f(3) * 1000 + f(5) * 10000; }""",
    "a switch with long arms that fall through": """
int g; int f(int x) { int n = x; switch (x) { case 1: n += g * 3; g ^= n * 7 - g; n -= g / 3; g += n % 5; n ^= g <<
3; g -= n >> 2;
n = n * g + 3; g = g * 5 - n; n = n ^ g; case 2: n += g * 7; g ^= n * 3 - g; n -= g / 5; g += n % 7; n ^= g << 2; g
-= n >> 3;
n = n * g + 5; g = g * 3 - n; if (n & 1) break; n = n ^ g * 3; case 3: n++; } return n; }
int main(void) { return f(1) + f(2) * 3 + f(3) * 5 + f(4) * 7 + g; }""",
    "calls in calls": """
int n; int next(int x) { return x * 3 + 1; } int pair(int a, int b) { return a * 10 + b; }
int main(void) { int i = 1, a[3] = {4, 5, 6}; a[next(0)] = pair(next(next(i++)), a[i] + next(a[2])); return a[1] + i;
}""",
    "enums and characters": """
enum e { A = -2, B, C = 'x', D }; enum e v = B;
int main(void) { char c = '\\xff', d = '\\n', f = '\\0', g = '\\'', h = '\\101'; return v * 1000 + D + c + d + f + g
+ h + ('\\x80' < 0) + A % 2; }""",
    "remainders and shifts of negative numbers": """
int main(void) { int s = 0, i; for (i = -9; i < 10; i += 3) s = s * 5 + i / 4 + i % 4 * 3 + (i >> 1) + i / 3 % 2 +
(unsigned)i % 16; return s; }""",
    "statics": """
int f(void) { static int n, a[3] = {1, 2}; static short s = -1; n++; a[n % 3] += n; s -= 20000; return a[0] + a[1] *
10 + a[2] * 100 + s; }
int main(void) { int x = f(), y = f(), z = f(); return x + y * 3 + z * 5; }""",
    "choices of choices": """
int f(int x) { return x > 5 ? x > 7 ? 3 : x == 6 ? 4 : 5 : x < 2 ? -x : x & 1 ? 7 : (x += 3, x * 2); }
int main(void) { int i, s = 0; for (i = 0; i < 10; i++) s = s * 3 + f(i); return s; }""",
    "ranges that meet their ends": """
int main(void) { int i, s = 0; unsigned char u; signed char c; for (i = 120; i <= 135; i++) { u = i * 2; c = i; s +=
u * 3 + c; }
for (i = 10; i >= -3; i -= 4) s = s * 2 + (i < -1) + (i > 8) * 4; return s; }""",
    "first values for parts of parts": """
struct in { short a[3]; signed char b; }; struct out { struct in x, y[2]; int z; };
struct out g = { .y[1].a[2] = 70000, .x.b = 200, .z = 4, .y[0] = { .a = {1, 2}, .b = 3 } };
int main(void) { struct out h = { .x.a[1] = g.z, .x.a[0] = 5, .y[1].b = g.x.b };
int t[2][2] = { [1][0] = 7, [0][1] = 9 };
return g.y[1].a[2] + g.x.b * 3 + g.y[0].a[1] * 7 + g.y[0].b + h.x.a[1] * 11 + h.x.a[0] + h.y[1].b * 5 + h.z + t[1][0]
+ t[0][1] * 3 + t[0][0]; }""",
    "two objects and null": """
int a[2] = {1, 2}, b[3] = {3, 4, 5}; int *p;
int f(int *q) { return q == 0 ? -1 : q ? *q : -2; }
int main(void) { int s = f(p); p = b + 1; s = s * 10 + f(p); p = a; s = s * 10 + f(p++); return s * 10 + f(p) + (p ==
a + 1) + (p != 0); }""",
}  # fmt: skip
TOLD = {
    "a jump back and forth": Options(bounds={("a.c", 3): 9}),
    "recursion with an array of its own": Options(depths={"deep": 4}),
}


@pytest.mark.parametrize("name", PIECES)
def test_piece(name: str) -> None:
    same_as_gcc(PIECES[name], TOLD.get(name))


HEADER = """typedef struct node node; enum side { LEFT, RIGHT };
struct node { int value; node *next; struct pair *both; union { int w; short s[2]; } bits; };
struct pair { node *side[2]; unsigned low : 3; };
typedef struct { int x, y; } point;
extern struct pair ends; extern point corner;
node *put(node *made, int value); point turned(point p); int width(struct pair *of);
"""
FIRST = """#include "all.h"
struct own { int a; } mine; struct pair ends; point corner = {3, 4}; node all[3];
int main(void) { int s = 0; node *at; mine.a = 5; put(&all[1], 7); put(all, 9); put(all + 2, 11);
corner = turned(corner);
_Pragma("loopbound min 0 max 3")
for (at = ends.side[LEFT]; at; at = at->next) s = s * 20 + at->value + at->bits.s[0] + (at->both == &ends);
return s * 100 + corner.x * 10 + width(&ends) + mine.a; }
"""
SECOND = """#include "all.h"
struct own { short b, c; } mine_too = {1, 2};
node *put(node *made, int value) { made->value = value; made->both = &ends; made->bits.w = 0x30002;
if (ends.side[RIGHT]) ends.side[RIGHT]->next = made; else ends.side[LEFT] = made;
ends.low += 3; return ends.side[RIGHT] = made; }
point turned(point p) { point q = {-p.y, p.x}; return q; }
int width(struct pair *of) { return of->low + mine_too.c; }
"""


def test_two_files_share_the_records_of_a_header(tmp_path: Path) -> None:
    paths = [tmp_path / name for name in ("first.c", "second.c")]
    (tmp_path / "all.h").write_text(HEADER, encoding="utf-8")
    for order in (paths, paths[::-1]):
        for path, text in zip(paths, (FIRST, SECOND), strict=True):
            path.write_text(text, encoding="utf-8")
        wanted = by_gcc(order, tmp_path, ["-fwrapv"])
        assert lowered_by_gcc(lowered_text(Case(order)), tmp_path, "low") == wanted


def test_a_record_that_has_other_members_in_another_file(tmp_path: Path) -> None:
    paths = [tmp_path / name for name in ("first.c", "second.c")]
    (tmp_path / "all.h").write_text("struct s {\n  int a;\n#ifdef MORE\n  int b;\n#endif\n};\nextern struct s x;\n")
    paths[0].write_text('#include "all.h"\nstruct s x; int main(void) { return x.a; }\n', encoding="utf-8")
    paths[1].write_text('#define MORE\n#include "all.h"\nint f(void) { return x.b; }\n', encoding="utf-8")
    with pytest.raises(Refused, match="other members"):
        lowered_text(Case(paths))
