"""Each rewriting of tools/lower: what goes in, and what comes out."""

from __future__ import annotations

import pytest
from tcresttools.lowering.scopes import Options
from texts import body, lines_of, lowered, notes, same_as_gcc

pytest.importorskip("pycparser")


# Effects.


def test_steps_wait_for_the_end_of_the_expression() -> None:
    text = "int a[4], b[4]; int main(void) { int *p = a, *q = b; *p++ = *q++; return p - a + q - b; }"
    assert body(text)[2:5] == ["a[p] = b[q];", "p = p + 1;", "q = q + 1;"]


def test_a_step_before_is_done_before() -> None:
    assert body("int a[4]; int main(void) { int i = 0; a[++i] = 5; return i; }")[1:3] == ["i = i + 1;", "a[i] = 5;"]


def test_an_assignment_as_a_value() -> None:
    assert body("int main(void) { int x, y; x = y = 3; return x + y; }")[:2] == ["int y = 3;", "int x = 3;"]


def test_a_call_goes_out_of_an_expression() -> None:
    found = body("int f(int a) { return a; } int main(void) { return f(1) + f(2); }")
    assert found == ["int t1 = f(1);", "int t1_2 = f(2);", "return t1 + t1_2;"]


def test_the_right_side_of_and_is_done_where_the_left_side_holds() -> None:
    found = body("int g; int f(void) { return g++; } int main(void) { if (g && f()) return 1; return g; }")
    assert found[:4] == ["int t1_2 = g != 0;", "if (t1_2) {", "int t1 = f();", "t1_2 = t1 != 0;"]


def test_a_choice_is_a_branch() -> None:
    found = body("int g = 4; int main(void) { int y; g = g * 5; y = g > 3 ? g * 2 : g - 1; return y; }")
    assert found[2:7] == ["if (g > 3) {", "y = g * 2;", "} else {", "y = g - 1;", "}"]


def test_a_value_at_hand_is_kept_while_a_call_changes_what_it_read() -> None:
    text = "int g = 1; int f(void) { g = 5; return 1; } int main(void) { int x = (g + 0) + f(); return x; }"
    assert any("C leaves open" in words for _, words in notes(text))


def test_a_comma_is_one_after_another() -> None:
    same_as_gcc("int main(void) { int i, j; for (i = 0, j = 9; i < j; i++, j--) ; return i * 10 + j; }")


# Short types.


def test_a_store_of_a_short_type_is_masked() -> None:
    text = "unsigned char c; int g = 300; int main(void) { g = g * 3; c = g; return c; }"
    assert "c = g & 255;" in body(text)


def test_a_store_of_a_type_with_sign_is_extended() -> None:
    text = "signed char c; int g = 300; int main(void) { g = g * 3; c = g; return c; }"
    assert "c = g << 24 >> 24;" in body(text)


def test_a_mask_that_is_idle_is_left_out() -> None:
    text = "unsigned char c[4]; int main(void) { int i; for (i = 0; i < 4; i++) c[i] = i * 60; return c[3]; }"
    assert "c[i] = i * 60;" in body(text)


def test_a_bool_is_0_or_1() -> None:
    text = "_Bool b; int g = 6; int main(void) { g = g * 7; b = g; return b; }"
    assert "b = g != 0;" in body(text)


@pytest.mark.parametrize("kind", ["signed char", "unsigned char", "short", "unsigned short", "_Bool"])
def test_short_types_are_those_of_gcc(kind: str) -> None:
    same_as_gcc(
        f"{kind} f({kind} x) {{ x += 300; return x - 7; }} int main(void) {{ {kind} y = 70000; y++; return f(y) * 3"
        f" + (({kind})-5); }}"
    )


# Signs.


def test_a_comparison_of_unsigned_numbers() -> None:
    same_as_gcc(
        "int main(void) { int a = -1; unsigned b = 3; return (a > b) * 4 + ((unsigned)a / 7 == b) * 2 + (a >> 1 =="
        " -1); }"
    )


def test_division_by_a_power_of_two_goes_towards_zero() -> None:
    same_as_gcc("int f(int x) { return x / 8 * 100 + x % 8; } int main(void) { return f(-17) * 1000 + f(17); }")
    assert "return x / 7;" in body(
        "int g; int f(int x) { return x / 7; } int main(void) { g = g * 5; return f(g); }", "f"
    )


def test_not_not_is_0_or_1() -> None:
    same_as_gcc("int main(void) { int x = 6; return !!x + (1 == !(!(x & 4))); }")


# Pointers.


def test_an_object_alone_keeps_its_array() -> None:
    found = lines_of("int a[3]; int f(int *p) { return *p; } int main(void) { return f(a + 1); }")
    assert "int a[3];" in found and "return a[p];" in found


def test_objects_of_one_pointer_share_an_array() -> None:
    found = lines_of("int a[3], b[4]; int f(int *p) { return p[1]; } int main(void) { return f(a) + f(b); }")
    assert "int memory_a[7];" in found and "int t1_2 = f(3);" in found


def test_null_is_word_0() -> None:
    text = "int a[3] = {7}; int *p; int main(void) { if (!p) p = a; return *p; }"
    found = lines_of(text)
    assert "int a[4] = {0, 7};" in found and "if (p == 0) {" in [line.replace("!p", "p == 0") for line in found]


def test_a_pointer_that_is_never_null_is_true() -> None:
    same_as_gcc("int a[3] = {7}; int main(void) { int *p = a; return p ? *p : -1; }")


def test_out_parameters() -> None:
    same_as_gcc(
        "void f(int *x, int *y) { *x = 4; *y = *x + 1; } int main(void) { int a, b; f(&a, &b); return a * 10 + b; }"
    )


def test_a_list_in_an_array() -> None:
    same_as_gcc(
        "struct n { int v; struct n *next; } l[3]; int main(void) { int s = 0; struct n *p; l[0].v = 1;"
        " l[0].next = &l[2];"
        " l[2].v = 5;\n#pragma loopbound min 0 max 4\nfor (p = l; p; p = p->next) s += p->v; return s; }"
    )


# Control flow.


def test_do_is_done_once_at_least() -> None:
    text = "int main(void) { int n = 0;\n#pragma loopbound min 1 max 3\ndo { n++; } while (n < 3); return n; }"
    found = body(text)
    assert found[1:8] == [
        "int go = 1;",
        '_Pragma("loopbound min 1 max 3")',
        "while (go) {",
        "n = n + 1;",
        "go = n < 3;",
        "}",
        "return n;",
    ]


def test_continue_comes_to_the_step() -> None:
    same_as_gcc(
        "int main(void) { int i, j, s = 0; for (i = 0, j = 5; i < 6; i++, j--) { if (i & 1) continue; s += j; }"
        " return s; }"
    )


def test_break_out_of_two_loops_by_goto() -> None:
    same_as_gcc(
        "int main(void) { int i, j, s = 0; for (i = 0; i < 4; i++) { for (j = 0; j < 4; j++) { s += i * j;"
        " if (s > 7) goto out; } } s = 100; out: return s + i; }"
    )


def test_goto_back_is_a_loop_with_a_bound() -> None:
    text = "int main(void) { int n = 0;\nagain: n += 3; if (n < 10) goto again; return n; }"
    with pytest.raises(Exception, match="needs a bound"):
        lowered(text)


def test_a_switch_is_a_chain() -> None:
    text = (
        "int f(int x) { switch (x) { case 1: return 4; case 2: x = 9; break; default: x = 0; } return x; } int"
        " main(void) { return f(2); }"
    )
    found = body(text, "f")
    assert [line for line in found if "if (" in line] == ["if (choice == 1) {", "} else if (choice == 2) {"]


def test_arms_that_are_the_same_are_joined() -> None:
    cases = " ".join(f"case {number}: n++; break;" for number in range(60))
    found = body(
        f"int f(int x) {{ int n = 0; switch (x) {{ {cases} case 60: n = 7; break; }} return n; }} int main(void) {{"
        f" return f(3); }}",
        "f",
    )
    assert sum(line.count("if (") for line in found) == 2


@pytest.mark.parametrize("value", range(6))
def test_falling_through(value: int) -> None:
    same_as_gcc(
        "int f(int x) { int n = 0; switch (x) { case 0: n += 1; case 1: n += 10; break; case 2: n += 100;"
        " default: n += 1000;"
        f" case 4: n += 10000; }} return n; }} int main(void) {{ return f({value}); }}"
    )


# Data.


def test_arrays_of_two_indices() -> None:
    assert "return m[i * 3 + j];" in body(
        "int m[2][3]; int f(int i, int j) { return m[i][j]; } int main(void) { return f(1, 2); }", "f"
    )


def test_first_values() -> None:
    found = lines_of('int a[2][3] = {{1}, 2, [1] = {4, 5}}; char s[] = "ab"; int main(void) { return a[1][1] + s[1]; }')
    assert "int a[6] = {1, 0, 0, 4, 5};" in found and "int s[3] = {97, 98};" in found


def test_a_static_variable_stands_outside() -> None:
    assert "int f_n = 4;" in lines_of(
        "int f(void) { static int n = 4; return n++; } int main(void) { return f() + f(); }"
    )


def test_records_by_value() -> None:
    same_as_gcc(
        "struct p { int x; short y; }; struct p f(struct p a) { struct p r = a; r.x += a.y; return r; }"
        " int main(void) { struct p q = {3, 4}; q = f(q); return f(q).x * 10 + q.y; }"
    )


def test_more_than_six_parameters() -> None:
    same_as_gcc(
        "int f(int a, int b, int c, int d, int e, int g, int h, int i) { return h * 10 + i + a; } int main(void) {"
        " return f(1,2,3,4,5,6,7,8); }"
    )


def test_bytes_of_a_union() -> None:
    same_as_gcc(
        "union u { unsigned w; unsigned char b[4]; } v; int main(void) { int i = 2; v.w = 0x12345678; v.b[i]++;"
        " return v.b[1] * 1000 + (v.w >> 16); }"
    )


def test_bit_fields_keep_their_bits() -> None:
    same_as_gcc(
        "struct s { unsigned a : 3; int b : 4; } s; int main(void) { s.a = 13; s.b = 9; s.a += 4; return s.a * 100"
        " + s.b; }"
    )


# 64 bits.


@pytest.mark.parametrize("sign", ["+", "-", "*", "/", "%", "&", "|", "^"])
@pytest.mark.parametrize("kind", ["long long", "unsigned long long"])
def test_arithmetic_of_64_bits(sign: str, kind: str) -> None:
    same_as_gcc(
        f"{kind} a = 0x123456789abcdefLL, b = -77; int main(void) {{ {kind} c = a {sign} b, d = b {sign} (a >> 40);"
        " return (int)c ^ (int)(c >> 32) * 3 ^ (int)d * 5 ^ (int)(d >> 32) * 7 + (a < b) + (b <= d); }"
    )


@pytest.mark.parametrize("by", [0, 1, 31, 32, 33, 63])
def test_shifts_of_64_bits(by: int) -> None:
    same_as_gcc(
        f"long long a = -0x123456789abcdefLL; int n = {by}; int main(void) {{ long long b = a << n, c = a >> n;"
        f" unsigned long long d = (unsigned long long)a >> {by}; return (int)(b ^ c ^ d ^ (a << {by})) ^"
        f" (int)((b ^ c ^ d) >> 32); }}"
    )


def test_a_product_of_two_words_for_a_filter() -> None:
    same_as_gcc(
        "int a = 0x7fffffff, b = -12345; int main(void) { return (int)(((long long)a * b + (1 << 15)) >> 16); }"
    )


def test_the_upper_word_of_an_inverted_number_counts_in_a_product() -> None:
    same_as_gcc(
        "unsigned a = 5; long long b = 24; int main(void) { b *= ~(long long)a; return (int)b ^ (int)(b >> 32) * 3; }"
    )


# Bounds and recursion.


def test_the_bound_of_a_counting_loop_is_inferred() -> None:
    text = "int main(void) { int i, s = 0;\nfor (i = 3; i <= 20; i += 4) s += i;\nreturn s; }"
    assert (2, "note: this loop iterates at most 5 times") in notes(text)


def test_the_bound_of_a_loop_to_a_parameter_is_inferred() -> None:
    text = (
        "int f(int n) { int i, s = 0;\nfor (i = 0; i < n; i++) s += i;\nreturn s; } int main(void) { return f(7) +"
        " f(9); }"
    )
    assert (2, "note: this loop iterates at most 9 times") in notes(text)


def test_the_bound_of_the_command_line_counts() -> None:
    text = "int g = 9; int main(void) {\nwhile (g > 3) g = g * 2 % 11;\nreturn g; }"
    with pytest.raises(Exception, match="needs a bound"):
        lowered(text)


def test_recursion_has_a_function_for_each_level() -> None:
    text = "int f(int n) { return n ? f(n - 1) * n : 1; } int main(void) { return f(4); }"
    found = lines_of(text, Options(depths={"f": 5}))
    assert [line for line in found if line.startswith("int f_")] == [
        f"int f_{level}(int n)" for level in (5, 4, 3, 2, 1)
    ]
    same_as_gcc(text, Options(depths={"f": 5}))


def test_two_functions_that_call_one_another() -> None:
    text = (
        "int odd(int); int even(int n) { return n == 0 ? 1 : odd(n - 1); } int odd(int n) { return n == 0 ? 0 :"
        " even(n - 1); } int main(void) { return even(5) * 2 + odd(5); }"
    )
    same_as_gcc(text, Options(depths={"even": 4}))


# Limits.


def test_a_heavy_function_is_split() -> None:
    lines = "\n".join(
        f"s = s * 3 + a[(s + {number}) & 7] * {number}; if (s > {number}) {{ s = s - a[{number % 8}]; }}"
        for number in range(60)
    )
    text = f"int a[8] = {{3, 1, 4, 1, 5, 9, 2, 6}}; int main(void) {{ int s = 1;\n{lines}\nreturn s; }}"
    assert any(line.startswith("void main_part") for line in lines_of(text))
    same_as_gcc(text)


def test_functions_that_are_called_once_are_taken_in() -> None:
    functions = "\n".join(
        f"int f{number}(int x) {{ if (x > {number}) return x; return x + {number}; }}" for number in range(20)
    )
    calls = " ".join(f"s = f{number}(s);" for number in range(20))
    text = f"{functions} int main(void) {{ int s = 1; {calls} return s; }}"
    assert len(lowered(text).text.functions) <= 16
    same_as_gcc(text)


# Names.


def test_names_of_the_subset_are_other_names() -> None:
    same_as_gcc(
        "int send = 3; int f(int shared) { int comm = shared; return comm; } int main(void) { return f(send); }"
    )


def test_functions_that_nothing_calls_go() -> None:
    assert not any("unused" in line for line in lines_of("int unused(void) { return 1; } int main(void) { return 2; }"))
