"""What to write in place of a C text that is no program: by the first token that cannot stand where it stands."""

from __future__ import annotations

import re
from collections.abc import Callable
from dataclasses import dataclass

from . import c_text
from .c_text import Token
from .c_tree import CLOSING, KINDS, MOST_OPEN, NUL, OPERATORS, Want, Wrong, is_plain_name, unit_of
from .mending import Advice, Edit
from .near import near_names

TYPES = {
    "char": "int", "short": "int", "long": "int", "signed": "int", "float": "int", "double": "int", "_Bool": "int",
    "bool": "int", "int8_t": "int", "int16_t": "int", "int32_t": "int", "int64_t": "int", "ssize_t": "int",
    "uint8_t": "unsigned", "uint16_t": "unsigned", "uint32_t": "unsigned", "uint64_t": "unsigned", "size_t": "unsigned",
    "uint": "unsigned", "u8": "unsigned", "u16": "unsigned", "u32": "unsigned", "uintptr_t": "unsigned",
}  # fmt: skip
LEFT_OUT = {
    "const": "leave `const` out: a value that stays is a number, or a variable outside functions",
    "static": "leave `static` out; a variable that keeps its value stands outside functions",
    "volatile": "leave `volatile` out: every access is done as it is written",
    "register": "leave `register` out",
    "extern": "leave `extern` out: a task is one text, and declares what it uses",
    "inline": "leave `inline` out",
    "auto": "leave `auto` out, and write the kind, `int` or `unsigned`",
    "restrict": "leave `restrict` out: there are no pointers",
}
NOT_THERE = {
    "typedef": "there is no `typedef`: write `int` or `unsigned` where the new name would stand",
    "struct": "there are no structures: write a variable, or an array outside functions, for each member",
    "union": "there are no unions: a variable or an array holds one word of 32 bits each",
    "enum": "there is no `enum`: write the numbers, or a variable outside functions for each",
    "switch": "write `if (..) { .. } else if (..) { .. }`",
    "case": "write `if (..) { .. } else if (..) { .. }`",
    "default": "write a last `else { .. }`",
    "do": "write a `while` loop with its bound",
    "goto": "there is no `goto`: write a loop, and leave it by `break`",
    "sizeof": "there is no `sizeof`: each value is one word of 4 bytes, and the length of an array is a number",
}
SPELLED = ["return", "while", "for", "if", "else", "break", "continue", "int", "unsigned", "void", "send"]
STARTERS = frozenset("int unsigned void if else while for break continue return send _SPM }".split())
STATEMENT_ENDS = {Want.LOCAL, Want.GLOBAL, Want.GLOBAL_END, Want.ARRAY, Want.CALL_END, Want.SEMICOLON}
HERE_STANDS = {
    Want.UNIT: "a declaration or a function, which begins with `int`, `unsigned`, `void` or `_SPM`",
    Want.KIND: "`int` or `unsigned`",
    Want.NAME: "the name that is declared",
    Want.GLOBAL: "`;`, `= NUMBER;`, `[NUMBER]` or `(`",
    Want.LENGTH: "the length, a number",
    Want.LENGTH_END: "`]`",
    Want.ARRAY: "`;` or `= {..};`",
    Want.LIST: "`{` and the first values",
    Want.CONSTANT: "a number, or `-` and a number",
    Want.LIST_NEXT: "`,` or `}`",
    Want.GLOBAL_END: "`;`",
    Want.PARAMS_OPEN: "`(`: only a function is `void`",
    Want.PARAM: "a parameter, as `int x`",
    Want.PARAM_NEXT: "`,` or `)`",
    Want.BLOCK: "a block in braces",
    Want.STATEMENT: "a statement, or the `}` that ends the block",
    Want.LOCAL: "`;` or `=`",
    Want.NAMED: "`=`, `[` or `(`",
    Want.ASSIGN: "`=`",
    Want.OPERAND: "an operand: a number, a name, an element or an expression in parentheses",
    Want.CALL_END: "`;`",
    Want.OPEN: "`(`",
    Want.SEND_CORE: "the number of a core",
    Want.COMMA: "`,`: `send` has four arguments, a core, two indexes and a count",
    Want.LOOP: "the loop: a bound stands right before it",
    Want.FOR_NAME: "an assignment: the head is `for (i = A; CONDITION; i = B)`",
    Want.SEMICOLON: "`;`",
}


@dataclass(frozen=True)
class Scene:
    """A text that is no program: its tokens, the first that cannot stand where it stands, and what was wanted there."""

    source: bytes
    tokens: list[Token]
    wrong: Wrong

    def at(self, number: int) -> Token:
        return self.tokens[number] if 0 <= number < len(self.tokens) else NUL

    @property
    def token(self) -> Token:
        return self.at(self.wrong.at)

    @property
    def before(self) -> Token:
        return self.at(self.wrong.at - 1)

    @property
    def behind(self) -> Token:
        return self.at(self.wrong.at + 1)

    @property
    def is_end(self) -> bool:
        return self.wrong.at >= len(self.tokens)

    @property
    def first(self) -> Token:
        """The first token of the statement, or of the declaration."""
        return self.at(self.wrong.begin)

    def replace(self, token: Token, text: str) -> tuple[Edit, ...]:
        return (Edit(token.at, token.end, text),)

    def insert(self, at: int, text: str) -> tuple[Edit, ...]:
        return (Edit(at, at, text),)

    def new_line(self, number: int) -> bool:
        """The token stands on another line than the one before it."""
        return b"\n" in self.source[self.at(number - 1).end : self.at(number).at]

    def text(self, first: int, last: int) -> str:
        """The text from one token up to another's end, in one line."""
        return " ".join(self.source[self.at(first).at : self.at(last).end].decode("utf-8", "replace").split())

    def matching(self, number: int) -> int:
        """The token that closes a bracket, or the last one."""
        depth = 0
        for at in range(number, len(self.tokens)):
            depth += (self.tokens[at].text in CLOSING) - (self.tokens[at].text in CLOSING.values())
            if depth == 0:
                return at
        return len(self.tokens) - 1

    def statement_end(self, number: int) -> int:
        """The last token of the statement that begins here."""
        text = self.at(number).text
        if text == "{":
            return self.matching(number)
        if self.at(number).is_bound:
            return self.statement_end(number + 1)
        if text in ("if", "while", "for"):
            last = self.statement_end(self.matching(number + 1) + 1)
            return self.statement_end(last + 2) if text == "if" and self.at(last + 1).text == "else" else last
        while number < len(self.tokens) - 1 and self.at(number).text != ";":
            number = self.matching(number) + 1 if self.at(number).text in CLOSING else number + 1
        return min(number, len(self.tokens) - 1)

    def knows(self, name: str) -> bool:
        """The name is declared somewhere before, as `kind NAME`."""
        return any(
            self.tokens[at].text == name and self.tokens[at - 1].text in (*KINDS, "void")
            for at in range(1, self.wrong.at)
        )


Rule = Callable[[Scene], Advice | None]


def types(scene: Scene) -> Advice | None:
    """A type that the subset does not have: a keyword, or a name as `uint32_t`."""
    wrong, number = scene.wrong, scene.wrong.at
    if wrong.want is Want.NAMED and scene.before.text in TYPES and number - 1 == wrong.begin:
        number -= 1
    word = scene.at(number)
    if word.text not in TYPES or wrong.want is Want.OPERAND:
        return None
    last = number
    while scene.at(last + 1).text in (*TYPES, *KINDS):
        last += 1
    kind = "unsigned" if "unsigned" in [scene.at(at).text for at in range(number, last + 1)] else TYPES[word.text]
    shown = scene.text(number, last)
    if wrong.want is Want.NAME and scene.before.text in KINDS:
        kind = scene.before.text
        text = f"there are `int` and `unsigned` alone, each one word: write `{kind}` in place of `{kind} {shown}`."
        return Advice(text, word.at, mend=(Edit(word.at, scene.at(last).end, ""),))
    if wrong.want not in (Want.UNIT, Want.KIND, Want.PARAM, Want.STATEMENT, Want.NAMED, Want.FOR_NAME):
        return None
    more = " There are no numbers with a point." if word.text in ("float", "double") else ""
    text = f"there are `int` and `unsigned` alone, each one word: write `{kind}` in place of `{shown}`.{more}"
    return Advice(text, word.at, mend=(Edit(word.at, scene.at(last).end, kind),))


def words(scene: Scene) -> Advice | None:
    """A keyword of C that the subset does not have."""
    text = scene.token.text
    if text in LEFT_OUT:
        end = scene.behind.at if scene.behind is not NUL else scene.token.end
        return Advice(f"{LEFT_OUT[text]}.", mend=(Edit(scene.token.at, end, ""),))
    if text in NOT_THERE and scene.wrong.want is not Want.NAME:
        return Advice(f"{NOT_THERE[text]}.")
    return None


def pointers(scene: Scene) -> Advice | None:
    """A pointer, or an address."""
    want, text = scene.wrong.want, scene.token.text
    declares = want is Want.NAME and text == "*"
    uses = want in (Want.STATEMENT, Want.OPERAND) and text in ("*", "&") and is_plain_name(scene.behind)
    if not declares and not uses:
        return None
    name = scene.behind.text if is_plain_name(scene.behind) else "a"
    if (
        declares
        and scene.wrong.function is not None
        and scene.wrong.opened
        and scene.at(scene.wrong.opened[-1]).text == "("
    ):
        return Advice(
            f"there are no pointers: a function reaches an array outside functions by its name, `{name}[i]`; give it"
            " the index where that differs."
        )
    return Advice(
        f"there are no pointers and no addresses: write an array outside functions, as `int {name}[4];`, and an index,"
        f" `{name}[i]`."
    )


def misspelled(scene: Scene) -> Advice | None:
    """A keyword with letters exchanged, at the front of the statement."""
    wrong, first = scene.wrong, scene.first
    if not is_plain_name(first) or scene.knows(first.text):
        return None
    if wrong.want not in (Want.UNIT, Want.NAMED, Want.CALL_END, Want.CHAIN, Want.STATEMENT, Want.OPERAND):
        return None
    near = near_names(first.text, SPELLED)
    if not near or (wrong.at > wrong.begin and scene.token.text == "=" and scene.before is first):
        return None
    return Advice(
        f"`{first.text}` is no word of the language: is `{near[0]}` meant?",
        first.at,
        mend=scene.replace(first, near[0]),
    )


def bodies(scene: Scene) -> Advice | None:
    """What stands under an `if`, an `else` or a loop without braces; and a function without its block."""
    wrong, token = scene.wrong, scene.token
    if wrong.want is not Want.BLOCK:
        return None
    if wrong.owner not in ("if", "else", "while", "for"):
        if token.text != ";":
            return None
        return Advice(
            (
                f"there are no declarations of functions: leave this line out, and write `{wrong.owner}` with its block"
                " before the function that calls it."
            ),
            mend=(Edit(scene.first.at, token.end, ""),),
        )
    if token.text == ";":
        return Advice(
            f"what is under `{wrong.owner}` stands in braces: an empty body is `{{ }}`.",
            mend=scene.replace(token, "{ }"),
        )
    if token.text in (")", "]"):
        return Advice(f"a `{token.text}` too many: it closes nothing.", mend=scene.replace(token, ""))
    if scene.is_end or token.text in ("}", "else", ",", "=", *OPERATORS):
        return Advice(f"a block in braces is missing after `{scene.before.text}`.", scene.before.end)
    last = scene.statement_end(wrong.at)
    shown = scene.text(wrong.at, last)
    shown = shown if len(shown) <= 40 else shown[:36] + " .."
    mend = (Edit(token.at, token.at, "{ "), Edit(scene.at(last).end, scene.at(last).end, " }"))
    return Advice(f"what is under `{wrong.owner}` stands in braces: write `{{ {shown} }}`.", mend=mend)


def open_braces(scene: Scene) -> list[int]:
    return [at for at in scene.wrong.opened if scene.at(at).text == "{"]


def indent(scene: Scene, number: int) -> tuple[int, bool]:
    """The blanks in front of the line of a token, and whether the token begins the line."""
    at = scene.at(number).at
    begin = scene.source.rfind(b"\n", 0, at) + 1
    line = scene.source[begin:at]
    return len(line) - len(line.lstrip(b" \t")), not line.strip(b" \t")


def unclosed(scene: Scene) -> int:
    """The brace that lacks its `}`: as lines are set in, one whose `}` stands further left; else the innermost."""
    stack: list[int] = []
    opened = open_braces(scene)
    for number in range(opened[0], scene.wrong.begin if not scene.is_end else len(scene.tokens)):
        text = scene.at(number).text
        if text == "{":
            stack.append(number)
        elif text == "}" and stack:
            set_in, begins = indent(scene, number)
            if begins and set_in < indent(scene, stack[-1])[0]:
                return stack[-1]
            stack.pop()
    return opened[-1]


def missing_braces(scene: Scene) -> Advice | None:
    """A function that begins inside another, or a text that ends in one: a `}` is missing."""
    wrong, opened = scene.wrong, open_braces(scene)
    begins = wrong.want is Want.LOCAL and scene.token.text == "("
    begins |= wrong.want is Want.STATEMENT and scene.token.text in ("void", "_SPM")
    ends = scene.is_end and wrong.want is Want.STATEMENT
    if not opened or not (begins or ends):
        return None
    lacking = unclosed(scene)
    closing = " }" * len(opened)
    also = ((scene.at(lacking).at, "this `{` has no `}`, as the lines are set in."),)
    if ends:
        return Advice(
            "the text ends here, and a `}` is missing.", scene.before.end, also, scene.insert(scene.before.end, closing)
        )
    inside = "another" if wrong.function is None else f"`{wrong.function.name}`"
    text = f"a function begins here, and {inside} has not ended: a `}}` is missing before it."
    return Advice(text, scene.first.at, also, scene.insert(scene.first.at, closing[1:] + " "))


def semicolons(scene: Scene) -> Advice | None:
    """A statement that has not ended where the next one begins."""
    wrong, token = scene.wrong, scene.token
    wanted = wrong.want in STATEMENT_ENDS or (wrong.want is Want.CHAIN and wrong.closing == ";")
    if wrong.want is Want.NAMED and wrong.owner and scene.new_line(wrong.at):
        return None
    next_one = token.text in STARTERS or token.text in TYPES or is_plain_name(token) or token.is_bound
    if not wanted or not (next_one or scene.is_end) or wrong.owner == "for":
        return None
    end = scene.before.end
    if scene.before.text == "main":
        return Advice("a function has parentheses: `int main()`.", end)
    return Advice(f"a `;` is missing after `{scene.before.text}`.", end, mend=scene.insert(end, ";"))


def closings(scene: Scene) -> Advice | None:
    """A bracket that is still open where the statement goes on, or one that closes nothing."""
    wrong, token = scene.wrong, scene.token
    if wrong.want is Want.CHAIN and wrong.owner == "for" and wrong.closing == ")" and token.text == ";":
        return Advice("the head of a `for` has three parts: nothing stands after the last, `i = B`.")
    wanted = wrong.want is Want.CHAIN and wrong.closing in (")", "]")
    wanted |= wrong.want in (Want.PARAM_NEXT, Want.LENGTH_END)
    wanted |= wrong.want is Want.PARAM and scene.before.text == "(" and token.text == "{"
    if wanted and (token.text in STARTERS or token.text in ("{", ";") or scene.is_end or scene.new_line(wrong.at)):
        closing = "]" if wrong.want is Want.LENGTH_END else wrong.closing or ")"
        opener = scene.wrong.opened[-1]
        also = ((scene.at(opener).at, f"this `{scene.at(opener).text}` is still open."),)
        end = scene.before.end
        return Advice(f"a `{closing}` is missing after `{scene.before.text}`.", end, also, scene.insert(end, closing))
    if token.text in (")", "]") and wrong.want in (
        Want.CHAIN,
        Want.CALL_END,
        Want.LOCAL,
        Want.STATEMENT,
        Want.SEMICOLON,
    ):
        if not any(scene.at(at).text in ("(", "[") for at in wrong.opened):
            return Advice(f"a `{token.text}` too many: it closes nothing.", mend=scene.replace(token, ""))
    return None


def calls(scene: Scene) -> Advice | None:
    """A call inside an expression."""
    wrong, token = scene.wrong, scene.token
    behind = "call stands alone, or is a whole right side: give its value to a variable first,"
    if wrong.want is Want.CALL_END and token.text in OPERATORS:
        return Advice(f"a {behind} `int y = {wrong.owner}(..);`, and go on with `y`.")
    if wrong.want is not Want.CHAIN or token.text != "(" or not is_plain_name(scene.before):
        return None
    last = scene.matching(wrong.at)
    call = scene.text(wrong.at - 1, last)
    shown = call if len(call) < 40 else f"{scene.before.text}(..)"
    mend = (Edit(scene.before.at, scene.at(last).end, "0"),)
    return Advice(f"a {behind} `int y = {shown};`, and write `y` here.", scene.before.at, mend=mend)


def two_names(scene: Scene) -> Advice | None:
    """Two names in one declaration; or a comma where none may stand."""
    wrong, token = scene.wrong, scene.token
    if token.text != ",":
        return None
    if scene.first.text in KINDS and (
        wrong.want in (Want.LOCAL, Want.GLOBAL, Want.ARRAY, Want.GLOBAL_END) or wrong.closing == ";"
    ):
        kind = scene.first.text
        name = scene.behind.text if is_plain_name(scene.behind) else "y"
        text = f"a declaration has one name: write `;`, and then `{kind} {name}` as one of its own."
        return Advice(text, mend=scene.replace(token, f"; {kind} "))
    if wrong.want is Want.CHAIN and wrong.owner == "for":
        return Advice(
            "each part of the head of a `for` is one assignment, or the condition: there is no comma operator."
        )
    return Advice("there is no comma operator: write two statements.")


def arrays(scene: Scene) -> Advice | None:
    """An array in a function, without a length, or of two indexes."""
    wrong, token = scene.wrong, scene.token
    if wrong.want is Want.LOCAL and token.text == "[":
        return local_array(scene)
    if token.text == "[" and (
        wrong.want is Want.ARRAY or (scene.before.text == "]" and wrong.want in (Want.CHAIN, Want.ASSIGN))
    ):
        return Advice("an array has one index: write `int a[12];` for 3 rows of 4, and `a[i * 4 + k]`.")
    if wrong.want is Want.PARAM_NEXT and token.text == "[":
        return Advice(
            (
                "an array is no parameter: a function reaches an array outside functions by its name; give it the index"
                " where that differs."
            ),
            scene.before.at,
        )
    if wrong.want is Want.LENGTH and token.text == "]":
        count = listed(scene)
        if count is None:
            return Advice(f"the length is written: `{wrong.owner}[4]`.")
        return Advice(f"the length is written: `{wrong.owner}[{count}]`.", mend=scene.insert(token.at, str(count)))
    if wrong.want in (Want.LENGTH, Want.LENGTH_END):
        return Advice("the length of an array is a number, and no name or expression.")
    return None


def listed(scene: Scene) -> int | None:
    """How many first values follow `]`."""
    if scene.at(scene.wrong.at + 1).text != "=" or scene.at(scene.wrong.at + 2).text != "{":
        return None
    last = scene.matching(scene.wrong.at + 2)
    return 1 + sum(scene.at(at).text == "," for at in range(scene.wrong.at + 3, last))


def local_array(scene: Scene) -> Advice:
    """An array that is declared in a function."""
    wrong, name = scene.wrong, scene.before
    last = scene.statement_end(wrong.begin)
    close = scene.matching(wrong.at)
    shown = f"{scene.text(wrong.begin, close)};"
    inside = wrong.function
    text = f"an array stands outside functions: write `{shown}` before the function."
    if inside is None:
        return Advice(text, name.at)
    text = f"an array stands outside functions: write `{shown}` before `{inside.name}`."
    start = scene.at(inside.at - 1).at
    whole = scene.source[scene.first.at : scene.at(last).end].decode("utf-8", "replace")
    mend = (Edit(start, start, " ".join(whole.split()) + " "), Edit(scene.first.at, scene.at(last).end, ""))
    return Advice(text, name.at, mend=mend)


def first_values(scene: Scene) -> Advice | None:
    """First values outside functions that are no constants."""
    wrong, token = scene.wrong, scene.token
    if wrong.want is Want.GLOBAL_END and (token.text in OPERATORS or token.text in "(["):
        end = wrong.at
        while end < len(scene.tokens) and scene.at(end).text not in (";", ","):
            end += 1
        value = constant_value(scene.text(wrong.at - 1, end - 1))
        shown = f", {value}" if value is not None else ""
        mend = (Edit(scene.before.at, scene.at(end - 1).end, str(value)),) if value is not None else None
        return Advice(
            f"outside functions a first value is one number and no expression: write its value{shown}.", mend=mend
        )
    if wrong.want is Want.LIST_NEXT and token.text in OPERATORS:
        return Advice("outside functions a first value is one number and no expression: write its value.")
    if wrong.want is Want.CONSTANT:
        if token.text == "}":
            text = (
                "no comma stands after the last value."
                if scene.before.text == ","
                else "a list has one value at least."
            )
            return Advice(text, mend=scene.replace(scene.before, "") if scene.before.text == "," else None)
        if token.text == "{":
            return Advice(f"`{wrong.owner}` is one word: values in braces are for an array, `{wrong.owner}[4]`.")
        if is_plain_name(token) or token.text in "(+~!":
            return Advice("outside functions a first value is a number, or `-` and a number: set others in `main`.")
    if wrong.want is Want.LIST:
        return Advice("the first values of an array stand in braces, `= {1, 2}`; the others are 0.")
    return None


def constant_value(text: str) -> int | None:
    """The value of an expression of numbers, where it is a word's."""
    if (
        not re.fullmatch(r"[0-9a-fA-FxX+\-*()<>|&^ ]{1,60}", text)
        or "**" in text
        or not re.fullmatch(r"(?:0[xX][0-9a-fA-F]+|\d+|\W)+", text)
    ):
        return None
    found = re.fullmatch(r"\(*(\w+)\)* *(<<|[+\-*|&^]) *\(*(\w+)\)*", text)
    if found is None:
        return None
    left, right = int(found.group(1), 0), int(found.group(3), 0)
    sign = found.group(2)
    if sign == "<<" and right > 31:
        return None
    value = {
        "+": left + right,
        "-": left - right,
        "*": left * right,
        "|": left | right,
        "&": left & right,
        "^": left ^ right,
        "<<": left << right if sign == "<<" else 0,
    }[sign]
    return value if -(2**31) <= value <= c_text.MOST else None


def sends(scene: Scene) -> Advice | None:
    """A core of a `send` that is no number."""
    if scene.wrong.want is not Want.SEND_CORE:
        return None
    shown = scene.token.text if is_plain_name(scene.token) else "d"
    return Advice(
        "the core of a `send` is a number, so that its time is known: write a `send` for each,"
        f" `if ({shown} == 1) {{ send(1, ..); }} else if ({shown} == 2) {{ send(2, ..); }}`."
    )


def loops(scene: Scene) -> Advice | None:
    """The head of a `for`, and a bound without its loop."""
    wrong, token = scene.wrong, scene.token
    if wrong.want is Want.FOR_NAME:
        if token.text in KINDS:
            name = scene.behind.text if is_plain_name(scene.behind) else "i"
            mend = (Edit(scene.first.at, scene.first.at, f"{token.text} {name}; "), Edit(token.at, scene.behind.at, ""))
            text = (
                f"a variable is declared before the loop, not in it: write `{token.text} {name};` before the loop and"
                " its bound."
            )
            return Advice(text, mend=mend)
        return Advice(
            "all three parts of the head are written: `for (i = A; CONDITION; i = B)`; or write a `while` loop."
        )
    if wrong.want is Want.LOOP:
        return Advice(
            "a bound stands right before its loop, and nothing but blanks and comments between them.", scene.before.at
        )
    if wrong.want is Want.OPERAND and wrong.closing == ";" and scene.first.text in ("for",) and token.text == ";":
        return Advice("all three parts of the head are written: `for (i = A; CONDITION; i = B)`.")
    return None


def equals(scene: Scene) -> Advice | None:
    """An assignment inside an expression."""
    wrong, token = scene.wrong, scene.token
    if wrong.want is not Want.CHAIN or token.text != "=":
        return None
    if wrong.closing == ";" and wrong.owner != "for":
        return Advice("an assignment sets one name: write a statement for each, and `==` to compare.")
    return Advice("an assignment is a statement and no expression; `==` compares.", mend=scene.replace(token, "=="))


def operands(scene: Scene) -> Advice | None:
    """An operand that is missing, a cast, and values in braces."""
    wrong, token, before = scene.wrong, scene.token, scene.before
    if wrong.want is not Want.OPERAND:
        return None
    if before.text == "(" and token.text in (*KINDS, *TYPES, "void"):
        return Advice(f"there are no casts: give the value to a variable of `{TYPES.get(token.text, token.text)}`.")
    if token.text == "{":
        return Advice("values in braces are for arrays outside functions; here set one element after another.")
    if token.text == "if" or token.text in STARTERS or token.text in (";", ")", "]", ",", *OPERATORS, "="):
        return Advice(f"a value is missing after `{before.text}`.", before.end)
    return None


def statements(scene: Scene) -> Advice | None:
    """What is no statement, and what stands outside functions."""
    wrong, token = scene.wrong, scene.token
    if wrong.want is Want.STATEMENT:
        if token.text == ";":
            return Advice("there is no empty statement: leave this `;` out.", mend=scene.replace(token, ""))
        if token.text == "else":
            return Advice("this `else` has no `if`: it stands right after the block of one.")
        if token.is_number or token.text in ("(", *OPERATORS, "~", "!"):
            return Advice("an expression is no statement: assign its value, `x = ..;`.")
    if wrong.want is Want.NAMED and token.text == ";":
        return Advice(
            f"a name alone is no statement: a call is `{scene.before.text}();`, an assignment `{scene.before.text} ="
            " ..;`."
        )
    if wrong.want is Want.NAMED and is_plain_name(token):
        if scene.knows(scene.before.text):
            return Advice(f"`=`, `[` or `(` is missing after `{scene.before.text}`.", scene.before.end)
        return Advice(f"`{scene.before.text}` is no type: there are `int` and `unsigned`.", scene.before.at)
    if wrong.want is Want.UNIT:
        return outside_functions(scene)
    return None


def outside_functions(scene: Scene) -> Advice | None:
    token = scene.token
    if token.text == "}":
        text = "this `}` closes nothing: the function before it has ended. A `{` is missing, or this one is too many."
        return Advice(text, mend=scene.replace(token, ""))
    if token.text == ";":
        return Advice("no `;` stands after a block: leave it out.", mend=scene.replace(token, ""))
    if is_plain_name(token) and scene.behind.text == "(":
        text = f"a function begins with what it returns: `int {token.text}(..)`."
        return Advice(text, mend=scene.insert(token.at, "int "))
    if token.text in ("if", "while", "for", "return", "break", "continue", "send", "else", "{") or is_plain_name(token):
        return Advice(
            "statements stand inside functions alone: has the function before it ended too early, by a `}` too many?"
        )
    return None


def depths(scene: Scene) -> Advice | None:
    if scene.token.text in CLOSING and len(scene.wrong.opened) >= MOST_OPEN:
        return Advice(f"{MOST_OPEN} brackets are open here, which is the most: give parts to variables or functions.")
    return None


def anything(scene: Scene) -> Advice | None:
    """What should stand here, where no other rule has a word."""
    want, closing = scene.wrong.want, scene.wrong.closing
    if want is Want.CHAIN:
        return Advice(f"here stands an operator, or `{closing}`.")
    return Advice(f"here stands {HERE_STANDS[want]}.")


RULES: list[Rule] = [
    depths, loops, types, words, pointers, missing_braces, bodies, misspelled, arrays, two_names, first_values, sends,
    calls, equals, semicolons, closings, operands, statements, anything,
]  # fmt: skip


def of_syntax(source: bytes, tokens: list[Token], number: int) -> Advice | None:
    """What to write where token `number` cannot stand; none where this reader of the grammar knows no better."""
    try:
        unit_of(tokens)
    except Wrong as wrong:
        if wrong.at == number:
            scene = Scene(source, tokens, wrong)
            return next((found for rule in RULES if (found := rule(scene)) is not None), None)
    return None
