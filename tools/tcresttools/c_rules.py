"""What to write in place of a program in C that breaks a rule: by the token that is refused."""

from __future__ import annotations

import re
from collections.abc import Callable
from dataclasses import dataclass

from . import c_text
from .c_text import Token
from .c_tree import (
    CLOSING,
    FRAME_BASE,
    MOST_FRAME,
    MOST_FUNCTION,
    MOST_PRIVATE,
    MOST_SCRATCH,
    MOST_TASK,
    NUL,
    Declared,
    Function,
    Sort,
    Unit,
)
from .mending import Advice, Edit
from .near import near_names, quoted

LIBRARY = {
    "printf": "there is no library: what is to be seen goes into `int out[4];`, whose words the report has",
    "puts": "there is no library: what is to be seen goes into `int out[4];`, whose words the report has",
    "putchar": "there is no library: what is to be seen goes into `int out[4];`, whose words the report has",
    "scanf": "there is no library: `int in[4];` begins with the task's `input`",
    "getchar": "there is no library: `int in[4];` begins with the task's `input`",
    "true": "write 1",
    "false": "write 0",
    "NULL": "there are no pointers: write 0",
    "INT_MAX": "write 2147483647",
    "INT_MIN": "write `-2147483647 - 1`",
    "UINT_MAX": "write 4294967295",
    "malloc": "there is no memory to ask for: write an array outside functions",
    "free": "there is no memory to give back: leave this out",
    "abs": "there is no library: `if (x < 0) { x = -x; }`",
    "memcpy": "there is no library: write a loop with its bound",
    "memset": "there is no library: write a loop with its bound",
    "assert": "there is no library: leave this out",
}
VALUES = {"true": "1", "false": "0", "NULL": "0", "INT_MAX": "2147483647", "UINT_MAX": "4294967295"}


@dataclass(frozen=True)
class Checked:
    """A program that breaks a rule: its tokens, what it declares, the token that is named, and the task's core."""

    source: bytes
    tokens: list[Token]
    unit: Unit
    number: int
    core: int
    cores: int

    @property
    def token(self) -> Token:
        return self.tokens[self.number] if self.number < len(self.tokens) else NUL

    def at(self, number: int) -> int:
        return self.tokens[number].at

    def meant(self) -> Declared | None:
        """What the token's name means here: the innermost declaration that is known."""
        known = [one for one in self.unit.names if one.name == self.token.text and one.since <= self.number]
        known = [one for one in known if one.until is None or self.number < one.until]
        return known[-1] if known else None

    def function(self) -> Function | None:
        """The function in which the token stands."""
        return next((one for one in reversed(self.unit.functions) if one.at <= self.number), None)


def unknown(scene: Checked) -> Advice | None:
    name = scene.token.text
    if name in LIBRARY:
        mend = (Edit(scene.token.at, scene.token.end, VALUES[name]),) if name in VALUES else None
        return Advice(f"{LIBRARY[name]}.", mend=mend)
    later = next(
        (one for one in scene.unit.names if one.name == name and one.at > scene.number and one.until is None), None
    )
    if later is not None:
        also = ((scene.at(later.at), f"`{name}` is declared here."),)
        return Advice(f"`{name}` is declared further down: write it before what uses it.", also=also)
    ended = [
        one for one in scene.unit.names if one.name == name and one.until is not None and one.until <= scene.number
    ]
    known = {one.name for one in scene.unit.names if one.since <= scene.number}
    known = {one for one in known if replaced(scene, one).meant() is not None} | {"shared", "comm"}
    near = near_names(name, known, alike=0.66)
    if ended and not near:
        also = ((scene.at(ended[-1].at), f"`{name}` was declared here, and its block has ended."),)
        return Advice(f"`{name}` is known up to the end of its block: declare it before that block.", also=also)
    if near:
        mend = (Edit(scene.token.at, scene.token.end, near[0]),)
        return Advice(f"`{name}` is declared nowhere: is {quoted(near)} meant?", mend=mend)
    behind = scene.tokens[scene.number + 1].text if scene.number + 1 < len(scene.tokens) else ""
    if behind == "(":
        return Advice(f"there is no function `{name}`: write it before the one that calls it. There is no library.")
    shape = f"`int {name}[4];` outside functions" if behind == "[" else f"`int {name};` before its use"
    return Advice(f"`{name}` is declared nowhere: write {shape}.")


def replaced(scene: Checked, name: str) -> Checked:
    """The same place with another name."""
    tokens = [*scene.tokens[: scene.number], Token(name, scene.token.at), *scene.tokens[scene.number + 1 :]]
    return Checked(scene.source, tokens, scene.unit, scene.number, scene.core, scene.cores)


def twice(scene: Checked) -> Advice | None:
    name = scene.token.text
    if name in ("shared", "comm") and not any(one.name == name and one.at < scene.number for one in scene.unit.names):
        return Advice(f"`{name}` is declared before the text, as an array: use it as it is, or take another name.")
    earlier = [one for one in scene.unit.names if one.name == name and one.at < scene.number]
    if not earlier:
        return None
    also = ((scene.at(earlier[-1].at), f"`{name}` is declared here first."),)
    return Advice(f"`{name}` is declared in this block already: take another name, or assign to it.", also=also)


def wrong_type(scene: Checked) -> Advice | None:
    text = scene.token.text
    if text in ("break", "continue"):
        return Advice(f"`{text}` stands in a loop alone.")
    inside = scene.function()
    if text == "return" and inside is not None:
        kind = "returns no value: write `return;`" if inside.kind == "void" else "returns a value: write `return x;`"
        return Advice(f"`{inside.name}` is of `{inside.kind}`, and {kind}.")
    meant = scene.meant()
    behind = scene.tokens[scene.number + 1].text if scene.number + 1 < len(scene.tokens) else ""
    if meant is None:
        return (
            Advice(f"`{text}` is an array: name one of its elements, `{text}[0]`.")
            if text in ("shared", "comm")
            else None
        )
    if meant.at == scene.number:
        return Advice(
            f"what stands in the scratchpad begins with 0: leave the first values of `{text}` out, and set them in"
            " `main`."
        )
    if meant.sort is Sort.ARRAY:
        return Advice(f"`{text}` is an array: name one of its elements, `{text}[0]`.")
    if meant.sort is Sort.VARIABLE:
        shown = "has no index" if behind == "[" else "can't be called"
        return Advice(
            f"`{text}` is one variable, and {shown}.", also=((scene.at(meant.at), f"`{text}` is declared here."),)
        )
    function = next((one for one in scene.unit.functions if one.at == meant.at), None)
    if behind == "(" and function is not None and function.kind == "void":
        return Advice(f"`{text}` is `void`, and gives no value: call it alone, `{text}(..);`.")
    return Advice(f"`{text}` is a function: call it, `{text}(..)`, alone or as a whole right side.")


def no_bound(scene: Checked) -> Advice | None:
    times = iterations_of(scene.tokens, scene.number)
    mend = (Edit(scene.token.at, scene.token.at, '_Pragma("loopbound min 0 max 1") '),)
    if times is None:
        text = 'write `_Pragma("loopbound min A max B")` right before it, with the fewest iterations and the most.'
        return Advice(text, mend=mend)
    return Advice(
        f'write `_Pragma("loopbound min {times} max {times}")` right before it: it iterates {times} times.', mend=mend
    )


def iterations_of(tokens: list[Token], at: int) -> int | None:
    """How often `for (i = A; i < B; i = i + C)` iterates: A, B and C are numbers, and the block leaves `i` as it is."""
    texts = [token.text for token in tokens[at : at + 17]]
    if len(texts) < 17 or texts[0] != "for" or len({texts[2], texts[6], texts[10], texts[12]}) != 1:
        return None
    signs = [texts[number] for number in (1, 3, 5, 9, 11, 13, 15)]
    numbers = [c_text.number_of(tokens[at + number]) for number in (4, 8, 14)]
    if signs != ["(", "=", ";", ";", "=", "+", ")"] or texts[7] not in ("<", "<=") or None in numbers:
        return None
    first, last, step = (number or 0 for number in numbers)
    if step == 0 or last < first:
        return None
    iterations = max(0, -((first - last - (texts[7] == "<=")) // step))
    return iterations if iterations <= 65_535 and not leaves_loop(tokens, at + 16, texts[2]) else None


def leaves_loop(tokens: list[Token], at: int, name: str) -> bool:
    """The block may leave the loop early, or sets its variable."""
    depth = 0
    for number in range(at, len(tokens) - 1):
        text = tokens[number].text
        depth += (text == "{") - (text == "}")
        if text in ("break", "return") or (text == name and tokens[number + 1].text == "="):
            return True
        if depth == 0:
            return False
    return False


def bound_range(scene: Checked) -> Advice | None:
    found = re.findall(r"\d+", scene.token.text)
    least, most = int(found[-2]), int(found[-1])
    mend = (Edit(scene.token.at, scene.token.end, '_Pragma("loopbound min 0 max 1")'),)
    if scene.token.text.startswith("#"):
        mend = (Edit(scene.token.at, scene.token.end, "#pragma loopbound min 0 max 1"),)
    if least > most:
        return Advice(f"the least, {least}, is above the most, {most}: the lesser comes first.", mend=mend)
    return Advice(f"a loop iterates at most 65,535 times, and not {most:,}: put one loop into another.", mend=mend)


def params(scene: Checked) -> Advice | None:
    meant = scene.meant()
    function = None if meant is None else next((one for one in scene.unit.functions if one.at == meant.at), None)
    if function is None:
        return None
    if function.at == scene.number:
        text = (
            f"`{function.name}` has {function.params} parameters, and 6 are the most: give more in an array outside"
            " functions."
        )
        return Advice(text)
    given = arguments_at(scene.tokens, scene.number + 1)
    also = ((scene.at(function.at), f"`{function.name}` is declared here."),)
    wanted = f"{function.params} parameter{'' if function.params == 1 else 's'}"
    return Advice(f"`{function.name}` has {wanted}, and here are {given} arguments.", also=also)


def arguments_at(tokens: list[Token], opening: int) -> int:
    """How many arguments stand in these parentheses."""
    depth, commas = 0, 0
    for number in range(opening, len(tokens)):
        text = tokens[number].text
        depth += (text in CLOSING) - (text in CLOSING.values())
        if depth == 0:
            return 0 if number == opening + 1 else commas + 1
        commas += text == "," and depth == 1
    return commas + 1


def frame(scene: Checked) -> Advice | None:
    function = next((one for one in scene.unit.functions if one.at == scene.number), None)
    if function is None:
        return None
    parts = {
        "parameters": function.params,
        "variables": function.variables,
        "loops, two words each": 2 * function.loops,
        "arms of `if`": function.arms,
    }
    most = max(parts, key=lambda name: parts[name])
    over = function.frame - MOST_FRAME
    told = ", ".join(f"{count} for {name}" for name, count in parts.items() if count)
    return Advice(
        f"`{function.name}` needs {function.frame} words, {over} too many: {FRAME_BASE} in any case, {told}. Most are"
        f" for {most.split(',')[0]}."
    )


def heavy(scene: Checked) -> Advice | None:
    if scene.number >= len(scene.tokens):
        heaviest = max(scene.unit.functions, key=lambda one: one.weight)
        over = scene.unit.weight - MOST_TASK
        text = (
            f"the task weighs {scene.unit.weight:,}, {over:,} too many, and `{heaviest.name}` the most of it,"
            f" {heaviest.weight:,}."
        )
        return Advice(text, scene.at(heaviest.at))
    function = next((one for one in scene.unit.functions if one.at == scene.number), None)
    if function is None or not function.parts:
        return None
    most = max(function.parts, key=lambda part: part.weight)
    text = f"`{function.name}` weighs {function.weight:,}, {function.weight - MOST_FUNCTION:,} too many."
    if function.by_sort:
        sign, weight = function.by_sort.most_common(1)[0]
        count = weight // {"*": 10, "/": 64, "%": 64}.get(sign, 8)
        if 2 * weight > function.weight:
            text += (
                f" Its {count} signs `{sign}` weigh {weight:,}, more than half: give the work to a function, or a loop."
            )
    also = ((scene.at(most.at), f"the part that weighs most: {most.name}, {most.weight:,}."),)
    return Advice(text, also=also)


def data(scene: Checked) -> Advice | None:
    if scene.number < len(scene.tokens):
        meant = next((one for one in scene.unit.names if one.at == scene.number), None)
        if meant is None:
            return None
        if meant.length == 0:
            text = f"`{meant.name}` has no elements: an array has one at least."
            return Advice(text, mend=(Edit(scene.at(meant.at + 2), scene.tokens[meant.at + 2].end, "1"),))
        values = arguments_at(scene.tokens, meant.at + 5)
        length = scene.tokens[meant.at + 2]
        text = (
            f"`{meant.name}` has {meant.length} elements, and here are {values} values: write `{meant.name}[{values}]`."
        )
        return Advice(text, mend=(Edit(length.at, length.end, str(values)),))
    return too_large(scene, False, MOST_PRIVATE, "private memory")


def too_large(scene: Checked, scratch: bool, most: int, where: str) -> Advice | None:
    """Data that together take more than there is: the largest of them."""
    held = [one for one in scene.unit.globals() if one.scratch == scratch]
    if not held:
        return None
    words_of = {one.at: one.length if one.sort is Sort.ARRAY else 1 for one in held}
    total = sum(words_of.values())
    largest = max(held, key=lambda one: words_of[one.at])
    count = f"`{largest.name}` has {words_of[largest.at]:,} words"
    text = f"the data take {total:,} words of {where}, {total - most:,} more than there are; {count}, the most of them."
    if len(held) == 1:
        text = f"{count}, {total - most:,} more than the {most:,} of {where}."
    more = " Leave `_SPM` off: it then stands in private memory." if scratch else ""
    return Advice(text + more, scene.at(largest.at))


def scratch(scene: Checked) -> Advice | None:
    return too_large(scene, True, MOST_SCRATCH, "the scratchpad")


def target(scene: Checked) -> Advice | None:
    number = c_text.number_of(scene.token)
    if number == scene.core:
        return Advice(f"core {number} is this task's own: a `send` goes to another core.")
    if scene.cores == 1:
        return Advice("this job has one core: set `cores` higher, and send to one of the others.")
    return Advice(f"this job has `cores = {scene.cores}`, so its cores are 0 to {scene.cores - 1}.")


def no_main(scene: Checked) -> Advice | None:
    found = next((one for one in scene.unit.names if one.name == "main" and one.until is None), None)
    if found is not None:
        function = next((one for one in scene.unit.functions if one.at == found.at), None)
        if function is None:
            return Advice("`main` is the function with which the task begins: `int main()`.", scene.at(found.at))
        if function.kind != "int":
            kind = scene.tokens[found.at - 1]
            mend = (Edit(kind.at, kind.end, "int"),)
            return Advice(
                f"write `int main()` in place of `{function.kind} main`: its value is the task's.",
                scene.at(found.at),
                mend=mend,
            )
        return Advice(
            "write `int main()`, without parameters: what the task is given comes in `int in[4];`.", scene.at(found.at)
        )
    functions = [one for one in scene.unit.functions]
    near = near_names("main", [one.name for one in functions])
    if near:
        one = next(one for one in functions if one.name == near[0])
        return Advice(f"the task begins with `main`: is `{one.name}` it?", scene.at(one.at))
    if functions:
        return Advice(
            "no function here is `main`, with which the task begins: add `int main() { .. }`.",
            scene.at(functions[-1].at),
        )
    return Advice("add `int main() { return 0; }`, with which the task begins.")


CHECKS: dict[str, Callable[[Checked], Advice | None]] = {
    "Unknown": unknown, "Twice": twice, "WrongType": wrong_type, "NoBound": no_bound, "BoundRange": bound_range,
    "Params": params, "Frame": frame, "Heavy": heavy, "Data": data, "Scratch": scratch, "Target": target,
    "NoMain": no_main,
}  # fmt: skip
