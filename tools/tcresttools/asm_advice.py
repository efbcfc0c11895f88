"""What to write in place of an assembly statement that is refused: for each fault of docs/ASSEMBLY.md."""

from __future__ import annotations

import re

from .assembly import Statement, statements_of
from .mending import Advice, Edit
from .near import near_names, quoted

REGISTERS = "add sub xor sl sr sra or and nor shadd shadd2".split()
SHORT = "addi subi xori sli sri srai ori andi".split()
LONG = "addl subl xorl sll srl sral orl andl norl shaddl shadd2l".split()
PRODUCTS = ["mul", "mulu"]
COMPARES = "cmpeq cmpneq cmplt cmple cmpult cmpule btest".split()
SHORT_COMPARES = "cmpieq cmpineq cmpilt cmpile cmpiult cmpiule btesti".split()
PREDICATES = ["por", "pand", "pxor"]
STACK = ["sres", "sens", "sfree"]
LOADS = [word + space for word in ("lw", "lh", "lb", "lhu", "lbu") for space in "slcm"]
STORES = [word + space for word in ("sw", "sh", "sb") for space in "slcm"]
BARE = ["ret", "nop"]
FORMS = {
    **dict.fromkeys(REGISTERS, "rD = rA, rB"),
    **dict.fromkeys([*SHORT, *LONG], "rD = rA, NUMBER"),
    **dict.fromkeys(PRODUCTS, "rA, rB"),
    **dict.fromkeys(COMPARES, "pD = rA, rB"),
    **dict.fromkeys(SHORT_COMPARES, "pD = rA, NUMBER"),
    **dict.fromkeys(PREDICATES, "pD = pA, pB"),
    "mts": "SPECIAL = rA",
    "mfs": "rD = SPECIAL",
    **dict.fromkeys(STACK, "NUMBER"),
    **dict.fromkeys(LOADS, "rD = [rA + NUMBER]"),
    **dict.fromkeys(STORES, "[rA + NUMBER] = rS"),
    "br": "LABEL",
    "call": "FUNCTION",
    "brcf": "FUNCTION",
    **dict.fromkeys(BARE, ""),
}
MEMORIES = "with the letter of its memory: `s` the stack, `l` local, `c` main memory by the data cache, `m` main memory"
FOREIGN = {
    "li": "write `addi rD = r0, NUMBER` below 4,096, and else `addl rD = r0, NUMBER`",
    "la": "write `addl rD = r0, ADDRESS`",
    "mov": "write `add rD = rA, r0`, and for a number `addi rD = r0, NUMBER`",
    "mv": "write `add rD = rA, r0`",
    "move": "write `add rD = rA, r0`",
    "j": "write `br LABEL`, and two bundles after it", "jmp": "write `br LABEL`, and two bundles after it",
    "b": "write `br LABEL`, and two bundles after it", "bra": "write `br LABEL`, and two bundles after it",
    "beq": "compare first, `cmpeq p1 = rA, rB`, and then `(p1) br LABEL`",
    "bne": "compare first, `cmpneq p1 = rA, rB`, and then `(p1) br LABEL`",
    "blt": "compare first, `cmplt p1 = rA, rB`, and then `(p1) br LABEL`",
    "bge": "compare first, `cmplt p1 = rA, rB`, and then `(!p1) br LABEL`",
    "beqz": "compare first, `cmpieq p1 = rA, 0`, and then `(p1) br LABEL`",
    "bnez": "compare first, `cmpineq p1 = rA, 0`, and then `(p1) br LABEL`",
    "cmp": "write one of `cmpeq`, `cmpneq`, `cmplt`, `cmple`, with a predicate: `cmplt p1 = rA, rB`",
    "bl": "write `call FUNCTION`, and three bundles after it",
    "jal": "write `call FUNCTION`, and three bundles after it",
    "return": "write `ret`, and three bundles after it", "jr": "write `ret`, and three bundles after it",
    "inc": "write `addi rD = rD, 1`", "dec": "write `subi rD = rD, 1`",
    "neg": "write `sub rD = r0, rA`", "not": "write `nor rD = rA, rA`",
    "shl": "write `sl` or `sli`", "shr": "write `sr` or `sri`", "sar": "write `sra` or `srai`",
    "lsl": "write `sl` or `sli`", "lsr": "write `sr` or `sri`", "asr": "write `sra` or `srai`",
    "slli": "write `sli`", "srli": "write `sri`",
    "slt": "write `cmplt p1 = rA, rB`", "slti": "write `cmpilt p1 = rA, NUMBER`",
    "push": "reserve words by `sres`, and store by `sws [r0 + 0] = rS`",
    "pop": "load by `lws rD = [r0 + 0]`, and give the words back by `sfree`",
    "div": "there is no division: it is a loop of shifts and subtractions",
    **{word: f"write `{word}` {MEMORIES}" for word in ("lw", "lh", "lb", "lhu", "lbu", "sw", "sh", "sb")},
    "muli": "write `addi r5 = r0, NUMBER`, then `mul rA, r5`, a bundle between, and `mfs rD = sl`",
    "halt": "a task ends with `ret` and three bundles after it", "nori": "write `norl`, which takes any word",
}  # fmt: skip
SPECIAL = ["s0", "sl", "sh", "srb", "sro", "st", "ss"]
GUARD = re.compile(r"\((!?)\s*p(?:0x[0-9A-Fa-f]+|[0-9]+)\s*\)\s*")
ANY_GUARD = re.compile(r"\([^)]*\)\s*")
WORD = re.compile(r"[A-Za-z0-9_.]+")
REGISTER = r"[rR]?(?:\d+|[a-z]\w*)"
NEGATIVE = re.compile(r"-\s*(0x[0-9A-Fa-f]+|\d+)\b")
NUMBER = re.compile(r"(?<![\w.])(0x[0-9A-Fa-f]+|\d+)\b")
COMMENTS = re.compile(r"//|/\*|;|@|--")


def halves(text: str) -> list[str]:
    """The instructions of a statement: one, or the two halves of a brace."""
    body = text.strip()
    if not body.startswith("{"):
        return [body]
    return [half.strip() for half in body.strip("{} \t").split(";")]


def split(text: str) -> tuple[str, str, str]:
    """The guard, the mnemonic and the operands of an instruction."""
    guard = ANY_GUARD.match(text)
    rest = text[guard.end() :] if guard else text
    word = WORD.match(rest)
    mnemonic = word.group() if word else ""
    return guard.group().strip() if guard else "", mnemonic, rest[len(mnemonic) :].strip()


def of_mnemonic(part: str) -> str | None:
    guard, mnemonic, _ = split(part)
    if part.startswith(("//", "/*", ";", "--")):
        return "a comment begins with `#`."
    if part.startswith("."):
        return "the only word that begins with a point is `.func NAME`."
    if guard and not GUARD.fullmatch(guard):
        return "a guard is `(p1)` or `(!p1)`."
    if mnemonic in FORMS:
        return None
    if mnemonic.lower() in FORMS:
        return f"mnemonics are written in lower case: `{mnemonic.lower()}`."
    if mnemonic.lower() in FOREIGN:
        return f"there is no `{mnemonic}`: {FOREIGN[mnemonic.lower()]}."
    near = near_names(mnemonic, FORMS, alike=0.6)
    if near:
        return f"there is no `{mnemonic}`: is {quoted(near)} meant? docs/ASSEMBLY.md lists all."
    if not mnemonic:
        return "an instruction begins with its mnemonic, after the guard if it has one; docs/ASSEMBLY.md lists all."
    some = quoted(["add", "addi", "addl", "mul", "cmplt", "lwm", "swm", "br", "call", "ret", "nop"], "and")
    return f"there is no `{mnemonic}`. There are {some}, and more of their kinds: docs/ASSEMBLY.md lists all."


def negative(mnemonic: str, operands: str) -> str | None:
    """A number with a sign."""
    found = NEGATIVE.search(operands)
    if found is None:
        return None
    number = int(found.group(1), 0)
    word = f"0x{(-number) % 2**32:08X}"
    swapped = {"addi": "subi", "subi": "addi", "addl": "subl", "subl": "addl"}
    if mnemonic in swapped:
        other = swapped[mnemonic]
        rest = operands.replace(found.group(), found.group(1))
        also = f", or the word, `addl .. {word}`" if other == "subi" and "r0" in operands else ""
        return f"numbers have no sign: write `{other} {rest}`{also}."
    if mnemonic in (*LOADS, *STORES):
        return (
            "the number in brackets has no sign: subtract from the register first, `subi r2 = rA, ..`, and take `[r2]`."
        )
    if mnemonic in LONG:
        return f"numbers have no sign: write the word, `{word}`."
    if mnemonic in SHORT_COMPARES:
        return f"numbers have no sign: load the word first, `addl r2 = r0, {word}`, and compare registers."
    return f"numbers have no sign: the word is `{word}`, which `addl rD = r0, {word}` loads."


def of_operand(part: str) -> str | None:
    """What is wrong with an instruction's operands."""
    _, mnemonic, operands = split(part)
    form = FORMS.get(mnemonic)
    if form is None:
        return None
    shown = f"`{mnemonic} {form}`" if form else f"`{mnemonic}` alone"
    for sign in ("//", "/*", "--", "@"):
        if sign in operands:
            return "a comment begins with `#`."
    if told := negative(mnemonic, operands):
        return told
    if re.search(r"\b0X[0-9A-Fa-f]", operands):
        return "a hexadecimal number begins with `0x`, in lower case."
    if re.search(r"(?<!\w)[$%]\w|\b[xa]\d+\b|\bR\d|\bsp\b|\bzero\b", operands):
        return f"registers are `r0` to `r31`, of which `r0` is 0: write {shown}."
    if re.search(r"\d+\(\w+\)", operands) or (mnemonic in (*LOADS, *STORES) and "[" not in operands):
        return f"an address stands in brackets: write {shown}, with the number in units of the access."
    if mnemonic in REGISTERS and re.fullmatch(rf"{REGISTER}\s*=\s*{REGISTER}\s*,\s*(0x[0-9A-Fa-f]+|\d+)", operands):
        taker = {"nor": "norl", "shadd": "shaddl", "shadd2": "shadd2l"}.get(mnemonic, mnemonic + "i")
        return f"`{mnemonic}` takes two registers: with a number write `{taker} {operands}`."
    if mnemonic in (*SHORT, *LONG) and re.search(r",\s*r\d+\s*$", operands):
        return f"`{mnemonic}` takes a number last: with two registers write `{plain_form(mnemonic)} {operands}`."
    if mnemonic in COMPARES and re.search(r",\s*(0x[0-9A-Fa-f]+|\d+)\s*$", operands):
        taker = "btesti" if mnemonic == "btest" else "cmpi" + mnemonic[3:]
        return f"`{mnemonic}` takes two registers: with a number below 32 write `{taker} {operands}`."
    if mnemonic in SHORT_COMPARES and re.search(r",\s*r\d+\s*$", operands):
        taker = "btest" if mnemonic == "btesti" else "cmp" + mnemonic[4:]
        return f"`{mnemonic}` takes a number last: with two registers write `{taker} {operands}`."
    if mnemonic in (*COMPARES, *SHORT_COMPARES) and operands.startswith("r"):
        return f"a compare sets a predicate, `p1` to `p7`: write {shown}."
    if mnemonic in STORES and "=" in operands and operands.index("=") < operands.find("["):
        return f"a store names its address first: write {shown}."
    if mnemonic in PRODUCTS and "=" in operands:
        return f"write {shown}: the product is in `sl` and `sh`, which `mfs rD = sl` reads from the second bundle on."
    if mnemonic in ("mts", "mfs"):
        return (
            f"write {shown}; the special registers are {quoted(SPECIAL[:5], 'and')}, and for `mfs` also `st` and `ss`."
        )
    if mnemonic in ("br", "call", "brcf") and NUMBER.fullmatch(operands):
        goal = "a label of its function" if mnemonic == "br" else "a function"
        return f"`{mnemonic}` names {goal}, and no number."
    if "=" in form and "=" not in operands:
        whole = operands.count(",") == form.count(",") + 1
        return f"what is set stands before `=`: write {with_equals(mnemonic, operands) if whole else shown}."
    return f"write {shown}."


def with_equals(mnemonic: str, operands: str) -> str:
    """The instruction with `=` in place of its first comma."""
    first, _, rest = operands.partition(",")
    return f"`{mnemonic} {first.rstrip()} = {rest.lstrip()}`"


def plain_form(mnemonic: str) -> str:
    """The mnemonic that takes two registers."""
    return mnemonic[:-1] if mnemonic[:-1] in REGISTERS else {"sll": "sl", "srl": "sr"}.get(mnemonic, "add")


def of_range(part: str) -> str | None:
    """Which number passes its field."""
    _, mnemonic, operands = split(part)
    for letter, most in (("r", 31), ("p", 7)):
        for found in re.findall(rf"\b{letter}(0x[0-9A-Fa-f]+|\d+)\b", part):
            if int(found, 0) > most:
                kind = "registers are `r0` to `r31`" if letter == "r" else "predicates are `p0` to `p7`"
                return f"there is no `{letter}{found}`: {kind}."
    numbers = [int(found, 0) for found in NUMBER.findall(operands)]
    largest = max(numbers, default=0)
    if mnemonic in SHORT and largest >= 4096:
        return f"{largest:,} is above 4,095, the most for `{mnemonic}`: `{mnemonic[:-1]}l` takes any word."
    if mnemonic in SHORT_COMPARES and largest >= 32:
        return (
            f"{largest:,} is above 31, the most here: load it first, `addl r2 = r0, {largest}`, and compare registers."
        )
    if mnemonic in (*LOADS, *STORES) and largest >= 128:
        unit = {"w": "words", "h": "halves", "b": "bytes"}[mnemonic[1]]
        return f"{largest:,} is above 127, the most here, and counts {unit}: add the rest to the register first."
    if mnemonic in STACK and largest >= 4096:
        return f"{largest:,} is above 4,095; the stack cache holds 128 words."
    if mnemonic in LONG and largest >= 2**32:
        return f"{largest:,} is above 4,294,967,295: a word has 32 bits."
    return None


def of_slot(parts: list[str]) -> str | None:
    if len(parts) != 2:
        return None
    first, second = (split(part)[1] for part in parts)
    if first in LONG or second in LONG:
        return f"`{first if first in LONG else second}` takes two words, and stands alone."
    takes = {*REGISTERS, *SHORT, *COMPARES, *SHORT_COMPARES, *PREDICATES, "nop"}
    change = ": exchange the halves" if first in takes else ""
    return f"`{second}` can't stand in the second half{change}."


def of_label(statement: Statement, source: bytes) -> Advice | None:
    """A label that is nowhere."""
    _, mnemonic, goal = split(statement.text)
    statements = statements_of(source)
    functions = [one for one in statements if one.kind == "function"]
    own = own_function(statements, statement)
    labels = [(one, own_function(statements, one)) for one in statements if one.kind == "label"]
    if mnemonic == "br":
        elsewhere = next((one for one, function in labels if one.name == goal and function != own), None)
        if elsewhere is not None:
            also = ((elsewhere.at, f"`{goal}` is a label of another function."),)
            return Advice(f"`br` goes to a label of its own function; `{goal}` is in another.", also=also)
        if any(one.name == goal for one in functions):
            return Advice(f"`{goal}` is a function: `brcf {goal}` goes there, and `call {goal}` calls it.")
        near = near_names(goal, [one.name for one, function in labels if function == own], alike=0.6)
    else:
        if any(one.name == goal for one, _ in labels):
            return Advice(f"`{goal}` is a label: `br {goal}` goes there, from its own function.")
        near = near_names(goal, [one.name for one in functions], alike=0.6)
    what = "label of this function" if mnemonic == "br" else "function"
    return Advice(f"there is no {what} `{goal}`" + (f": is {quoted(near)} meant?" if near else "."))


def own_function(statements: list[Statement], statement: Statement) -> int:
    """The place of the function in which a statement stands."""
    return max((one.at for one in statements if one.kind == "function" and one.at <= statement.at), default=-1)


def of_name(statement: Statement, source: bytes) -> Advice | None:
    """A label or a function that was there before."""
    statements = statements_of(source)
    own = own_function(statements, statement)
    earlier = [
        one
        for one in statements
        if one.at < statement.at and one.name == statement.name and one.kind == statement.kind
        and (one.kind == "function" or own_function(statements, one) == own)
    ]  # fmt: skip
    if not earlier:
        return None
    also = ((earlier[0].at, f"`{statement.name}` stands here first."),)
    return Advice(f"`{statement.name}` is there already: give one of the two another name.", also=also)


def advise(source: bytes, fault: str, statement: Statement) -> Advice | None:
    """What to write in place of a statement that is refused so; mended, a bundle that does nothing stands there."""
    parts = halves(statement.text)
    told: str | None = None
    also: tuple[tuple[int, str], ...] = ()
    if fault in ("Mnemonic", "Operand", "Range"):
        about = {"Mnemonic": of_mnemonic, "Operand": of_operand, "Range": of_range}[fault]
        told = next((found for part in parts if (found := about(part)) is not None), None)
        if fault == "Operand" and statement.text.startswith(".func"):
            told = "write `.func NAME`: a name is a letter or `_`, and then letters, digits and `_`."
        elif (
            fault == "Operand"
            and "{" in statement.text
            and (len(parts) != 2 or not statement.text.rstrip().endswith("}"))
        ):
            told = "two instructions stand on one line as `{ A ; B }`."
        elif fault == "Mnemonic" and told is None:
            told = of_comment(source, statement)
        elif fault == "Mnemonic" and COMMENTS.match(behind(source, statement)):
            told = of_comment(source, statement) or told
    elif fault == "Slot":
        told = of_slot(parts)
    elif fault in ("NoLabel", "LabelTwice"):
        advice = of_label(statement, source) if fault == "NoLabel" else of_name(statement, source)
        if advice is not None:
            told, also = advice.text, advice.also
    elif fault == "NoFunction" and statement.kind == "label":
        told = f"`{statement.name}:` is a label; a function begins with `.func {statement.name}`."
    if told is None and fault != "NoFunction":
        return None
    return Advice(told or "", None, also, mend_of(fault, statement))


def behind(source: bytes, statement: Statement) -> str:
    """What stands in front of the statement on its line."""
    begin = source.rfind(b"\n", 0, statement.at) + 1
    return source[begin : statement.at].decode("utf-8", "replace").strip()[-1:]


def of_comment(source: bytes, statement: Statement) -> str | None:
    """Words behind a `;` that are no instruction, where another statement stands before it: a comment, most likely."""
    word = split(statement.text)[1]
    if (
        behind(source, statement) == ";"
        and word not in FORMS
        and word.lower() not in FOREIGN
        and len(statement.text.split()) > 1
    ):
        return "`;` separates statements, and a comment begins with `#`."
    return None


def mend_of(fault: str, statement: Statement) -> tuple[Edit, ...] | None:
    """A text in which this statement does nothing."""
    if fault == "NoFunction":
        return (Edit(statement.at, statement.at, ".func main; "),)
    if fault == "TooLarge" or statement.kind == "function":
        return None
    return (Edit(statement.at, statement.end, "" if statement.kind == "label" else "nop"),)
