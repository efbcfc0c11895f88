"""What to write in place of a C text that has no tokens: by the byte at which none begins."""

from __future__ import annotations

import re

from . import c_text
from .c_tree import KEYWORDS
from .mending import Advice, Edit

NAME_BEFORE = re.compile(rb"([A-Za-z_]\w*(?:\[[^\[\];]*\])?)[ \t]*\Z")
NAME_BEHIND = re.compile(rb"[ \t]*([A-Za-z_]\w*)")
LONG_NUMBER = re.compile(rb"(0[xX][0-9A-Fa-f]+|0|[1-9][0-9]*)([uU]?[lL]{1,2}[uU]?)(?!\w)")
EXPONENT = re.compile(rb"([0-9]+)[eE]\+?([0-9]{1,2})(?![\w.])")
POINT = re.compile(rb"([0-9]+)\Z")
OCTAL = re.compile(rb"0([0-7]+)([uU]?)(?!\w)")
BINARY = re.compile(rb"0[bB]([01]+)(?!\w)")
GROUPED = re.compile(rb"([0-9]+(?:_[0-9]+)+)(?!\w)")
CHARACTER = re.compile(rb"'(?:\\(.)|([^'\\]))'")
DEFINE = re.compile(
    rb"#[ \t]*define[ \t]+([A-Za-z_]\w*)[ \t]+\(?(-?(?:0[xX][0-9A-Fa-f]+|[0-9]+)[uU]?)\)?[ \t\r]*(?=\n|\Z)"
)
LINE = re.compile(rb"[^\n]*")
ESCAPED = {"n": 10, "t": 9, "r": 13, "0": 0, "a": 7, "b": 8, "f": 12, "v": 11}


def of_character(source: bytes, at: int) -> Advice | None:
    """What to write where no token begins; none where docs/ERRORS.md says it as well."""
    rest = source[at:]
    if rest[:1].isdigit():
        return of_number(rest, at)
    if rest[:2] in (b"++", b"--"):
        return of_step(source, at)
    sign = next((sign for sign in c_text.REFUSED_SIGNS if sign.endswith("=") and rest.startswith(sign.encode())), None)
    if sign and (name := NAME_BEFORE.search(source[:at])):
        shown = name.group(1).decode()
        text = f"write `{shown} = {shown} {sign[:-1]} ..`."
        return Advice(text, mend=(Edit(at, at + len(sign), f"= {shown} {sign[:-1]}"),))
    if rest[:1] == b"'" and (found := CHARACTER.match(rest)):
        code = ESCAPED.get(found.group(1).decode("latin-1")) if found.group(1) else found.group(2)[0]
        code = (found.group(1) or b"\0")[0] if code is None else code
        return Advice(
            f"there are no characters: write the number, {code}.", mend=(Edit(at, at + found.end(), str(code)),)
        )
    if rest[:1] == b"." and POINT.search(source[:at]):
        return Advice(
            "there are no numbers with a point: count in thousandths, or in another part that is a whole number."
        )
    if rest[:1] == b"#":
        return of_directive(rest, at)
    if rest[:1] and rest[0] >= 0x80:
        shown = rest.decode("utf-8", "replace")[0]
        return Advice(
            f"`{shown}` (U+{ord(shown):04X}) is no ASCII, which a text is outside its comments: type its ASCII form."
        )
    if rest[:1] == b"\\":
        return Advice("a backslash joins no lines: leave it out.", mend=(Edit(at, at + 1, ""),))
    return None


def of_number(rest: bytes, at: int) -> Advice | None:
    """A number of a wrong form."""
    if found := LONG_NUMBER.match(rest):
        shown = found.group(1).decode() + ("u" if b"u" in found.group(2).lower() else "")
        text = f"a number has no `L`, since each value is one word of 32 bits: write `{shown}`."
        return Advice(text, mend=(Edit(at, at + found.end(), shown),))
    if found := EXPONENT.match(rest):
        value = int(found.group(1)) * 10 ** int(found.group(2)) if len(found.group(1)) < 11 else c_text.MOST + 1
        if value > c_text.MOST:
            return Advice("there are no numbers with an exponent, and this one passes a word of 32 bits.")
        return Advice(
            f"there are no numbers with an exponent: write `{value}`.", mend=(Edit(at, at + found.end(), str(value)),)
        )
    if found := OCTAL.match(rest):
        octal, plain = int(found.group(1), 8), int(found.group(1))
        text = f"a decimal number does not begin with 0: write `{octal}` if this is octal, as in C, and else `{plain}`."
        return Advice(text, mend=(Edit(at, at + found.end(), str(octal)),))
    if found := BINARY.match(rest):
        value = int(found.group(1), 2)
        return Advice(
            f"there are no binary numbers: write `{value}` or `0x{value:X}`.",
            mend=(Edit(at, at + found.end(), str(value)),),
        )
    if found := GROUPED.match(rest):
        shown = found.group(1).decode().replace("_", "")
        return Advice(f"digits are not grouped: write `{shown}`.", mend=(Edit(at, at + found.end(), shown),))
    if re.match(rb"0[xX](?![0-9A-Fa-f])", rest):
        return Advice("hexadecimal digits are missing after `0x`.")
    if rest[:1] == b"0" and rest[1:2].isdigit():
        return Advice("a decimal number does not begin with 0.")
    return Advice("a number ends before a letter: a suffix is `u` or `U` alone, and a name begins with a letter.")


def of_step(source: bytes, at: int) -> Advice | None:
    """`i++`, `++i` and their kind."""
    sign = source[at : at + 1].decode()
    before, behind = NAME_BEFORE.search(source[:at]), NAME_BEHIND.match(source[at + 2 :])
    if before is not None and before.group(1).decode() not in KEYWORDS:
        name = before.group(1).decode()
        return Advice(f"write `{name} = {name} {sign} 1`.", mend=(Edit(at, at + 2, f"= {name} {sign} 1"),))
    if behind is not None and behind.group(1).decode() not in KEYWORDS and re.search(rb"[;{}(]\s*\Z", source[:at]):
        name = behind.group(1).decode()
        return Advice(
            f"write `{name} = {name} {sign} 1`.", mend=(Edit(at, at + 2 + behind.end(), f"{name} = {name} {sign} 1"),)
        )
    return None


def of_directive(rest: bytes, at: int) -> Advice | None:
    """A line of the preprocessor, which is not there."""
    line = LINE.match(rest)
    end = at + (line.end() if line else 0)
    if found := DEFINE.match(rest):
        name, value = found.group(1).decode(), found.group(2).decode()
        kind = "unsigned" if value[-1:] in "uU" else "int"
        text = (
            f"there is no preprocessor: write the number {value} where `{name}` stands, or `{kind} {name} = {value};`"
            " outside functions."
        )
        return Advice(text, mend=(Edit(at, end, f"{kind} {name} = {value};"),))
    if re.match(rb"#[ \t]*include", rest):
        return Advice("there is no preprocessor and no library: leave this line out.", mend=(Edit(at, end, ""),))
    return None
