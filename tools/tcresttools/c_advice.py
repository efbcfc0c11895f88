"""What to write in place of a C text that is refused: for each refusal of docs/SUBSET_C.md, by what stands there."""

from __future__ import annotations

from . import c_text
from .c_characters import of_character
from .c_rules import CHECKS, Checked
from .c_syntax import of_syntax
from .c_text import NoTokens
from .c_tree import Wrong, unit_of
from .mending import Advice


def advise(source: bytes, fault: str, number: int, core: int, cores: int) -> Advice | None:
    """What to write in place of a text that is refused so; none where docs/ERRORS.md says it as well."""
    if fault == "Char":
        return of_character(source, number)
    try:
        tokens = c_text.tokens_of(source)
        if fault == "Syntax":
            return of_syntax(source, tokens, number)
        check = CHECKS.get(fault)
        return None if check is None else check(Checked(source, tokens, unit_of(tokens), number, core, cores))
    except (NoTokens, Wrong):
        return None
