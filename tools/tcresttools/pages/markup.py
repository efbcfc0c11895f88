"""Elements of HTML, with their text escaped."""

from __future__ import annotations

from html import escape

Value = str | int | float | None
EMPTY = ("br", "meta", "rect", "line")


def text(words: object) -> str:
    """Words as HTML shows them."""
    return escape(str(words), quote=False)


def element(name: str, *content: str, **attributes: Value) -> str:
    """An element around content that is HTML already.

    `class_` is written `class`, `data_part` is `data-part`, and an attribute without a value is left out.
    """
    written = "".join(
        f' {key.rstrip("_").replace("_", "-")}="{escape(str(value))}"'
        for key, value in attributes.items()
        if value is not None
    )
    if name in EMPTY:
        return f"<{name}{written}>" if name in ("br", "meta") else f"<{name}{written}/>"
    return f"<{name}{written}>{''.join(content)}</{name}>"


def number(value: int | None) -> str:
    """A number with its thousands apart; nothing where there is none."""
    return "" if value is None else f"{value:,}"


def share(part: int, whole: int) -> str:
    """A part of a whole in per cent."""
    return f"{100 * part / whole:.1f}%" if whole else ""


def heat_bar(part: int | None, whole: int) -> str:
    """A number with a bar that shows which part of a whole it is; nothing where it is 0 or there is none."""
    if not part:
        return ""
    return element("span", number(part), class_="heat", style=f"--heat-share:{part / max(whole, 1):.3f}")
