"""What is to be explained of a job: refusals, traps, tasks that have not ended, overruns and dropped transfers."""

from __future__ import annotations

from ..explaining import Finding
from .markup import element, text


def marked_code(words: str) -> str:
    """A text whose parts between grave accents are code."""
    pieces = words.split("`")
    return "".join(element("code", text(piece)) if at % 2 else text(piece) for at, piece in enumerate(pieces))


def finding_note(finding: Finding) -> str:
    """What is written at the place of a finding: what to write there, or the cause in general."""
    words = finding.here or [finding.entry.cause, finding.entry.remedy]
    paragraphs = [element("p", marked_code(one)) for one in [*words, *finding.notes] if one]
    return element("div", element("strong", text(finding.line)), *paragraphs, class_="note", role="note")


def finding_item(path: str, finding: Finding) -> str:
    """A finding in the list at the top: where it is, its line with the place, and its note."""
    place = finding.place
    where = path if place is None else f"{path}:{place.line}:{place.column}"
    caret = "" if place is None else element("pre", text(place.caret()), class_="caret")
    others = [
        element("p", text(f"{path}:{other.line}:{other.column}: "), marked_code(words))
        for other, words in finding.there
    ]
    later = element("p", "This comes once what stands above is mended.") if finding.later else ""
    place_name = element("p", element("code", text(where)), class_="where")
    return element("li", place_name, caret, finding_note(finding), *others, later)


def findings_part(path: str, findings: list[Finding]) -> str:
    """The section of what is to be explained; nothing where there is none."""
    if not findings:
        return ""
    items = "".join(finding_item(path, finding) for finding in findings)
    body = element("h2", "To be explained") + element("ol", items, class_="findings")
    return element("section", body, id="explained", class_="card alert")
