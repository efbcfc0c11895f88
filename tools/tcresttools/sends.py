"""Who sends to whom, as the texts of a job say."""

from __future__ import annotations

from .c_text import NoTokens, number_of, tokens_of
from .job import Job, Task


def targets_of(source: bytes) -> list[int]:
    """The cores to which a text in C sends, each once; none where it is no text of tokens."""
    try:
        tokens = tokens_of(source)
    except NoTokens:
        return []
    found = set()
    for word, bracket, number in zip(tokens, tokens[1:], tokens[2:], strict=False):
        core = number_of(number)
        if word.text == "send" and bracket.text == "(" and core is not None:
            found.add(core)
    return sorted(found)


def targets(task: Task) -> list[int]:
    """The cores to which a task in C sends, each once. What a task in assembly sends to, its text does not say so."""
    return targets_of(task.source) if task.lang == "c" else []


def senders(job: Job, core: int) -> list[int]:
    """The cores whose tasks in C send to a core."""
    return sorted(task.core for task in job.tasks if core in targets(task))
