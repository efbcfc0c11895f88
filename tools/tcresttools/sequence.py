"""What a task does in order, whatever its length.

The order is taken from a run of the task alone on one core. Compiled C is single-path code: its order is the same on
every platform, from every start, for every input and beside every other task. `replay` gives its times.
"""

from __future__ import annotations

from dataclasses import replace

from .code_text import code_of_task
from .events import Bundle, Cause, Event, NoSequence, Sequence, Transaction
from .job import MOST_CYCLES, MOST_TRACE, Task
from .recording import recorded
from .send_sites import without_sends
from .unrolling import MOST_BUNDLES, recorded_shorter, worked_out

__all__ = ["MOST_CYCLES", "Bundle", "Cause", "Event", "NoSequence", "Sequence", "Transaction", "sequence_of"]


def sequence_of(task: Task, program: str | None) -> Sequence:
    """What the task does in order; `NoSequence` where that can't be had."""
    if task.lang == "c":
        code = code_of_task(task, program)
        if code.bundles > MOST_BUNDLES:
            raise NoSequence(f"it does {code.bundles:,} bundles, and {MOST_BUNDLES:,} are the most that are replayed")
        other, run = recorded_shorter(replace(task, source=without_sends(task.source)), program)
        return run if other.source == task.source else worked_out(code, code_of_task(other, program), run)
    found = recorded(task, program)
    if found is None:
        raise NoSequence(f"it has more than {MOST_TRACE:,} bundles or transactions, and the program lists no more")
    return found
