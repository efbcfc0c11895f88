"""What `tools/tables` writes: what the bounds consist of, what was searched, and the best tables with their slack."""

from __future__ import annotations

from .deadlines import Measures
from .job import Job
from .sends import senders
from .slot_tables import distances, toml_table
from .table_search import Candidate, Demand, Found


def deadline_lines(measures: Measures, demand: Demand) -> list[str]:
    """What the bounds of each core with a deadline consist of."""
    lines = []
    for core in demand.owners:
        parts = measures.bounds[core]
        lines.append(
            f"core {core}: deadline {demand.deadlines[core]}; persist = {parts.persist.bundles} bundles +"
            f" {parts.persist.transactions} transactions * (gap + slot - 1); bound has {parts.bound.transactions}"
            " transactions"
        )
    return lines


def other_lines(job: Job, demand: Demand) -> list[str]:
    """Which cores own a slot without a deadline, and why."""
    lines = []
    for core in demand.others:
        task, sending = job.task_of(core), senders(job, core)
        kind = "is idle" if task is None else "has no deadline"
        words = f"core {core}: {kind}, and owns one slot of each table, as every core of a platform must"
        if sending:
            words += f"; it receives what core {', '.join(str(sender) for sender in sending)} sends"
        elif task is None and core == job.cores - 1 and all(one.lang == "c" for one in job.tasks):
            words += f"; no task sends to it: with `cores = {core}` it needs none"
        lines.append(words)
    return lines


def search_line(found: Found, slots: list[int]) -> str:
    """What was searched."""
    parts = []
    if found.whole:
        parts.append(f"all tables of {ranges(found.whole)} entries")
    if found.partly:
        parts.append(f"a local search among those of {ranges(found.partly)}")
    return f"{', and '.join(parts)}, with slots of {ranges(slots)} cycles: {found.tables:,} looked at"


def ranges(numbers: list[int]) -> str:
    """Numbers, those that follow one another as a range."""
    if len(numbers) > 2 and numbers[-1] - numbers[0] == len(numbers) - 1:
        return f"{numbers[0]} to {numbers[-1]}"
    return ", ".join(str(number) for number in numbers)


def candidate_lines(measures: Measures, candidate: Candidate, measure: str) -> list[str]:
    """A table with its numbers, once the program has given the same ones."""
    slot, table = candidate.slot, candidate.table
    is_exact = measure == "exact"
    measures.check_bounds(slot, table)
    measures.check_cycles(slot, table, candidate.cycles, is_exact)
    verdict = "keeps every deadline" if candidate.keeps_all else "misses a deadline"
    exact = f"{'exact':>9} {'start':>6} " if is_exact else ""
    lines = [f"slot {slot} table {toml_table(table)}: {verdict}"]
    lines.append(f"{'core':>6} {'slots':>6} {'deadline':>9} {exact}{'persist':>9} {'bound':>9} {'slack':>9}")
    for core, cycles in candidate.cycles.items():
        apart = distances(table, core)
        persist, bound = measures.persist(core, slot, apart), measures.bound(core, slot, apart)
        exact = f"{cycles:9} {measures.worst_start(core, slot, table):6} " if is_exact else ""
        lines.append(
            f"{core:6} {table.count(core):6} {candidate.deadlines[core]:9} {exact}{persist:9} {bound:9}"
            f" {candidate.slack(core):9}"
        )
    lines += [f"{core:6} {table.count(core):6} {'-':>9}" for core in sorted(set(table) - set(candidate.cycles))]
    return lines
