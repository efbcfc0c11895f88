"""The packets of a C task, by when their words come: the program is asked.

The report does not say when a task in C sends. But its time is the same whatever other cores do, so in place of the
task of a target core one in assembly can wait for the words, and its end tells when they came. The sender is started
some periods later there, so that the waiting task is ready before; slots and windows are then as they were, and all
comes as much later. The windows of the network are three cycles apart or more, and the loads of the waiting task six,
so it is asked with loads at other cycles too where two windows are left.
"""

from __future__ import annotations

from dataclasses import dataclass
from math import lcm

from .c_loops import counted, is_plain
from .c_text import Token, number_of, tokens_of
from .events import NoSequence
from .job import MOST_CYCLES, Job, Task, toml_string
from .packets import UNDER_WAY, WINDOW, Packet, Start, next_window, transfers_of
from .program import run_program
from .report import Core, read_report

COMM = 0x10000
COMM_WORDS = 512
# A word that stands where another one is to come.
MARK = 0x5EEDC0DE
# The cycles from a load of the waiting task to the next one, and from the one that sees the word to the task's end.
LOADS_APART = 6
SEEN_TO_END = 16
# The waiting task is fetched in fewer transactions, each within a period, and has fewer bundles before it waits.
MOST_FETCHES, MOST_BUNDLES = 12, 60
MOST_ARRIVALS = 64
# The cycles that a transfer of all words takes at most, on 16 cores, up to the coming of its last packet.
MOST_UNDER_WAY = COMM_WORDS // 2 * WINDOW * 15 + UNDER_WAY


@dataclass(frozen=True, order=True)
class Send:
    """A `send` of a text: from which word to which word of a core, and how many."""

    target: int
    target_word: int
    source_word: int
    count: int

    @property
    def does_something(self) -> bool:
        """It has words, within both communication memories; else it does nothing."""
        last = max(self.source_word, self.target_word) + self.count
        return self.count > 0 and last <= COMM_WORDS

    def meets(self, other: Send) -> bool:
        """Both set a word of the same core."""
        first, last = sorted((self, other))
        return first.target == last.target and last.target_word < first.target_word + first.count


def sends_of(tokens: list[Token]) -> list[Send]:
    """The sends of a text, each once; `NoSequence` where which words they send is worked out."""
    found = set()
    for at, token in enumerate(tokens):
        if token.text != "send":
            continue
        texts = [one.text for one in tokens[at + 1 : at + 10 : 2]]
        target, source_word, target_word, count = (number_of(one) for one in tokens[at + 2 : at + 10 : 2])
        if texts != ["(", ",", ",", ",", ")"] or None in (target, source_word, target_word, count):
            raise NoSequence("which words it sends is worked out, and no number in its text")
        found.add(Send(target or 0, target_word or 0, source_word or 0, count or 0))
    return sorted(one for one in found if one.does_something)


def has_one_way(tokens: list[Token]) -> bool:
    """Each statement is done as often whatever is read: there is no `if`, and all loops count by numbers."""
    loops = [counted(tokens, at) for at, token in enumerate(tokens) if token.text in ("for", "while")]
    return "if" not in {token.text for token in tokens} and all(one and is_plain(tokens, one) for one in loops)


@dataclass(frozen=True)
class Watch:
    """The task of a core that sends, the word of another core that is waited for, and up to when it may come."""

    job: Job
    task: Task
    target: int
    word: int
    last: int
    program: str | None

    @property
    def shift(self) -> int:
        """How much later the sender starts: whole periods of the slots and of the windows."""
        period = self.job.slot * len(self.job.table)
        both = lcm(period, WINDOW * (self.job.cores - 1))
        return -(-(MOST_FETCHES * period + MOST_BUNDLES) // both) * both

    def waiting(self, number: int, ahead: int) -> bytes:
        """A task that ends once the word has come so many times, with so many bundles more in front of its loop."""
        lines = [".func main", f"addl r2 = r0, {COMM + 4 * self.word}", f"addl r3 = r0, {MARK}"]
        lines += [f"addi r4 = r0, {number}", "swl [r2 + 0] = r3", *["nop"] * ahead]
        lines += ["wait: lwl r1 = [r2 + 0]", "nop", "cmpeq p1 = r1, r3", "(p1) br wait", "nop", "nop"]
        lines += ["swl [r2 + 0] = r3", "subi r4 = r4, 1", "cmpineq p1 = r4, 0", "(p1) br wait", "nop", "nop"]
        return "\n".join([*lines, "ret", "nop", "nop", "nop"]).encode()

    def seen(self, number: int, ahead: int) -> int | None:
        """The cycle of the load that sees the word when it comes for this time; none where it comes less often."""
        job, task = self.job, self.task
        cycles = self.last + self.shift
        if cycles > MOST_CYCLES:
            raise NoSequence("when its words come can't be asked, so late may that be")
        waiting = toml_string(self.waiting(number, ahead))
        text = (
            f"version = 2\ncores = {job.cores}\nslot = {job.slot}\ntable = {job.table}\ncycles = {cycles}\n"
            f'[[task]]\ncore = {task.core}\nlang = "{task.lang}"\nstart = {task.start + self.shift}\n'
            f"input = {task.input}\nsource = {toml_string(task.source)}\n"
            f'[[task]]\ncore = {self.target}\nlang = "asm"\nsource = {waiting}\n'
        )
        found = run_program(self.program, "run", text.encode())
        if found.refusal is not None:
            raise NoSequence(f"where the program is asked when its words come, it says `{found.refusal}`")
        core = read_report(found.text).cores[self.target]
        return None if core.cycles is None else core.cycles - SEEN_TO_END - self.shift

    def sent(self, number: int) -> int | None:
        """The cycle in which the packet with the word is sent for this time; none where it is not."""
        windows: set[int] | None = None
        for ahead in range(LOADS_APART):
            seen = self.seen(number, ahead)
            if seen is None:
                return None
            last = seen - UNDER_WAY
            own = set(self.windows(last - LOADS_APART + 1, last))
            windows = own if windows is None else windows & own
            if len(windows) == 1:
                return windows.pop()
        raise NoSequence("in which window of the network it sends is not known")

    def windows(self, first: int, last: int) -> list[int]:
        """The windows from one cycle to another in which the sender may send to the target."""
        found, cycle = [], next_window(self.job.cores, self.task.core, self.target, first - 1)
        while cycle <= last:
            found.append(cycle)
            cycle = next_window(self.job.cores, self.task.core, self.target, cycle)
        return found

    def all_sent(self) -> list[int]:
        """The cycles of all packets with the word."""
        found: list[int] = []
        while (sent := self.sent(len(found) + 1)) is not None:
            found.append(sent)
            if len(found) > MOST_ARRIVALS:
                raise NoSequence(f"it sends more than {MOST_ARRIVALS} times to the same words")
        return found


def c_packets(job: Job, task: Task, core: Core, program: str | None) -> list[Packet]:
    """The packets of a C task, by the cycles in which they are sent. `NoSequence` where they are not known."""
    tokens = tokens_of(task.source)
    sends = sends_of(tokens)
    if any(one.meets(other) for at, one in enumerate(sends) for other in sends[at + 1 :]):
        raise NoSequence("two of its `send`s set the same words of a core")
    if not core.alone and not has_one_way(tokens):
        raise NoSequence("what it sends may depend on words that other cores set")
    limit = int(job.keys["cycles"])
    last = limit if core.cycles is None else min(limit, task.start + core.cycles + MOST_UNDER_WAY)
    packets: list[Packet] = []
    for one in sends:
        for sent in Watch(job, task, one.target, one.target_word, last, program).all_sent():
            start = Start(sent - 1, one.target, one.source_word, one.target_word, one.count)
            packets += transfers_of(job.cores, task.core, [start], limit).packets
    return sorted(packets, key=lambda packet: packet.sent)
