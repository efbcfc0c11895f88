"""C tasks at each limit and one past it, under every command: `.ci/hostile.py PROGRAM`.

The texts are made here, since most are too long to be written down. What is wanted comes from the rules of the language
(docs/SUBSET_C.md) and from arithmetic here: weights, frames and places of tokens are counted along, and values are
those that Python works out. Each fault is printed, and nothing where there is none; the status is then 1, and else 0.
Behind the program may stand names of parts, as `long_loops data`: then these alone are asked.

A refused task is refused alike under run, bound, asm, persist, mean and, where it is alone, pipe. A valid one means its
value, comes to it under run and pipe, has one bound under run, bound, persist and pipe, and takes no more cycles than
its persistent bound, which is no more than the bound.
"""

from __future__ import annotations

import re
import subprocess
import sys
from collections.abc import Callable, Mapping, Sequence
from pathlib import Path

sys.path.insert(0, str(Path(__file__).resolve().parent.parent / "tools"))
sys.dont_write_bytecode = True

from tcresttools.c_text import tokens_of  # noqa: E402
from tcresttools.cli import BadInput  # noqa: E402
from tcresttools.report import read_bounds, read_report  # noqa: E402

MOST_BYTES = 1_048_576
LOOP = '_Pragma("loopbound min 0 max %d") '

Words = Sequence[int]
# What a core's task ends with: its value, whether nobody reaches its data, and its array `out`.
End = tuple[int, bool, Words]
COMMANDS = ["run", "bound", "asm", "persist", "mean"]
MOST_SECONDS = 600


# What the program is asked, and how it is to answer.


def first_difference(told: str, text: str) -> str:
    """The first line that is not as it should be."""
    lines, wanted = [*told.split("\n"), None], [*text.split("\n"), None]
    at = next((at for at in range(min(len(lines), len(wanted))) if lines[at] != wanted[at]), None)
    return "all lines as they should be" if at is None else f"line {at} is {lines[at]!r} and not {wanted[at]!r}"


def task(text: str, core: int = 0, words: Words | None = None, start: int = 0) -> str:
    """The lines of one task in C."""
    line = f"input = [{', '.join(map(str, words))}]\n" if words is not None else ""
    return f"[[task]]\ncore = {core}\nlang = \"c\"\nstart = {start}\n{line}source = '''\n{text}'''\n"


def job_of(*tasks: str, cores: int = 1, cycles: int = 3_000_000, trace: int = 0) -> str:
    """The text of a job with these tasks, whose cores take slots of 6 cycles in turn."""
    table = f"version = 2\ntable = {list(range(cores))}\n" if cores > 8 else "version = 1\n"
    return f"{table}cores = {cores}\nslot = 6\ncycles = {cycles}\ntrace = {trace}\n" + "".join(tasks)


def platform(cores: int) -> str:
    """The first line of a report."""
    return f"platform cores {cores} slot 6 period {6 * cores}\n"


def out_lines(core: int, out: Words) -> str:
    """The lines of a task's array `out`."""
    return "".join(f"core {core} out {at} {word}\n" for at, word in enumerate(out))


def end_line(core: int, end: End, cycles: int | None, bound: int) -> str:
    """The line of a core that is done, and those of its array `out`."""
    value, alone, out = end
    return f"core {core} done {value} cycles {cycles} bound {bound}{' alone' * alone}\n" + out_lines(core, out)


class Asker:
    """Asks the program, and prints and counts what is wrong with its answers."""

    def __init__(self, program: str) -> None:
        self.program = program
        self.faults = 0

    def fault(self, name: str, told: str) -> None:
        """Prints what is wrong with a job."""
        self.faults += 1
        print(f"hostile: {name}: {told[:300]!r}")

    def asked(self, word: str, job: str) -> tuple[int | None, str]:
        """The status and the text of the program's answer; None as status where none comes within ten minutes."""
        line = [self.program, word]
        try:
            done = subprocess.run(line, input=job.encode(), capture_output=True, check=False, timeout=MOST_SECONDS)
        except subprocess.TimeoutExpired:
            return None, ""
        return done.returncode, done.stdout.decode(errors="replace")

    def wants(self, name: str, word: str, job: str, status: int, text: str) -> None:
        """The job is answered so under the command."""
        got, told = self.asked(word, job)
        if got != status or told != text:
            self.fault(f"{name}, {word}", f"status {got}, {first_difference(told, text)}")

    def refused(self, name: str, text: str, line: str, cores: int = 1, words: Words | None = None) -> None:
        """The text, on core 0, is refused with this line under each command."""
        job = job_of(task(text, words=words), cores=cores)
        for word in COMMANDS:
            self.wants(name, word, job, 4, f"core 0: {line}\n")
        if cores == 1:
            self.wants(name, "pipe", job, 4, f"core 0: {line}\n")
        else:
            self.wants(name, "pipe", job, 2, "job: OneCore\n")

    def bounds_of(self, name: str, job: str, cores: int) -> dict[int, tuple[int, int]]:
        """The bounds and persistent bounds of the job's tasks by their cores, as `bound` and `persist` tell them."""
        status, told = self.asked("persist", job)
        most: dict[int, tuple[int, int]] = {}
        try:
            most = {core: (b, q) for core, (b, q) in read_bounds(told).items() if q is not None}
        except BadInput as error:
            self.fault(f"{name}, persist", str(error))
        lines = "".join(f"core {core} bound {b} persist {q}\n" for core, (b, q) in sorted(most.items()))
        if status != 0 or told != platform(cores) + lines or any(q > b or b > 2**62 for b, q in most.values()):
            self.fault(f"{name}, persist", f"status {status}, {told}")
        self.wants(name, "bound", job, 0, re.sub(" persist .*", "", told))
        return most

    def ran(
        self, name: str, job: str, cores: int, ends: dict[int, End], most: dict[int, tuple[int, int]]
    ) -> dict[int, int]:
        """What `run` says of each core, and the cycles of those that are done."""
        status, told = self.asked("run", job)
        cycles: dict[int, int] = {}
        try:
            cycles = {core.number: core.cycles for core in read_report(told).cores if core.cycles is not None}
        except BadInput as error:
            self.fault(f"{name}, run", str(error))
        wanted = platform(cores)
        for core in range(cores):
            bound, tight = most.get(core, (0, 0))
            if cycles.get(core, 0) > tight and core in ends:
                self.fault(f"{name}, run", f"core {core} takes {cycles.get(core)} cycles, more than {tight}")
            wanted += end_line(core, ends[core], cycles.get(core), bound) if core in ends else f"core {core} idle\n"
        if status != 0 or told != wanted:
            self.fault(f"{name}, run", f"status {status}, {first_difference(told, wanted)}")
        return cycles

    def taken(
        self,
        name: str,
        text: str,
        value: int,
        out: Words = (),
        words: Words | None = None,
        cores: int = 1,
        cycles: int = 3_000_000,
    ) -> int | None:
        """The text, alone on core 0, is valid, means this value and these words of `out`, and comes to them."""
        job = job_of(task(text, words=words), cores=cores, cycles=cycles)
        self.wants(name, "mean", job, 0, f"core 0 mean {value}\n" + out_lines(0, out))
        self.wants(name, "asm", job, 0, "")
        most = self.bounds_of(name, job, cores)
        spent = self.ran(name, job, cores, {0: (value, True, out)}, most)
        if cores == 1:
            bound, _ = most.get(0, (0, 0))
            self.wants(name, "pipe", job, 0, platform(1) + end_line(0, (value, True, ()), spent.get(0), bound))
        return spent.get(0)

    def endless(self, name: str, text: str) -> int:
        """The text, alone on core 0, is valid, and so long that no run of it reaches its end; its bound."""
        job = job_of(task(text), cycles=20_000)
        self.wants(name, "mean", job, 0, "core 0 long\n")
        self.wants(name, "asm", job, 0, "")
        bound, _ = self.bounds_of(name, job, 1).get(0, (0, 0))
        for word in ["run", "pipe"]:
            self.wants(name, word, job, 3, platform(1) + f"core 0 limit bound {bound} alone\n")
        return bound

    def bound_of(self, name: str, text: str) -> int:
        """The bound that `bound` tells of the text."""
        status, told = self.asked("bound", job_of(task(text), cycles=20_000))
        found = re.fullmatch(re.escape(platform(1)) + r"core 0 bound (\d+)\n", told)
        if status != 0 or not found:
            self.fault(name, f"status {status}, {told}")
        return int(found[1]) if found else 0

    def sent(
        self,
        name: str,
        cores: int,
        senders: Mapping[int, tuple[str, Words | None, int]],
        receivers: Mapping[int, Words],
    ) -> None:
        """Tasks whose sends are over before the receivers begin: senders have texts, inputs and values."""
        tasks = [task(text, core, words) for core, (text, words, _) in senders.items()]
        tasks += [task(GIVE, core, None, LATE) for core in receivers]
        job = job_of(*tasks, cores=cores, cycles=3 * LATE)
        meant: dict[int, tuple[int, Words]] = {core: (value, ()) for core, (_, _, value) in senders.items()}
        meant |= {core: (0, [0] * 512) for core in receivers}
        lines = [f"core {core} mean {value}\n" + out_lines(core, out) for core, (value, out) in sorted(meant.items())]
        self.wants(name, "mean", job, 0, "".join(lines))
        self.wants(name, "asm", job, 0, "")
        self.wants(name, "pipe", job, 2, "job: OneCore\n")
        most = self.bounds_of(name, job, cores)
        ends: dict[int, End] = {core: (value, True, ()) for core, (_, _, value) in senders.items()}
        ends |= {core: (words[0], False, words) for core, words in receivers.items()}
        spent = self.ran(name, job, cores, ends, most)
        # 256 packets, one in each period of windows, and the way of the last one
        if any(spent.get(core, LATE) + 256 * 3 * (cores - 1) + 12 > LATE for core in senders):
            self.fault(name, f"the senders are not done before cycle {LATE}: {spent}")


# What is counted along.


def signed(number: int) -> int:
    """The signed number of a word."""
    return (number + 2**31) % 2**32 - 2**31


def cut_off(above: int, below: int) -> int:
    """A quotient, cut off towards zero."""
    if below == 0:
        return 0
    quotient = abs(above) // abs(below)
    return signed(quotient if (above < 0) == (below < 0) else -quotient)


def tokens(text: str) -> int:
    """How many tokens a text has."""
    return len(tokens_of(text.encode()))


def filled(room: int, piece: str, weight: int) -> tuple[int, str]:
    """Statements that weigh `room`: as many of a piece as there can be, and others that leave x as it is."""
    for count in range(room // weight, -1, -1):
        for signs in range(9):
            rest = room - count * weight - 22 * signs
            if rest >= 0 and rest % 16 == 0:
                return count, piece * count + "x = +x;\n" * signs + "x = x;\n" * (rest // 16)
    raise ValueError(f"no statements weigh {room}")


def nested(begin: str, middle: str, end: str, depth: int) -> str:
    """A text inside itself."""
    return begin * depth + middle + end * depth


# Frames: 24 words, one for each parameter and variable, two for each loop, one for each arm. No task passes the 16,384
# words of the stack: each function weighs more than twice its frame, and a task weighs at most 32,768.


def frame_function(number: int, more: int) -> str:
    """A function of 6 parameters and 90 variables, 120 words of frame, that calls the one before it; and more.

    It weighs 64, 89 declarations of 16, that with the call of 12 + 48 + 6 * 10, and the return of 16 + 4 + 89 * 12.
    """
    names = [f"v{at}" for at in range(89)]
    text = f"int f{number}(int a, int b, int c, int d, int e, int g) {{\n"
    text += "".join(f"int {name} = {'abcdeg'[at % 6]};\n" for at, name in enumerate(names))
    text += "int w;\n" * more
    text += f"int r = f{number - 1}(b, c, d, e, g, a);\n" if number else "int r = a;\n"
    return text + f"return r + {' + '.join(names)};\n}}\n"


def frames(ask: Asker) -> None:
    """Frames of 120 words: eleven on one another, all of whose words are wanted behind the call; and one of 121."""
    call = "int main() { int r = f10(in[0], in[1], in[2], in[3], in[4], in[5]); return r; }\n"
    text = "int in[6];\n" + "".join(frame_function(number, 0) for number in range(11)) + call
    given = [3, -5, 700, 11, 2**31 - 1, 13]
    sums, arguments = 0, list(given)
    for _ in range(11):
        sums += sum(arguments[at % 6] for at in range(89))
        last, arguments = arguments[0], arguments[1:] + arguments[:1]
    ask.taken("a chain of frames of 120 words", text, signed(sums + last), words=given)
    text = "int in[6];\n" + frame_function(0, 0) + frame_function(1, 1) + call.replace("f10", "f1")
    ask.refused("a frame of 121 words", text, f"Frame at {tokens('int in[6];' + frame_function(0, 0)) + 1}")
    loops = nested(LOOP % 1 + "while (h) { ", "g = 9; h = 0; ", "} ", 48)
    ask.taken("48 loops in one another", f"int g; int h = 1; int main() {{ {loops}return g; }}\n", 9)
    more = LOOP % 1 + "while (0) { } "
    ask.refused("49 loops", f"int g; int h; int main() {{ {loops}{more}return g; }}\n", "Frame at 7")
    for arms in [96, 97]:
        chain_of_arms(ask, arms)
    chain_of_calls(ask)


def chain_of_arms(ask: Asker, arms: int) -> None:
    """A choice of so many arms, each inside the `else` of the one before it; eight of them set g. It weighs 3,956."""
    setting = {0: 1000, 1: -7, 31: 5, 32: 6, 63: 8, 64: 9, arms - 2: 10, arms - 1: 11}
    parts = [f"if (g == {at}) {{ {f'g = {setting[at]};' if at in setting else ''} }}\n" for at in range(arms)]
    text = "int in[1]; int g; int main() { g = in[0];\n" + "else ".join(parts) + "return g; }\n"
    if arms > 96:
        ask.refused("97 arms", text.replace("g = 1000;", "").replace("g = -7;", ""), "Frame at 10")
        return
    times = set()
    for given in [0, 1, 2, 31, 32, 63, 64, 94, 95, 96]:
        times.add(ask.taken(f"arm {given} of 96", text, setting.get(given, given), words=[given]))
    if len(times) != 1:
        ask.fault("96 arms", f"other inputs take other times: {times}")


def chain_of_calls(ask: Asker) -> None:
    """As many functions that call one another as a task may weigh: 92, 64 + 48 for each that calls, and 132."""
    text = "int g; void f0() { g = g + 1; }\n" + "".join(f"void f{at + 1}() {{ f{at}(); }}\n" for at in range(290))
    text += "int main() { f290(); return g; }\n"
    ask.taken("a chain of 291 calls", text, 1)
    ask.refused(
        "one of 292", text.replace("int main", "void last() { f290(); }\nint main"), f"Heavy at {tokens(text) + 10}"
    )


# Weights.


def many_functions(ask: Asker) -> None:
    """512 functions, each of which weighs 64 and no more: 32,768; and one more."""
    text = "".join(f"void f{at}() {{ }}\n" for at in range(511)) + "int main() { }\n"
    ask.taken("512 functions", text, 0)
    ask.refused("513 functions", "void g() { }\n" + text, f"Heavy at {tokens(text) + 6}")
    ask.taken("512 functions, main first", "int main() { }\n" + text.replace("int main() { }\n", ""), 0)


PIECES: dict[str, tuple[str, int, Callable[[int, int, list[int]], int]]] = {
    "products": ("x = x * 5 + y;\n", 42, lambda x, y, a: x * 5 + y),
    "quotients": ("x = y / x + 70000;\n", 96, lambda x, y, a: cut_off(y, x) + 70000),
    "elements": ("x = x ^ a[a[y & 3]];\n", 72, lambda x, y, a: x ^ a[a[y & 3]]),
    "arms": ("if (x & 1) { x = x + y; } else { x = x >> 1; }\n", 96, lambda x, y, a: x + y if x & 1 else x >> 1),
    "words of the frame": ("x = x - y;\n", 28, lambda x, y, a: x - y),
}


def heavy_function(name: str, kind: str, weight: int) -> tuple[int, str]:
    """A function of one parameter with the statements of a kind, and how often it does them: it weighs `weight`."""
    piece, each, _ = PIECES[kind]
    count, statements = filled(weight - 64 - 16 - 20, piece, each)
    return count, f"int {name}(int y) {{ int x = y;\n{statements}return x; }}\n"


def heavy_value(kind: str, count: int, y: int) -> int:
    """What a heavy function gives."""
    x, a = y, [3, 2, 0, 1]
    for _ in range(count):
        x = signed(PIECES[kind][2](x, y, a))
    return x


def weights(ask: Asker) -> None:
    """Functions of weight 4,096 and 4,098 of each kind, and tasks of 32,768 and 32,770."""
    array = "int a[4] = {3, 2, 0, 1};\n"
    for kind in PIECES:
        # main weighs 64, the declaration with the call 12 + 48 + 6 + 4, and 20
        count, function = heavy_function("f", kind, 4096)
        main = "int main() { int r = f(77); return r; }\n"
        ask.taken(f"a function of {kind} of weight 4,096", array + function + main, heavy_value(kind, count, 77))
        _, function = heavy_function("f", kind, 4098)
        ask.refused(f"a function of {kind} of weight 4,098", array + function + main, f"Heavy at {tokens(array) + 1}")
        task_of_weight(ask, kind, array)


def task_of_weight(ask: Asker, kind: str, array: str) -> None:
    """Seven functions of a kind, and main, which calls them: together 32,768; and 2 more by main's last statements."""
    texts, value = array, 5
    for at in range(7):
        count, function = heavy_function(f"f{at}", kind, 4096)
        texts += function
        value = heavy_value(kind, count, value)
    # main: 64, the declaration, seven calls of 12 + 48 + 6 + 4, the return
    calls = "".join(f"x = f{at}(x);\n" for at in range(7))
    fixed = 64 + 16 + 7 * 70 + 20
    _, rest = filled(4096 - fixed, "x = 0 + x;\n", 28)
    text = f"{texts}int main() {{ int x = 5;\n{calls}{rest}return x; }}\n"
    ask.taken(f"a task of {kind} of weight 32,768", text, value)
    _, rest = filled(4096 - fixed - 64 + 2, "x = 0 + x;\n", 28)
    text = f"{texts}void g() {{ }}\nint main() {{ int x = 5;\n{calls}{rest}return x; }}\n"
    ask.refused(f"a task of {kind} of weight 32,770", text, f"Heavy at {tokens(text)}")


# Loops, and bounds up to 2^62.


def loops_of(iterations: Words, inner: str = "") -> str:
    """Loops of these iterations inside one another."""
    text = "".join(f"{LOOP % count}while (g < 1) {{ " for count in iterations)
    return f"int g; int main() {{ {text}{inner}{'} ' * len(iterations)}return g; }}\n"


def doubled(depth: int) -> str:
    """So many functions, each of which calls the one before it twice."""
    text = "void f0() { }\n" + "".join(f"void f{at + 1}() {{ f{at}(); f{at}(); }}\n" for at in range(depth))
    return text + f"int main() {{ f{depth}(); return 0; }}\n"


def long_loops(ask: Asker) -> None:
    """Loops of the most iterations: three in one another are told a bound, a fourth of 16,385 is too many for any.

    Iterations multiply what stands in them, so the bound is a line over those of the outermost loop, and is told up to
    2^62.
    """
    most = [65535] * 3
    text = f"int g; int main() {{ {LOOP % 65535}while (g < 65535) {{ g = g + 1; }} return g; }}\n"
    ask.taken("one loop of 65,535", text, 65535, cycles=5_000_000)
    bounds = [ask.endless(f"a fourth loop of {iterations}", loops_of([iterations] + most)) for iterations in [2, 3, 4]]
    step = bounds[1] - bounds[0]
    if step < 65535**3 or bounds[2] - bounds[1] != step:
        ask.fault("a fourth loop", f"its bounds are no line: {bounds}")
        return
    last = 2 + (2**62 - bounds[0]) // step
    told = ask.endless(f"a fourth loop of {last}", loops_of([last] + most))
    if told != bounds[0] + (last - 2) * step:
        ask.fault(f"a fourth loop of {last}", f"its bound is {told}, off the line of {bounds}")
    for iterations in [last + 1, 16385, 65535]:
        ask.refused(f"a fourth loop of {iterations}", loops_of([iterations] + most), "Long")
    ask.refused("ten loops", loops_of([65535] * 10), "Long")
    ask.refused("a loop of 65,536", loops_of([65536]), "BoundRange at 8")


def summed_loops(iterations: Words, statements: int) -> str:
    """Loops behind one another: of four levels, and two each of three, two and one; the outermost iterate so often."""
    loops = []
    for count, levels in zip(iterations, [3, 2, 2, 1, 1, 0, 0]):
        loops.append(f"{LOOP % count}while (g < 1) {{ {nested(LOOP % 65535 + 'while (g < 1) { ', '', '} ', levels)}}} ")
    return f"int g; int main() {{ {''.join(loops)}{'g = g; ' * statements}return g; }}\n"


def longest_bounds(ask: Asker) -> None:
    """A text whose bound is 2^62, as its iterations say, and the same with one more statement, which is too long.

    The bound is a line over the iterations of each loop, of a step of its own. So iterations are found that leave a
    rest below the least step, and as many statements as leave none.
    """
    fewest = [2] + [4096] * 6
    base = ask.bound_of("loops behind one another", summed_loops(fewest, 0))
    steps = []
    for at in [0, 1, 3, 5]:
        iterations = [count + (place == at) for place, count in enumerate(fewest)]
        steps.append(ask.bound_of("loops behind one another", summed_loops(iterations, 0)) - base)
    if min(steps) <= 0:
        ask.fault("loops behind one another", f"their steps are {steps}")
        return
    for statements in range(40):
        rest = 2**62 - ask.bound_of("loops behind one another", summed_loops(fewest, statements))
        iterations = list(fewest)
        for step, places in zip(steps, [[0], [1, 2], [3, 4], [5, 6]]):
            for place in places:
                more = min(rest // step, 4095 - iterations[0] if place == 0 else 65535 - 4096)
                iterations[place] += more
                rest -= more * step
        if statements == 0:
            near_longest(ask, iterations, rest)
        if rest == 0:
            told = ask.endless("a bound of 2^62", summed_loops(iterations, statements))
            if told != 2**62:
                ask.fault("a bound of 2^62", f"it is {told}")
            ask.refused("a bound above 2^62", summed_loops(iterations, statements + 1), "Long")
            return


def near_longest(ask: Asker, iterations: list[int], rest: int) -> None:
    """The bound is as far below 2^62 as the rest says, which is below the step of the last loop."""
    told = ask.endless("a bound near 2^62", summed_loops(iterations, 0))
    if told != 2**62 - rest:
        ask.fault("a bound near 2^62", f"it is {told}, and not {2**62 - rest}")
    ask.refused("a bound an iteration above 2^62", summed_loops(iterations[:6] + [iterations[6] + 1], 0), "Long")


def long_calls(ask: Asker) -> None:
    """Calls that double: a depth of 60 makes 2^60 calls of a function of 4 bundles at least, which is too long."""
    bounds = [ask.endless(f"calls doubled {depth} times", doubled(depth)) for depth in [30, 31, 32]]
    if bounds[2] - bounds[1] != 2 * (bounds[1] - bounds[0]) or bounds[0] < 2**32:
        ask.fault("calls doubled", f"their bounds do not double: {bounds}")
        return
    depth, bound, step = 32, bounds[2], bounds[2] - bounds[1]
    while bound <= 2**62:
        depth, bound, step = depth + 1, bound + 2 * step, 2 * step
    ask.endless(f"calls doubled {depth - 1} times", doubled(depth - 1))
    ask.refused(f"calls doubled {depth} times", doubled(depth), "Long")
    ask.refused("calls doubled 60 times", doubled(60), "Long")
    ask.refused("calls doubled 190 times", doubled(190), "Long")


def limits_of_cycles(ask: Asker) -> None:
    """A limit that is the bound, and one less: that is `long`; and a limit that is the time, and one less."""
    text = "int in[2]; int main() { int i; int s = in[1]; " + LOOP % 9
    text += "for (i = 0; i < in[0]; i = i + 1) { s = s * 3 - i; } return s; }\n"
    name, value = "a limit of cycles", 50
    for turn in range(7):
        value = value * 3 - turn
    spent = ask.taken(name, text, value, words=[7, 50])
    bound = ask.bound_of(name, text)
    if spent is None or bound == 0:
        return
    for cycles, line in [(bound, f"mean {value}"), (bound - 1, "long")]:
        ask.wants(f"{name}, {cycles}", "mean", job_of(task(text, words=[7, 50]), cycles=cycles), 0, f"core 0 {line}\n")
    done = f"core 0 done {value} cycles {spent} bound {bound} alone\n"
    for cycles, status, line in [(spent, 0, done), (spent - 1, 3, f"core 0 limit bound {bound} alone\n")]:
        for word in ["run", "pipe"]:
            job = job_of(task(text, words=[7, 50]), cycles=cycles)
            ask.wants(f"{name}, {cycles}", word, job, status, platform(1) + line)


# Brackets, chains, arguments.


def brackets(ask: Asker) -> None:
    """64 brackets of each kind open at once, and 65."""
    at_index = 0
    for _ in range(63):
        at_index = [3, 2, 0, 1][at_index]
    for name, begin, middle, end, value in [
        ("parentheses", "(", "7", ")", 7),
        ("indexes", "a[", "0", "]", at_index),
        ("signs", "-(", "7", ")", -7),
    ]:
        text = "int a[4] = {3, 2, 0, 1}; int main() { return " + nested(begin, middle, end, 63) + "; }\n"
        ask.taken(f"64 brackets, {name}", text, value)
        text = text.replace("return ", "return " + begin, 1).replace(middle + end, middle + end + end, 1)
        at = tokens(text[: text.index("return ")]) + 1 + tokens(begin * 64) - 1
        ask.refused(f"65 brackets, {name}", text, f"Syntax at {at}")
    block_brackets(ask)


def block_brackets(ask: Asker) -> None:
    """Blocks and arms, 64 brackets deep; and texts that end, or go on, where 64 are open."""
    ask.taken("64 blocks", "int main() " + nested("{ ", "return 5; ", "} ", 64), 5)
    ask.refused("65 blocks", "int main() " + nested("{ ", "return 5; ", "} ", 65), "Syntax at 68")
    ask.refused("64 blocks without an end", "int main() " + "{ " * 64, "Syntax at 68")
    text = "int main() " + nested("{ ", "return 5; ", "} ", 64)
    ask.refused("64 blocks and 63 ends", text[:-2], f"Syntax at {4 + 64 + 3 + 63}")
    ask.refused("64 blocks and 65 ends", text + "}", f"Syntax at {4 + 64 + 3 + 64}")
    # main's brace, and that of each arm; the parentheses of the last one reach 64 too
    arms = nested("if (g == 0) { ", "g = 9; ", "} ", 63)
    ask.taken("63 arms in one another", f"int g; int main() {{ {arms}return g; }}\n", 9)
    arms = nested("if (g == 0) { ", "g = 9; ", "} ", 64)
    place = 3 + 5 + 63 * tokens("if (g == 0) { ") + 1
    ask.refused("64 arms in one another", f"int g; int main() {{ {arms}return g; }}\n", f"Syntax at {place}")


def compared(sign: str, left: int, right: int) -> int:
    """What an operator gives of two signed numbers."""
    if sign in ("/", "%"):
        quotient = cut_off(left, right)
        return signed(quotient if sign == "/" else left - quotient * right)
    results: dict[str, Callable[[], int]] = {
        ">": lambda: int(left > right),
        ">=": lambda: int(left >= right),
        "<": lambda: int(left < right),
        "<=": lambda: int(left <= right),
        "==": lambda: int(left == right),
        "!=": lambda: int(left != right),
        "-": lambda: left - right,
        "+": lambda: left + right,
        "*": lambda: left * right,
        "<<": lambda: left << (right % 32),
        ">>": lambda: left >> (right % 32),
        "&": lambda: left & right,
        "|": lambda: left | right,
        "^": lambda: left ^ right,
        "&&": lambda: int(left != 0 and right != 0),
        "||": lambda: int(left != 0 or right != 0),
    }
    return signed(results[sign]())


def chains(ask: Asker) -> None:
    """Chains of as many operands as a function may weigh: 300 and more of each operator, 59 of a division."""
    numbers = [0, 1, 2, 1, 0, 3, 1, 1, 0, 2, 5]
    for sign in [">", ">=", "<", "<=", "==", "!=", "-", "+", "*", "<<", ">>", "&", "|", "^", "&&", "||", "/", "%"]:
        # 64 + 16 + 4, and each further operand its own weight and 4
        most = 1 + (4096 - 84) // ({"*": 10, "/": 64, "%": 64}.get(sign, 8) + 4)
        operands = [10**9 if sign in "/%" else 1] + [numbers[at % 11] for at in range(most - 1)]
        if sign in "/%":
            operands[1:] = [7919 + at if sign == "%" else 1 + at % 2 for at in range(most - 1)]
        value = operands[0]
        for number in operands[1:]:
            value = compared(sign, value, number)
        text = f"int main() {{ return {f' {sign} '.join(map(str, operands))}; }}\n"
        ask.taken(f"{most} operands of {sign}", text, value)
        ask.refused(f"{most + 1} operands of {sign}", text.replace(";", f" {sign} 1;", 1), "Heavy at 1")
    chain_of_kinds(ask)


def chain_of_kinds(ask: Asker) -> None:
    """A chain in which operands are worked out while others wait: `>` exchanges them, and the depth stays 12."""
    # 1 > (in[0] > (in[0] > ..)): each further operand waits, so twelve of depth 1 is all
    for depth in [12, 13]:
        text = "int in[1]; int main() { return " + nested("in[0] > (", "in[0]", ")", depth - 1) + "; }\n"
        value = 4
        for _ in range(depth - 1):
            value = int(4 > value)
        if depth == 12:
            ask.taken("a depth of 12", text, value, words=[4])
        else:
            ask.refused("a depth of 13", text, f"Deep at {tokens('int in[1]; int main() { return ')}", words=[4])


def arguments(ask: Asker) -> None:
    """Results of calls as arguments, through variables, since a call is no operand; and six arguments of depth 12."""
    deep = nested("1 - (", "2", ")", 11)
    value = 2
    for _ in range(11):
        value = 1 - value
    head = "int f(int a, int b, int c, int d, int e, int g) { return a - b * 2 + c * 3 - d * 4 + e * 5 - g * 6; }\n"
    text = head + f"int main() {{ int x = f({', '.join([deep] * 6)}); return x; }}\n"
    ask.taken("six arguments of depth 12", text, value * (1 - 2 + 3 - 4 + 5 - 6))
    place = tokens(head + "int main() { int x = f(") + 5 * (tokens(deep) + 1)
    deeper = deep.replace("2", "1 - (2)")
    text = head + f"int main() {{ int x = f({', '.join([deep] * 5 + [deeper])}); return x; }}\n"
    ask.refused("an argument of depth 13", text, f"Deep at {place}")
    calls = "".join(f"int x{at} = f({at}, {at + 1}, {at + 2}, {at + 3}, {at + 4}, {at + 5});\n" for at in range(6))
    given = [n - (n + 1) * 2 + (n + 2) * 3 - (n + 3) * 4 + (n + 4) * 5 - (n + 5) * 6 for n in range(6)]
    value = sum(number * factor for number, factor in zip(given, [1, -2, 3, -4, 5, -6]))
    text = head + f"int main() {{ {calls}x0 = f(x0, x1, x2, x3, x4, x5); return x0; }}\n"
    ask.taken("six arguments that calls gave", text, value)
    begin = head + "int main() { int x = f(1, 2, 3, 4, 5, "
    ask.refused(
        "a call as the sixth argument", begin + "f(1, 2, 3, 4, 5, 6)); return x; }\n", f"Syntax at {tokens(begin) + 1}"
    )
    seventh = head + "int main() { int x = f(1, 2, 3, 4, 5, 6, 7); return x; }\n"
    ask.refused("a seventh argument", seventh, f"Params at {tokens(head + 'int main() { int x = ')}")


# Data and input.


def data(ask: Asker) -> None:
    """49,148 words of private memory and 2,048 of the scratchpad, in one array and in many; and one more."""
    set_ends = "out[%d] = 5; out[%d] = 6; out[4294967295] = 7; return out[0] + out[%d] * 10 + out[%d] * 100; }\n"
    for space, most, name in [("", 49148, "Data"), ("_SPM ", 2048, "Scratch")]:
        text = f"{space}int out[{most}]; int main() {{ out[0] = 3; " + set_ends % (most - 1, most, most - 1, most)
        ask.taken(f"{name} of {most} words", text, 53, out=[3] + [0] * (most - 2) + [5])
        text = text.replace(f"out[{most}];", f"out[{most + 1}];", 1)
        ask.refused(f"{name} of one more", text, f"{name} at {tokens(text)}")
        pieces = f"{space}int a[{most - 3}]; {space}unsigned b; {space}int c[1]; {space}int d;"
        text = f"{pieces} int main() {{ a[{most - 4}] = 4; b = 3; c[0] = 2; d = 1; "
        text += f"return a[{most - 4}] * 1000 + b * 100 + c[0] * 10 + d; }}\n"
        ask.taken(f"{name} of {most} words in four", text, 4321)
        ask.refused(
            f"{name} of one more in five", f"{space}int e; {text}", f"{name} at {tokens(text) + 3 + len(space) // 5}"
        )
    many = "".join(f"int g{at}; " for at in range(49148))
    ask.taken("49,148 variables", many + "int main() { g0 = 2; g49147 = 3; return g0 + g49147 + g30000; }\n", 5)
    text = many + "int g; int main() { return 0; }\n"
    ask.refused("49,149 variables", text, f"Data at {tokens(text)}")
    text = many + "int g49147; int main() { return 0; }\n"
    ask.refused("the last of 49,148 variables twice", text, f"Twice at {3 * 49148 + 1}")
    first_values(ask)


def first_values(ask: Asker) -> None:
    """As many first values as there are words, signed and unsigned, and one value more than words."""
    values = [(at * 2654435761) % 2**32 for at in range(49148)]
    for kind, shown in [("int", [signed(value) for value in values]), ("unsigned", values)]:
        listed = ",".join(map(str, [signed(value) for value in values] if kind == "int" else values))
        text = f"{kind} out[49148] = {{{listed}}}; int main() {{ return out[49147]; }}\n"
        ask.taken(f"49,148 first values, {kind}", text, signed(values[-1]), out=shown)
    ask.refused("one value too many", text.replace("[49148]", "[49147]"), "Data at 1")


def inputs(ask: Asker) -> None:
    """Input that is longer or shorter than `in`, and `in` of each kind, or none."""
    given = [7, -2, 2**32 - 1, -(2**31), 2**31, 0, 11]
    whole = [signed(number) for number in given]
    copy = "int out[9]; int b[4] = {1, 2, 3, 4}; int main() { int i; " + LOOP % 9
    copy += "for (i = 0; i < 9; i = i + 1) { out[i] = in[i]; } "
    copy += "return b[0] + b[1] * 10 + b[2] * 100 + b[3] * 1000; }\n"
    for length in [1, 6, 7, 8, 9]:
        held = (whole[:length] + [0] * 9)[:9]
        ask.taken(f"in of {length} words, 7 given", f"int in[{length}]; {copy}", 4321, out=held, words=given)
        # what stands before `in` moves it; what stands behind it is not reached
        ask.taken(
            f"in of {length} words behind others", f"int z[5]; int in[{length}]; {copy}", 4321, out=held, words=given
        )
    text = f"int in[9] = {{9, 8, 7, 6, 5, 4, 3, 2, 1}}; {copy}"
    ask.taken("in with first values", text, 4321, out=whole + [2, 1], words=given)
    ask.taken("in with first values, nothing given", f"int in[9] = {{9, 8, 7}}; {copy}", 4321, out=[9, 8, 7] + [0] * 6)
    unsigned = f"unsigned in[9]; {copy}".replace("int out", "unsigned out")
    ask.taken("in unsigned", unsigned, 4321, out=[number % 2**32 for number in given] + [0, 0], words=given)
    ask.taken("in unsigned is compared so", "unsigned in[1]; int main() { return in[0] > 1; }\n", 1, words=[-1])
    ask.taken("in signed is compared so", "int in[1]; int main() { return in[0] > 1; }\n", 0, words=[2**32 - 1])
    ask.taken("in in the scratchpad", f"_SPM int in[9]; {copy}", 4321, out=[0] * 9, words=given)
    ask.taken("in is a variable", "int in; int b; int main() { return in * 10 + b; }\n", 0, words=given)
    text = "int b; int in(int a) { return a + b; } int main() { int x = in(4); return x; }\n"
    ask.taken("in is a function", text, 4, words=given)
    ask.taken("no in", "int b = 6; int out[2]; int main() { return b; }\n", 6, out=[0, 0], words=given)
    ask.taken("no data", "int main() { return 6; }\n", 6, words=given)
    ask.taken("in inside a function is another", "int in[2]; int main() { int in = 5; return in; }\n", 5, words=given)
    most = [(at * 40503) % 2**32 for at in range(4096)]
    text = "int in[4096]; int out[4096]; int main() { int i; " + LOOP % 4096
    text += "for (i = 0; i < 4096; i = i + 1) { out[i] = in[i]; } return in[4096]; }\n"
    ask.taken("4,096 words of input", text, 0, out=[signed(number) for number in most], words=most)


# Cores that send.

FILL = "int i; " + LOOP % 512 + "for (i = 0; i < 512; i = i + 1) { comm[i] = %s; } "
GIVE = "int out[512]; int main() { int i; " + LOOP % 512
GIVE += "for (i = 0; i < 512; i = i + 1) { out[i] = comm[i]; } return comm[0]; }\n"
LATE = 1_000_000


def ranges(ask: Asker) -> None:
    """Sends of each pair of ranges at the ends of the 512 words and past them; s + k and t + k are whole numbers."""
    big = 2**32
    triples = [
        (0, 0, 512),
        (0, 0, 513),
        (0, 0, 0),
        (511, 511, 1),
        (512, 512, 1),
        (511, 511, 2),
        (511, 512, 1),
        (512, 511, 1),
        (512, 512, 0),
        (256, 256, 256),
        (256, 256, 257),
        (1, 1, 511),
        (1, 1, 512),
        (0, 1, 512),
        (1, 0, 512),
        (0, 511, 1),
        (511, 0, 1),
        (255, 257, 255),
        (255, 257, 256),
        (257, 255, 255),
        (257, 255, 256),
        (big - 1, 0, 1),
        (0, big - 1, 1),
        (big - 1, big - 1, 2),
        (0, 0, big - 1),
        (1, 1, big - 1),
        (2**31, 2**31, 2**31),
        (big - 2, 0, 4),
        (0, big - 2, 4),
        (0, 0, 2**31 + 1),
        (100, 100, 2),
        (510, 0, 3),
    ]
    for first in range(0, len(triples), 8):
        senders, receivers = {}, {}
        for pair, (s, t, k) in enumerate(triples[first : first + 8]):
            text = "int in[3]; int main() { " + FILL % "i * 3 + 1000"
            text += f"send({2 * pair + 1}, in[0], in[1], in[2]); return comm[511]; }}\n"
            senders[2 * pair] = (text, [s, t, k], 511 * 3 + 1000)
            words = [0] * 512
            if 1 <= k <= 512 and s + k <= 512 and t + k <= 512:
                words[t : t + k] = [at * 3 + 1000 for at in range(s, s + k)]
            receivers[2 * pair + 1] = words
        ask.sent(f"sends of {triples[first:first + 8]}", 16, senders, receivers)


def all_to_one(ask: Asker) -> None:
    """Fifteen cores send to one, each 32 words to its own place, and then each all its words to one place."""
    own, same = {}, {}
    for core in range(1, 16):
        text = "int main() { " + FILL % f"i + {core * 1000}" + f"send(0, 0, {core * 32}, 32); return {core}; }}\n"
        own[core] = (text, None, core)
        same[core] = ("int main() { " + FILL % "i ^ 85" + f"send(0, 0, 0, 512); return {-core}; }}\n", None, -core)
    words = [0] * 32 + [at + core * 1000 for core in range(1, 16) for at in range(32)]
    ask.sent("fifteen cores send to their places", 16, own, {0: words})
    ask.sent("fifteen cores send to one place", 16, same, {0: [at ^ 85 for at in range(512)]})
    text = "int main() { %sreturn 0; }\n"
    for target, line in [(15, None), (16, "Target at 7"), (0, "Target at 7")]:
        begin = text % f"send({target}, 0, 0, 1); "
        if line:
            ask.refused(f"a send of core 0 of 16 to core {target}", begin, line, cores=16)
        else:
            ask.taken(f"a send of core 0 of 16 to core {target}", begin, 0, cores=16)


# Texts of the most bytes.


def longest(before: str, piece: str, after: str) -> str:
    """A text that repeats a piece until its job has the most bytes, and spaces for what is left."""
    room = MOST_BYTES - len(job_of(task(before + after)))
    return before + piece * (room // len(piece)) + " " * (room % len(piece)) + after


def most_bytes(ask: Asker) -> None:
    """Jobs of 1,048,576 bytes: one long token, comment, chain or list of each kind; and of one byte more."""
    end = "int main() { return 4; }\n"
    text = longest("/*", " ", f"*/ {end}")
    ask.taken("a comment of 1 MiB", text, 4)
    job = job_of(task(text.replace("*/", " */")))
    for word in ["run", "bound", "asm", "persist", "mean", "pipe", "grid"]:
        ask.wants("a job of one byte too many", word, job, 2, "job: TooLong\n")
    half = (MOST_BYTES - 1000) // 2
    ask.taken("a name of half a MiB", f"int {'a' * half} = 4; int main() {{ return {'a' * half}; }}\n", 4)
    ask.refused(
        "two such names", f"int {'a' * half} = 4; int main() {{ return {'a' * (half - 1)}b; }}\n", "Unknown at 11"
    )
    ask.taken("a number of a MiB", longest("int main() { return 0x", "0", "4; }\n"), 4)
    ask.refused("too wide a number of a MiB", longest("int main() { return 0x", "4", "; }\n"), "Wide at 20")
    ask.refused("a number of a MiB that begins with 0", longest("int main() { return 0", "0", "4; }\n"), "Char at 20")
    most_tokens(ask)
    most_blanks(ask)


def most_tokens(ask: Asker) -> None:
    """Jobs of the most bytes with short tokens."""
    text = longest("int main() { return 1", " + 1", "; }\n")
    ask.refused("a chain of a MiB", text, "Heavy at 1")
    ask.refused("a chain of a MiB without an end", text[:-4], f"Syntax at {tokens(text) - 2}")
    ask.refused("signs of a MiB", longest("int main() { return ", "- ", "1; }\n"), "Heavy at 1")
    ask.taken("empty blocks of a MiB", longest("int main() { ", "{ } ", "}\n"), 0)
    ask.refused("a text that opens brackets for a MiB", longest("int main() ", "{", "\n"), "Syntax at 68")
    ask.refused("a text that closes brackets for a MiB", longest("int main() { ", "}", "\n"), "Syntax at 6")
    ask.refused("variables of a MiB", longest("int main() { ", "{ int x; } ", "}\n"), "Frame at 1")
    ask.refused("returns of a MiB", longest("int f() { ", "return 1; ", "}\n"), "Heavy at 1")
    ask.refused("arms of a MiB", longest("int main() { if (1) { } ", "else if (1) { } ", "}\n"), "Frame at 1")


def most_blanks(ask: Asker) -> None:
    """Jobs of the most bytes with a few tokens."""
    end = "int main() { return 4; }\n"
    ask.refused("a comment of a MiB that does not end", longest("int main() { } /*", "*", ""), "Char at 15")
    ask.taken("a line of a MiB", longest("int main() { return 4; } // ", "/", ""), 4)
    ask.taken("blanks of a MiB", longest("", "\r\n\t ", end), 4)
    text = longest(end, " ", "$")
    ask.refused("a wrong last byte", text, f"Char at {len(text) - 1}")


def order_of_faults(ask: Asker) -> None:
    """All faults that stand at the end of one text: the least is told, and the next where it is mended."""
    heavy = "".join(f"void f{at}() {{ }} " for at in range(513))
    data_, scratch = "int a[49148]; int b; ", "_SPM int c[2048]; _SPM int d; "
    for text, name in [
        (heavy + data_ + scratch, "Heavy"),
        (data_ + scratch, "Data"),
        (scratch, "Scratch"),
        ("", "NoMain"),
    ]:
        text = "int g; " + text
        ask.refused(f"the end of a text, {name}", text, f"{name} at {tokens(text)}")


PARTS: list[Callable[[Asker], None]] = [
    frames,
    many_functions,
    weights,
    long_loops,
    longest_bounds,
    long_calls,
    limits_of_cycles,
    brackets,
    chains,
    arguments,
    data,
    inputs,
    ranges,
    all_to_one,
    most_bytes,
    order_of_faults,
]


def main() -> int:
    """Every part, or those that are named behind the program."""
    ask = Asker(sys.argv[1])
    for part in PARTS:
        if not sys.argv[2:] or part.__name__ in sys.argv[2:]:
            part(ask)
    return 1 if ask.faults else 0


if __name__ == "__main__":
    sys.exit(main())
