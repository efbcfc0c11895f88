"""What to write in place of a job that is refused: which key is meant, which value fails, and how the text goes on."""

from __future__ import annotations

from collections.abc import Callable
from dataclasses import dataclass
from typing import Any

from .job import NoToml, places_of, toml_values
from .mending import Advice, Edit
from .near import near_names
from .places import Member, Node

JOB_KEYS = ["version", "cores", "slot", "table", "cycles", "trace", "workers", "task"]
TASK_KEYS = ["core", "lang", "source", "input", "start"]
NEEDED = {"version": "1", "slot": "6", "cycles": "1000000"}
MOST_CORES = {1: 8, 2: 16}
MOST_INPUT = 4096


@dataclass(frozen=True)
class Keys:
    """A job's text with its places, its values, and the key that is refused; `task` is none for a key at the top."""

    data: bytes
    root: Node
    values: dict[str, Any]
    key: str
    task: int | None

    def table(self, task: int | None) -> Node | None:
        """The table of a task, or the one at the top."""
        if task is None:
            return self.root
        tasks = self.root.members.get("task") if self.root.members else None
        items = tasks.node.items if tasks else None
        return items[task] if items and task < len(items) else None

    def member(self, key: str, task: int | None) -> Member | None:
        table = self.table(task)
        return table.members.get(key) if table and table.members else None

    @property
    def tasks(self) -> list[dict[str, Any]]:
        found = self.values.get("task")
        return [one for one in found if isinstance(one, dict)] if isinstance(found, list) else []

    @property
    def value(self) -> Any:
        """The value of the key."""
        table = self.values if self.task is None else self.tasks[self.task] if self.task < len(self.tasks) else {}
        return table.get(self.key)

    @property
    def cores(self) -> int:
        """As many cores as the tasks ask for."""
        numbers = [int(one["core"]) for one in self.tasks if type(one.get("core")) is int]
        return max([0, *numbers]) + 1

    def removed(self, member: Member) -> Edit:
        """The key and its value are left out; an empty line stays."""
        return Edit(member.key_at, member.node.end, "")

    def replaced(self, text: str) -> tuple[Edit, ...] | None:
        """The key has another value."""
        member = self.member(self.key, self.task)
        return None if member is None else (Edit(member.node.start, member.node.end, text),)


def unknown_key(keys: Keys) -> Advice | None:
    """A key that there is not: one of the other table, one of version 2, or one that is spelled otherwise."""
    member = keys.member(keys.key, keys.task)
    if member is None:
        return None
    mend: tuple[Edit, ...] | None = (keys.removed(member),)
    if keys.task is None and keys.key == "table":
        return Advice("`table` is a key in version 2 alone: set `version = 2`, or leave it out.", mend=mend)
    if keys.task is not None and keys.key in JOB_KEYS:
        text = f"`{keys.key}` is a key of the job: it stands before the first `[[task]]`."
        if keys.key not in keys.values and member.node.members is None and member.node.items is None:
            shown = keys.data[member.node.start : member.node.end].decode("utf-8", "replace")
            mend = (keys.removed(member), Edit(0, 0, f"{keys.key} = {shown}\n"))
        return Advice(text, mend=mend)
    if keys.task is None and keys.key in TASK_KEYS and "cores" in keys.values:
        return Advice(f"`{keys.key}` is a key of a task: it stands below its `[[task]]`.", mend=mend)
    names = JOB_KEYS if keys.task is None else TASK_KEYS
    there = keys.table(keys.task)
    left = [name for name in names if there is None or there.members is None or name not in there.members]
    near = near_names(keys.key, left, alike=0.6)
    if not near:
        return None if member.node.members is not None or member.node.items is not None else Advice("", mend=mend)
    renamed = (Edit(member.key_at, member.key_at + len(keys.key), near[0]),)
    plain = keys.data[member.key_at : member.key_at + len(keys.key)] == keys.key.encode()
    many = member.node.members is not None or (
        member.node.items is not None and keys.data[member.node.start : member.node.start + 2] == b"[["
    )
    return Advice(
        f"there is no key `{keys.key}` here: is `{near[0]}` meant?", mend=renamed if plain and not many else None
    )


def missing_key(keys: Keys) -> Advice | None:
    """A key that must be there: one that stands below a `[[task]]` belongs to that task."""
    if keys.task is not None:
        return None
    for number in range(len(keys.tasks)):
        member = keys.member(keys.key, number)
        if member is not None:
            shown = keys.data[member.node.start : member.node.end].decode("utf-8", "replace")
            text = (
                f"`{keys.key}` stands below `[[task]]`, so it is a key of that task: write it before the first"
                " `[[task]]`."
            )
            mend = (keys.removed(member), Edit(0, 0, f"{keys.key} = {shown}\n"))
            return Advice(text, member.key_at, mend=mend)
    value = {"cores": str(keys.cores), "table": str(list(range(keys.cores))), **NEEDED}[keys.key]
    example = {
        "version": "1",
        "cores": str(keys.cores),
        "slot": "6",
        "cycles": "100000",
        "table": str(list(range(keys.cores))),
    }
    return Advice(
        f"add `{keys.key} = {example[keys.key]}` before the first `[[task]]`.",
        mend=(Edit(0, 0, f"{keys.key} = {value}\n"),),
    )


def bad_value(keys: Keys) -> Advice | None:
    """A value of another kind, or outside its range."""
    value, cores = keys.value, keys.values.get("cores")
    if keys.key in NEEDED:
        return Advice("", mend=keys.replaced(NEEDED[keys.key]))
    if keys.key == "table" and isinstance(value, list) and isinstance(cores, int):
        return Advice(bad_table(value, cores), mend=keys.replaced(str(list(range(cores)))))
    if keys.key in ("trace", "start"):
        return Advice("", mend=keys.replaced("0"))
    if keys.key == "workers":
        shown = f"`cores = {cores}`, so 1 to {cores}." if type(cores) is int else ""
        return Advice(shown, mend=keys.replaced("1"))
    if keys.key == "cores":
        most = MOST_CORES.get(keys.values.get("version", 1), 8)
        more = (
            " `version = 2` takes 16, with a `table`." if most == 8 and type(value) is int and 8 < value <= 16 else ""
        )
        fits = keys.replaced(str(keys.cores)) if keys.cores <= most else None
        return Advice(f"1 to {most} in this version.{more}" if type(value) is int else "", mend=fits)
    if keys.key == "core" and type(value) is int and type(cores) is int:
        return Advice(f"`cores = {cores}`, so the cores are 0 to {cores - 1}.")
    if keys.key == "core" and isinstance(value, str) and value.isdigit():
        return Advice(f"a number stands without quotes: `core = {int(value)}`.", mend=keys.replaced(str(int(value))))
    if keys.key == "lang" and isinstance(value, str):
        meant = "c" if value.lower().startswith("c") else "asm"
        return Advice(f'`"asm"` or `"c"`, in lower case: is `"{meant}"` meant?', mend=keys.replaced(f'"{meant}"'))
    return None


def bad_table(table: list[Any], cores: int) -> str:
    """What is wrong with a slot table."""
    if not table or len(table) > 64:
        return f"a table has 1 to 64 entries, and this one has {len(table)}."
    outside = [one for one in table if type(one) is int and not 0 <= one < cores]
    if outside:
        return f"there is no core {outside[0]}: `cores = {cores}`, so the table has the numbers 0 to {cores - 1}."
    missing = [str(core) for core in range(cores) if core not in table]
    if missing:
        named = f"core {missing[0]}" if len(missing) == 1 else f"cores {', '.join(missing)}"
        return f"each core owns a slot, also one without a task: {named} of `cores = {cores}` is not in the table."
    return ""


def core_twice(keys: Keys) -> Advice | None:
    """A core with two tasks."""
    value, cores = keys.value, keys.values.get("cores", 0)
    earlier = next((number for number, one in enumerate(keys.tasks) if one.get("core") == value), None)
    taken = {one.get("core") for one in keys.tasks}
    free = next((core for core in range(cores) if core not in taken), None)
    member = keys.member("core", earlier) if earlier is not None else None
    also = ((member.key_at, f"core {value} has its task here."),) if member is not None else ()
    text = f"core {value} has a task already" + (f": core {free} has none." if free is not None else "; raise `cores`.")
    return Advice(text, None, also, None if free is None else keys.replaced(str(free)))


def bad_input(keys: Keys) -> Advice | None:
    """An input of too many words, or with a number that is no word: that number is marked."""
    member, value = keys.member("input", keys.task), keys.value
    if member is None or not isinstance(value, list):
        return None
    mend = keys.replaced("[]")
    if len(value) > MOST_INPUT:
        return Advice(f"the input has {len(value):,} words, {len(value) - MOST_INPUT:,} too many.", mend=mend)
    items = member.node.items or []
    for number, item in zip(value, items):
        if type(number) is int and not -(2**31) <= number < 2**32:
            return Advice(f"{number} is no word of 32 bits: -2147483648 to 4294967295.", item.start, mend=mend)
    return None


ADVICE: dict[str, Callable[[Keys], Advice | None]] = {
    "Key": unknown_key, "Missing": missing_key, "Kind": bad_value, "Range": bad_value, "CoreTwice": core_twice,
    "Input": bad_input,
}  # fmt: skip


def advise(data: bytes, fault: str, key: str, task: int | None) -> Advice | None:
    """What to write in place of a key, or of its value, that is refused so."""
    root, check = places_of(data), ADVICE.get(fault)
    if root is None or check is None:
        return None
    try:
        return check(Keys(data, root, toml_values(data), key, task))
    except (NoToml, KeyError):
        return None
