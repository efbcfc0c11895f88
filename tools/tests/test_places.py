"""Places: where the keys and texts of jobs stand, and where each refusal of the cases is shown."""

from __future__ import annotations

import re
import tomllib
from dataclasses import dataclass
from pathlib import Path

import pytest
from conftest import ROOT

from tcresttools.cli import BadInput
from tcresttools.explaining import Asked, Explainer, Finding
from tcresttools.job import NoToml, read_job, toml_string, toml_values
from tcresttools.mending import Edit, Mended
from tcresttools.places import place_at, read_places


@dataclass(frozen=True)
class Case:
    """A case of the folder cases/: its name, what the program reads, and what it writes."""

    name: str
    text: str
    answer: str


def cases_of(page: str) -> list[Case]:
    """The refused jobs of a page."""
    found = []
    for part in re.split(r"^=== ", (ROOT / "cases" / page).read_text(encoding="utf-8"), flags=re.M)[1:]:
        head, _, rest = part.partition("\n")
        text, _, answer = rest.partition("---\n")
        if head.split()[1] in ("2", "4"):
            found.append(Case(f"{page}: {head}", text, answer.strip() + "\n"))
    return found


CASES = [
    case for page in ("faults.txt", "assembly.txt", "jobs.txt", "programs.txt", "grid.txt") for case in cases_of(page)
]


def found_in(folder: Path, text: str, answer: str) -> Finding:
    """The finding of an answer that is stored, so that no program is needed."""
    job, stored = folder / "job.toml", folder / "answer"
    job.write_text(text, encoding="utf-8", newline="")
    stored.write_text(answer, encoding="utf-8")
    return Explainer(Asked(str(job), written=str(stored))).findings()[0]


def test_cases_are_there() -> None:
    assert len(CASES) > 60


@pytest.mark.parametrize("case", CASES, ids=[case.name for case in CASES])
def test_refused_job_is_shown_at_its_place(case: Case, tmp_path: Path) -> None:
    finding = found_in(tmp_path, case.text, case.answer)
    assert finding.line == case.answer.strip()
    lines = case.text.splitlines()
    if finding.place is not None:
        line = lines[finding.place.line - 1] if finding.place.line <= len(lines) else ""
        assert finding.place.text == line
        assert 1 <= finding.place.column <= len(line) + 1
    check_key(case, finding)


def check_key(case: Case, finding: Finding) -> None:
    """A key that is refused, and stands in the job, is the place; an array element stands in its key's value."""
    match = re.fullmatch(r"job: (\w+)(?: task (\d+))? (\w+)\n", case.answer)
    if match is None or match.group(1) in ("Missing",) or finding.place is None:
        return
    fault, task, key = match.groups()
    if fault == "Input":
        assert f"{key} =" in "\n".join(case.text.splitlines()[: finding.place.line])
        return
    behind = finding.place.text[finding.place.column - 1 :]
    assert behind.startswith(key) or f'"{key}"' in behind or "[[" in behind or key in finding.place.text
    if task is not None:
        above = "\n".join(case.text.splitlines()[: finding.place.line])
        assert above.count("[[task]]") == int(task) + 1 or "[[task]]" not in case.text


def c_texts() -> list[tuple[str, str]]:
    """The refused texts without escapes, as TOML writes them."""
    lines = (ROOT / "cases/c_texts.txt").read_text(encoding="utf-8").splitlines()
    rows = [line.split("\t") for line in lines if not line.startswith("#")]
    return [(row[0], row[1]) for row in rows if " at " in row[0] and "\\" not in row[1] and row[1].startswith('"')]


@pytest.mark.parametrize("answer,text", c_texts())
def test_refused_c_text_is_shown_at_its_byte(answer: str, text: str, tmp_path: Path) -> None:
    """`Char` and `Wide` count bytes; other faults count tokens, and a hint may stand at the token before it."""
    head = 'version = 1\ncores = 2\nslot = 6\ncycles = 1000\n[[task]]\ncore = 0\nlang = "c"\n'
    finding = found_in(tmp_path, f"{head}source = {text}\n", f"core 0: {answer}\n")
    assert finding.place is not None
    assert finding.place.line == 8
    first = len('source = "') + 1
    if answer.startswith(("Char", "Wide")):
        byte = int(answer.split()[-1])
        assert finding.place.column == first + len(tomllib.loads("x = " + text)["x"].encode()[:byte].decode())
    else:
        assert first <= finding.place.column <= first + len(text) - 1
    assert finding.here or finding.entry.cause


def test_places_of_strings_with_escapes() -> None:
    data = b"a = \"x\\n\\u00e9y\"\nb = '''\r\nz'''\n"
    root = read_places(data)
    assert root.members is not None
    string = root.members["a"].node
    assert string.string == "x\né".encode() + b"y"
    assert [data[at : at + 1] for at in string.bytes_at] == [b"x", b"\\", b"\\", b"\\", b"y", b'"']
    assert root.members["b"].node.string == b"z"


def test_place_counts_letters_and_not_bytes() -> None:
    data = "\ufeffé = 1\r\n\tx".encode()
    assert (place_at(data, data.index(b"=")).line, place_at(data, data.index(b"=")).column) == (1, 3)
    place = place_at(data, data.index(b"x"))
    assert (place.line, place.column, place.caret()) == (2, 2, "\tx\n\t^")


def test_with_values_keeps_the_rest() -> None:
    job = read_job(str(ROOT / "examples/two_cores.toml"))
    text = job.with_values({(None, "slot"): "8", (1, "start"): "5", (0, "source"): toml_string(b'a"\n')})
    values = toml_values(text)
    assert values["slot"] == 8
    assert values["task"][1]["start"] == 5
    assert values["task"][0]["source"] == 'a"\n'
    assert values["task"][1]["source"] == job.keys["task"][1]["source"]


def test_bad_jobs_are_one_clear_line(tmp_path: Path) -> None:
    path = tmp_path / "job.toml"
    path.write_text("version = 1\ncores = \n")
    with pytest.raises(BadInput, match=r"job.toml:2:9: this is no TOML"):
        read_job(str(path))
    path.write_text("version = 1\n")
    with pytest.raises(BadInput, match="`cores` is no number"):
        read_job(str(path))
    with pytest.raises(NoToml):
        toml_values(b"a = '\xff'")


def test_mended_text_knows_where_it_comes_from() -> None:
    first = Mended.first(b"abcdef")
    mended = first.edited([Edit(1, 3, "XYZ"), Edit(5, 5, "+")]).edited([Edit(0, 1, "")])
    assert mended.data == b"XYZde+f"
    assert mended.origin == [1, 1, 1, 3, 4, 5, 5, 6]
