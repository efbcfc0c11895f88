"""The schemas: those that are stored, and what they take and refuse."""

from __future__ import annotations

import json
import tomllib
from typing import Any

import pytest
from conftest import ROOT, load


@pytest.mark.parametrize("kind", ["job", "grid"])
def test_stored_schemas(kind: str) -> None:
    made = getattr(load("schema"), f"{kind}_schema")()
    assert json.loads((ROOT / f"docs/{kind}.schema.json").read_text(encoding="utf-8")) == made


def jobs() -> list[dict[str, Any]]:
    paths = sorted((ROOT / "examples").glob("**/*.toml"))
    return [tomllib.loads(path.read_text(encoding="utf-8")) for path in paths if path.name != "grid.toml"]


def test_each_key_of_the_examples_is_known() -> None:
    schema = load("schema").job_schema()
    keys, task = schema["properties"], schema["$defs"]["task"]["properties"]
    for job in jobs():
        assert job.keys() <= keys.keys()
        assert all(one.keys() <= task.keys() for one in job.get("task", []))


WRONG: list[dict[str, Any]] = [
    {"version": 1, "cores": 9, "slot": 6, "cycles": 9},
    {"version": 1, "cores": 1, "slot": 5, "cycles": 9},
    {"version": 1, "cores": 2, "slot": 6, "cycles": 9, "table": [0, 1]},
    {"version": 2, "cores": 2, "slot": 6, "cycles": 9, "table": [0, 0]},
    {"version": 2, "cores": 2, "slot": 6, "cycles": 9},
    {"version": 1, "cores": 1, "slot": 6, "cycles": 9, "more": 1},
    {"version": 1, "cores": 1, "slot": 6, "cycles": 9, "task": [{"core": 1, "lang": "c", "source": ""}]},
    {"version": 1, "cores": 2, "slot": 6, "cycles": 9, "task": [{"core": 0, "lang": "c", "source": ""}] * 2},
]


def test_the_schema_takes_jobs_and_refuses_others() -> None:
    jsonschema = pytest.importorskip("jsonschema")
    validator = jsonschema.Draft202012Validator(load("schema").job_schema())
    assert all(validator.is_valid(job) for job in jobs())
    assert not any(validator.is_valid(job) for job in WRONG)
