#!/usr/bin/env python3
"""Holds each job that is named on the command line against docs/job.schema.json, and each schedule of the network
against docs/grid.schema.json."""

from __future__ import annotations

import json
import sys
import tomllib
from pathlib import Path
from typing import Any

import jsonschema


def validator(path: str) -> Any:
    """The validator of a schema."""
    return jsonschema.Draft202012Validator(json.loads(Path(path).read_text(encoding="utf-8")))


def main() -> int:
    """Prints each fault."""
    jobs, schedules = validator("docs/job.schema.json"), validator("docs/grid.schema.json")
    faults = 0
    for path in sys.argv[1:]:
        text = tomllib.loads(Path(path).read_text(encoding="utf-8"))
        for error in (schedules if "columns" in text else jobs).iter_errors(text):
            print(f"checks: {path}: {error.json_path}: {error.message}")
            faults = 1
    return faults


if __name__ == "__main__":
    sys.exit(main())
