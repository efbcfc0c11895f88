"""What the tests of the tools share: where the program is, and how a tool is called."""

from __future__ import annotations

import os
import shutil
import subprocess
import sys
from collections.abc import Callable
from importlib.machinery import SourceFileLoader
from importlib.util import module_from_spec, spec_from_loader
from pathlib import Path
from types import ModuleType

import pytest

HERE = Path(__file__).resolve().parent
TOOLS = HERE.parent
ROOT = TOOLS.parent
sys.path[:0] = [str(HERE), str(TOOLS)]

# What `lower` reads needs a preprocessor, and what it writes is compared with gcc.
LOWER = ["test_pieces.py", "test_programs.py", "test_refusals.py", "test_rewritings.py"]
collect_ignore = [] if shutil.which("gcc") else LOWER

Tool = Callable[..., "subprocess.CompletedProcess[str]"]


def load(name: str) -> ModuleType:
    """A tool as a module, so that its functions are called one by one."""
    module_name = "tool_" + Path(name).stem
    if module_name not in sys.modules:
        sys.dont_write_bytecode = True
        loader = SourceFileLoader(module_name, str((TOOLS / name).resolve()))
        spec = spec_from_loader(module_name, loader)
        assert spec is not None
        module = module_from_spec(spec)
        sys.modules[module_name] = module
        loader.exec_module(module)
    return sys.modules[module_name]


@pytest.fixture(scope="session")
def program() -> str:
    """The program: what TCREST names, or bin/tcrest; without one the tests that run it are passed over.

    TCCODE then names the program that writes code, as it does already, or beside the program.
    """
    path = os.environ.get("TCREST") or str(ROOT / "bin" / "tcrest")
    if not os.path.isfile(path):
        pytest.skip("there is no program: run ./build, or name it by TCREST")
    os.environ.setdefault("TCCODE", str(Path(path).resolve().with_name("tccode")))
    return str(Path(path).resolve())


@pytest.fixture
def tool(program: str, tmp_path: Path) -> Tool:
    """Calls a tool in the folder of the repository, with the program."""

    def call(name: str, *words: str) -> subprocess.CompletedProcess[str]:
        environment = {**os.environ, "TCREST": program, "PYTHONDONTWRITEBYTECODE": "1"}
        line = [sys.executable, str(TOOLS / name), *words]
        return subprocess.run(line, capture_output=True, text=True, cwd=ROOT, env=environment, check=False)

    return call
