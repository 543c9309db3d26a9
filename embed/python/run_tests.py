"""Runs the tests of a folder, and the measurements beside them."""

from __future__ import annotations

import os
import subprocess
import sys
from pathlib import Path
from typing import Sequence

HERE = Path(__file__).resolve().parent
TOP = HERE.parent.parent
# What a measurement imports, beside what is in its folder.
FOLDERS = ["embed/python/src", "embed/python/tests/provider", "cases/second", "examples/cluster"]


def python_with(modules: str) -> str:
    """A Python that imports some modules: this one, or that of Debian, which has Debian's packages."""
    for python in [sys.executable, "/usr/bin/python3"]:
        if subprocess.run([python, "-c", f"import {modules}"], capture_output=True).returncode == 0:
            return python
    sys.exit(f"{modules} is missing: scripts/tools.py prints what installs it")


def run(folder: str, options: Sequence[str]) -> int:
    """Runs the tests of a folder of `tests`, and returns the status of pytest."""
    return subprocess.run([TOP / "scripts/pytest", HERE / "tests" / folder, *options]).returncode


def measure(script: str, words: Sequence[str]) -> int:
    """Runs a measurement over a program, by default the proved one."""
    found = os.environ | {"PYTHONPATH": os.pathsep.join(str(TOP / it) for it in FOLDERS), "PYTHONDONTWRITEBYTECODE": "1"}
    program, *numbers = words or [str(TOP / "crates/provider/out/provider")]
    python = python_with("psycopg") if script.startswith("cluster/") else sys.executable
    return subprocess.run([python, HERE / "tests" / script, str(Path(program).resolve()), *numbers], env=found).returncode
