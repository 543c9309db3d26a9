"""Runs examples/provider over the program and over the second implementation, and compares what it prints with what is stored. Tests
the VRF and the signatures on the vectors of their RFCs, what client and auditor refuse, and the types."""

from __future__ import annotations

import os
import re
import subprocess
from pathlib import Path
from typing import Any, Union

import pytest

import tools

TOP = Path(__file__).resolve().parents[2]
HOME = TOP / "examples/provider"
SECOND = TOP / "cases/second"
ANSWERS = """\
{"answer":"key","key":"a2V5IG9mIGFsaWNl","ok":"check"}
{"answer":"key","key":"a2V5IG9mIGFsaWNl","ok":"check"}
{"answer":"key","key":"a2V5IG9mIG1hbGxvcnk=","ok":"check"}
{"answer":"absent","ok":"check"}
"""
STORED = [([], "transcript.txt"), (["--lines"], "lines.jsonl")]


def run(*words: Union[str, Path], **more: Any) -> subprocess.CompletedProcess[str]:
    return subprocess.run([str(it) for it in words], capture_output=True, text=True, **more)


@pytest.fixture
def python() -> str:
    """A Python with PyNaCl."""
    return tools.python_for("signatures") or pytest.skip("PyNaCl is missing")


def test_lines() -> None:
    """The stored lines are ones that `keydir check` reads."""
    lookups = [it for it in (HOME / "lines.jsonl").read_text("utf-8").splitlines(keepends=True) if '"ok":"lookup"' in it]
    ran = run(SECOND / "keydir", "check", input="".join(lookups))
    assert (ran.returncode, ran.stdout) == (0, ANSWERS), ran.stderr


def check_counted(python: str, script: str) -> None:
    """Runs a script that counts by itself."""
    ran = run(python, HOME / script)
    assert re.search(r"^[1-9]\d* passed, 0 failed\n\Z", ran.stdout, re.M) and ran.returncode == 0, ran.stdout + ran.stderr


def test_vectors(python: str) -> None:
    check_counted(python, "vectors.py")


def test_refusals(python: str, library: None) -> None:
    check_counted(python, "refusals.py")


def test_types(python: str) -> None:
    if not tools.has("mypy"):
        pytest.skip("mypy is missing")
    path = os.environ | {"MYPYPATH": str(TOP / "embed/python/src")}
    words = ["--strict", "--cache-dir", os.devnull, "--python-executable", python]
    ran = run("mypy", *words, *sorted(HOME.glob("*.py")), HOME / "run", env=path)
    assert ran.returncode == 0, ran.stdout + ran.stderr


@pytest.mark.parametrize("options, stored", STORED, ids=[it[1] for it in STORED])
def test_program(python: str, library: None, program: str, options: list[str], stored: str) -> None:
    check_transcript(python, Path(program), options, stored)


@pytest.mark.parametrize("options, stored", STORED, ids=[it[1] for it in STORED])
def test_second(python: str, library: None, options: list[str], stored: str) -> None:
    check_transcript(python, SECOND / "provider", options, stored)


def check_transcript(python: str, program: Path, options: list[str], stored: str) -> None:
    ran = run(python, HOME / "run", *options, program)
    assert ran.returncode == 0 and ran.stdout == (HOME / stored).read_text("utf-8"), ran.stderr[-2000:]
