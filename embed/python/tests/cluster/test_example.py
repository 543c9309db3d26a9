"""The transcript of examples/cluster."""

from __future__ import annotations

import os
import subprocess
import sys
from pathlib import Path

import pytest

pytest.importorskip("nacl.signing")
pytest.importorskip("psycopg")

EXAMPLE = Path(__file__).resolve().parents[4] / "examples/cluster"


def test_transcript(program: str, library: None, postgres: None) -> None:
    # The example finds its modules by itself.
    found = {name: value for name, value in os.environ.items() if name != "PYTHONPATH"}
    ran = subprocess.run([sys.executable, EXAMPLE / "run", program], capture_output=True, text=True, env=found)
    assert ran.stdout == (EXAMPLE / "transcript.txt").read_text("utf-8"), ran.stderr
