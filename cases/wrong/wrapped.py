"""Runs the program that KEYDIR names, by default the repository's `keydir`, with the given arguments and input."""

from __future__ import annotations

import os
import subprocess
import sys
from pathlib import Path
from typing import NoReturn

sys.dont_write_bytecode = True


def run() -> subprocess.CompletedProcess[bytes]:
    """Runs it without KEYDIR, so that a wrong program that is named there doesn't run itself again and again."""
    others = {name: value for name, value in os.environ.items() if name != "KEYDIR"}
    program = os.environ.get("KEYDIR") or Path(__file__).resolve().parents[2] / "keydir"
    return subprocess.run([program, *sys.argv[1:]], stdout=subprocess.PIPE, env=others)


def end(output: bytes, status: int) -> NoReturn:
    sys.stdout.buffer.write(output)
    sys.stdout.buffer.flush()
    sys.exit(status)
