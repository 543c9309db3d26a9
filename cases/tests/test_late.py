"""A program that hangs fails each script that compares it, with a sentence, and the script goes on to its last line."""

from __future__ import annotations

import json
import os
import select
import shutil
import subprocess
import time
from pathlib import Path

import pytest
from limited import Late, ended

CASES = Path(__file__).resolve().parents[1]
REPORTED = "no end within 0.3 seconds"

# What hangs is a child of the program, which must be ended too: it has the program's streams.
HANGS = "#!/bin/sh\nsleep 600\necho never\n"


def reported(room: Path, script: str, *words: str, hangs: str = HANGS) -> list[str]:
    """The lines that a script of a folder prints of a program that hangs, which it reports soon and fails on."""
    program = room / "provider"
    program.write_text(hangs)
    program.chmod(0o700)
    start = time.monotonic()
    found = os.environ | {"CONIKS_CASE_SECONDS": "0.3"}
    ran = subprocess.run([room / script, program, *words], capture_output=True, text=True, env=found)
    assert ran.returncode == 1 and not ran.stderr and time.monotonic() - start < 60
    return ran.stdout.splitlines()


@pytest.fixture
def room(tmp_path: Path) -> Path:
    """A copy of the scripts, and of what they read."""
    shutil.copytree(CASES, tmp_path, dirs_exist_ok=True)
    return tmp_path


def rows(room: Path, *names: str) -> None:
    """Leaves these rows of the table `run`, and as the last one a row that takes turns."""
    given = (CASES / "run.jsonl").read_text().splitlines()
    chosen = [it for it in given if json.loads(it)["name"] in names]
    turns = {**json.loads(chosen[0]), "name": "in-turns", "turns": True}
    (room / "run.jsonl").write_text("\n".join([*chosen, json.dumps(turns)]) + "\n")


def test_compare(room: Path) -> None:
    rows(room, "an-empty-batch")
    lines = reported(room, "compare", "run")
    assert [it.strip() for it in lines if REPORTED in it] == [REPORTED, REPORTED] and lines[-1] == "0 passed, 2 failed"


def test_like_run(room: Path) -> None:
    rows(room, "an-empty-batch", "name-taken")
    assert reported(room, "like-run")[-4:] == [
        f"run/an-empty-batch: {REPORTED}",
        f"run/name-taken: {REPORTED}",
        f"run/in-turns: {REPORTED}",
        "0 passed, 3 failed",
    ]


def test_streams(room: Path) -> None:
    """It hangs with the argument for replays alone, and the rows without that one are compared."""
    lines = reported(room, "streams", hangs='#!/bin/sh\nif [ "$1" = --replay ]; then sleep 600; fi\necho provider 1.0.0\n')
    wanted = 6 if Path("/dev/full").exists() else 5
    assert lines.count(f"    got  ['{REPORTED}']") == wanted and lines[-1].startswith("2 passed, ")


def test_restored(room: Path) -> None:
    wanted = json.loads((CASES / "restored.json").read_text())
    (room / "restored.json").write_text(json.dumps({**wanted, "size": {"names": 100, "batch": 10, "lookups": 1}}))
    lines = reported(room, "restored")
    assert lines[:2] == ["restored:", f"    {REPORTED}"] and lines[-1] == "0 passed, 1 failed"


def test_epochs(room: Path) -> None:
    lines = reported(room, "epochs", "--epochs", "3")
    assert lines[:2] == ["epochs:", f"    {REPORTED}"] and lines[-1] == "0 passed, 1 failed"


def test_bytes(room: Path) -> None:
    """A byte list that a case shows fails, and one that none shows passes."""
    items = json.loads((CASES / "bytes.json").read_text())
    chosen = [next(it for it in items if ("shown" in it) is is_shown) for is_shown in (True, False)]
    (room / "bytes.json").write_text(json.dumps(chosen))
    lines = reported(room, "bytes")
    assert REPORTED in lines[1] and lines[-1] == "1 passed, 1 failed"


def test_killed(monkeypatch: pytest.MonkeyPatch) -> None:
    """What the program started is ended with it: nobody has the other end of its output."""
    monkeypatch.setenv("CONIKS_CASE_SECONDS", "0.3")
    reader, writer = os.pipe()
    with pytest.raises(Late):
        ended(["sh", "-c", "sleep 600 & wait"], 60, stdout=writer)
    os.close(writer)
    assert select.select([reader], [], [], 10)[0] and os.read(reader, 1) == b""
    os.close(reader)
