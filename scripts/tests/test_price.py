"""What scripts/price prints of a crate, and how the processes of a proof are counted."""

from __future__ import annotations

import os
import shutil
import subprocess
import sys
import time
from pathlib import Path

import minutes
import pytest

TOP = Path(__file__).resolve().parents[2]
CRATES = "low: sha2\nhigh: low\nbeside: sha2\ntop: high low\n"
TIMES = '{"low": {"proof": 60, "edits": 30}, "high": {"proof": 120}, "beside": {"proof": 600}}'


def price(room: Path, *words: str) -> subprocess.CompletedProcess[str]:
    for file in ["price", "minutes.py", "over_libraries.py", "crates"]:
        (room / "scripts").mkdir(exist_ok=True)
        shutil.copy(TOP / "scripts" / file, room / "scripts" / file)
    return subprocess.run([room / "scripts/price", *words], capture_output=True, text=True)


def test_price(tmp_path: Path) -> None:
    """The crate and those above it, with the minutes of each, their sum, and those that weren't measured."""
    (tmp_path / "crates.txt").write_text(CRATES)
    (tmp_path / "out").mkdir()
    (tmp_path / "out/minutes.json").write_text(TIMES)
    rows = [it.split() for it in price(tmp_path, "low").stdout.splitlines()]
    assert rows[0] == ["minutes", "proof", "tests", "seed", "edits", "compilers", "all"]
    assert rows[1] == ["low", "1.0", "0.0", "0.0", "0.5", "0.0", "1.5"]
    assert rows[2] == ["high", "2.0", "0.0", "0.0", "0.0", "0.0", "2.0"]
    assert [it[0] for it in rows] == ["minutes", "low", "high", "all", "not"] and rows[3][-1] == "3.5" and "top." in rows[4]
    (tmp_path / "out/minutes.json").unlink()
    assert price(tmp_path, "low").stdout.startswith("not measured here: low high top."), "nothing is said of what isn't known"


@pytest.mark.parametrize("words", [[], ["another"], ["low", "high"], ["--help"]])
def test_wrong_words(tmp_path: Path, words: list[str]) -> None:
    (tmp_path / "crates.txt").write_text(CRATES)
    ran = price(tmp_path, *words)
    assert ran.returncode == 2 and ran.stderr and not ran.stdout


KINDS = {
    "proof": ("/work", ["rattle", "build", "--crate-name", "low"]),
    "tests": ("/work", ["rattle", "build", "--crate-name", "low", "--test"]),
    "seed": ("/tmp/rt-edit-7-x", ["rattle", "check", "--crate-name", "low", "--incremental", "/tmp/rt-edits-7-x/seed"]),
    "edits": ("/tmp/rt-edit-7-x", ["rattle", "check", "--crate-name", "low", "--incremental", "/tmp/rt-edits-7-x/3"]),
    "compilers": ("/work", ["rattle", "build", "--crate-name", "low", "--crate-checked", "/tmp/x"]),
}


@pytest.mark.parametrize("kind", KINDS)
def test_kinds(kind: str, monkeypatch: pytest.MonkeyPatch) -> None:
    monkeypatch.setattr("tempfile.tempdir", "/tmp")
    home, words = KINDS[kind]
    assert minutes.kind_of(words, home) == kind


def test_sampler(tmp_path: Path) -> None:
    """A process of that name is counted with its processor time, by the crate that it names."""
    shutil.copy(sys.executable, tmp_path / "rattle")
    setting = os.environ | {"PYTHONHOME": sys.base_prefix}
    text = "import time\nwhile time.process_time() < 2: pass"
    sampler = minutes.Sampler()
    sampler.start()
    start = time.monotonic()
    subprocess.run([tmp_path / "rattle", "-c", text, "--crate-name", "sampled"], env=setting, check=True)
    took, times = time.monotonic() - start, sampler.stop()
    assert 1 < times["sampled"]["proof"] <= min(took, 2.5)


def test_sampler_of_others() -> None:
    """A process that was not started from here is not counted."""
    assert minutes.is_ours(str(os.getpid())) and not minutes.is_ours(str(os.getppid()))


def test_note(tmp_path: Path, monkeypatch: pytest.MonkeyPatch) -> None:
    """A crate that a run has not proved keeps what an earlier run noted."""
    monkeypatch.setattr(minutes, "FILE", tmp_path / "out/minutes.json")
    minutes.note({"low": {"proof": 60.0}, "high": {"proof": 5.0}})
    minutes.note({"low": {"proof": 70.0}, "high": {"edits": 9.0}})
    assert minutes.read() == {"low": {"proof": 70.0}, "high": {"proof": 5.0}}
