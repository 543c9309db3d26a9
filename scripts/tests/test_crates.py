"""`scripts/crates` over small files."""

from __future__ import annotations

import shutil
import subprocess
from pathlib import Path

import pytest

TOP = Path(__file__).resolve().parents[2]
ROWS = """\
# A comment: with a colon.
low: sha2

made staticlib tests_may=Threads: low  hex
side:
high: side made low sha2
"""


@pytest.fixture
def room(tmp_path: Path) -> Path:
    (tmp_path / "scripts").mkdir()
    shutil.copy(TOP / "scripts/crates", tmp_path / "scripts")
    (tmp_path / "crates.txt").write_text(ROWS)
    return tmp_path


def crates(room: Path, *words: str) -> tuple[int, list[str]]:
    ran = subprocess.run([room / "scripts/crates", *words], capture_output=True, text=True)
    assert not ran.stderr
    return ran.returncode, ran.stdout.splitlines()


def test_all(room: Path) -> None:
    assert crates(room) == (0, ["low sha2", "made low hex", "side", "high side made low sha2"])


def test_chain(room: Path) -> None:
    """A crate and those below it, each once and after those that it depends on."""
    assert crates(room, "high") == (0, ["side", "low sha2", "made low hex", "high side made low sha2"])
    assert crates(room, "low") == (0, ["low sha2"])


def test_rows(room: Path) -> None:
    assert crates(room, "--rows", "made") == (0, ["low: sha2", "made staticlib tests_may=Threads: low  hex"])


@pytest.mark.parametrize("name", ["sha2", "lo", "missing", "#", "A"])
def test_unknown(room: Path, name: str) -> None:
    assert crates(room, name) == (1, [])


@pytest.mark.parametrize("end", ["", "\n", "\n\n", "\n# the end", "\r\n"])
def test_ends(room: Path, end: str) -> None:
    (room / "crates.txt").write_text(f"low: sha2\ntop: low{end}")
    assert crates(room, "top") == (0, ["low sha2", "top low"])


def test_itself() -> None:
    """Each crate of this repository is named once, and no crate depends on one that is named after it."""
    status, lines = crates(TOP)
    names = [it.split()[0] for it in lines]
    assert status == 0 and len(names) == len(set(names))
    assert sorted(names) == sorted(it.name for it in (TOP / "crates").iterdir() if (it / "src").is_dir())
    for at, line in enumerate(lines):
        assert not set(line.split()[1:]) & set(names[at:])
