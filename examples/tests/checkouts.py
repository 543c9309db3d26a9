"""Copies of the checkout in which the programs are built."""

from __future__ import annotations

import shutil
import subprocess
from pathlib import Path

TOP = Path(__file__).resolve().parents[2]
ARCHIVE = Path("crates/coniks_c/out/libconiks_c.a")


def copied(room: Path) -> None:
    """Copies what git knows or would add."""
    words = ["git", "ls-files", "-z", "--cached", "--others", "--exclude-standard"]
    named = subprocess.run(words, cwd=TOP, capture_output=True, check=True).stdout.decode().split("\0")
    for it in named:
        if it and (TOP / it).is_file():
            (room / it).parent.mkdir(parents=True, exist_ok=True)
            shutil.copy(TOP / it, room / it)


def put(room: Path, file: Path, built: Path) -> None:
    """Puts what is built in the place where its launcher looks for it."""
    (room / file).parent.mkdir(exist_ok=True)
    shutil.copy(built, room / file)
    for word in ["begin", "end"]:
        subprocess.run([room / "scripts/built", word, room / file], check=True)


def put_program(room: Path, name: str, program: Path) -> None:
    put(room, Path(f"crates/{name}/out/{name}"), program)


def put_archive(room: Path) -> None:
    """Puts the archive of the library for C that `embed/build` made last, if it is there."""
    archive = TOP / "embed/out/libconiks.a"
    if archive.is_file():
        put(room, ARCHIVE, archive)
