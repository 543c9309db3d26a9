"""Builds a crate over the libraries that `rt ci` built. `rt` itself would prove these again, since `rt ci` leaves no stamp for them."""

from __future__ import annotations

import subprocess
from pathlib import Path
from typing import Sequence, Union

TOP = Path(__file__).resolve().parent.parent
Word = Union[str, Path]


class NotBuilt(Exception):
    """What the toolchain said of a crate that it doesn't build."""


def crates(*names: str) -> dict[str, list[str]]:
    """Each crate of the repository with what it depends on, or those of a crate and of what is below it."""
    lines = subprocess.run([TOP / "scripts/crates", *names], stdout=subprocess.PIPE, text=True, check=True).stdout.splitlines()
    return {name: below for name, *below in map(str.split, lines)}


def run(words: Sequence[Word], home: Path) -> str:
    ran = subprocess.run([str(it) for it in words], cwd=home, capture_output=True, text=True, errors="replace")
    if ran.returncode:
        raise NotBuilt(f"{ran.stdout[-2000:]}{ran.stderr[-2000:]}")
    return ran.stdout


def build(crate: str, made: Path, *options: str) -> None:
    """Proves a program or a static library, and compiles it by LLVM: the object file of a program, or the archive."""
    home, needs = TOP / "crates" / crate, crates(crate)
    names = ["rattle", "llvm", "logic", "built-logic", "libraries"]
    rattle, llvm, logic, built_logic, libraries = run([TOP / "scripts/kit", "paths", *names], TOP).splitlines()
    root = "src/main.rt" if (home / "src/main.rt").is_file() else "src/lib.rt"
    rlibs = {it: TOP / "crates" / it / "out/rlib" for it in needs if it != crate}
    words: list[Word] = ["build", "--crate-name", crate, root, "--backend", "llvm", "--toolchain", llvm, "-o", made]
    words += ["--antt-project", logic, "--logic-built", built_logic, *options]
    for library in ["std", *needs[crate]]:
        words += ["--extern", f"{library}={rlibs.get(library, libraries)}/{library}.rlib"]
    for folder in [libraries, *rlibs.values()]:
        words += ["-L", f"dependency={folder}"]
    run([rattle, *words], home)


def link(object_file: Path, program: Path) -> None:
    """Links a program."""
    run([TOP / "scripts/kit", "link", "x86_64-unknown-linux-gnu", program, object_file], TOP)
