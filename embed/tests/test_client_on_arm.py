"""The client in C for ARM, under qemu: its cases over the libraries for Linux and for Android, which are built without a proof."""

from __future__ import annotations

import os
import re
import shutil
from pathlib import Path

import client_sides
import pytest
import tools
from native_clients import Machine, compiled
from running import EMBED, Say, needs, run

COMPILER, DUMP = "aarch64-linux-gnu-gcc", "aarch64-linux-gnu-objdump"
# Android keeps register 18 to itself.
REGISTER_18 = re.compile(rb"\b[wx]18\b")


@pytest.mark.parametrize("target", ["aarch64-unknown-linux-gnu", "aarch64-linux-android"])
def test_cases(tmp_path: Path, target: str, say: Say) -> None:
    needs("a C compiler for ARM", "libsodium", "libsodium for ARM", "qemu")
    if not shutil.which("rt"):
        pytest.skip("rt is missing")
    built = run(EMBED / "build", "--target", target, tmp_path, env=os.environ | {"CONIKS_UNPROVED": "1"})
    archive = tmp_path / "libconiks.a"
    assert built.returncode == 0, built.stderr.decode()
    if target.endswith("android"):
        assert not REGISTER_18.search(run(DUMP, "-d", archive).stdout)
    # The header of libsodium is the same on each machine.
    machine = Machine(COMPILER, (archive, tools.SODIUM_FOR_ARM / "libsodium.a"))
    program = compiled(tmp_path, "client_answers", "-O2", "-static", "-idirafter/usr/include", machine=machine)
    client_sides.check_program(f"C for {target}", ["qemu-aarch64-static", str(program)], 20, 3, say)
