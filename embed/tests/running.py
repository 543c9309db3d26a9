"""How the tests of the library for C find what they need, and compile and run programs."""

from __future__ import annotations

import re
import subprocess
from pathlib import Path
from typing import Any, Callable, Union

import pytest
import tools

EMBED = Path(__file__).resolve().parent.parent
TOP = EMBED.parent
INCLUDE = TOP / "include"
ARCHIVE, SHARED = EMBED / "out/libconiks.a", EMBED / "out/libconiks.so"
WARNED = ["-Wall", "-Wextra", "-Werror", f"-I{INCLUDE}"]

# Adds a line to the end of the run.
Say = Callable[[str], None]


def needs(*found: str) -> None:
    """Skips a test if one of these tools is missing."""
    for tool in found:
        if not tools.has(tool):
            pytest.skip(f"{tool} is missing")


def run(*words: Union[str, Path], **more: Any) -> subprocess.CompletedProcess[bytes]:
    return subprocess.run([str(it) for it in words], capture_output=True, timeout=3000, **more)


def libraries(source: Path) -> list[str]:
    """The libraries that a C program is linked with."""
    text = source.read_text("utf-8")
    return (["-lcrypto"] if "openssl/" in text else []) + (["-lpthread"] if "pthread.h" in text or "painted.h" in text else [])


def compiled(room: Path, source: Path, *more: str) -> Path:
    """A C program over the archive, which compiles without a warning."""
    program = room / source.stem
    ran = run(tools.CC, *WARNED, source, "-o", program, *more, ARCHIVE, *libraries(source))
    assert ran.returncode == 0, ran.stderr.decode()
    return program


def stack_of(room: Path, source: Path, say: Say) -> dict[str, int]:
    """The bytes of stack that a C program prints for each call, which are said too."""
    printed = run(compiled(room, source, "-std=c11", "-O2")).stdout.decode()
    for line in printed.splitlines():
        say(line)
    return {name: int(bytes_) for name, bytes_ in re.findall(r"^(\w+): (\d+) bytes", printed, re.M)}


def sanitizers(room: Path) -> list[str]:
    """The flags of the compiler's sanitizers. Without a library for them the test is skipped."""
    flags, source = ["-fsanitize=address,undefined", "-fno-sanitize-recover"], room / "nothing.c"
    source.write_text("int main(void) { return 0; }\n")
    if run(tools.CC, *flags, source, "-o", room / "nothing").returncode:
        pytest.skip("the compiler's sanitizers are missing")
    return flags
