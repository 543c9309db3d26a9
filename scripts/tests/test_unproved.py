"""The library for C and the module for browsers as they are built without a proof: they have what the header declares, and reply."""

from __future__ import annotations

import json
import re
import shutil
import subprocess
from pathlib import Path

import pytest
import tools

TOP = Path(__file__).resolve().parents[2]
OUT = TOP / "out/unproved"
HEADERS = "".join(it.read_text("utf-8") for it in (TOP / "include").glob("*.h"))
NAMES = re.findall(r"^[a-z0-9_]* (coniks_[a-z_]*)\(", HEADERS, re.M)

# Prints the version, and the length and the text of a status.
PROGRAM = """#include <stdio.h>
#include "coniks.h"
int main(void)
{
    uint8_t text[CONIKS_TEXT_BYTES];
    size_t length = coniks_text(CONIKS_STATUS, text, sizeof text);
    printf("%u %zu %s", (unsigned)coniks_version(), length, (const char *)text);
    return 0;
}
"""


@pytest.fixture(scope="module", autouse=True)
def _built() -> None:
    if not shutil.which("rt"):
        pytest.skip("rt is missing")
    ran = subprocess.run([TOP / "scripts/unproved-library"], capture_output=True, text=True)
    assert ran.returncode == 0, ran.stderr


def test_archive(tmp_path: Path) -> None:
    """The archive has the exports of the header and no others, and a C program over it prints the version and a text."""
    if not tools.has("a C compiler"):
        pytest.skip("a C compiler is missing")
    archive = OUT / "libconiks_c.a"
    symbols = subprocess.run(["nm", "--defined-only", "--extern-only", archive], capture_output=True, text=True).stdout
    assert sorted(re.findall(r" T (\w+)", symbols)) == sorted(NAMES)
    text = "the proof has more than 256 siblings"
    (tmp_path / "program.c").write_text(PROGRAM.replace("CONIKS_STATUS", "CONIKS_E_TOO_DEEP"))
    files = [str(it) for it in (tmp_path / "program.c", archive)]
    subprocess.run([tools.CC, f"-I{TOP}/include", *files, "-o", str(tmp_path / "program")], check=True)
    printed = subprocess.run([tmp_path / "program"], capture_output=True, text=True, check=True).stdout
    assert printed == f"10000 {len(text)} {text}"


def test_module() -> None:
    """The module exports what the header declares."""
    if not tools.has("node"):
        pytest.skip("node is missing")
    text = (
        f'WebAssembly.Module.exports(new WebAssembly.Module(require("fs").readFileSync("{OUT}/coniks.wasm"))).map((it) => it.name)'
    )
    words = ["node", "--experimental-wasm-memory64", "-e", f"console.log(JSON.stringify({text}))"]
    printed = subprocess.run(words, capture_output=True, text=True)
    assert {*NAMES} <= {*json.loads(printed.stdout)}, printed
