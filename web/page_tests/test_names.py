"""The form of names in Python and in JavaScript, for each code point."""

from __future__ import annotations

import json
import subprocess
import unicodedata
from typing import Optional

import pytest
import tools
from browser import WEB
from coniks._folding import FOLDED
from coniks.names import BadName, canonical

# What JavaScript makes of each code point: null if it refuses it, and false if its version of Unicode lacks it.
EACH = """const { canonical } = await import(process.argv[1]);
const form = it => { try { return !/\\p{Cn}/u.test(it) && canonical(it); } catch { return null; } };
console.log(JSON.stringify(Array.from({ length: 0x110000 }, (_, code) => form(String.fromCodePoint(code)))));"""


def form(text: str) -> Optional[str]:
    """What Python makes of a text, None if it refuses it."""
    try:
        return canonical(text)
    except BadName:
        return None


def folded(text: str) -> str:
    """Unicode's folding of a text (D145), and then NFC."""
    return unicodedata.normalize("NFC", unicodedata.normalize("NFD", text).casefold())


def test_each_code_point() -> None:
    """Both make what Unicode's folding is, of each code point that both versions of Unicode have, and refuse the same others."""
    if not tools.has("node"):
        pytest.skip("node is missing")
    script = (WEB / "src/names.js").as_uri()
    ran = subprocess.run(["node", "--input-type=module", "-e", EACH, script], capture_output=True, text=True, check=True)
    for code, theirs in enumerate(json.loads(ran.stdout)):
        kind = unicodedata.category(chr(code))
        wanted = None if kind in ("Cs", "Cc") else folded(chr(code))
        if kind != "Cn":
            assert form(chr(code)) == wanted and theirs in (wanted, False), f"U+{code:04X}"


def test_table() -> None:
    """The table for JavaScript is the one for Python."""
    rows = (WEB / "src/folding.js").read_text("utf-8").rpartition("export const FOLDED = ")[2]
    assert json.loads(rows.strip().rstrip(";")) == [list(it) for it in FOLDED]
