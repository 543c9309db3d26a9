"""The lines and the keys that the tests of the page give it."""

from __future__ import annotations

import json
import re
from typing import Any, Iterable

from browser import TOP, WEB

CASES = WEB / "cases"

# What `keydir run` printed for a demonstration under the key of zeros.
DEMONSTRATION = (CASES / "demonstration.jsonl").read_text("utf-8")
KEY, OTHER_KEY = "00" * 32, "01" * 32

# What a provider printed, with VRF proofs, its two keys, and keys of RFC 8032 and RFC 9381.
PROVIDED = (TOP / "examples/provider/lines.jsonl").read_text("utf-8")
TRANSCRIPT = (TOP / "examples/provider/transcript.txt").read_text("utf-8")
SIGNING = re.findall(r"Ed25519 +([0-9a-f]{64})", TRANSCRIPT)[0]
VRF = re.findall(r"VRF +([0-9a-f]{64})", TRANSCRIPT)[0]
OTHER_SIGNING = "d75a980182b10ab7d54bfed3c964073a0ee172f3daa62325af021a68f707511a"
OTHER_VRF = "3d4017c3e843895a92b70aa74d1b7ebc9c982ccf2ec4968cc0cd55f12af4660c"

# The signing key of the stored cases but `absence-of-alice`, which has the example's.
CASE_SIGNING = "1f583a483904bb1d4e75cf13a12a78aab6692381e0a6fa9ad8e88c9f272bb907"

# The keys of PROVIDED are those of the example.
AUTHENTIC = (
    "authentic under the example's keys, which prove nothing about any directory since their secrets are public: "
    "signature, chain, VRF proof and path are verified"
)
FORGEABLE = "valid under the demonstration's key, which anyone can forge"
CONSISTENT = "consistent, not authenticated: its entry is in the pasted chain"
UNSIGNED = f"{CONSISTENT}; no signature is verified"
UNPROVED = f"{CONSISTENT}; the line has no VRF proof"
NO_VRF_KEY = f"{CONSISTENT}; no VRF key is given"


def case(name: str) -> str:
    """The lines of a stored case."""
    return (CASES / f"{name}.jsonl").read_text("utf-8")


def lines_of(text: str) -> list[dict[str, Any]]:
    return [json.loads(it) for it in text.splitlines()]


def text_of(lines: Iterable[dict[str, Any]]) -> str:
    return "".join(f"{json.dumps(it)}\n" for it in lines)


PROVIDED_LINES = lines_of(PROVIDED)
ENTRIES = [it for it in PROVIDED_LINES if it["ok"] == "install"]
LOOKUPS = [it for it in PROVIDED_LINES if it["ok"] == "lookup"]
