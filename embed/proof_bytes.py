"""The bytes of a proof, by docs/FORMATS.md."""

from __future__ import annotations

import base64
from typing import Any


def bytes_of(proof: dict[str, Any]) -> bytes:
    """The bytes of a proof's object, by docs/FORMATS.md."""
    end, siblings = proof["end"], b"".join(bytes.fromhex(it) for it in proof["siblings"])
    kind = {"empty": 0, "other": 1, "here": 2}[end["kind"]]
    made = bytes([kind]) + len(proof["siblings"]).to_bytes(2, "big") + siblings
    for member in [["index", "commitment"], ["opening"]][kind - 1] if kind else []:
        made += bytes.fromhex(end[member])
    if kind == 2:
        for part, size in [(end["name"].encode(), 2), (base64.b64decode(end["key"]), 4)]:
            made += len(part).to_bytes(size, "big") + part
    return made
