#!/usr/bin/env python3
"""Checks, audits and watches what `keydir run` printed, by the library for C.

    keydir run < script.jsonl | watch.py [--key HEX64] [--expect KEY] NAME

From a checkout, set `PYTHONPATH=embed/python/src`, or install the package with `pip install embed/python`.
Each lookup is checked, each batch's entry is audited, and the lookups of NAME are shown to a monitor that expects the key
(base64), or none. `keydir` has only its demonstration's seal, under a key that is 32 zero bytes by default: anyone who can verify
it can forge it. For a provider take `coniks.client`, which verifies signatures and indices.
"""

from __future__ import annotations

import argparse
import base64
import hashlib
import json
import sys
from typing import Any, Callable, Optional, TypeVar, Union

import coniks


Answer = TypeVar("Answer")


def answer(call: Callable[..., Answer], *arguments: Any) -> Union[Answer, str]:
    """The result of a call, or why it refuses."""
    try:
        return call(*arguments)
    except coniks.Refused as fault:
        return f"refused: {fault}"


def is_sealed(key: bytes, entry: bytes) -> bool:
    """Whether an entry has the demonstration's seal of its body, under a key."""
    body, seal = entry[: coniks.BODY_LENGTH], entry[coniks.BODY_LENGTH :]
    return seal == b"".join(hashlib.sha256(tag + key + body).digest() for tag in (b"\x41", b"\x42"))


def shown(key: Union[bytes, str, None]) -> str:
    """A key, or that there is none."""
    return base64.b64encode(key).decode() if isinstance(key, bytes) else key or "absent"


def audit(auditor: coniks.Auditor, seal_key: bytes, printed: dict[str, Any]) -> None:
    entry = bytes.fromhex(printed["entry"])
    print(f"epoch {coniks.Body.of_entry(entry).epoch}: {answer(auditor.feed, entry, is_sealed(seal_key, entry)) or 'follows'}")
    if coniks.link(entry) != bytes.fromhex(printed["link"]):
        sys.exit("the line has another link")


def look(printed: dict[str, Any]) -> None:
    nonce, root, index = (bytes.fromhex(printed[it]) for it in ("nonce", "root", "index"))
    key = answer(coniks.check, nonce, root, index, printed["name"], coniks.proof_bytes(printed["proof"]))
    print(f"epoch {printed['epoch']}, {printed['name']}: {shown(key)}")


def watch(monitor: coniks.Monitor, seal_key: bytes, printed: dict[str, Any]) -> None:
    entry = bytes.fromhex(printed["entry"])
    seen = answer(monitor.step, entry, is_sealed(seal_key, entry), coniks.proof_bytes(printed["proof"]))
    print(f"epoch {printed['epoch']}, watched: {seen.name.lower() if isinstance(seen, coniks.Seen) else seen}")


def main() -> None:
    parser = argparse.ArgumentParser(description=(__doc__ or "").splitlines()[0])
    parser.add_argument("name")
    parser.add_argument("--key", type=bytes.fromhex, default=bytes(32))
    parser.add_argument("--expect", type=lambda it: base64.b64decode(it, validate=True))
    words = parser.parse_args()
    auditor = coniks.Auditor()
    monitor: Optional[coniks.Monitor] = None
    for line in sys.stdin:
        printed = json.loads(line)
        if printed.get("ok") == "batch":
            audit(auditor, words.key, printed)
        elif printed.get("ok") == "lookup":
            look(printed)
            if printed["name"] == words.name:
                monitor = monitor or coniks.Monitor(words.name, bytes.fromhex(printed["index"]), words.expect)
                watch(monitor, words.key, printed)
    print("the seals are a demonstration's, which anyone can forge", file=sys.stderr)


main()
