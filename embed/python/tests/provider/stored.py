"""Replies of `provider` with the line for the log, whose bytes stay as they are."""

from __future__ import annotations

import json
from typing import Any

_STORE = b',"store":'


def parted(line: bytes) -> tuple[dict[str, Any], bytes]:
    """What a reply says without the line for the log, and that line, no byte if there is none."""
    printed, _, store = line.rstrip(b"\n").partition(_STORE)
    return json.loads(printed + b"}" if store else printed), store[:-1]


def joined(answer: dict[str, Any], store: bytes) -> bytes:
    """The reply."""
    printed = json.dumps(answer).encode()
    return (printed[:-1] + _STORE + store + b"}" if store else printed) + b"\n"
