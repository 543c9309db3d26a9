"""Errors as `application/problem+json` (RFC 9457), and the strict reading of what strangers send."""

from __future__ import annotations

import binascii
import json
import math
import re
from contextlib import suppress
from http import HTTPStatus
from typing import Any, Mapping
from urllib.parse import unquote

from aiohttp import web
from coniks.names import BadName, canonical


# One text for each key: with its padding, whose unused bits are zero.
_BASE64 = re.compile("(?:[A-Za-z0-9+/]{4})*(?:[A-Za-z0-9+/][AQgw]==|[A-Za-z0-9+/]{2}[AEIMQUYcgkosw048]=)?")


class Problem(Exception):
    """A request that is refused: its status, the name of the error, and what the client may do. `wait` is in seconds."""

    def __init__(self, status: int, fault: str, text: str, wait: float = 0):
        self.status, self.fault, self.wait = status, fault, wait
        super().__init__(text)

    def reply(self) -> web.Response:
        title = HTTPStatus(self.status).phrase
        members = {"type": "about:blank", "title": title, "status": self.status, "fault": self.fault, "detail": str(self)}
        found = json_reply(members, self.status, "application/problem+json")
        if self.wait:
            found.headers["Retry-After"] = str(math.ceil(self.wait))
        return found


def json_reply(members: Mapping[str, Any], status: int = 200, kind: str = "application/json") -> web.Response:
    """A reply that no cache keeps."""
    text = json.dumps(members, ensure_ascii=False, separators=(",", ":")) + "\n"
    return web.Response(body=text.encode(), status=status, content_type=kind, headers={"Cache-Control": "no-store"})


def query_of(request: web.Request, *known: str) -> dict[str, str]:
    """The parameters of a request's target as it was sent. Each is known, is there once, and is percent-encoded UTF-8. A bare plus
    could be a space too."""
    text, found = request.raw_path.partition("?")[2], dict[str, str]()
    for pair in text.split("&") if text else ():
        name, is_there, value = pair.partition("=")
        with suppress(UnicodeDecodeError):
            name = unquote(name, errors="strict")
            if is_there and "+" not in pair and name in known and name not in found:
                found[name] = unquote(value, errors="strict")
                continue
        raise Problem(
            400, "Request", f"the parameters are {' and '.join(known) or 'none'}, each at most once, in percent-encoded UTF-8"
        )
    return found


def name_of(text: str) -> str:
    """A name in its canonical form. Another form is refused, since the reply is for this name and no other. Raises `BadName`."""
    if canonical(text) != text:
        raise BadName("the name is not in its canonical form, NFC without case: bring it to that form, and verify for that")
    return text


def number_of(text: str, what: str) -> int:
    """A whole number."""
    if not re.fullmatch("0|[1-9][0-9]{0,19}", text) or int(text) >= 1 << 64:
        raise Problem(400, "Request", f"{what} is a whole number from 0 to 2^64 - 1")
    return int(text)


def members_of(body: bytes, *known: str) -> dict[str, str]:
    """The members of a JSON object: each of these texts, once."""
    try:
        pairs = json.loads(body.decode(), object_pairs_hook=tuple)
    except (ValueError, RecursionError):
        pairs = None
    is_object = isinstance(pairs, tuple) and all(isinstance(it, str) for _, it in pairs)
    if not is_object or sorted(name for name, _ in pairs) != sorted(known):
        raise Problem(400, "Request", f"a JSON object is expected with the members {', '.join(known)}, each once and a text")
    return dict(pairs)


def key_of(text: str) -> bytes:
    """A key in base64."""
    key = binascii.a2b_base64(text) if _BASE64.fullmatch(text) else b""
    if not 1 <= len(key) <= 16384:
        raise Problem(400, "Request", "a key has 1 to 16,384 bytes, in base64 with its padding")
    return key
