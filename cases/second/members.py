"""The contents of the members of a line."""

from __future__ import annotations

import base64
import re
from typing import Callable, TypeVar

from strict_json import Json, NotJson, Number, object_of

T = TypeVar("T")

DIGITS = re.compile("[0-9A-Fa-f]*")
BASE64 = re.compile("([A-Za-z0-9+/]{4})*([A-Za-z0-9+/]{2}==|[A-Za-z0-9+/]{3}=)?")
WHOLE = re.compile("0|[1-9][0-9]*")


class Fault(Exception):
    """Why a line is refused: the members of the reply."""

    def __init__(self, name: str, **more: object) -> None:
        super().__init__(name)
        self.answer: dict[str, object] = {"fault": name, **more}


class Wrong(Exception):
    """A member is missing, of another kind or of a wrong text."""


def read_object(line: bytes) -> dict[str, Json]:
    try:
        return object_of(line)
    except NotJson:
        raise Fault("Json")


def member(members: dict[str, Json], name: str, read: Callable[[Json], T]) -> T:
    """The member of this name as `read` reads it; else the line's fault."""
    try:
        return read(members.get(name))
    except Wrong:
        raise Fault("Member", member=name)


def text(value: Json) -> str:
    if not isinstance(value, str):
        raise Wrong
    return value


def texts_bytes(value: Json) -> bytes:
    return text(value).encode("utf-8")


def array(value: Json) -> list[Json]:
    if not isinstance(value, list):
        raise Wrong
    return value


def object_in(value: Json) -> dict[str, Json]:
    if not isinstance(value, dict):
        raise Wrong
    return value


def whole_number(value: Json) -> int:
    if not isinstance(value, Number) or not WHOLE.fullmatch(value.written):
        raise Wrong
    if int(value.written) >= 2**64:
        raise Wrong
    return int(value.written)


def bytes_in_digits(value: Json, length: int) -> bytes:
    digits = text(value)
    if not DIGITS.fullmatch(digits) or len(digits) != 2 * length:
        raise Wrong
    return bytes.fromhex(digits)


def h32(value: Json) -> bytes:
    return bytes_in_digits(value, 32)


def entry(value: Json) -> bytes:
    return bytes_in_digits(value, 209)


def b64(value: Json) -> bytes:
    """Base64 with its padding, whose left-over bits are zero: encoding its bytes gives the same text."""
    encoded = text(value)
    if not BASE64.fullmatch(encoded):
        raise Wrong
    found = base64.b64decode(encoded)
    if base64.b64encode(found).decode() != encoded:
        raise Wrong
    return found
