"""The policy document, from docs/FORMATS.md."""

from __future__ import annotations

from dataclasses import dataclass
from typing import Optional

from bytelists import sha256

DIGITS, LOWER_HEX, PRINTABLE = "0123456789", "0123456789abcdef", [chr(it) for it in range(0x21, 0x7F)]


class NoPolicy(Exception):
    """A text is no policy document."""


class Lines:
    """The lines of a text that are not yet taken. Each method that takes a line raises `NoPolicy` if that is another one."""

    def __init__(self, text: bytes) -> None:
        *self.rest, after = text.decode("latin-1").split("\n")
        if after:
            raise NoPolicy("the last line is not ended")

    def has(self, name: str) -> bool:
        """Whether the next line has this name."""
        return bool(self.rest) and self.rest[0].startswith(f"{name} ")

    def value(self, name: str) -> str:
        if not self.has(name):
            raise NoPolicy(f"{name} is missing")
        return self.rest.pop(0)[len(name) + 1 :]

    def line(self, name: str, wanted: str) -> None:
        if self.value(name) != wanted:
            raise NoPolicy(f"{name} is not {wanted}")

    def is_next(self, name: str, wanted: str) -> bool:
        """Whether the next line has this name and value. It is taken then."""
        found = self.rest[:1] == [f"{name} {wanted}"]
        del self.rest[: int(found)]
        return found

    def octets(self, name: str, size: int) -> bytes:
        value = self.value(name)
        if len(value) != 2 * size or not set(value) <= set(LOWER_HEX):
            raise NoPolicy(f"{name} does not have {size} bytes")
        return bytes.fromhex(value)

    def key(self, name: str) -> bytes:
        return self.octets(name, 32)

    def number(self, name: str, least: int = 0) -> int:
        value = self.value(name)
        if not value or not set(value) <= set(DIGITS) or (value[0] == "0" and value != "0"):
            raise NoPolicy(f"{name} is no number")
        if not least <= int(value) < 1 << 64:
            raise NoPolicy(f"{name} is out of range")
        return int(value)


@dataclass(frozen=True)
class Policy:
    """What a client takes from a policy document."""

    digest: bytes
    keys: tuple[bytes, Optional[bytes]]
    start: Optional[int]
    period: int
    records_vouched: bool
    successor_key: Optional[bytes]
    proofs_kept: Optional[int]

    @classmethod
    def read(cls, text: bytes) -> Policy:
        """The policy of a document. Raises `NoPolicy` for any other text."""
        lines = Lines(text)
        lines.line("policy", "coniks-1")
        origin = lines.value("origin")
        if not 1 <= len(origin) <= 255 or not set(origin) <= set(PRINTABLE):
            raise NoPolicy("the origin has other characters")
        lines.line("signature", "Ed25519")
        keys = lines.key("signing-key"), vrf_key(lines)
        start, period = (lines.number("epoch-start"), lines.number("epoch-period", 1)) if lines.has("epoch-start") else (None, 0)
        lines.line("evidence", "one-chain")
        records_vouched, successor = lines.is_next("records", "vouched"), successor_of(lines)
        stored = stored_of(lines)
        if lines.rest:
            raise NoPolicy("lines follow")
        if successor == keys[0]:
            raise NoPolicy("the successor key is the signing key")
        return cls(sha256(text), keys, start, period, records_vouched, successor, stored)

    def promises(self, following: int, now: int) -> bool:
        """Whether proofs are promised of an epoch that another one follows."""
        if self.proofs_kept is None:
            return True
        if self.start is None:
            return self.proofs_kept > 0
        return now < self.start + (following - 1) * self.period + self.proofs_kept


def vrf_key(lines: Lines) -> Optional[bytes]:
    """The public key of the VRF, None without one."""
    if lines.is_next("vrf", "none"):
        return None
    lines.line("vrf", "ECVRF-EDWARDS25519-SHA512-TAI")
    return lines.key("vrf-key")


def successor_of(lines: Lines) -> Optional[bytes]:
    """The public key that signs a succession, None if there is none."""
    if lines.is_next("successor-key", "none") or not lines.has("successor-key"):
        return None
    return lines.key("successor-key")


def stored_of(lines: Lines) -> Optional[int]:
    """For how many seconds proofs are kept, None for ever."""
    return None if lines.is_next("proofs-kept", "forever") else lines.number("proofs-kept")
