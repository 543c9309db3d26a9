"""The succession of a directory, from docs/FORMATS.md: its text, and when two of them convict the directory."""

from __future__ import annotations

from dataclasses import dataclass
from typing import Optional

import curve
from policy import Lines, NoPolicy

SIGNATURE = b"signature "


class NoSuccession(Exception):
    """A text is no succession."""


@dataclass(frozen=True)
class Succession:
    """What a succession says: the policy that ends with its last epoch and link, the one that goes on with the first that count, and the
    signature with the bytes that it is over."""

    policy: bytes
    last: tuple[int, bytes]
    next_policy: bytes
    first: tuple[int, bytes]
    signature: bytes
    signed: bytes

    @classmethod
    def read(cls, text: bytes) -> Succession:
        """The succession of a text. Raises `NoSuccession` for any other one."""
        try:
            return cls.taken(Lines(text), text)
        except NoPolicy as error:
            raise NoSuccession(str(error)) from None

    @classmethod
    def taken(cls, lines: Lines, text: bytes) -> Succession:
        lines.line("succession", "coniks-1")
        policy, last = lines.key("policy"), (lines.number("last-epoch", 1), lines.key("last-link"))
        next_policy, first = lines.key("next-policy"), (lines.number("first-epoch", 1), lines.key("first-link"))
        signature = lines.octets("signature", 64)
        if lines.rest or policy == next_policy:
            raise NoPolicy("lines follow, or both policies are the same")
        return cls(policy, last, next_policy, first, signature, text[: text.index(SIGNATURE)])

    def is_signed(self, key: Optional[bytes]) -> bool:
        """Whether this successor key signed it."""
        return key is not None and curve.is_key(key) and curve.is_signed(key, self.signed, self.signature)


def text_of(policy: bytes, last: tuple[int, bytes], next_policy: bytes, first: tuple[int, bytes]) -> bytes:
    """The lines of a succession before its signature."""
    rows = ["succession coniks-1", f"policy {policy.hex()}", f"last-epoch {last[0]}", f"last-link {last[1].hex()}"]
    rows += [f"next-policy {next_policy.hex()}", f"first-epoch {first[0]}", f"first-link {first[1].hex()}"]
    return "".join(f"{it}\n" for it in rows).encode()


def signed(text: bytes, secret: bytes) -> bytes:
    """A succession with its signature."""
    return text + SIGNATURE + curve.sign(secret, text).hex().encode() + b"\n"


def convict(policy: bytes, key: Optional[bytes], one: bytes, other: bytes) -> bool:
    """Whether two texts convict the directory of a policy: both are its signed successions, and they say different things."""
    try:
        both = Succession.read(one), Succession.read(other)
    except NoSuccession:
        return False
    are_signed = all(it.policy == policy and it.is_signed(key) for it in both)
    return are_signed and both[0].signed != both[1].signed
