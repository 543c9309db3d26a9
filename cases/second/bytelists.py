"""The hashed byte lists, each hashed with SHA-256."""

from __future__ import annotations

import hashlib
from typing import Sequence

ZEROS = bytes(32)
LONGEST_NAME = 255
LONGEST_KEY = 16384


def sha256(*parts: bytes) -> bytes:
    return hashlib.sha256(b"".join(parts)).digest()


def number(value: int, length: int) -> bytes:
    return value.to_bytes(length, "big")


def bit(index: bytes, k: int) -> int:
    """Bit k of an index: bit 0 is the most significant bit of the first byte."""
    return index[k // 8] >> (7 - k % 8) & 1


def padded(bits: Sequence[int]) -> bytes:
    """A prefix as 32 bytes: its bits, then zero bits."""
    digits = "".join(map(str, bits)).ljust(256, "0")
    return number(int(digits, 2), 32)


def empty_node(nonce: bytes, prefix: Sequence[int]) -> bytes:
    return sha256(b"\x45", nonce, padded(prefix), number(len(prefix), 2))


def leaf(nonce: bytes, index: bytes, level: int, commitment: bytes) -> bytes:
    return sha256(b"\x4c", nonce, index, number(level, 2), commitment)


def interior_node(left: bytes, right: bytes) -> bytes:
    return sha256(b"\x49", left, right)


def commitment(opening: bytes, name: bytes, key: bytes) -> bytes:
    return sha256(b"\x43", opening, number(len(name), 2), name, number(len(key), 4), key)


def link(entry: bytes) -> bytes:
    return sha256(b"\x53", entry)


def demonstration_index(key: bytes, name: bytes) -> bytes:
    return sha256(b"\x56", key, name)


def demonstration_seal(key: bytes, body: bytes) -> bytes:
    return sha256(b"\x41", key, body) + sha256(b"\x42", key, body)
