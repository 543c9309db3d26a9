"""XSalsa20-Poly1305, from Bernstein's "Cryptography in NaCl" and "Extending the Salsa20 nonce"."""

from __future__ import annotations

from typing import Optional

MASK = 0xFFFFFFFF
CONSTANT = b"expand 32-byte k"
PRIME = 2**130 - 5
# The words of a column round and a row round of Salsa20: each is added to, from two others, and rotated.
QUARTERS = [
    (0, 4, 8, 12),
    (5, 9, 13, 1),
    (10, 14, 2, 6),
    (15, 3, 7, 11),
    (0, 1, 2, 3),
    (5, 6, 7, 4),
    (10, 11, 8, 9),
    (15, 12, 13, 14),
]


def words(data: bytes) -> list[int]:
    return [int.from_bytes(data[at : at + 4], "little") for at in range(0, len(data), 4)]


def state(key: bytes, place: bytes) -> list[int]:
    """The 16 words that the rounds begin with. `place` has the 16 bytes of nonce and counter."""
    c, k, n = words(CONSTANT), words(key), words(place)
    return [c[0], *k[:4], c[1], *n, c[2], *k[4:], c[3]]


def rounds(begun: list[int]) -> list[int]:
    """The twenty rounds."""
    x = list(begun)
    for _ in range(10):
        for a, b, c, d in QUARTERS:
            for to, one, other, by in ((b, a, d, 7), (c, b, a, 9), (d, c, b, 13), (a, d, c, 18)):
                total = (x[one] + x[other]) & MASK
                x[to] ^= (total << by | total >> (32 - by)) & MASK
    return x


def joined(found: list[int]) -> bytes:
    return b"".join(it.to_bytes(4, "little") for it in found)


def hsalsa20(key: bytes, place: bytes) -> bytes:
    found = rounds(state(key, place))
    return joined([found[it] for it in (0, 5, 10, 15, 6, 7, 8, 9)])


def stream(key: bytes, nonce: bytes, size: int) -> bytes:
    """The stream of XSalsa20."""
    below, found = hsalsa20(key, nonce[:16]), b""
    for counter in range((size + 63) // 64):
        begun = state(below, nonce[16:] + counter.to_bytes(8, "little"))
        found += joined([(a + b) & MASK for a, b in zip(begun, rounds(begun))])
    return found[:size]


def poly1305(key: bytes, text: bytes) -> bytes:
    r, total = int.from_bytes(key[:16], "little") & 0x0FFFFFFC0FFFFFFC0FFFFFFC0FFFFFFF, 0
    for at in range(0, len(text), 16):
        total = (total + int.from_bytes(text[at : at + 16] + b"\1", "little")) * r % PRIME
    return ((total + int.from_bytes(key[16:], "little")) % 2**128).to_bytes(16, "little")


def sealed(key: bytes, nonce: bytes, text: bytes) -> bytes:
    """The box of a text."""
    found = stream(key, nonce, 32 + len(text))
    box = bytes(a ^ b for a, b in zip(text, found[32:]))
    return poly1305(found[:32], box) + box


def opened(key: bytes, nonce: bytes, box: bytes) -> Optional[bytes]:
    """The text of a box, None if the key is another one, or the box was changed."""
    if len(box) < 16:
        return None
    found = stream(key, nonce, 32 + len(box) - 16)
    if poly1305(found[:32], box[16:]) != box[:16]:
        return None
    return bytes(a ^ b for a, b in zip(box[16:], found[32:]))
