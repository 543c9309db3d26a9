#!/usr/bin/env python3
"""Tests `ecvrf` and PyNaCl's Ed25519 on the examples of RFC 9381 and RFC 8032 in vectors.json, and on changed ones.

The last line is `N passed, M failed`.
"""

from __future__ import annotations

import json
import sys
from pathlib import Path

sys.dont_write_bytecode = True
sys.path.append(str(Path(__file__).resolve().parent.parent.parent / "embed/python/src"))

import ecvrf
from nacl.exceptions import BadSignatureError
from nacl.signing import SigningKey, VerifyKey

VECTORS = Path(__file__).resolve().parent / "vectors.json"

# Points of small order, and encodings of none: 2 is no point's y, and p + 1 is no reduced y.
OTHER_POINTS = [
    bytes(32),
    b"\x01" + bytes(31),
    b"\xec" + b"\xff" * 30 + b"\x7f",
    bytes.fromhex("26e8958fc2b227b045c3f489f2ef98f0d5dfac05d3c63339b13802886d53fc05"),
    b"\x02" + bytes(31),
    b"\xee" + b"\xff" * 30 + b"\x7f",
]


class Count:
    passed = failed = 0

    def tell(self, what: str, is_well: bool) -> None:
        self.passed, self.failed = self.passed + is_well, self.failed + (not is_well)
        if not is_well:
            print(f"FAILED: {what}")


def is_refused(public: bytes, alpha: bytes, proof: bytes) -> bool:
    try:
        ecvrf.verify(public, alpha, proof)
    except ecvrf.InvalidProof:
        return True
    return False


def flipped(text: bytes, place: int) -> bytes:
    return text[:place] + bytes([text[place] ^ 1 << place % 8]) + text[place + 1 :]


def try_vrf(count: Count, of: str, secret: bytes, public: bytes, alpha: bytes, proof: bytes, output: bytes) -> None:
    count.tell(f"{of}: public key", ecvrf.public_key(secret) == public)
    count.tell(f"{of}: proof", ecvrf.prove(secret, alpha) == proof)
    count.tell(f"{of}: output", ecvrf.verify(public, alpha, proof) == ecvrf.output(proof) == output)
    for place in range(len(proof)):
        count.tell(f"{of}: byte {place} of the proof changed", is_refused(public, alpha, flipped(proof, place)))
    for place in range(len(public)):
        count.tell(f"{of}: byte {place} of the key changed", is_refused(flipped(public, place), alpha, proof))
    for other in [alpha + b"\0", b"alice"]:
        count.tell(f"{of}: input {other!r}", is_refused(public, other, proof))
    for size in [0, 79, 81]:
        count.tell(f"{of}: {size} bytes", is_refused(public, alpha, (proof + b"\0")[:size]))
    s = int.from_bytes(proof[48:], "little") + ecvrf.ORDER
    count.tell(f"{of}: a number beyond the order", is_refused(public, alpha, proof[:48] + s.to_bytes(32, "little")))
    for point in OTHER_POINTS:
        count.tell(f"{of}: {point.hex()} in the proof", is_refused(public, alpha, point + proof[32:]))
        count.tell(f"{of}: {point.hex()} as the key", is_refused(point, alpha, proof))


def try_points(count: Count) -> None:
    """The points of small order give the identity, and the y of the last 19 encodings are not reduced."""
    for point in OTHER_POINTS:
        count.tell(f"{point.hex()} is no hashed point", ecvrf.hashed_point(point) is None)
    for y in range(19):
        count.tell(f"{y} + p is no hashed point", ecvrf.hashed_point((ecvrf.PRIME + y).to_bytes(32, "little")) is None)
    count.tell("some y of these, reduced, are points", any(ecvrf.hashed_point(y.to_bytes(32, "little")) for y in range(19)))


def is_signed(public: bytes, message: bytes, signature: bytes) -> bool:
    try:
        VerifyKey(public).verify(message, signature)
    except BadSignatureError:
        return False
    return True


def try_signature(count: Count, of: str, secret: bytes, public: bytes, message: bytes, signature: bytes) -> None:
    key = SigningKey(secret)
    count.tell(f"{of}: public key", bytes(key.verify_key) == public)
    count.tell(f"{of}: signature", key.sign(message).signature == signature and is_signed(public, message, signature))
    for place in range(64):
        count.tell(f"{of}: byte {place} changed", not is_signed(public, message, flipped(signature, place)))
    count.tell(f"{of}: another message", not is_signed(public, message + b"\0", signature))


def main() -> int:
    count = Count()
    vectors = json.loads(VECTORS.read_text("utf-8"))
    for row in vectors["vrf"]:
        try_vrf(count, row.pop("of"), *map(bytes.fromhex, row.values()))
    try_points(count)
    for row in vectors["signatures"]:
        try_signature(count, row.pop("of"), *map(bytes.fromhex, row.values()))
    print(f"{count.passed} passed, {count.failed} failed")
    return 1 if count.failed else 0


if __name__ == "__main__":
    sys.exit(main())
