"""Verifies proofs of ECVRF-EDWARDS25519-SHA512-TAI (RFC 9381, section 5.5) and signatures of Ed25519 (RFC 8032) over libsodium.

A public key is the encoding of a point of prime order, and so is the first part of a VRF proof. docs/FORMATS.md has the rules. The
module needs PyNaCl.
"""

from __future__ import annotations

import hashlib
from typing import Optional

from nacl import bindings as sodium
from nacl.exceptions import BadSignatureError

SUITE = b"\x03"
PRIME = 2**255 - 19
ORDER = 2**252 + 27742317777372353535851937790883648493
IDENTITY = b"\x01" + bytes(31)
PROOF_LENGTH = 80
KEY_LENGTH = 32


class InvalidProof(Exception):
    """A proof that is not valid for the public key and the input."""


def is_key(key: bytes) -> bool:
    """Returns whether bytes are a public key: the encoding of a point of prime order."""
    return len(key) == KEY_LENGTH and bool(sodium.crypto_core_ed25519_is_valid_point(key))


def is_signed(key: bytes, message: bytes, signature: bytes) -> bool:
    """Returns whether a signature of a message is valid under a public key that `is_key` accepts."""
    if len(signature) != 64:
        return False
    try:
        return bool(sodium.crypto_sign_open(signature + message, key) == message)
    except BadSignatureError:
        return False


def times_cofactor(point: bytes) -> bytes:
    """Returns eight times a point."""
    for _ in range(3):
        point = sodium.crypto_core_ed25519_add(point, point)
    return point


def times(scalar: int, point: bytes) -> bytes:
    """Returns a multiple of a point. Raises RuntimeError for a point outside the group of prime order, and for the multiple 0."""
    return sodium.crypto_scalarmult_ed25519_noclamp((scalar % ORDER).to_bytes(32, "little"), point)


def times_base(scalar: int) -> bytes:
    """Returns a multiple of the base point."""
    return sodium.crypto_scalarmult_ed25519_base_noclamp((scalar % ORDER).to_bytes(32, "little"))


def hashed_point(text: bytes) -> Optional[bytes]:
    """Returns eight times the point that 32 bytes encode (RFC 8032, section 5.1.3), or None if they encode none or this is the
    identity."""
    if int.from_bytes(text, "little") % 2**255 >= PRIME:
        return None
    try:
        point = times_cofactor(text)
    except RuntimeError:
        return None
    return None if point == IDENTITY else point


def encode_to_curve(public: bytes, alpha: bytes) -> bytes:
    """Returns the point that a key and an input are hashed to, by try and increment (section 5.4.1.1)."""
    for counter in range(256):
        digest = hashlib.sha512(SUITE + b"\x01" + public + alpha + bytes([counter]) + b"\x00").digest()
        point = hashed_point(digest[:32])
        if point is not None:
            return point
    raise InvalidProof("no counter gives a point")


def challenge(*points: bytes) -> bytes:
    """Returns the challenge of five points (section 5.4.3)."""
    return hashlib.sha512(SUITE + b"\x02" + b"".join(points) + b"\x00").digest()[:16]


def output(proof: bytes) -> bytes:
    """Returns the output of a proof that is known to be valid, 64 bytes (section 5.2)."""
    return hashlib.sha512(SUITE + b"\x03" + times_cofactor(proof[:32]) + b"\x00").digest()


def verify(public: bytes, alpha: bytes, proof: bytes) -> bytes:
    """Returns the output for an input, if the proof is valid (section 5.3).

    Raises `InvalidProof` otherwise, also for a public key or a proof with a component outside the group of prime order.
    """
    if len(proof) != PROOF_LENGTH or len(public) != KEY_LENGTH:
        raise InvalidProof("the proof has 80 bytes, and the public key 32")
    gamma, c, s = proof[:32], proof[32:48], int.from_bytes(proof[48:], "little")
    if s >= ORDER:
        raise InvalidProof("the proof's number is too great")
    number = int.from_bytes(c, "little")
    point = encode_to_curve(public, alpha)
    try:
        u = sodium.crypto_core_ed25519_sub(times_base(s), times(number, public))
        v = sodium.crypto_core_ed25519_sub(times(s, point), times(number, gamma))
    except RuntimeError:
        raise InvalidProof("the public key or the proof is not in the group") from None
    if challenge(public, point, gamma, u, v) != c:
        raise InvalidProof("the proof is not one for this key and input")
    return output(proof)
