"""ECVRF-EDWARDS25519-SHA512-TAI, the verifiable random function of RFC 9381 (section 5.5), over libsodium.

`prove` needs the secret key. `verify` needs the public key, and returns the same output for every proof of one input. An
index of the directory is the first 32 bytes of the output. What needs no secret key is in the package `coniks`, whose client
verifies with it.
"""

from __future__ import annotations

import hashlib

from coniks._ecvrf import ORDER, PRIME, PROOF_LENGTH, InvalidProof, challenge, encode_to_curve, hashed_point, is_key, output, times
from coniks._ecvrf import times_base, verify

__all__ = ["ORDER", "PRIME", "PROOF_LENGTH", "InvalidProof", "hashed_point", "is_key", "output", "prove", "public_key", "verify"]


def _secret_scalar(secret: bytes) -> int:
    """The scalar of a secret key (RFC 8032, section 5.1.5)."""
    low = int.from_bytes(hashlib.sha512(secret).digest()[:32], "little")
    return (low % 2**254 | 2**254) & ~7


def public_key(secret: bytes) -> bytes:
    """The public key of a secret key, 32 bytes each."""
    return times_base(_secret_scalar(secret))


def prove(secret: bytes, alpha: bytes) -> bytes:
    """The proof for an input, 80 bytes (section 5.1)."""
    x = _secret_scalar(secret)
    public = times_base(x)
    point = encode_to_curve(public, alpha)
    gamma = times(x, point)
    nonce = hashlib.sha512(hashlib.sha512(secret).digest()[32:] + point).digest()
    k = int.from_bytes(nonce, "little") % ORDER
    c = challenge(public, point, gamma, times_base(k), times(k, point))
    s = (k + int.from_bytes(c, "little") * x) % ORDER
    return gamma + c + s.to_bytes(32, "little")
