"""Points of edwards25519, the signatures Ed25519 (RFC 8032) and the VRF ECVRF-EDWARDS25519-SHA512-TAI (RFC 9381), from the RFCs and
docs/FORMATS.md. It is slow, and not for secret keys of value: nothing runs in constant time."""

from __future__ import annotations

from functools import lru_cache
from hashlib import sha512
from typing import Optional, Tuple

PRIME = 2**255 - 19
ORDER = 2**252 + 27742317777372353535851937790883648493
D = -121665 * pow(121666, -1, PRIME) % PRIME
ROOT = pow(2, (PRIME - 1) // 4, PRIME)

# X, Y, Z and T of RFC 8032, section 5.1.4.
Point = Tuple[int, int, int, int]
ZERO: Point = (0, 1, 1, 0)


def add(p: Point, q: Point) -> Point:
    a, b = (p[1] - p[0]) * (q[1] - q[0]) % PRIME, (p[1] + p[0]) * (q[1] + q[0]) % PRIME
    c, d = 2 * p[3] * q[3] * D % PRIME, 2 * p[2] * q[2] % PRIME
    e, f, g, h = b - a, d - c, d + c, b + a
    return e * f % PRIME, g * h % PRIME, f * g % PRIME, e * h % PRIME


def double(p: Point) -> Point:
    a, b, c = p[0] * p[0] % PRIME, p[1] * p[1] % PRIME, 2 * p[2] * p[2] % PRIME
    h = a + b
    e, g = h - (p[0] + p[1]) * (p[0] + p[1]) % PRIME, a - b
    f = c + g
    return e * f % PRIME, g * h % PRIME, f * g % PRIME, e * h % PRIME


def negate(p: Point) -> Point:
    return -p[0] % PRIME, p[1], p[2], -p[3] % PRIME


def times(scalar: int, point: Point) -> Point:
    return sum_of(scalar, point, 0, ZERO)


def sum_of(a: int, p: Point, b: int, q: Point) -> Point:
    """a times p plus b times q, by one pass over the bits of both."""
    table, total = [ZERO, p, q, add(p, q)], ZERO
    for k in reversed(range(max(a.bit_length(), b.bit_length()))):
        total = double(total)
        which = (a >> k & 1) + 2 * (b >> k & 1)
        if which:
            total = add(total, table[which])
    return total


def is_zero(p: Point) -> bool:
    return p[0] % PRIME == 0 and (p[1] - p[2]) % PRIME == 0


def encode(p: Point) -> bytes:
    inverse = pow(p[2], -1, PRIME)
    x, y = p[0] * inverse % PRIME, p[1] * inverse % PRIME
    return (y | (x & 1) << 255).to_bytes(32, "little")


def decode(text: bytes) -> Optional[Point]:
    """The point of 32 bytes (RFC 8032, section 5.1.3), None if they are not the one encoding of a point."""
    number = int.from_bytes(text, "little")
    y, sign = number % 2**255, number >> 255
    if y >= PRIME:
        return None
    u, v = (y * y - 1) % PRIME, (D * y * y + 1) % PRIME
    x = u * v**3 * pow(u * v**7, (PRIME - 5) // 8, PRIME) % PRIME
    if v * x * x % PRIME == -u % PRIME:
        x = x * ROOT % PRIME
    if v * x * x % PRIME != u or (x == 0 and sign):
        return None
    x = x if x & 1 == sign else PRIME - x
    return x, y, 1, x * y % PRIME


_base = decode(bytes.fromhex("58" + "66" * 31))
assert _base
BASE: Point = _base


@lru_cache(maxsize=None)
def group_point(text: bytes) -> Optional[Point]:
    """The point of 32 bytes, if it is one of prime order."""
    point = decode(text) if len(text) == 32 else None
    return point if point and not is_zero(point) and is_zero(times(ORDER, point)) else None


def is_key(text: bytes) -> bool:
    """Whether 32 bytes are a public key, of signatures and of the VRF alike."""
    return group_point(text) is not None


@lru_cache(maxsize=None)
def is_signed(key: bytes, message: bytes, signature: bytes) -> bool:
    """RFC 8032, section 5.1.7, without the cofactor: S is reduced, and R is the encoding of a point that is not the identity."""
    point, s = group_point(key), int.from_bytes(signature[32:], "little")
    if point is None or len(signature) != 64 or s >= ORDER:
        return False
    k = int.from_bytes(sha512(signature[:32] + key + message).digest(), "little") % ORDER
    r = sum_of(s, BASE, k, negate(point))
    return not is_zero(r) and encode(r) == signature[:32]


def hashed_to_curve(key: bytes, text: bytes) -> Point:
    """Try and increment (RFC 9381, section 5.4.1.1)."""
    for counter in range(256):
        point = decode(sha512(b"\x03\x01" + key + text + bytes([counter]) + b"\x00").digest()[:32])
        if point and not is_zero(times(8, point)):
            return times(8, point)
    raise ValueError("no counter gives a point")


def challenge(*points: bytes) -> bytes:
    return sha512(b"\x03\x02" + b"".join(points) + b"\x00").digest()[:16]


def output(gamma: Point) -> bytes:
    return sha512(b"\x03\x03" + encode(times(8, gamma)) + b"\x00").digest()


@lru_cache(maxsize=None)
def vrf_output(key: bytes, text: bytes, proof: bytes) -> Optional[bytes]:
    """The output for an input (RFC 9381, section 5.3), None if the proof is not valid. Key and gamma are points of prime order."""
    if len(proof) != 80:
        return None
    public, gamma = group_point(key), group_point(proof[:32])
    c, s = int.from_bytes(proof[32:48], "little"), int.from_bytes(proof[48:], "little")
    if public is None or gamma is None or s >= ORDER:
        return None
    hashed = hashed_to_curve(key, text)
    u, v = sum_of(s, BASE, c, negate(public)), sum_of(s, hashed, c, negate(gamma))
    is_valid = challenge(key, encode(hashed), proof[:32], encode(u), encode(v)) == proof[32:48]
    return output(gamma) if is_valid else None


def secret_scalar(secret: bytes) -> int:
    return int.from_bytes(sha512(secret).digest()[:32], "little") % 2**254 & ~7 | 2**254


def public_key(secret: bytes) -> bytes:
    return encode(times(secret_scalar(secret), BASE))


def sign(secret: bytes, message: bytes, nonce: Optional[int] = None) -> bytes:
    """The signature of RFC 8032, section 5.1.6, or another one by its signer, who takes another nonce."""
    if nonce is None:
        nonce = int.from_bytes(sha512(sha512(secret).digest()[32:] + message).digest(), "little") % ORDER
    r = encode(times(nonce, BASE))
    k = int.from_bytes(sha512(r + public_key(secret) + message).digest(), "little")
    return r + ((nonce + k * secret_scalar(secret)) % ORDER).to_bytes(32, "little")


@lru_cache(maxsize=None)
def prove(secret: bytes, text: bytes) -> bytes:
    """The VRF proof for an input (RFC 9381, section 5.1)."""
    x, key = secret_scalar(secret), public_key(secret)
    hashed = hashed_to_curve(key, text)
    gamma = times(x, hashed)
    k = int.from_bytes(sha512(sha512(secret).digest()[32:] + encode(hashed)).digest(), "little") % ORDER
    c = challenge(key, encode(hashed), encode(gamma), encode(times(k, BASE)), encode(times(k, hashed)))
    s = (k + int.from_bytes(c, "little") * x) % ORDER
    return encode(gamma) + c + s.to_bytes(32, "little")
