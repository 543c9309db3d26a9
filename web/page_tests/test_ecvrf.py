"""VRF proofs and signatures in JavaScript beside libsodium, at random: good ones and altered ones.

An alteration changes bytes, takes parts of another proof, adds the order to a number, adds a point of small order to a point, or
writes a point in another encoding.
"""

from __future__ import annotations

import hashlib
import random
import subprocess
from pathlib import Path
from typing import Callable

import pytest
import tools

pytest.importorskip("nacl.signing")
if not tools.has("node"):
    pytest.skip("node is missing", allow_module_level=True)

import curve
import ecvrf
from coniks import _ecvrf
from nacl.signing import SigningKey

WEB = Path(__file__).resolve().parent.parent
ORDER = curve.ORDER
# The points of small order, the first of which is the identity. The others are multiples of one of order 8.
EIGHT = curve.decode(bytes.fromhex("26e8958fc2b227b045c3f489f2ef98f0d5dfac05d3c63339b13802886d53fc05"))
assert EIGHT
SMALL = [curve.times(k, EIGHT) for k in range(8)]
# Encodings that are not the one of a point, and one of no point.
WRONG = ["01" + "00" * 30 + "80", "ec" + "ff" * 31, "ed" + "ff" * 30 + "7f", "ee" + "ff" * 30 + "7f", "ff" * 32, "02" + "00" * 31]

Parts = list[bytes]


def moved(chance: random.Random, text: bytes) -> bytes:
    """A point with one of small order added, or one of small order alone, or a wrong encoding."""
    kind, point = chance.randrange(4), curve.decode(text)
    if kind == 0:
        return bytes.fromhex(chance.choice(WRONG))
    if kind == 1 or point is None:
        return curve.encode(chance.choice(SMALL))
    return curve.encode(curve.add(point, chance.choice(SMALL)))


def changed(chance: random.Random, text: bytes) -> bytes:
    """Bytes with another bit, or one byte less or more."""
    kind = chance.randrange(8)
    if kind == 0 or not text:
        return text + bytes([chance.randrange(256)])
    if kind == 1:
        return text[1:]
    place = chance.randrange(len(text))
    return text[:place] + bytes([text[place] ^ 1 << chance.randrange(8)]) + text[place + 1 :]


def greater(text: bytes) -> bytes:
    """32 bytes as a number, and the order added, if it fits."""
    number = int.from_bytes(text, "little") + ORDER
    return number.to_bytes(32, "little") if number < 2**256 else text


def mixed(chance: random.Random, secret: bytes, text: bytes) -> bytes:
    """A proof with a Gamma of mixed order that fulfils both equations, since its challenge is a multiple of 8."""
    x, key = curve.secret_scalar(secret), curve.public_key(secret)
    hashed = curve.hashed_to_curve(key, text)
    gamma = curve.encode(curve.add(curve.times(x, hashed), chance.choice(SMALL[1:])))
    while True:
        k = chance.randrange(1, ORDER)
        c = curve.challenge(
            key, curve.encode(hashed), gamma, curve.encode(curve.times(k, curve.BASE)), curve.encode(curve.times(k, hashed))
        )
        if c[0] % 8 == 0:
            return gamma + c + ((k + int.from_bytes(c, "little") * x) % ORDER).to_bytes(32, "little")


def with_identity(secret: bytes, message: bytes) -> bytes:
    """The signer's own signature whose R is the identity."""
    r = curve.encode(curve.ZERO)
    k = int.from_bytes(hashlib.sha512(r + curve.public_key(secret) + message).digest(), "little")
    return r + (k * curve.secret_scalar(secret) % ORDER).to_bytes(32, "little")


def altered(chance: random.Random, parts: Parts, other: Parts) -> Parts:
    """A key, an input or message, and a proof or signature, of which something is changed."""
    key, text, proof = parts
    at = 32 if len(proof) == 64 else 48
    ways: list[Callable[[], Parts]] = [
        lambda: [changed(chance, key), text, proof],
        lambda: [key, changed(chance, text), proof],
        lambda: [key, text, changed(chance, proof)],
        lambda: [key, text, changed(chance, proof)],
        lambda: [moved(chance, key), text, proof],
        lambda: [key, text, moved(chance, proof[:32]) + proof[32:]],
        lambda: [key, text, proof[:at] + greater(proof[at:])],
        lambda: [other[0], text, proof],
        lambda: [key, other[1], proof],
        lambda: [key, text, other[2]],
        lambda: [key, text, other[2][:32] + proof[32:]],
        lambda: [key, text, proof[:32] + other[2][32:]],
    ]
    return chance.choice(ways)()


def requests(count: int, chance: random.Random) -> list[tuple[str, Parts]]:
    secrets = [chance.randbytes(32) for _ in range(4)]
    keys = [ecvrf.public_key(it) for it in secrets]
    made: list[tuple[str, Parts]] = []
    before: dict[str, Parts] = {}
    for number in range(count):
        which, text = chance.randrange(4), chance.randbytes(chance.choice([0, 1, 5, 30, 145]))
        for kind in ["vrf", "signature"]:
            is_vrf = kind == "vrf"
            proof = ecvrf.prove(secrets[which], text) if is_vrf else SigningKey(secrets[which]).sign(text).signature
            parts = [keys[which], text, proof]
            if number % 50 == 7:
                parts[2] = mixed(chance, secrets[which], text) if is_vrf else with_identity(secrets[which], text)
            elif chance.randrange(3):
                parts = altered(chance, parts, before.get(kind, parts))
            else:
                before[kind] = parts
            made.append((kind, parts))
    return made


def by_libsodium(kind: str, parts: Parts) -> str:
    key, text, proof = parts
    if not _ecvrf.is_key(key):
        return "no key"
    if kind == "signature":
        return str(_ecvrf.is_signed(key, text, proof)).lower()
    try:
        return _ecvrf.verify(key, text, proof).hex()
    except _ecvrf.InvalidProof:
        return "-"


def test_beside_libsodium(pytestconfig: pytest.Config, say: Callable[[str], None]) -> None:
    """Each reply in JavaScript is libsodium's, and all kinds of results occur."""
    count, counts = pytestconfig.getoption("points"), dict[str, int]()
    requested = requests(count, random.Random(pytestconfig.getoption("seed")))
    lines = "".join(f"{kind} {' '.join(it.hex() or '.' for it in parts)}\n" for kind, parts in requested)
    ran = subprocess.run(["node", WEB / "ecvrf_answers.mjs"], input=lines, capture_output=True, text=True)
    printed = ran.stdout.splitlines()
    assert (ran.returncode, len(printed)) == (0, len(requested)), ran.stderr[-2000:]
    for (kind, parts), found in zip(requested, printed):
        wanted = by_libsodium(kind, parts)
        assert found == wanted, f"{kind} {' '.join(it.hex() for it in parts)}"
        reported = f"{kind}: {wanted if len(wanted) < 10 else 'an output'}"
        counts[reported] = counts.get(reported, 0) + 1
    assert len(counts) == 6 and min(counts.values()) >= count // 20, counts
    say(str(dict(sorted(counts.items()))))
