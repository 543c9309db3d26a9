"""Directories that end, and those that go on from them: their policies, entries and successions, by the second implementation."""

from __future__ import annotations

import base64
from typing import Optional, Sequence

import curve
from bytelists import sha256
from chain import Entry, body_after
from client_world import BATCHES, NONCE, POLICY, World, digest, policy_text
from coniks import Policy

SUCCESSOR = sha256(b"successor key")
NEXT_SIGNING = sha256(b"signing key of the next directory")


def with_successor(text: str, secret: Optional[bytes] = SUCCESSOR) -> str:
    """A policy document with the line of a successor key."""
    key = curve.public_key(secret).hex() if secret else "none"
    return text.replace("proofs-kept", f"successor-key {key}\nproofs-kept")


OLD = with_successor(POLICY)
NEXT = policy_text(curve.public_key(NEXT_SIGNING))
OLD_POLICY, NEXT_POLICY = Policy.read(OLD.encode()), Policy.read(NEXT.encode())
# The directory that ends with epoch 6, what a thief of its signing key adds, and another one under the same key.
ENDED = World(BATCHES, policy=digest(OLD))
STOLEN = World([*BATCHES, (7, {"alice": b"key of mallory"}), (8, {})], policy=digest(OLD))
OTHER = World([*BATCHES[:-1], (6, {"alice": b"other"}), (7, {})], policy=digest(OLD))
LAST, FIRST = 6, 3


def chained(roots: Sequence[bytes], nonce: bytes = NONCE, text: str = NEXT, secret: bytes = NEXT_SIGNING) -> list[bytes]:
    """The entries of a directory with these roots, from epoch 1 on."""
    entries = list[bytes]()
    for epoch, root in enumerate(roots, 1):
        before = Entry(entries[-1]) if entries else None
        body = body_after(before, 1, epoch, root, nonce, digest(text))
        entries.append(body + curve.sign(secret, body))
    return entries


# The next directory has all keys from its third epoch on.
ROOT = Entry(ENDED[LAST]).root
BEGUN = chained([sha256(b"no key"), sha256(b"some keys"), ROOT, sha256(b"more keys")])


def succession(
    last: bytes = ENDED[LAST],
    first: bytes = BEGUN[FIRST - 1],
    secret: bytes = SUCCESSOR,
    policies: tuple[str, str] = (OLD, NEXT),
    nonce: Optional[int] = None,
) -> bytes:
    """The succession from one policy to another by the last entry of one and the first of the other that counts."""
    (old, new), end, start = map(digest, policies), Entry(last), Entry(first)
    text = f"succession coniks-1\npolicy {old.hex()}\nlast-epoch {end.epoch}\nlast-link {end.link.hex()}\n"
    text += f"next-policy {new.hex()}\nfirst-epoch {start.epoch}\nfirst-link {start.link.hex()}\n"
    return f"{text}signature {curve.sign(secret, text.encode(), nonce).hex()}\n".encode()


def is_cosigned(note: bytes, text: bytes, key: bytes, seconds: int) -> bool:
    """Whether a note has this text, and one line by which a key cosigned it at a time."""
    front, _, line = note.rpartition(b"\n\n")
    data = base64.b64decode(line.split(b" ")[2])
    message = f"cosignature/v1\ntime {seconds}\n".encode() + text
    return front + b"\n" == text and data[4:12] == seconds.to_bytes(8, "big") and curve.is_signed(key, message, data[12:])


SIGNED = succession()
