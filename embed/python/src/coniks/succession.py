"""The succession of a directory: a text that ends the chain of one policy, and names the directory that goes on. docs/FORMATS.md has it.

    succession = Succession.read(text)
    succession.is_signed(policy.successor_key)             # by the offline key of the policy that ends
    client.succeed(succession, next_policy, entry)         # a client of the next directory (`coniks.client`)

Its operator draws the key on a machine without a network, and signs there:

    python3 -m coniks.succession new successor.key         # prints the public key for the policy
    python3 -m coniks.succession sign successor.key < text > succession

Two signed successions of one policy convict the directory (`convicts`). The module needs PyNaCl.
"""

from __future__ import annotations

import os
import re
import sys
from dataclasses import dataclass, replace
from pathlib import Path
from typing import Optional, Sequence

from nacl.signing import SigningKey

from . import Head, _bytes
from ._ecvrf import is_key, is_signed
from .policy import Policy

__all__ = ["Succession", "convicts"]

_NUMBER, _DIGEST = "([1-9][0-9]{0,19})", "([0-9a-f]{64})"
_TEXT = re.compile(
    f"succession coniks-1\npolicy {_DIGEST}\nlast-epoch {_NUMBER}\nlast-link {_DIGEST}\n"
    f"next-policy {_DIGEST}\nfirst-epoch {_NUMBER}\nfirst-link {_DIGEST}\n"
)
_SIGNED = re.compile("(.*\n)signature ([0-9a-f]{128})\n", re.S)


@dataclass(frozen=True)
class Succession:
    """The policy digest of the directory that ends with the last head of its chain, and of the one that goes on with the first head that
    counts. `signature` has no byte before it is signed. Raises `ValueError` for parts that no succession has."""

    policy: bytes
    last: Head
    next_policy: bytes
    first: Head
    signature: bytes = b""

    def __post_init__(self) -> None:
        lengths = [len(it) for it in (self.policy, self.last.link, self.next_policy, self.first.link)]
        if lengths != [32] * 4 or len(self.signature) not in (0, 64):
            raise ValueError("digests and links have 32 bytes, and a signature 64")
        if self.policy == self.next_policy or not all(1 <= it.epoch < 1 << 64 for it in (self.last, self.first)):
            raise ValueError("a succession names two policies, and an epoch of each from 1 to 2^64 - 1")

    @classmethod
    def read(cls, text: bytes) -> Succession:
        """Returns what a succession says, of which nothing is verified. Raises `ValueError` for other bytes."""
        found = _SIGNED.fullmatch(_bytes(text, "a succession").decode("latin-1"))
        if not found:
            raise ValueError("this is no succession of docs/FORMATS.md: take the bytes that its directory publishes")
        return replace(cls.unsigned(found[1].encode("latin-1")), signature=bytes.fromhex(found[2]))

    @classmethod
    def unsigned(cls, text: bytes) -> Succession:
        """Returns what the lines before a signature say. Raises `ValueError` for other bytes."""
        found = _TEXT.fullmatch(_bytes(text, "a succession").decode("latin-1"))
        if not found:
            raise ValueError("these are not the lines of a succession, as docs/FORMATS.md has them")
        policy, link, next_policy, first_link = map(bytes.fromhex, found.group(1, 3, 4, 6))
        last, first = Head(int(found[2]), link), Head(int(found[5]), first_link)
        return cls(policy, last, next_policy, first)

    def __bytes__(self) -> bytes:
        """The text."""
        signature = f"signature {self.signature.hex()}\n" if self.signature else ""
        return self.signed + signature.encode()

    @property
    def signed(self) -> bytes:
        """The lines that the signature is over."""
        old = f"policy {self.policy.hex()}\nlast-epoch {self.last.epoch}\nlast-link {self.last.link.hex()}\n"
        new = f"next-policy {self.next_policy.hex()}\nfirst-epoch {self.first.epoch}\nfirst-link {self.first.link.hex()}\n"
        return f"succession coniks-1\n{old}{new}".encode()

    def is_signed(self, key: Optional[bytes]) -> bool:
        """Returns whether a successor key signed it. `key` is that of a policy: without one nothing is signed."""
        return bool(key) and is_key(key or b"") and is_signed(key or b"", self.signed, self.signature)

    def sign(self, secret: SigningKey) -> Succession:
        """Returns it with the signature of a secret key."""
        return replace(self, signature=secret.sign(self.signed).signature)


def convicts(policy: Policy, one: Succession, other: Succession) -> bool:
    """Returns whether two successions convict the directory of a policy: both end it, both are signed, and they are not the same."""
    are_signed = all(it.policy == policy.digest and it.is_signed(policy.successor_key) for it in (one, other))
    return are_signed and one.signed != other.signed


def main(words: Sequence[str]) -> int:
    """Draws a successor key, or signs a succession."""
    if len(words) != 2 or words[0] not in ("new", "sign"):
        print("usage: python3 -m coniks.succession (new FILE | sign FILE < TEXT)", file=sys.stderr)
        return 2
    path = Path(words[1])
    try:
        if words[0] == "new":
            secret = SigningKey.generate()
            with open(path, "xb", opener=lambda path, flags: os.open(path, flags, 0o600)) as file:
                file.write(bytes(secret))
            print(bytes(secret.verify_key).hex())
        else:
            succession = Succession.unsigned(sys.stdin.buffer.read())
            sys.stdout.buffer.write(bytes(succession.sign(SigningKey(path.read_bytes()))))
    except (OSError, ValueError) as error:
        print(f"coniks.succession: {error}", file=sys.stderr)
        return 1
    return 0


if __name__ == "__main__":
    sys.exit(main(sys.argv[1:]))
