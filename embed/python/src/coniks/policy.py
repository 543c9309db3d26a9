"""The policy of a directory: a document whose SHA-256 is the policy digest of each body. docs/FORMATS.md defines its text."""

from __future__ import annotations

import hashlib
import math
import re
from dataclasses import dataclass
from typing import Any, Optional

__all__ = ["Policy"]

_NUMBER = "(0|[1-9][0-9]{0,19})"
_KEY = "([0-9a-f]{64})"
_TEXT = re.compile(
    "policy coniks-1\n"
    "origin ([!-~]{1,255})\n"
    "signature Ed25519\n"
    "signing-key " + _KEY + "\n"
    "vrf (?:none|ECVRF-EDWARDS25519-SHA512-TAI\nvrf-key " + _KEY + ")\n"
    "(?:epoch-start " + _NUMBER + "\nepoch-period " + _NUMBER + "\n)?"
    "evidence one-chain\n"
    "(records vouched\n)?"
    "(?:successor-key (none|[0-9a-f]{64})\n)?"
    "proofs-kept (?:forever|" + _NUMBER + ")\n"
)


def _check_key(value: Any, what: str) -> None:
    if not isinstance(value, bytes):
        raise TypeError(f"{what} is bytes, not {type(value).__name__}")
    if len(value) != 32:
        raise ValueError(f"{what} has 32 bytes, not {len(value)}")


def _check_number(value: Any, least: int, what: str) -> None:
    if not isinstance(value, int) or isinstance(value, bool):
        raise TypeError(f"{what} is a whole number, not {type(value).__name__}")
    if not least <= value < 1 << 64:
        raise ValueError(f"{what} is from {least} to 2^64 - 1, not {value}")


@dataclass(frozen=True)
class Policy:
    """What a directory promises for its life. `bytes(policy)` is the document, and `digest` goes into each body.

    `origin` names the directory, by 1 to 255 printable ASCII characters without space. `signing_key` is its public key
    (Ed25519), and `vrf_key` that of its VRF (ECVRF-EDWARDS25519-SHA512-TAI), None without a VRF. Epoch 1 begins at
    `epoch_start`, in Unix seconds, and each epoch lasts `epoch_period` seconds; both are None in a directory without a clock.
    Proofs are kept for `proofs_kept` seconds, for ever if it is None. With `records_vouched` each key is a record of its owner
    (`coniks.vouching`), and two replies that show a change which the owner did not sign convict the directory. `successor_key` is the
    public key that signs a succession (`coniks.succession`), of no byte if the document says that there is none, and None if it says
    nothing: then there is none either.
    """

    origin: str
    signing_key: bytes
    vrf_key: Optional[bytes] = None
    epoch_start: Optional[int] = None
    epoch_period: Optional[int] = None
    proofs_kept: Optional[int] = None
    records_vouched: bool = False
    successor_key: Optional[bytes] = None

    def __post_init__(self) -> None:
        if not isinstance(self.origin, str):
            raise TypeError(f"the origin is text, not {type(self.origin).__name__}")
        if not re.fullmatch("[!-~]{1,255}", self.origin):
            raise ValueError("the origin has 1 to 255 printable ASCII characters without space")
        _check_key(self.signing_key, "the signing key")
        if self.vrf_key is not None:
            _check_key(self.vrf_key, "the key of the VRF")
        if (self.epoch_start is None) != (self.epoch_period is None):
            raise ValueError("a clock has a start and a period: pass both or neither")
        if self.epoch_start is not None:
            _check_number(self.epoch_start, 0, "the start of epoch 1")
            _check_number(self.epoch_period, 1, "the period of the epochs")
        if self.proofs_kept is not None:
            _check_number(self.proofs_kept, 0, "how long proofs are kept")
        if not isinstance(self.records_vouched, bool):
            raise TypeError(f"whether records are vouched is True or False, not {type(self.records_vouched).__name__}")
        if self.successor_key is not None and self.successor_key != b"":
            _check_key(self.successor_key, "the successor key")
        if self.successor_key == self.signing_key:
            raise ValueError("the successor key is kept offline: it is another one than the signing key")

    @classmethod
    def read(cls, text: bytes) -> Policy:
        """Returns the policy of a document. Raises ValueError for any other bytes, so that a policy has one document."""
        if not isinstance(text, (bytes, bytearray, memoryview)):
            raise TypeError(f"a policy document is bytes, not {type(text).__name__}")
        found = _TEXT.fullmatch(bytes(text).decode("latin-1"))
        if not found:
            raise ValueError("this is no policy document of docs/FORMATS.md: take the bytes that its directory publishes")
        origin, signing_key, vrf_key, records, successor = found.group(1, 2, 3, 6, 7)
        start, period, stored = (None if it is None else int(it) for it in found.group(4, 5, 8))
        keys = bytes.fromhex(signing_key), None if vrf_key is None else bytes.fromhex(vrf_key)
        successor_key = None if successor is None else bytes.fromhex(successor.replace("none", ""))
        return cls(origin, *keys, start, period, stored, records is not None, successor_key)

    def __bytes__(self) -> bytes:
        """The document, which clients and auditors get."""
        vrf = ["vrf none"]
        if self.vrf_key is not None:
            vrf = ["vrf ECVRF-EDWARDS25519-SHA512-TAI", f"vrf-key {self.vrf_key.hex()}"]
        clock = [] if self.epoch_start is None else [f"epoch-start {self.epoch_start}", f"epoch-period {self.epoch_period}"]
        stored = "forever" if self.proofs_kept is None else self.proofs_kept
        lines = ["policy coniks-1", f"origin {self.origin}", "signature Ed25519", f"signing-key {self.signing_key.hex()}"]
        records = ["records vouched"] if self.records_vouched else []
        successor = [] if self.successor_key is None else [f"successor-key {self.successor_key.hex() or 'none'}"]
        promises = ["evidence one-chain", *records, *successor, f"proofs-kept {stored}"]
        return "".join(f"{it}\n" for it in [*lines, *vrf, *clock, *promises]).encode()

    @property
    def digest(self) -> bytes:
        """The policy digest, 32 bytes."""
        return hashlib.sha256(bytes(self)).digest()

    def epoch_at(self, seconds: float) -> int:
        """Returns the number of the epoch at a time in Unix seconds. Raises ValueError before epoch 1, after the last epoch
        number, and without a clock."""
        if self.epoch_start is None or self.epoch_period is None:
            raise ValueError("the policy has no clock: number the epochs yourself")
        if not self.epoch_start <= seconds < math.inf:
            raise ValueError(f"epoch 1 begins at {self.epoch_start} Unix seconds: see whether the clock is right")
        epoch = 1 + (math.floor(seconds) - self.epoch_start) // self.epoch_period
        if epoch >= 1 << 64:
            raise ValueError("the last epoch number is 2^64 - 1: see whether the clock is right")
        return epoch

    def is_promised(self, following: int, seconds: float) -> bool:
        """Returns whether proofs of an older epoch are promised at a time in Unix seconds. `following` is the number of the epoch
        that follows it in the chain. Without a clock they are promised for ever, unless they are kept for 0 seconds."""
        if self.proofs_kept is None or self.epoch_start is None or self.epoch_period is None:
            return self.proofs_kept != 0
        return seconds < self.epoch_start + (following - 1) * self.epoch_period + self.proofs_kept
