"""The trust document: by which auditors a client lets a directory's heads be confirmed. docs/FORMATS.md defines its text.

    trust = Trust(policy.digest, (Auditor.read(".."), ..), faulty=1)
    bytes(trust)                                           # the document
    trust.fingerprint                                      # what two people compare
    client = Client(.., trust=trust.of_client)             # whose auditors these are
    client.mark(trust.place(auditor), note.head(policy))   # once the note's cosignature is verified

Two clients of one fingerprint, each of which has a quorum for a head, have heads of one chain, as long as at most `faulty` of these
auditors lie. Under two fingerprints nothing of that is known. The module needs PyNaCl.
"""

from __future__ import annotations

import hashlib
import re
from dataclasses import dataclass
from typing import Optional

from . import client
from .notes import Auditor, quorum

__all__ = ["Trust"]

_TEXT = re.compile(
    "trust coniks-1\npolicy ([0-9a-f]{64})\n(?:successor-key ([0-9a-f]{64})\n)?((?:auditor [!-~]+\n)+)faulty (0|[1-9][0-9]{0,3})\n"
)


@dataclass(frozen=True)
class Trust:
    """A policy digest, the auditors, at least two in any order, and how many of them may lie or be silent. `successor_key` is that of the
    policy if clients go on by its successions without a word of their users, None otherwise. Raises `ValueError` if an auditor is listed
    twice, by its name or by its key, or if no quorum can be formed."""

    policy: bytes
    auditors: tuple[Auditor, ...]
    faulty: int
    successor_key: Optional[bytes] = None

    def __post_init__(self) -> None:
        if len(self.policy) != 32:
            raise ValueError(f"a policy digest has 32 bytes, not {len(self.policy)}")
        if self.successor_key is not None and len(self.successor_key) != 32:
            raise ValueError(f"a successor key has 32 bytes, not {len(self.successor_key)}")
        if len(self.auditors) < 2:
            raise ValueError("at least two auditors are needed")
        if any(len(set(its)) < len(self.auditors) for its in zip(*((it.name, it.key) for it in self.auditors))):
            raise ValueError("an auditor is listed twice")
        quorum(len(self.auditors), self.faulty)

    @classmethod
    def read(cls, text: bytes) -> Trust:
        """Returns what a document says. Raises `ValueError` for any other bytes, so that it has one fingerprint."""
        found = _TEXT.fullmatch(text.decode("latin-1"))
        if found:
            auditors = (Auditor.read(it.partition(" ")[2]) for it in found[3].splitlines())
            successor = bytes.fromhex(found[2]) if found[2] else None
            trust = cls(bytes.fromhex(found[1]), tuple(auditors), int(found[4]), successor)
        if not found or bytes(trust) != text:
            raise ValueError("this is no trust document of docs/FORMATS.md: take the bytes that coniks-client has written")
        return trust

    def __bytes__(self) -> bytes:
        """The document."""
        successor = f"successor-key {self.successor_key.hex()}\n" if self.successor_key else ""
        return f"trust coniks-1\npolicy {self.policy.hex()}\n{successor}{''.join(self._lines)}faulty {self.faulty}\n".encode()

    @property
    def _lines(self) -> list[str]:
        return sorted(f"auditor {it}\n" for it in self.auditors)

    def place(self, auditor: Auditor) -> int:
        """Returns the place of an auditor in the document, from 0 on. Raises `ValueError` if it isn't one of them."""
        return self._lines.index(f"auditor {auditor}\n")

    @property
    def digest(self) -> bytes:
        """The SHA-256 of the document."""
        return hashlib.sha256(bytes(self)).digest()

    @property
    def of_client(self) -> client.Trust:
        """What a `coniks.client.Client` needs of it."""
        return client.Trust(self.digest, len(self.auditors), self.faulty)

    @property
    def needed(self) -> int:
        """How many of the auditors must agree."""
        return quorum(len(self.auditors), self.faulty)

    @property
    def fingerprint(self) -> str:
        """The SHA-256 of the document, in eight groups of eight hexadecimal digits."""
        digits = self.digest.hex()
        return " ".join(digits[it : it + 8] for it in range(0, 64, 8))
