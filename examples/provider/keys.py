"""The public keys of a provider and its policy, and whether an entry is signed with such a key."""

from __future__ import annotations

from dataclasses import dataclass

import coniks
from nacl.exceptions import BadSignatureError
from nacl.signing import VerifyKey


@dataclass(frozen=True)
class PublicKeys:
    """The key that verifies signatures (Ed25519), and the key of the VRF. Clients and auditors have both from the start.

    The policy digest in each entry is the SHA-256 of the policy document. So each signature also covers the key of the VRF.
    """

    signing: bytes
    vrf: bytes

    @property
    def policy(self) -> coniks.Policy:
        return coniks.Policy("keys.example.com", self.signing, self.vrf)


def is_signed(signing: bytes, entry: bytes) -> bool:
    """Whether the 209 bytes of an entry end with a valid signature of the 145 before."""
    if len(entry) != coniks.ENTRY_LENGTH:
        return False
    try:
        VerifyKey(signing).verify(entry[: coniks.BODY_LENGTH], entry[coniks.BODY_LENGTH :])
    except BadSignatureError:
        return False
    return True
