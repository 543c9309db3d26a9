"""Takes entries and bodies apart (docs/FORMATS.md, "Entries"). No other module has the place of a part, and nothing is verified."""

from __future__ import annotations

from ._formats import BODY_LENGTH, EPOCH, NONCE, POLICY, PREVIOUS_EPOCH, PREVIOUS_LINK, REPLY_FRONT, ROOT, VERSION


def version_of(body: bytes) -> int:
    return int.from_bytes(body[VERSION], "big")


def epoch_of(body: bytes) -> int:
    """The epoch of a body or an entry."""
    return int.from_bytes(body[EPOCH], "big")


def epoch_before(body: bytes) -> int:
    """The epoch of the entry before, 0 for the first."""
    return int.from_bytes(body[PREVIOUS_EPOCH], "big")


def root_of(body: bytes) -> bytes:
    return body[ROOT]


def link_before(body: bytes) -> bytes:
    """The link of the entry before, 32 zero bytes for the first."""
    return body[PREVIOUS_LINK]


def nonce_of(body: bytes) -> bytes:
    return body[NONCE]


def policy_of(body: bytes) -> bytes:
    """The digest of the directory's policy."""
    return body[POLICY]


def body_of(entry: bytes) -> bytes:
    """What is signed."""
    return entry[:BODY_LENGTH]


def signature_of(entry: bytes) -> bytes:
    return entry[BODY_LENGTH:]


def proof_of_reply(reply: bytes) -> bytes:
    """The bytes of the proof, which follow the VRF proof and its length."""
    return reply[REPLY_FRONT + int.from_bytes(reply[REPLY_FRONT - 2 : REPLY_FRONT], "big") :]
