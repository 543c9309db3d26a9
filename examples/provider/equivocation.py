"""Evidence that a provider equivocated: two signed entries that one chain can't have."""

from __future__ import annotations

from dataclasses import dataclass
from typing import Optional, Sequence

import coniks
from keys import is_signed


@dataclass(frozen=True)
class Evidence:
    """Two entries, and why they convict the owner of the signing key."""

    one: bytes
    other: bytes
    kind: coniks.EvidenceKind


def convicts(signing: bytes, one: bytes, other: bytes) -> Optional[coniks.EvidenceKind]:
    """Why two entries are evidence against the owner of a signing key, for anyone who has the public key. None if they are none.

    A signing key signs one chain under one policy. The evidence is two valid signatures of different bodies that cover one epoch
    number, or of two policies, or of a body that no chain has. Two signatures of one body are none.
    """
    if not (is_signed(signing, one) and is_signed(signing, other)):
        return None
    return coniks.convicts(one, other)


def find_evidence(signing: bytes, mine: Sequence[bytes], theirs: Sequence[bytes]) -> Optional[Evidence]:
    """The first two entries at one place of two chains that are evidence. None if one chain begins the other."""
    for one, other in zip(mine, theirs):
        kind = convicts(signing, one, other)
        if kind is not None:
            return Evidence(one, other, kind)
    return None
