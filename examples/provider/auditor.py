"""An auditor: it verifies each signature, and that each entry follows the one before. It sees no names and no keys."""

from __future__ import annotations

from typing import Iterable

import coniks
from coniks.client import Client
from keys import PublicKeys


def audit(keys: PublicKeys, entries: Iterable[bytes]) -> list[coniks.Head]:
    """The epoch and link of each entry. Raises `coniks.client.Refusal` at the first entry that does not follow or is not signed."""
    client, heads = Client(keys.signing, keys.vrf, keys.policy), []
    for entry in entries:
        client.feed([entry])
        head = client.head()
        assert head
        heads.append(head)
    return heads
