"""A client: it looks names up, and watches its own. It has the provider's public keys, and trusts nothing else of it."""

from __future__ import annotations

from typing import Optional, Sequence

from coniks.client import Client, Watched
from keys import PublicKeys


def opened(keys: PublicKeys, catch_up: bytes) -> Client:
    """A client of a provider that has the entries of a catch-up. Raises `coniks.client.Refusal`, as each call of a client does."""
    client = Client(keys.signing, keys.vrf, keys.policy)
    client.feed(catch_up)
    return client


def look_up(client: Client, name: str, epoch: int, reply: bytes) -> Optional[bytes]:
    """The key of a name at an epoch, None if the name is not registered."""
    return client.lookup(name, reply, epoch).key


def watch(client: Client, name: str, key: bytes, replies: Sequence[tuple[int, bytes]]) -> list[Optional[Watched]]:
    """What each epoch shows the owner of a name, who expects a key from epoch 1 on."""
    client.watch(name, key, since=1)
    return [client.lookup(name, reply, epoch).seen for epoch, reply in replies]
