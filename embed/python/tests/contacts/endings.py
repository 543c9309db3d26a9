"""Directories that end, and go on under another policy, for the tests of `coniks-client`."""

from __future__ import annotations

import time
from typing import Mapping, Optional, TypeVar

import curve
from bytelists import sha256
from chain import Entry
from client_world import BATCHES, Batch, World, digest, policy_text
from coniks import Head, Policy
from coniks.notes import Note, cosign
from coniks.succession import Succession
from directories import Batches, Directory, Reply
from nacl.signing import SigningKey
from people import AUDITORS, KEYS

Self = TypeVar("Self", bound="Ended")
SUCCESSOR, OTHER = SigningKey(b"successor key".ljust(32)), SigningKey(b"other successor key".ljust(32))
# The signing key of the directory that goes on.
NEXT_SIGNING = sha256(b"next signing key")


def with_successor(text: str, key: SigningKey = SUCCESSOR) -> str:
    """A policy document that names a successor key."""
    return text.replace("proofs-kept", f"successor-key {bytes(key.verify_key).hex()}\nproofs-kept")


OLD = with_successor(policy_text())
NEXT = with_successor(policy_text(curve.public_key(NEXT_SIGNING), period=1800))


def signed_by(world: World, secret: bytes) -> World:
    """A directory whose entries another key has signed."""
    before: Optional[Entry] = None
    for it in world.epochs.values():
        body = it.entry[:145]
        if before:
            body = body[:49] + before.link + body[81:]
        it.entry = body + curve.sign(secret, body)
        before = Entry(it.entry)
    return world


class Ended(Directory):
    """A service of a directory that ends: then it shows its successor, and its own chain under its policy digest."""

    def __init__(self, batches: Batches = BATCHES, policy: str = OLD):
        # The policy, the entries and the succession of each directory that has ended, by its policy digest.
        self.past: dict[str, tuple[str, list[bytes], bytes]] = {}
        super().__init__(batches, policy)

    def __enter__(self: Self) -> Self:
        return self

    def renew(self) -> None:
        super().renew()
        if self.policy == NEXT:
            signed_by(self.world, NEXT_SIGNING)

    @property
    def hour(self) -> int:
        """The hour of the latest epoch."""
        return self.latest if self.policy == OLD else 1 + self.latest // 2

    def go_on(self, hour: int) -> None:
        """Makes the epoch of an hour, once it has ended."""
        self.commit(1 + 2 * (hour - 1))

    def head(self, epoch: int) -> Head:
        return Head(epoch, self.world.link(epoch))

    def end(self, last: Optional[int] = None, changes: Mapping[str, bytes] = {}, key: SigningKey = SUCCESSOR) -> Succession:
        """Ends at an epoch, by default the latest one, and goes on in one that has the same names with the same keys, but for some. The
        first epoch that counts is its second one."""
        last, old, policy = (self.latest if last is None else last, self.world, self.policy)
        ended, entries = self.head(last), [old[it] for it in old.epochs if it <= last]
        names: Batch = {name.decode(): value for name, _, value in old.epochs[last].names.values()} | dict(changes)
        some = dict(list(names.items())[:2])
        now = 1 + 2 * (self.latest - 1)
        self.policy, self.batches = NEXT, [(now, some), (now + 1, {name: it for name, it in names.items() if name not in some})]
        self.renew()
        succession = Succession(digest(policy), ended, digest(NEXT), self.head(now + 1)).sign(key)
        self.past[digest(policy).hex()] = policy, entries, bytes(succession)
        return succession

    def honest(self, path: str, query: Mapping[str, str], body: bytes) -> Reply:
        if path == "/v1/succession":
            return Reply(self.past[query["policy"]][2]) if query["policy"] in self.past else Reply(b"", 404)
        if path == "/v1/policy":
            known = {digest(self.policy).hex(): self.policy, **{it: found[0] for it, found in self.past.items()}}
            return Reply(known[query["policy"]].encode()) if query["policy"] in known else Reply(b"", 404)
        if path == "/v1/entries" and query.get("policy") in self.past:
            entries = self.past[query["policy"]][1]
            return Reply(b"".join(it for it in entries if Entry(it).epoch > int(query["after"])))
        return super().honest(path, query, body)


class Confirming(Ended):
    """An auditor that has what a directory has, and cosigns its latest head, and its succession if it has one."""

    def __init__(self, name: str, directory: Ended):
        super().__init__()
        self.pair, self._name, self._directory = ((self.url, str(AUDITORS[name])), name, directory)

    def honest(self, path: str, query: Mapping[str, str], body: bytes) -> Reply:
        found = self._directory.honest(path, query, body)
        if path == "/v1/succession" and found.status == 200:
            return Reply(self.cosigned(found.body.decode()))
        if path == "/v1/note":
            from coniks.notes import text_of

            it = self._directory
            return Reply(self.cosigned(text_of(Policy.read(it.policy.encode()), it.head(it.latest))))
        return found

    def cosigned(self, text: str) -> bytes:
        return bytes(Note(text, (cosign(self._name, KEYS[self._name], text, int(time.time())),)))


def thief(last: int) -> Ended:
    """A service of whoever has stolen the signing key: its epochs go on after the last good one."""
    found = Ended([it for it in BATCHES if it[0] <= last])
    found.commit(last + 1, bob=b"key of mallory")
    found.commit(last + 2)
    return found
