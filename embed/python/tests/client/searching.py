"""All that can happen to the owner of a name in a few epochs: each history of keys, each expected change, and each order of lookups,
repeated ones and covers. A client of `coniks.client` or of the second implementation takes each step, from its state. It also drops
missing epochs, once they are lost."""

from __future__ import annotations

from collections import Counter
from dataclasses import dataclass, replace
from functools import lru_cache
from itertools import product
from typing import Callable, Iterator, Optional, Tuple

import client as second
import client_world
from client_world import SIGNING_KEY, START, VRF_KEY, World, digest, hour, policy_text
import coniks
from coniks.client import Client


# No proof of an epoch is promised once the next one has begun.
POLICY = policy_text(stored=0)
INDEX = client_world.index("alice")
# The keys of a directory; the owner begins with the first one. The others are alike, so the last one comes after the one before it.
KEYS = "ABC"
# A change that the owner expects: the latest epoch then, the one by which only the new key may be shown, and the new key.
Declared = Tuple[int, int, str]


class Valid:
    """A scheme of which all signatures and proofs are valid."""

    def verify(self, *_: bytes) -> bool:
        return True

    def index(self, *_: bytes) -> bytes:
        return INDEX


class Mine:
    """`coniks.client`. Its owner notes each alarm at once."""

    def __init__(self, state: Optional[bytes] = None) -> None:
        self.now, self.client = START, self.made(state)
        if state is None:
            self.client.watch("alice", b"A", 1)

    def made(self, state: Optional[bytes]) -> Client:
        return Client(Valid(), Valid(), coniks.Policy.read(POLICY.encode()), state, clock=lambda: self.now)

    @property
    def state(self) -> bytes:
        return self.client.state

    def feed(self, entry: bytes) -> None:
        self.client.feed([entry])

    def lookup(self, reply: bytes, epoch: int) -> bool:
        """Returns whether the epoch is the same."""
        found = self.client.lookup("alice", reply, epoch).seen
        assert found is not None
        return found.value == "same"

    def expect(self, key: str, by: int) -> bool:
        """Returns whether the change may be expected."""
        try:
            self.client.expect(key.encode(), by)
        except ValueError:
            return False
        return True

    def covers(self, epoch: int, link: bytes) -> Iterator[bytes]:
        """The states after an auditor has covered the chain up to an epoch, while no epoch is lost, and while each that another one
        follows is."""
        before = self.state
        for self.now in (hour(99), START):
            self.client = self.made(before)
            self.client.cover(coniks.Head(epoch, link))
            self.client.note(epoch)
            yield self.state


class Theirs:
    """The second implementation, whose signatures and proofs the caller makes valid. Its owner notes each alarm at once."""

    def __init__(self, state: Optional[bytes] = None) -> None:
        self.client = self.made()
        if state is None:
            self.client.watch(b"alice", b"A", 1)
        else:
            self.client.resume(state)

    def made(self) -> second.Client:
        return second.Client(SIGNING_KEY, VRF_KEY, POLICY.encode(), trust=second.Trust(auditors=1, quorum=1))

    @property
    def state(self) -> bytes:
        return self.client.state

    def feed(self, entry: bytes) -> None:
        self.client.feed([entry], 0)

    def lookup(self, reply: bytes, epoch: int) -> bool:
        return bool(self.client.lookup(b"alice", reply, epoch, 0)["seen"] == "same")

    def expect(self, key: str, by: int) -> bool:
        try:
            self.client.expect(key.encode(), by)
        except second.Misuse:
            return False
        return True

    def covers(self, epoch: int, link: bytes) -> Iterator[bytes]:
        """The states after a cover while no epoch is lost, and after one when each that another one follows is."""
        before = self.state
        for now in (START, hour(99)):
            client = self.client = self.made()
            client.resume(before)
            client.mark(0, epoch, link)
            client.drop(now)
            client.note(epoch)
            client.marks = [0]
            yield self.state


@dataclass(frozen=True)
class Moment:
    """What has happened so far: the key of each epoch, the client's state, the expected changes, and the epochs that were the same."""

    keys: str
    state: bytes
    declared: tuple[Declared, ...] = ()
    same: frozenset[int] = frozenset()

    @property
    def stored(self) -> range:
        count = int.from_bytes(self.state[33:37], "big")
        return range(len(self.keys) - count + 1, len(self.keys) + 1)

    @property
    def usable(self) -> str:
        """The keys that may come next."""
        used = {*self.keys, *(key for _, _, key in self.declared)}
        return KEYS if "B" in used else KEYS[:2]

    @property
    def is_honest(self) -> bool:
        return are_meant(self.declared, tuple(enumerate(self.keys, 1)))

    @property
    def is_true(self) -> bool:
        """Whether the owner may have meant what was the same."""
        return are_meant(self.declared, tuple((epoch, self.keys[epoch - 1]) for epoch in sorted(self.same)))


@lru_cache(None)
def are_meant(declared: tuple[Declared, ...], shown: tuple[tuple[int, str], ...]) -> bool:
    """Whether epochs may show keys: each change was made at some epoch that the owner said, after the one before it."""
    for starts in product(*(range(after + 1, by + 1) for after, by, _ in declared)):
        if list(starts) == sorted(starts) and all(key_at(declared, starts, epoch) == key for epoch, key in shown):
            return True
    return False


def key_at(declared: tuple[Declared, ...], starts: tuple[int, ...], epoch: int) -> str:
    return [KEYS[0], *(key for start, (_, _, key) in zip(starts, declared) if start <= epoch)][-1]


class Search:
    """Goes through all that can happen in some epochs, with at most two changes, until the owner is told of another key."""

    def __init__(self, side: Callable[[Optional[bytes]], Mine | Theirs], epochs: int) -> None:
        self.side, self.epochs, self.seen = side, epochs, Counter[str]()
        self.last = side(None)
        self.entries, self.replies, self.links = dict[str, bytes](), dict[str, bytes](), dict[str, bytes]()
        for keys in map("".join, product(KEYS, repeat=epochs)):
            world = World([(epoch, {"alice": it.encode()}) for epoch, it in enumerate(keys, 1)], policy=digest(POLICY))
            for epoch in range(1, epochs + 1):
                shown = keys[:epoch]
                self.entries[shown], self.links[shown] = world[epoch], world.link(epoch)
                self.replies[shown] = world.reply("alice", epoch)

    def at(self, moment: Moment) -> Mine | Theirs:
        """A client at a moment: the last one, if nothing has changed it."""
        if self.last.state != moment.state:
            self.last = self.side(moment.state)
        return self.last

    def run(self) -> None:
        first = Moment("", self.last.state)
        found, left = {first}, [first]
        while left:
            moment = left.pop()
            assert moment.is_true, moment
            self.seen["moments"] += 1
            for following in self.steps(moment):
                if following not in found:
                    found.add(following)
                    left.append(following)

    def steps(self, moment: Moment) -> Iterator[Moment]:
        yield from self.lookups(moment)
        latest = len(moment.keys)
        if latest < self.epochs:
            for key in moment.usable:
                side = self.at(moment)
                side.feed(self.entries[moment.keys + key])
                yield replace(moment, keys=moment.keys + key, state=side.state)
        if len(moment.declared) < 2:
            for key, by in product(moment.usable, range(latest + 1, self.epochs + 2)):
                side = self.at(moment)
                if side.expect(key, by):
                    yield replace(moment, declared=(*moment.declared, (latest, by, key)), state=side.state)
        for epoch in moment.stored:
            for state in self.at(moment).covers(epoch, self.links[moment.keys[:epoch]]):
                yield replace(moment, state=state)

    def lookups(self, moment: Moment) -> Iterator[Moment]:
        for epoch in moment.stored:
            side = self.at(moment)
            is_same = side.lookup(self.replies[moment.keys[:epoch]], epoch)
            self.seen["same" if is_same else "another key"] += 1
            assert is_same or epoch not in moment.same, ("another key after the same", moment, epoch)
            assert is_same or not moment.is_honest, ("another key of an honest directory", moment, epoch)
            if is_same:
                yield replace(moment, state=side.state, same=moment.same | {epoch})
