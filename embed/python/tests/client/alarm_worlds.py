"""All that can happen in a few epochs to a client that keeps alarms: what each epoch shows, and when it is looked up; when it is lost;
heads of an auditor, covers, notes of the owner; and a latest entry that is signed again. A client of the second implementation takes
each step, from its state."""

from __future__ import annotations

from collections import Counter
from dataclasses import dataclass, replace
from itertools import product
from typing import Iterator, Optional

from bytelists import number, sha256
from chain import body_after
from client import Client, Trust
from client_world import NONCE, PERIOD, SIGNING_KEY, START, VRF_KEY, digest, policy_text
from replies import reply

POLICY = policy_text(stored=0)
TRUST = Trust(sha256(b"trust"), 1, 1)
# What an epoch can show of a name with the key `A`, by what a state says of it.
SHOWN: dict[int, Optional[bytes]] = {1: b"A", 3: b"B", 4: None}
MISSING = 5


def proof(key: Optional[bytes]) -> bytes:
    """A proof without siblings. The caller makes it valid."""
    return b"\0\0\0" if key is None else b"\2\0\0" + bytes(32) + number(5, 2) + b"alice" + number(len(key), 4) + key


def time_of(over: int) -> int:
    """A time at which each missing epoch is lost that an epoch up to this number follows, and no other one."""
    return START + (over - 1) * PERIOD


@dataclass(frozen=True)
class Moment:
    """What has happened so far: the client's state, the number that was seen of each epoch, how many epochs were dropped, up to which
    epoch alarms were noted, how often an entry was signed again, and the heads of the auditor that count."""

    state: bytes
    seen: tuple[int, ...] = ()
    dropped: int = 0
    noted: int = 0
    again: int = 0
    marked: frozenset[tuple[int, bytes]] = frozenset()

    @property
    def alarms(self) -> list[tuple[int, int]]:
        """The dropped epochs that were not seen as the same, and that the owner has not noted."""
        return [(it, self.seen[it - 1]) for it in range(self.noted + 1, self.dropped + 1) if self.seen[it - 1] > 1]


class Broken(Exception):
    """What must never happen."""


class Search:
    """Goes through all that can happen in some epochs, from the first watched one on. At most `again` entries are signed again."""

    def __init__(self, epochs: int, again: int, since: int = 1) -> None:
        self.epochs, self.again, self.since, self.counts = epochs, again, since, Counter[str]()

    def client(self, state: Optional[bytes]) -> Client:
        client = Client(SIGNING_KEY, VRF_KEY, POLICY.encode(), trust=TRUST)
        if state is None:
            client.watch(b"alice", b"A", self.since)
        else:
            client.resume(state)
        return client

    def run(self) -> None:
        first = Moment(self.client(None).state)
        found, left = {first}, [first]
        while left:
            moment = left.pop()
            self.check(moment)
            for following in self.steps(moment):
                if following not in found:
                    found.add(following)
                    left.append(following)
        self.counts["moments"] = len(found)

    def check(self, moment: Moment) -> None:
        """A client reports what has happened, at each time, and also if it is read back."""
        client = self.client(moment.state)
        if client.state != moment.state:
            raise Broken("a state is another one once it is read back", moment)
        for over in range(1, self.epochs + 1):
            what, *about = client.report(time_of(over))["report"]
            self.counts[what] += 1
            if [what, *about] != self.wanted(moment, over):
                raise Broken("another report", moment, over, what, about, self.wanted(moment, over))
            if moment.alarms and what in ("unwatched", "unconfirmed", "good"):
                raise Broken("an alarm is not reported", moment, over)
            if all(it <= 1 for it in moment.seen) and what in ("changed", "missing", "lost"):
                raise Broken("an honest history is not", moment, over)
        if client.confirmed_epoch != max((it for it, _ in moment.marked), default=None):
            raise Broken("another epoch is confirmed", moment)
        chain = {it.entry.link for it in client.stored}
        if any(epoch > moment.dropped and link not in chain for epoch, link in moment.marked):
            raise Broken("a head counts that is not in the chain", moment)

    def wanted(self, moment: Moment, over: int) -> list[object]:
        """What a client should report, by what has happened."""
        stored = [(it, moment.seen[it - 1]) for it in range(max(self.since, moment.dropped + 1), len(moment.seen) + 1)]
        others = [it for it, seen in [*moment.alarms, *stored] if seen in (3, 4)]
        missing = [it for it, seen in stored if seen == MISSING and not self.is_lost(moment, it, over)]
        lost = [it for it, seen in [*moment.alarms, *stored] if seen == MISSING]
        for what, epochs in [("changed", others), ("missing", missing), ("lost", lost)]:
            if epochs:
                return [what, epochs[0]]
        if not stored:
            return ["unwatched"]
        is_good = any(it >= len(moment.seen) for it, _ in moment.marked)
        return ["good" if is_good else "unconfirmed", stored[0][0], stored[-1][0]]

    def is_lost(self, moment: Moment, epoch: int, over: int) -> bool:
        return epoch < len(moment.seen) and epoch + 1 <= over

    def steps(self, moment: Moment) -> Iterator[Moment]:
        latest = len(moment.seen)
        if latest < self.epochs:
            yield from self.feeds(moment)
        for epoch, (seen, key) in product(range(max(self.since, moment.dropped + 1), latest + 1), SHOWN.items()):
            if moment.seen[epoch - 1] in (MISSING, seen):
                yield self.lookup(moment, epoch, seen, key)
        for epoch in range(moment.dropped + 1, latest + 1):
            client = self.client(moment.state)
            link = client.stored[epoch - moment.dropped - 1].entry.link
            if client.mark(0, epoch, link) != {"mark": "equal"}:
                raise Broken("a head is not equal", moment, epoch)
            yield replace(moment, state=client.state, marked=moment.marked | {(epoch, link)})
        for over in range(1, self.epochs + 1):
            yield self.cover(moment, over)
        for epoch in range(1, latest + 1):
            client = self.client(moment.state)
            client.note(epoch)
            yield replace(moment, state=client.state, noted=max(moment.noted, min(epoch, moment.dropped)))
        if moment.again < self.again and latest:
            yield self.signed_again(moment)

    def feeds(self, moment: Moment) -> Iterator[Moment]:
        client = self.client(moment.state)
        latest = client.latest.entry if client.latest else None
        body = body_after(latest, 1, len(moment.seen) + 1, bytes(32), NONCE, digest(POLICY))
        client.feed([body + bytes(64)], 0)
        seen = MISSING if len(moment.seen) + 1 >= self.since else 0
        yield replace(moment, state=client.state, seen=(*moment.seen, seen))

    def lookup(self, moment: Moment, epoch: int, seen: int, key: Optional[bytes]) -> Moment:
        client = self.client(moment.state)
        it = client.at(epoch)
        if it is None:
            raise Broken("an epoch is not kept", moment, epoch)
        client.lookup(b"alice", reply(it.entry.whole, b"", proof(key)), epoch, 0)
        return replace(moment, state=client.state, seen=(*moment.seen[: epoch - 1], seen, *moment.seen[epoch:]))

    def cover(self, moment: Moment, over: int) -> Moment:
        """Drops the first epochs: none that is missing and not lost, and no lost one keeps a later one."""
        client = self.client(moment.state)
        confirmed = client.confirmed_epoch
        gone = client.drop(time_of(over))["cover"]
        if gone != list(range(moment.dropped + 1, moment.dropped + len(gone) + 1)):
            raise Broken("others than the first epochs are dropped", moment, gone)
        if any(moment.seen[it - 1] == MISSING and not self.is_lost(moment, it, over) for it in gone):
            raise Broken("a missing epoch is dropped that is not lost", moment, over, gone)
        oldest = moment.dropped + len(gone) + 1
        stored = range(moment.dropped + 1, len(moment.seen) + 1)
        needed = [it for it in stored if moment.seen[it - 1] == MISSING and not self.is_lost(moment, it, over)]
        if confirmed and moment.seen and oldest != min([max(confirmed, moment.dropped + 1), *needed]):
            raise Broken("an epoch keeps others", moment, over, gone)
        if not confirmed and gone:
            raise Broken("epochs are dropped that nobody confirms", moment, over, gone)
        if moment.seen and not client.stored:
            raise Broken("no epoch is left", moment, over)
        self.counts["covers that drop"] += bool(gone)
        return replace(moment, state=client.state, dropped=moment.dropped + len(gone))

    def signed_again(self, moment: Moment) -> Moment:
        """What was seen stays. If the auditor has the head of the other signature, its mark becomes 0."""
        client = self.client(moment.state)
        assert client.latest
        before = client.latest.entry
        client.feed([before.body + bytes([before.signature[0] + 1]) * 64], 0)
        self.counts["signed again"] += 1
        has_head = any(epoch == before.epoch for epoch, _ in moment.marked)
        return replace(moment, state=client.state, again=moment.again + 1, marked=frozenset() if has_head else moment.marked)
