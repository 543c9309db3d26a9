"""A client of a directory, from docs/FORMATS.md and docs/STORED.md: what it is fed, what it looks up, what it sees of its own name and reports of it, which
epochs its auditors confirm, and its state."""

from __future__ import annotations

from dataclasses import dataclass, replace
from typing import Any, Callable, Optional, Sequence

import curve
from bytelists import LONGEST_NAME, ZEROS, number, sha256
from chain import Entry, audit
from evidence import covered, is_malformed, kind
from members import Fault
from policy import NoPolicy, Policy
from proofs import judge
from successions import NoSuccession, Succession
from replies import ENTRY, History, ProofOfBytes, Reader, Reply, entries_of

# The numbers of the errors that have one in C, then those of the client alone.
NUMBERS = {
    "TooDeep": 2, "NameLength": 3, "KeyLength": 4, "WrongName": 5, "OtherIsSame": 6, "OtherOffPath": 7, "RootMismatch": 8,
    "NoBytes": 17, "UnknownKind": 18, "CutInCount": 19, "CutInSiblings": 20, "CutInOther": 21, "CutInOpening": 22, "CutInName": 23,
    "CutInKey": 24, "BytesFollow": 25, "Version": 33, "VersionBack": 34, "FirstEpoch": 35, "NotLater": 36, "PreviousEpoch": 37,
    "PreviousLink": 38, "NonceChanged": 39, "Signature": 40, "EntryLength": 48,
    "NoReply": 64, "ReplyVersion": 65, "CutInEntry": 66, "CutInVrf": 67, "CatchUpLength": 68, "NoHistory": 69, "HistoryVersion": 70,
    "CutInStep": 71, "EpochOrder": 72, "UnknownEnd": 73, "SiblingMap": 74, "SiblingRepeated": 75, "EndRepeated": 76,
    "OtherPolicy": 80, "Malformed": 81, "Equivocation": 82, "UnknownEpoch": 83, "OtherEpoch": 84, "Stale": 85, "Future": 86,
    "VrfProof": 87, "SuccessionPolicy": 88, "SuccessionSignature": 89, "NextPolicy": 90, "ChainDiffers": 91, "OtherStart": 92,
    "StateLength": 96, "StateVersion": 97, "StateDamaged": 98, "StatePolicy": 99, "StateForm": 100,
    "StateChain": 101, "NotVouched": 104, "AuditorsDiffer": 105, "SigningKey": 112, "VrfKey": 113, "PolicyKeys": 114,
}  # fmt: skip

# What is seen of the watched name, by its number in a state.
UNWATCHED, SAME, CHANGED, ABSENT, MISSING = 0, 1, 3, 4, 5
SEEN = {UNWATCHED: None, SAME: "same", CHANGED: "changed", ABSENT: "absent", MISSING: "missing"}

# What an alarm says of its epoch.
ALARMS = {CHANGED: "changed", ABSENT: "absent", MISSING: "lost"}

# The greatest number of an epoch.
LARGEST = 2**64 - 1

# The version of a state, and the bytes of the shortest one.
VERSION, SHORTEST = 3, 110

Answer = dict[str, Any]


class Misuse(Exception):
    """A call that the caller must not make, whatever the directory sent."""


def refused(name: str, status: Optional[int] = None, evidence: Optional[list[Any]] = None) -> Fault:
    """An error with C's status where there is one, and the evidence: its kind, and the number of the client's entry."""
    own = NUMBERS[name] if NUMBERS[name] < 64 else status
    return Fault(name, status=own, evidence=evidence)


@dataclass
class StoredEntry:
    """An entry that was accepted, when that was, and what was seen of the watched name."""

    entry: Entry
    time: int
    seen: int = UNWATCHED


@dataclass(frozen=True)
class Change:
    """A change of the watched key: up to the last old epoch the key before it is shown, from the first new one on the new key."""

    last_old: int
    first_new: int
    key: bytes


@dataclass(frozen=True)
class Watch:
    """The watched name: its key from an epoch on, and the changes of it in their order. A key of no byte is none."""

    name: bytes
    since: int
    key: bytes
    changes: tuple[Change, ...] = ()

    @property
    def keys(self) -> list[bytes]:
        """The first key, and that of each change."""
        return [self.key, *(it.key for it in self.changes)]

    def begun(self, epoch: int) -> int:
        """The number of changes whose first new epoch is this one or an earlier one."""
        return sum(it.first_new <= epoch for it in self.changes)

    def key_of(self, epoch: int) -> bytes:
        return self.keys[self.begun(epoch)]

    def after(self, epoch: int, key: bytes) -> Optional[Watch]:
        """The watch after an epoch showed a key, None if the epoch may not show it."""
        begun, is_key = self.begun(epoch), key == self.key_of(epoch)
        following = self.changes[begun] if begun < len(self.changes) else None
        if following is None or epoch <= following.last_old:
            return self if is_key else None
        if not is_key and key != following.key:
            return None
        marked = replace(following, last_old=epoch) if is_key else replace(following, first_new=epoch)
        return replace(self, changes=(*self.changes[:begun], marked, *self.changes[begun + 1 :]))

    def without(self, oldest: int) -> Watch:
        """The watch without the changes that have begun at the oldest stored epoch."""
        return replace(self, key=self.key_of(oldest), changes=self.changes[self.begun(oldest) :])

    def carried(self, last: int, first: int) -> Watch:
        """The watch in the chain that goes on with a first epoch after the last one of this chain."""
        gone_on = [it for it in self.changes if it.last_old < last < it.first_new]
        changes = [Change(first - 1, min(first + it.first_new - last, LARGEST), it.key) for it in gone_on]
        return Watch(self.name, first, self.key_of(last), tuple(changes))

    @property
    def is_in_order(self) -> bool:
        froms = [0, *(it.first_new for it in self.changes)]
        in_order = all(start <= it.last_old < it.first_new for start, it in zip(froms, self.changes))
        return in_order and all(old != it.key for old, it in zip(self.keys, self.changes))


@dataclass(frozen=True)
class Alarm:
    """A dropped epoch of the watched name that was not seen as the same, and what was seen."""

    epoch: int
    seen: int


@dataclass(frozen=True)
class Trust:
    """The digest of a trust document, 32 zero bytes without one; the number of its auditors; how many of them are a quorum."""

    digest: bytes = ZEROS
    auditors: int = 0
    quorum: int = 0

    @classmethod
    def of(cls, digest: bytes, auditors: int, faulty: int) -> Trust:
        """A quorum is the least number of auditors of which any two share one that is not faulty."""
        if 3 * faulty >= auditors:
            raise Misuse("too many auditors may be faulty")
        return cls(digest, auditors, (auditors + faulty) // 2 + 1)


class Client:
    def __init__(
        self,
        signing_key: bytes,
        vrf_key: Optional[bytes],
        policy: bytes,
        *,
        max_age: Optional[int] = None,
        skew: int = 300,
        trust: Trust = Trust(),
    ) -> None:
        try:
            self.policy = Policy.read(policy)
        except NoPolicy:
            raise Misuse("the bytes are no policy document") from None
        self.signing, self.vrf = signing_key, vrf_key
        self.max_age, self.skew = 2 * self.policy.period if max_age is None else max_age, skew
        self.stored: list[StoredEntry] = []
        self.watched: Optional[Watch] = None
        self.trust, self.marks, self.alarms = trust, [0] * trust.auditors, list[Alarm]()
        if not curve.is_key(signing_key):
            raise refused("SigningKey")
        if vrf_key is not None and not curve.is_key(vrf_key):
            raise refused("VrfKey")
        if self.policy.keys != (signing_key, vrf_key):
            raise refused("PolicyKeys")

    # The chain.

    @property
    def latest(self) -> Optional[StoredEntry]:
        return self.stored[-1] if self.stored else None

    def at(self, epoch: int) -> Optional[StoredEntry]:
        return next((it for it in self.stored if it.entry.epoch == epoch), None)

    def verified(self, whole: bytes) -> Entry:
        """An entry that is the signer's."""
        if len(whole) != ENTRY:
            raise refused("EntryLength")
        entry = Entry(whole)
        if not curve.is_signed(self.signing, entry.body, entry.signature):
            raise refused("Signature")
        return entry

    def signed(self, whole: bytes) -> Entry:
        """An entry that is the signer's, and one of this directory that some chain can have."""
        entry = self.verified(whole)
        if entry.body[113:] != self.policy.digest:
            raise refused("OtherPolicy", None, self.convict(entry))
        if is_malformed(entry):
            raise refused("Malformed", None, self.convict(entry))
        return entry

    def convict(self, entry: Entry) -> Optional[list[Any]]:
        """The kind of the evidence with the first entry that convicts with this one, and its epoch; None for itself."""
        for it in self.stored:
            found = kind(it.entry.whole, entry.whole)
            if found:
                return [found, it.entry.epoch]
        alone = kind(entry.whole, entry.whole)
        return [alone, None] if alone else None

    def feed(self, entries: Sequence[bytes], now: int) -> Answer:
        fed = []
        for whole in entries:
            entry = self.signed(whole)
            fed.append(self.signed_again(entry) if self.is_signed_again(entry) else self.followed(entry, now))
        return {"fed": fed}

    def followed(self, entry: Entry, now: int) -> list[Any]:
        """Keeps an entry after the latest one."""
        fault = fault_of(entry, self.latest.entry if self.latest else None)
        if fault:
            evidence = self.convict(entry)
            raise refused("Equivocation", NUMBERS[fault], evidence) if evidence else refused(fault)
        is_watched = self.watched is not None and entry.epoch >= self.watched.since
        self.stored.append(StoredEntry(entry, now, MISSING if is_watched else UNWATCHED))
        return [entry.epoch, SEEN[self.stored[-1].seen]]

    def is_signed_again(self, entry: Entry) -> bool:
        """Whether it has the body of the latest entry, and other bytes."""
        return self.latest is not None and entry.body == self.latest.entry.body and entry.whole != self.latest.entry.whole

    def signed_again(self, entry: Entry) -> list[Any]:
        """Puts an entry in the place of the latest one. A head of that one is no head of it."""
        assert self.latest
        self.latest.entry = entry
        self.marks = [0 if it == entry.epoch else it for it in self.marks]
        return [entry.epoch, SEEN[self.latest.seen]]

    def begin_with(self, whole: bytes, heads: Sequence[tuple[int, bytes]], least: int, now: int) -> None:
        """Begins with an entry for which at least so many of the heads vouch."""
        entry = self.signed(whole)
        there = [link for epoch, link in heads if epoch == entry.epoch]
        if any(it != entry.link for it in there):
            raise refused("AuditorsDiffer")
        if len(there) < least:
            raise refused("NotVouched")
        self.stored = [StoredEntry(entry, now)]

    def succeed(self, succession: Succession, following: Client, entry: bytes, now: int) -> Answer:
        """Lets a client of the next directory go on, which has seen nothing. Returns the epochs of this one that are void."""
        if succession.policy != self.policy.digest:
            raise refused("SuccessionPolicy")
        if not succession.is_signed(self.policy.successor_key):
            raise refused("SuccessionSignature")
        if succession.next_policy != following.policy.digest:
            raise refused("NextPolicy")
        (last, link), compared = succession.last, self.compare(*succession.last)["compare"]
        if compared != "equal":
            raise refused("UnknownEpoch" if compared == "unknown" else "ChainDiffers")
        begun = following.signed(entry)
        if (begun.epoch, begun.link) != succession.first:
            raise refused("OtherStart")
        following.watched = self.watched and self.watched.carried(last, begun.epoch)
        following.stored = [StoredEntry(begun, now, MISSING if following.watched else UNWATCHED)]
        return {"void": [it.entry.epoch for it in self.stored if it.entry.epoch > last]}

    def head(self) -> Answer:
        last = self.latest
        return {"head": [last.entry.epoch, last.entry.link.hex()] if last else None}

    def compare(self, epoch: int, link: bytes) -> Answer:
        if len(link) != len(ZEROS):
            raise Misuse
        there = self.at(epoch)
        if there:
            return {"compare": "equal" if there.entry.link == link else "differs"}
        is_covered = any(epoch in covered(it.entry) for it in self.stored)
        return {"compare": "differs" if is_covered else "unknown"}

    def evidence(self, whole: bytes) -> Answer:
        return {"evidence": self.convict(self.verified(whole))}

    # The auditors.

    def mark(self, auditor: int, epoch: int, link: bytes) -> Answer:
        """Compares the head of an auditor, and remembers it if it is equal."""
        if auditor >= len(self.marks):
            raise Misuse("there is no such auditor")
        found = self.compare(epoch, link)
        if found["compare"] == "equal":
            self.marks[auditor] = max(self.marks[auditor], epoch)
        return {"mark": found["compare"]}

    def confirmed(self) -> Answer:
        return {"confirmed": self.confirmed_epoch}

    @property
    def confirmed_epoch(self) -> Optional[int]:
        """The greatest epoch that a quorum confirms."""
        reached = sorted(self.marks, reverse=True)[: self.trust.quorum]
        return reached[-1] or None if reached and len(reached) == self.trust.quorum else None

    # What is dropped, and what is reported.

    def cover(self, epoch: int, link: bytes, now: int) -> Answer:
        """Drops as if a quorum confirmed the epoch of an equal head. A client that names its auditors only compares it: one of them confirms
        nothing."""
        found = self.compare(epoch, link)
        if found["compare"] == "equal" and not self.trust.auditors:
            self.dropped(self.droppable(now, epoch))
        return found

    def drop(self, now: int) -> Answer:
        """Drops the first epochs that need not stay."""
        return self.dropped(self.droppable(now, self.confirmed_epoch))

    def dropped(self, gone: Sequence[StoredEntry]) -> Answer:
        """Drops the first epochs, with an alarm of each that was not seen as the same, and old changes."""
        self.alarms += [Alarm(it.entry.epoch, it.seen) for it in gone if self.is_watched(it) and it.seen != SAME]
        self.stored = self.stored[len(gone) :]
        if self.watched and self.stored:
            self.watched = self.watched.without(self.stored[0].entry.epoch)
        return {"cover": [it.entry.epoch for it in gone]}

    def droppable(self, now: int, confirmed: Optional[int]) -> list[StoredEntry]:
        """The epochs before the first one that must stay. None is dropped if none must."""
        lost = self.lost(now)["lost"]
        if confirmed is None:
            return []
        must_stay = [it.entry.epoch >= confirmed or (it.seen == MISSING and it.entry.epoch not in lost) for it in self.stored]
        return self.stored[: must_stay.index(True)] if any(must_stay) else []

    def is_watched(self, stored: StoredEntry) -> bool:
        return self.watched is not None and stored.entry.epoch >= self.watched.since

    def note(self, epoch: int) -> Answer:
        """The owner takes note of the alarms up to an epoch."""
        while self.alarms and self.alarms[0].epoch <= epoch:
            del self.alarms[0]
        return self.listed()

    def listed(self) -> Answer:
        return {"alarms": [[it.epoch, ALARMS[it.seen]] for it in self.alarms]}

    def report(self, now: int) -> Answer:
        """The first that applies, with the epoch that it is about, or the first and the last of the epochs."""
        if self.watched is None:
            raise Misuse("no name is watched")
        for what, epochs in self.faults(now).items():
            if epochs:
                return {"report": [what, epochs[0]]}
        watched = [it.entry.epoch for it in self.stored if self.is_watched(it)]
        if not watched:
            return {"report": ["unwatched"]}
        is_good = self.confirmed_epoch is not None and watched[-1] <= self.confirmed_epoch
        return {"report": ["good" if is_good else "unconfirmed", watched[0], watched[-1]]}

    def faults(self, now: int) -> dict[str, list[int]]:
        """The epochs that are not the same, those of alarms before stored ones, by what is reported of them."""
        alarms = [(it.epoch, it.seen) for it in self.alarms]
        stored = [(it.entry.epoch, it.seen) for it in self.stored if self.is_watched(it)]
        missing, lost = [epoch for epoch, seen in stored if seen == MISSING], self.lost(now)["lost"]
        return {
            "changed": [epoch for epoch, seen in [*alarms, *stored] if seen in (CHANGED, ABSENT)],
            "missing": [it for it in missing if it not in lost],
            "lost": [epoch for epoch, seen in alarms if seen == MISSING] + [it for it in missing if it in lost],
        }

    # Lookups.

    def lookup(self, name: bytes, whole: bytes, epoch: Optional[int], now: int) -> Answer:
        reply = Reply(whole)
        stored = self.entry_of(reply.entry, epoch)
        if epoch is None:
            self.check_age(stored, now)
        index = self.index(name, reply.vrf)
        return self.found(name, stored, self.key(name, stored, index, reply.proof), now)

    def entry_of(self, whole: bytes, epoch: Optional[int]) -> StoredEntry:
        """The client's entry at the requested epoch, if the reply has it too, with whatever signature."""
        if all(it.entry.whole != whole for it in self.stored):
            entry = self.signed(whole)
            evidence = self.convict(entry)
            if evidence:
                raise refused("Equivocation", None, evidence)
        stored = self.latest if epoch is None else self.at(epoch)
        if stored is None:
            raise refused("UnknownEpoch")
        if stored.entry.body != whole[:145]:
            raise refused("OtherEpoch")
        return stored

    def age(self, stored: StoredEntry, now: int) -> Optional[int]:
        if self.policy.start is None:
            return None
        return now - (self.policy.start + (stored.entry.epoch - 1) * self.policy.period)

    def check_age(self, stored: StoredEntry, now: int) -> None:
        age = self.age(stored, now)
        if age is not None and age > self.max_age:
            raise refused("Stale")
        if age is not None and -age > self.skew:
            raise refused("Future")

    def index(self, name: bytes, proof: bytes) -> bytes:
        output = curve.vrf_output(self.vrf, name, proof) if self.vrf is not None else None
        if output is None:
            raise refused("VrfProof")
        return output[:32]

    def key(self, name: bytes, stored: StoredEntry, index: bytes, proof: bytes) -> Optional[bytes]:
        try:
            return judge(ProofOfBytes(proof), index, name, stored.entry.nonce, stored.entry.root)
        except Fault as fault:
            raise refused(str(fault.answer["fault"]))

    def found(self, name: bytes, stored: StoredEntry, key: Optional[bytes], now: int) -> Answer:
        seen = None
        if self.watched and name == self.watched.name and stored.entry.epoch >= self.watched.since:
            after = self.watched.after(stored.entry.epoch, key or b"")
            stored.seen = SAME if after else CHANGED if key else ABSENT
            self.watched, seen = after or self.watched, SEEN[stored.seen]
        shown = None if key is None else key.hex()
        return {"epoch": stored.entry.epoch, "key": shown, "seen": seen, "age": self.age(stored, now), "first_seen": stored.time}

    def history(self, name: bytes, whole: bytes, now: int) -> Answer:
        history = History(whole)
        index = self.index(name, history.vrf)
        keys = []
        for epoch, proof in history.steps:
            stored = self.at(epoch)
            if stored is None:
                raise refused("UnknownEpoch")
            keys.append((stored, self.key(name, stored, index, proof)))
        return {"found": [self.found(name, stored, key, now) for stored, key in keys]}

    # The watched name.

    def watch(self, name: bytes, key: Optional[bytes], since: Optional[int]) -> Answer:
        if not 1 <= len(name) <= LONGEST_NAME or key == b"":
            raise Misuse
        if self.watched:
            return self.watch_again(self.watched, name, key or b"", since)
        first = since if since is not None else self.latest.entry.epoch if self.latest else 1
        self.watched = Watch(name, first, key or b"")
        for it in self.stored:
            it.seen = MISSING if it.entry.epoch >= first else UNWATCHED
        return {"watch": first}

    def watch_again(self, watch: Watch, name: bytes, key: bytes, since: Optional[int]) -> Answer:
        """The same watch once more, which changes nothing."""
        if name != watch.name or key not in watch.keys or since not in (None, watch.since):
            raise Misuse
        return {"watch": watch.since}

    def expect(self, new: Optional[bytes], by: int) -> Answer:
        latest = self.latest.entry.epoch if self.latest else 0
        if not self.watched or new == b"" or by <= latest:
            raise Misuse
        watch, key = self.watched, new or b""
        if watch.begun(latest) < len(watch.changes) or key == watch.key_of(latest):
            raise Misuse
        self.watched = replace(watch, changes=(*watch.changes, Change(latest, by, key)))
        return {"expect": by}

    def missing(self) -> Answer:
        return {"missing": [it.entry.epoch for it in self.stored if it.seen == MISSING]}

    def lost(self, now: int) -> Answer:
        pairs = [(it, following.entry.epoch) for it, following in zip(self.stored, self.stored[1:]) if it.seen == MISSING]
        return {"lost": [it.entry.epoch for it, following in pairs if not self.policy.promises(following, now)]}

    # The state.

    @property
    def state(self) -> bytes:
        alarms = [number(it.epoch, 8) + number(it.seen, 1) for it in self.alarms]
        marks = [number(it, 8) for it in self.marks]
        body = number(VERSION, 1) + self.policy.digest + stored_bytes(self.stored)
        body += number(len(alarms), 4) + b"".join(alarms) + self.trust.digest + number(len(marks), 4) + b"".join(marks)
        body += watch_bytes(self.watched)
        return body + sha256(body)

    def resume(self, state: bytes) -> None:
        it = self.opened(state)
        stored, alarms = stored_of(it), alarms_of(it)
        trust = it.take(32, "StateForm")
        marks = [it.number(8, "StateForm") for _ in range(it.number(4, "StateForm"))]
        watched = watch_of(it)
        if not it.is_over() or not all(fits(at, watched) for at in stored) or not all(is_alarm(at, watched) for at in alarms):
            raise refused("StateForm")
        self.check_chain([at.entry for at in stored])
        self.stored, self.watched, self.alarms = stored, watched, alarms
        is_same = trust == self.trust.digest and len(marks) == self.trust.auditors
        self.marks = marks if is_same else [0] * self.trust.auditors

    def opened(self, state: bytes) -> Reader:
        """The parts of a state after its policy digest, up to its own digest."""
        if len(state) < SHORTEST:
            raise refused("StateLength")
        if state[0] != VERSION:
            raise refused("StateVersion")
        if sha256(state[:-32]) != state[-32:]:
            raise refused("StateDamaged")
        if state[1:33] != self.policy.digest:
            raise refused("StatePolicy")
        return Reader(state[33:-32])

    def check_chain(self, entries: Sequence[Entry]) -> None:
        befores = [None, *entries]
        for before, entry in zip(befores, entries):
            is_valid = curve.is_signed(self.signing, entry.body, entry.signature)
            if not is_valid or entry.body[113:] != self.policy.digest or is_malformed(entry):
                raise refused("StateChain")
            if before and fault_of(entry, before):
                raise refused("StateChain")


def fault_of(entry: Entry, before: Optional[Entry]) -> Optional[str]:
    """Why an entry doesn't follow another one, None if it does. The demonstration's seal, which comes last, is not looked at."""
    try:
        audit(entry, before, ZEROS)
    except Fault as fault:
        return None if fault.answer["fault"] == "Verdict" else str(fault.answer["fault"])
    return None


def fits(stored: StoredEntry, watched: Optional[Watch]) -> bool:
    """Whether what was seen at an epoch can be."""
    epoch = stored.entry.epoch
    if watched is None or epoch < watched.since:
        return stored.seen == UNWATCHED
    is_undecided = any(it.last_old < epoch < it.first_new for it in watched.changes)
    return stored.seen in (CHANGED, ABSENT, MISSING) or (stored.seen == SAME and not is_undecided)


def sized(text: bytes, length: int) -> bytes:
    return number(len(text), length) + text


def stored_bytes(stored: Sequence[StoredEntry]) -> bytes:
    """Kept epochs in a state, after their number."""
    return number(len(stored), 4) + b"".join(it.entry.whole + number(it.time, 8) + number(it.seen, 1) for it in stored)


def stored_of(it: Reader) -> list[StoredEntry]:
    count = it.number(4, "StateForm")
    return [
        StoredEntry(Entry(it.take(ENTRY, "StateForm")), it.number(8, "StateForm"), it.number(1, "StateForm")) for _ in range(count)
    ]


def alarms_of(it: Reader) -> list[Alarm]:
    return [Alarm(it.number(8, "StateForm"), it.number(1, "StateForm")) for _ in range(it.number(4, "StateForm"))]


def is_alarm(alarm: Alarm, watched: Optional[Watch]) -> bool:
    """Whether there can be such an alarm."""
    return watched is not None and alarm.epoch >= watched.since and alarm.seen in ALARMS


def watch_bytes(watch: Optional[Watch]) -> bytes:
    if watch is None:
        return b"\0"
    changes = [number(it.last_old, 8) + number(it.first_new, 8) + sized(it.key, 4) for it in watch.changes]
    first = b"\1" + sized(watch.name, 1) + number(watch.since, 8) + sized(watch.key, 4)
    return first + number(len(changes), 4) + b"".join(changes)


def watch_of(it: Reader) -> Optional[Watch]:
    kind = it.number(1, "StateForm")
    if kind == 0:
        return None
    name, since, key = it.sized(1, "StateForm"), it.number(8, "StateForm"), it.sized(4, "StateForm")
    changes = tuple(change_of(it) for _ in range(it.number(4, "StateForm")))
    watch = Watch(name, since, key, changes)
    if kind != 1 or not name or not watch.is_in_order:
        raise refused("StateForm")
    return watch


def change_of(it: Reader) -> Change:
    return Change(it.number(8, "StateForm"), it.number(8, "StateForm"), it.sized(4, "StateForm"))


# Cases: how a client is made, and its steps, as members of a line of cases/client.


def data(members: Answer, name: str) -> Optional[bytes]:
    value = members.get(name)
    return None if value is None else bytes.fromhex(value)


def trust_of(members: Answer) -> Trust:
    trust = members.get("trust")
    return Trust.of(bytes.fromhex(trust["digest"]), trust["auditors"], trust["faulty"]) if trust else Trust()


def begun(case: Answer) -> Client:
    """The client of a case, which goes on from a state or starts late if the case says so."""
    keys = bytes.fromhex(case["signing_key"]), data(case, "vrf_key"), case["policy"].encode()
    client = Client(*keys, max_age=case.get("max_age"), skew=case.get("skew", 300), trust=trust_of(case))
    state, vouched = data(case, "state"), case.get("vouched")
    if state is not None:
        client.resume(state)
    if vouched is not None:
        heads = [(epoch, bytes.fromhex(link)) for epoch, link in vouched["heads"]]
        client.begin_with(bytes.fromhex(vouched["entry"]), heads, vouched["least"], case["now"])
    return client


def successor(step: Answer) -> Client:
    """The client of the next directory, before it goes on."""
    text = step["policy"].encode()
    signing, vrf = Policy.read(text).keys
    return Client(signing, vrf, text, max_age=step.get("max_age"), skew=step.get("skew", 300), trust=trust_of(step))


def succeeded(client: Client, step: Answer, now: int) -> tuple[Client, Answer]:
    """The client after a step, which is another one if it goes on in another directory, and what the step gives."""
    if step["do"] != "succeed":
        return client, stepped(client, step, now)
    try:
        succession, following = Succession.read(step["succession"].encode()), successor(step)
    except (NoSuccession, NoPolicy):
        raise Misuse("the text is no succession, or no policy document") from None
    return following, client.succeed(succession, following, bytes.fromhex(step["entry"]), now)


def stepped(client: Client, step: Answer, now: int) -> Answer:
    """What a client returns for a step."""
    do = step["do"]
    if do == "feed":
        return client.feed([bytes.fromhex(it) for it in step["entries"]], now)
    if do == "catch up":
        return client.feed(entries_of(bytes.fromhex(step["bytes"])), now)
    if do == "lookup":
        return client.lookup(bytes.fromhex(step["name"]), bytes.fromhex(step["reply"]), step.get("epoch"), now)
    if do == "history":
        return client.history(bytes.fromhex(step["name"]), bytes.fromhex(step["history"]), now)
    if do == "watch":
        return client.watch(bytes.fromhex(step["name"]), data(step, "key"), step.get("since"))
    if do == "expect":
        return client.expect(data(step, "key"), step["by"])
    if do == "evidence":
        return client.evidence(bytes.fromhex(step["entry"]))
    if "link" in step:
        return compared(client, step, now)
    if do == "note":
        return client.note(step["epoch"])
    timed = {"lost": client.lost, "cover": client.drop, "report": client.report}
    if do in timed:
        return timed[do](now)
    return {"head": client.head, "missing": client.missing, "alarms": client.listed, "confirmed": client.confirmed}[do]()


def compared(client: Client, step: Answer, now: int) -> Answer:
    """What a client returns for a head."""
    epoch, link = step["epoch"], bytes.fromhex(step["link"])
    if step["do"] == "mark":
        return client.mark(step["auditor"], epoch, link)
    return client.compare(epoch, link) if step["do"] == "compare" else client.cover(epoch, link, now)


class Run:
    """The client of a case, and its clock, as the steps go."""

    def __init__(self, client: Client, now: int) -> None:
        self.client, self.now = client, now

    def step(self, step: Answer) -> Answer:
        self.now = step.get("now", self.now)

        def call() -> Answer:
            self.client, answer = succeeded(self.client, step, self.now)
            return answer

        return outcome(call)


def outcome(call: Callable[[], Answer]) -> Answer:
    """What a call returns, or its error as members."""
    try:
        return call()
    except Fault as fault:
        it = fault.answer
        name = str(it["fault"])
        number = NUMBERS[name] if NUMBERS[name] < 64 else it.get("status")
        return {"refused": name, "status": number, "evidence": it.get("evidence")}
    except Misuse:
        return {"misuse": True}


def plain(value: Any) -> Any:
    """A verdict as a case has it: numbers that a double can't hold are texts of decimal digits."""
    if isinstance(value, dict):
        return {name: plain(it) for name, it in value.items()}
    if isinstance(value, list):
        return [plain(it) for it in value]
    return str(value) if isinstance(value, int) and abs(value) >= 1 << 53 else value


def state_of(case: Answer) -> bytes:
    """The state of a client after the steps of a case."""
    run = Run(begun(case), case["now"])
    for step in case["steps"]:
        run.step(step)
    return run.client.state


def verdicts(case: Answer) -> Answer:
    """All that the client of a case returns: when it is made, for each step, and its state at the end."""
    made: list[Client] = []

    def begin() -> Answer:
        made.append(begun(case))
        return {"begun": True}

    answer = outcome(begin)
    if not made:
        return {"begin": answer, "steps": [], "state": None}
    run = Run(made[0], case["now"])
    answers = [run.step(it) for it in case["steps"]]
    return {"begin": answer, "steps": answers, "state": sha256(run.client.state).hex()}
