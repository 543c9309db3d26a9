"""The core of a client for C beside the second implementation: each call of a client is made by both, and must give the same.

`Beside` is the client of the second implementation. It gives the core what it keeps itself, calls it, and compares statuses, evidence
and all memory with what becomes of its own. Signatures and VRF proofs are verified once, by the second implementation. The structs are those
of the binding in Python, which test_core_header.py compares with the header.
"""

from __future__ import annotations

import ctypes
from collections import Counter
from functools import lru_cache
from typing import Any, Callable, NamedTuple, Optional, Sequence

import client as second
import curve
import guarded
from bytelists import number
from members import Fault
from running import SHARED
from successions import Succession
from coniks import _core as raw
from coniks import _Bytes32 as Bytes32

U32, U64, SIZE = ctypes.c_uint32, ctypes.c_uint64, ctypes.c_size_t
STORED, NOWHERE = ctypes.sizeof(raw.StoredEntry), 2**64 - 1
COMPARED = {1: "equal", 2: "unknown", 3: "differs"}
KINDS = {1: "overlap", 2: "other policy", 3: "malformed"}

# What a core returns for a call that its caller must not make.
MISUSES = {130, 131, 132, 133, 134, 135, 136, 138}
NOT_CONFIRMED = 139

# What the core reports, in the order of the numbers from 1 on.
REPORTS = ["changed", "missing", "lost", "unwatched", "unconfirmed", "good"]

LIBRARY = guarded.Library(str(SHARED))
is_signed, vrf_output = lru_cache(4096)(curve.is_signed), lru_cache(4096)(curve.vrf_output)

# How often each call of the core was compared.
CALLS: Counter[str] = Counter()


def of(value: Any) -> Any:
    """A pointer to a value of C, which is written."""
    return ctypes.byref(value)


def sized(text: bytes) -> tuple[bytes, int]:
    """Bytes of a struct, and their length."""
    return text, len(text)


def passed(text: bytes) -> tuple[bytes, ctypes.c_size_t]:
    """Bytes of a call, and their length."""
    return text, SIZE(len(text))


def bytes32(text: bytes) -> Bytes32:
    return Bytes32.from_buffer_copy(text)


def at(place: Optional[int], length: int) -> bytes:
    """The bytes at a place in memory."""
    return ctypes.string_at(place, length) if place and length else b""


class Parts(NamedTuple):
    """What a client keeps: the watch has a name, its first epoch and a key, an alarm an epoch and a number."""

    stored: bytes
    watch: Optional[tuple[bytes, int, bytes]]
    changes: Sequence[tuple[int, int, bytes]]
    alarms: Sequence[tuple[int, int]]
    trust: bytes
    marks: Sequence[int]


EMPTY = Parts(b"", None, [], [], bytes(32), [])


def parts_of(client: second.Client) -> Parts:
    """What a client of the second implementation keeps."""
    watched = client.watched
    return Parts(
        b"".join(it.entry.whole + number(it.time, 8) + number(it.seen, 1) for it in client.stored),
        (watched.name, watched.since, watched.key) if watched else None,
        [(it.last_old, it.first_new, it.key) for it in watched.changes] if watched else [],
        [(it.epoch, it.seen) for it in client.alarms],
        client.trust.digest,
        [*client.marks],
    )


def rules_of(client: second.Client) -> raw.Rules:
    """What its policy fixes, and its quorum."""
    policy = client.policy
    clock = raw.Clock(policy.start is not None, policy.start or 0, policy.period or 0, client.max_age or 0, client.skew)
    promise = raw.Promise(0, 5) if policy.proofs_kept is None else raw.Promise(1, policy.proofs_kept)
    return raw.Rules(bytes32(policy.digest), clock=clock, promise=promise, quorum=client.trust.quorum)


class Memory:
    """A client with these rules and parts in memory of its caller in C, with room for so many epochs, changes and alarms more."""

    def __init__(self, rules: raw.Rules, parts: Parts, stored: int = 0, changes: int = 0, alarms: int = 0) -> None:
        self._texts = list[Any]()
        self.core = core = raw.Core(rules, marks=(U64 * len(parts.marks))(*parts.marks), mark_count=len(parts.marks))
        core.rules.trust = bytes32(parts.trust)
        if parts.watch is not None:
            name, since, key = parts.watch
            core.watch = raw.Watch(1, *self.placed(name), since, *self.placed(key))
        count = len(parts.stored) // STORED
        core.stored = raw.Stored((raw.StoredEntry * (count + stored))(), count + stored, count)
        ctypes.memmove(core.stored.items, parts.stored, len(parts.stored))
        changed = [raw.Change(last_old, first_new, *self.placed(key)) for last_old, first_new, key in parts.changes]
        core.changes = raw.Changes((raw.Change * (len(changed) + changes))(*changed), len(changed) + changes, len(changed))
        count = len(parts.alarms)
        core.alarms = raw.Alarms((raw.Alarm * (count + alarms))(*(raw.Alarm(*it) for it in parts.alarms)), count + alarms, count)
        self.before = self.all()

    def placed(self, text: bytes) -> tuple[int, int]:
        """The place of bytes, which stay there, and their length."""
        self._texts.append(ctypes.create_string_buffer(text, len(text) + 1))
        return ctypes.addressof(self._texts[-1]), len(text)

    def parts(self) -> Parts:
        """What it has now, but for the room that is left."""
        core, watch = self.core, self.core.watch
        return Parts(
            ctypes.string_at(core.stored.items, core.stored.count * STORED),
            (at(watch.name, watch.name_length), watch.since, at(watch.key, watch.key_length)) if watch.is_watched == 1 else None,
            [(it.last_old, it.first_new, at(it.key, it.key_length)) for it in core.changes],
            [(it.epoch, it.seen) for it in core.alarms],
            bytes(core.rules.trust),
            core.marks[: core.mark_count],
        )

    def all(self) -> tuple[bytes, Parts]:
        """Its rules and its parts."""
        return bytes(self.core.rules), self.parts()

    def whole(self) -> tuple[bytes, ...]:
        """All bytes of the struct and its arrays, with the room that is left."""
        core = self.core
        arrays = [(core.stored, raw.StoredEntry), (core.changes, raw.Change), (core.alarms, raw.Alarm)]
        items = [ctypes.string_at(it.items, it.room * ctypes.sizeof(kind)) for it, kind in arrays]
        return bytes(core), *items, ctypes.string_at(core.marks, core.mark_count * 8)

    def covers(self, now: int, covered: raw.Covered, head: Optional[int] = None) -> int:
        """Drops the epochs before the one that a quorum of the marks confirms, or before that of a head. For a head it is called with a
        copy, and takes the counts and the watch back."""
        if head is None:
            return int(LIBRARY.coniks_core_cover(of(self.core), U64(now), of(covered)))
        core, copy = self.core, raw.Core.from_buffer_copy(self.core)
        copy.marks, copy.mark_count, copy.rules.quorum = (U64 * 1)(head), 1, 1
        status = LIBRARY.coniks_core_cover(of(copy), U64(now), of(covered))
        core.watch, core.stored.count, core.changes.count = copy.watch, copy.stored.count, copy.changes.count
        core.alarms.count = copy.alarms.count
        return int(status)


def struct_of(it: Succession, is_signed: object) -> raw.Succession:
    """A succession with the verdict on its signature."""
    last, first = (bytes32(link) for _, link in (it.last, it.first))
    return raw.Succession(is_signed, bytes32(it.policy), it.last[0], last, bytes32(it.next_policy), it.first[0], first)


def evidence_of(client: second.Client, why: raw.Why) -> Optional[list[Any]]:
    """The evidence as the second implementation has it: its kind, and the epoch of the client's entry, None for the other one."""
    if not why.kind:
        return None
    return [KINDS[why.kind], None if why.mine == NOWHERE else client.stored[why.mine].entry.epoch]


class Beside(second.Client):
    """A client of the second implementation, with the core beside it."""

    def memory(self, **more: int) -> Memory:
        """What it keeps, for the core."""
        return Memory(rules_of(self), parts_of(self), **more)

    def received(self, whole: bytes, now: int) -> raw.Received:
        is_valid = len(whole) == 209 and is_signed(self.signing, whole[:145], whole[145:])
        return raw.Received(*sized(whole), is_valid, now)

    def compared(self, call: str, memory: Memory, status: int, why: raw.Why, make: Callable[[], second.Answer]) -> second.Answer:
        """Makes the call of the second implementation, and compares what it gives with what the core gave."""
        CALLS[call] += 1
        try:
            answer = make()
        except second.Misuse:
            assert status in MISUSES, (call, "misuse", status)
            assert memory.all() == memory.before, (call, "a misuse changes nothing")
            raise
        except Fault as fault:
            name, reported = str(fault.answer["fault"]), fault.answer
            assert status == second.NUMBERS[name], (call, name, status)
            assert memory.all() == memory.before == self.memory().all(), (call, "a refused call changes nothing")
            assert evidence_of(self, why) == reported.get("evidence"), (call, reported, why.kind, why.mine)
            assert name != "Equivocation" or why.status == (reported.get("status") or 0), (call, reported, why.status)
            raise
        assert status == 0, (call, answer, status)
        assert memory.all() == self.memory().all(), (call, answer, "what is kept is the same")
        return answer

    def feed(self, entries: Sequence[bytes], now: int) -> second.Answer:
        fed = []
        for whole in entries:
            memory, why = self.memory(stored=1), raw.Why()
            status = LIBRARY.coniks_core_feed(of(memory.core), self.received(whole, now), of(why))
            fed += self.compared("feed", memory, status, why, lambda: super(Beside, self).feed([whole], now))["fed"]
        return {"fed": fed}

    def succeed(self, succession: Succession, following: second.Client, entry: bytes, now: int) -> second.Answer:
        """The core makes the next client of what both clients keep, and leaves this one as it is."""
        assert isinstance(following, Beside)
        memory, made, place = self.memory(), following.memory(stored=2, changes=2), SIZE(NOWHERE)
        before, given = made.whole(), struct_of(succession, succession.is_signed(self.policy.successor_key))
        status = LIBRARY.coniks_core_succeed(memory.core, given, following.received(entry, now), of(made.core), of(place))
        CALLS["succeed"] += 1
        try:
            answer = super().succeed(succession, following, entry, now)
        except Fault as fault:
            assert status == second.NUMBERS[str(fault.answer["fault"])], (fault.answer, status)
            assert (made.whole(), place.value) == (before, NOWHERE), "a refused call writes nothing"
            raise
        assert (status, memory.all()) == (0, memory.before) and parts_of(self) == memory.before[1], (answer, status)
        assert made.all() == following.memory().all(), (answer, "what the next client keeps is the same")
        assert answer["void"] == [it.entry.epoch for it in self.stored[place.value + 1 :]], (answer, place.value)
        return answer

    def lookup(self, name: bytes, whole: bytes, epoch: Optional[int], now: int) -> second.Answer:
        memory, needs, found, why = self.memory(), raw.Needs(), raw.Found(), raw.Why()
        status = LIBRARY.coniks_core_reply_needs(memory.core, *passed(whole), of(needs))
        if status == 0:
            entry = whole[needs.entry_start : needs.entry_start + 209]
            verdicts = self.on_index(name, whole[needs.vrf_start : needs.vrf_start + needs.vrf_length])
            verdicts.signature = is_signed(self.signing, entry[:145], entry[145:]) if needs.signature else 0
            asking = raw.Asking(*sized(name), *sized(whole), epoch is not None, epoch or 0, now)
            status = LIBRARY.coniks_core_lookup(of(memory.core), asking, verdicts, of(found), of(why))
        answer = self.compared("lookup", memory, status, why, lambda: super(Beside, self).lookup(name, whole, epoch, now))
        stored = self.stored[found.place]
        key = whole[found.key_start : found.key_start + found.key_length].hex() if found.shows == 1 else None
        assert (stored.entry.epoch, key) == (answer["epoch"], answer["key"]), (answer, found.place, key)
        assert second.SEEN[found.seen] == answer["seen"], (answer, found.seen)
        return answer

    def on_index(self, name: bytes, proof: bytes) -> raw.Verdicts:
        """The verdict on a VRF proof of a name, and its index."""
        output = vrf_output(self.vrf, name, proof) if self.vrf is not None else None
        return raw.Verdicts(0, output is not None, bytes32((output or bytes(32))[:32]))

    def watch(self, name: bytes, key: Optional[bytes], since: Optional[int]) -> second.Answer:
        if key == b"" or (since or 0) > NOWHERE:
            return super().watch(name, key, since)
        memory = self.memory()
        wanted = raw.Watch(0, *memory.placed(name), since or 0, *memory.placed(key or b""))
        status = LIBRARY.coniks_core_watch(of(memory.core), wanted, U32(since is not None))
        return self.compared("watch", memory, status, raw.Why(), lambda: super(Beside, self).watch(name, key, since))

    def expect(self, new: Optional[bytes], by: int) -> second.Answer:
        if new == b"" or by > NOWHERE:
            return super().expect(new, by)
        memory = self.memory(changes=1)
        status = LIBRARY.coniks_core_expect(of(memory.core), *passed(new or b""), U64(by))
        return self.compared("expect", memory, status, raw.Why(), lambda: super(Beside, self).expect(new, by))

    def mark(self, auditor: int, epoch: int, link: bytes) -> second.Answer:
        if len(link) != 32:
            return super().mark(auditor, epoch, link)
        memory = self.memory()
        found = LIBRARY.coniks_core_mark(of(memory.core), SIZE(auditor), U64(epoch), link)
        status = 0 if found in COMPARED else found
        answer = self.compared("mark", memory, status, raw.Why(), lambda: super(Beside, self).mark(auditor, epoch, link))
        assert COMPARED[found] == answer["mark"], (answer, found)
        return answer

    def confirmed(self) -> second.Answer:
        answer, memory, epoch = super().confirmed(), self.memory(), U64(NOWHERE)
        status = LIBRARY.coniks_core_confirmed(memory.core, of(epoch))
        wanted = (NOT_CONFIRMED, NOWHERE) if answer["confirmed"] is None else (0, answer["confirmed"])
        assert (status, epoch.value) == wanted, (answer, status, epoch.value)
        return answer

    def drop(self, now: int) -> second.Answer:
        return self.covered(now, None, lambda: super(Beside, self).drop(now))

    def cover(self, epoch: int, link: bytes, now: int) -> second.Answer:
        if self.trust.auditors or self.compare(epoch, link)["compare"] != "equal":
            return super().cover(epoch, link, now)
        return self.covered(now, epoch, lambda: super(Beside, self).cover(epoch, link, now))

    def covered(self, now: int, head: Optional[int], make: Callable[[], second.Answer]) -> second.Answer:
        """Drops the epochs before the confirmed one, or before that of a head."""
        memory, covered, watch = self.memory(alarms=len(self.stored)), raw.Covered(7, 7, 7, 7, 7), self.watched
        had, epochs = len(self.alarms), [it.entry.epoch for it in self.stored]
        status = memory.covers(now, covered, head)
        answer = self.compared("cover", memory, status, raw.Why(), make)
        gone, more = epochs[: len(epochs) - len(self.stored)], len(self.alarms) - had
        assert (covered.epochs, covered.first, covered.last, covered.alarms) == (len(gone), *(gone[:1] + gone[-1:] or [0, 0]), more)
        assert covered.changes == (len(watch.changes) - len(self.watched.changes) if watch and self.watched else 0)
        return answer

    def note(self, epoch: int) -> second.Answer:
        memory = self.memory()
        status = LIBRARY.coniks_core_note(of(memory.core), U64(epoch))
        return self.compared("note", memory, status, raw.Why(), lambda: super(Beside, self).note(epoch))

    def report(self, now: int) -> second.Answer:
        memory, reported = self.memory(), raw.Report(7, 7, 7)
        status = LIBRARY.coniks_core_report(memory.core, U64(now), of(reported))
        answer = self.compared("report", memory, status, raw.Why(), lambda: super(Beside, self).report(now))
        what, *epochs = answer["report"]
        epochs = epochs or [0, 0]
        assert (reported.verdict, reported.first, reported.last) == (REPORTS.index(what) + 1, epochs[0], epochs[-1]), (
            answer,
            reported.verdict,
        )
        return answer

    def lost(self, now: int) -> second.Answer:
        answer, memory = super().lost(now), self.memory()
        CALLS["lost"] += 1
        reported = [LIBRARY.coniks_core_lost(memory.core, U64(now), SIZE(it)) for it in range(len(self.stored) + 1)]
        assert [*map(bool, reported)] == [*(it.entry.epoch in answer["lost"] for it in self.stored), False], (answer, reported)
        return answer

    def compare(self, epoch: int, link: bytes) -> second.Answer:
        answer, memory, place = super().compare(epoch, link), self.memory(), SIZE(NOWHERE)
        found = LIBRARY.coniks_core_compare(memory.core, U64(epoch), link, of(place))
        CALLS["compare"] += 1
        assert COMPARED[found] == answer["compare"], (answer, found)
        assert (self.stored[place.value].entry.epoch == epoch) if found == 1 else place.value == NOWHERE, (answer, place.value)
        return answer

    def evidence(self, whole: bytes) -> second.Answer:
        memory, why = self.memory(), raw.Why()
        status = LIBRARY.coniks_core_evidence(memory.core, self.received(whole, 0), of(why))
        CALLS["evidence"] += 1
        try:
            answer = super().evidence(whole)
        except Fault as fault:
            assert status == second.NUMBERS[str(fault.answer["fault"])], (fault.answer, status)
            raise
        # An entry that no chain has convicts alone: its caller asks coniks_convicts.
        mine = answer["evidence"] if answer["evidence"] and answer["evidence"][1] is not None else None
        assert status == (0 if mine else 50) and evidence_of(self, why) == mine, (answer, status, why.kind)
        return answer
