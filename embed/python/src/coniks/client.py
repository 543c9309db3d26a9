"""A client of a key directory that can't forget a step: it verifies signatures, the chain, VRF proofs, paths and the requested epoch.

    client = Client(signing_key, vrf_key, policy)           # the three that the directory publishes
    client.feed(catch_up)                                   # all entries since the last one, or a list of them
    found = client.lookup("alice", reply)                   # found.key is alice's key, None if she has none

`feed` takes entries that continue the chain, and `lookup` a reply whose entry is one of that chain. Each call raises `Refusal` for
anything else, whose `cause` says why, and keeps nothing of what it refused. Signatures are verified first, so what anyone can send
is never an alarm. What convicts the provider is the error's `evidence`: publish it.

    client.watch("alice", my_key)                           # my own name: each epoch must show my key
    client.lookup("alice", reply).seen                      # SAME, CHANGED, ABSENT, or None for another name
    client.missing                                          # the epochs that no reply was accepted for
    client.lost                                             # those of them that can no longer be verified
    client.expect(new_key, by=epoch)                        # before I change my key
    client.report()                                         # what to tell the owner, with alarms of epochs that were dropped
    store(client.state)                                     # and then Client(signing_key, vrf_key, policy, state)

If the policy has a clock, the latest epoch must have begun at most `max_age` seconds ago, by default two periods. It must begin at
most `skew` seconds from now. Only a lookup of an epoch by its number may be older: ask for a number of your own, never for that of
the reply. Without a clock, `found.first_seen` says since when this client has had the entry. Times are compared in whole seconds:
fractions of the clock's time, of `max_age` and of `skew` are dropped.

Each accepted entry is kept, until `drop` is called, or `cover` with an auditor's head. Compare heads with auditors and other clients:
`compare` says whether a head is one of this chain, and `evidence` what convicts the provider together with another one's entry. An
entry whose body is signed again takes the place of the latest one. After `PREVIOUS_LINK` get the latest entry once more and feed it: it
may have been signed again.

    client = Client(signing_key, vrf_key, policy, trust=Trust(digest, auditors=4, faulty=1))
    client.mark(0, head)                                    # a head that the first auditor of the trust document cosigned
    client.is_relied(found)                                 # whether a quorum of them confirms the epoch of what was found
    client.drop()                                           # what a quorum confirms, and what can no longer be verified

    next = client.succeed(succession, next_policy, entry)   # the chain ends, and another directory goes on (`coniks.succession`)
    next.client, next.void                                  # its client, and entries of this one that no longer count

Public keys are 32 bytes, for Ed25519 and ECVRF-EDWARDS25519-SHA512-TAI; the module needs PyNaCl for them
(`pip install coniks[client]`) and the C library, whose proved core decides all of this (include/coniks_core.h). For another scheme pass
an object: a `SignatureScheme` or an `IndexScheme`. What its `verify` returns counts only if it is `True` itself. A client is for one
thread at a time, and can't be copied.
"""

from __future__ import annotations

import ctypes
import enum
import math
import time
from dataclasses import dataclass
from typing import TYPE_CHECKING, Any, Callable, Iterable, Iterator, Mapping, NoReturn, Optional, Sequence, Union

from . import ENTRY_LENGTH, EvidenceKind, Head, Name, Policy, Status, _bytes, _bytes32, _core, _name, _number, convicts, link
from ._core import library
from ._formats import NO_EVIDENCE, Cause, Misuse
from ._memory import Memory
from ._messages import MISUSES, Evidence, Refusal
from ._verdicts import IndexScheme, SignatureScheme, Verifier, of_succession, part

if TYPE_CHECKING:
    from .succession import Succession

__all__ = [
    "Alarm",
    "Cause",
    "Client",
    "Comparison",
    "Evidence",
    "Found",
    "IndexScheme",
    "Refusal",
    "Report",
    "Reported",
    "SignatureScheme",
    "Step",
    "Succeeded",
    "Trust",
    "Watched",
]

Clock = Callable[[], float]


class Watched(enum.Enum):
    """What an epoch shows of the watched name: the expected key, or none if none is expected (`SAME`); another key, or a key though
    none is expected (`CHANGED`); none though one is expected (`ABSENT`); or there was no reply for it (`MISSING`)."""

    SAME = "same"
    CHANGED = "changed"
    ABSENT = "absent"
    MISSING = "missing"


class Comparison(enum.Enum):
    """Whether a head is one of the client's chain. One that differs convicts nobody: fetch its entry, and call `evidence`."""

    EQUAL = "equal"
    UNKNOWN = "unknown"
    DIFFERS = "differs"


class Reported(enum.Enum):
    """What a client reports of the watched name: the first of these that applies, as docs/STORED.md has them."""

    CHANGED = "changed"
    MISSING = "missing"
    LOST = "lost"
    UNWATCHED = "unwatched"
    UNCONFIRMED = "unconfirmed"
    GOOD = "good"


# The same by the numbers of the core.
_WATCHED = {0: None, 1: Watched.SAME, 3: Watched.CHANGED, 4: Watched.ABSENT, 5: Watched.MISSING}
_MISSING = 5
_COMPARED = dict(enumerate(Comparison, 1))
_REPORTED = dict(enumerate(Reported, 1))
_SHOWS_KEY = 1


@dataclass(frozen=True)
class Trust:
    """What a client needs of a trust document (`coniks.trust`): its SHA-256, how many auditors it has, and how many of them may be
    faulty. An auditor's place, from 0 on, is that of its line among theirs."""

    digest: bytes
    auditors: int
    faulty: int


@dataclass(frozen=True)
class Step:
    """An entry that was accepted: its epoch, and `MISSING` if that must show the watched name, until a reply does. One that is signed
    again has what was seen at its epoch."""

    epoch: int
    seen: Optional[Watched]


@dataclass(frozen=True)
class Found:
    """What an accepted reply shows: the key, None if the name is bound to none.

    `seen` says what that is for the watched name. `age` is how many seconds ago the epoch began by the policy's clock, None without
    a clock. `first_seen` is the Unix time at which the client accepted the entry.
    """

    epoch: int
    key: Optional[bytes]
    seen: Optional[Watched]
    age: Optional[float]
    first_seen: int

    def __bool__(self) -> NoReturn:
        raise TypeError("a reply that is accepted may show that a name has no key: look at `key`")


@dataclass(frozen=True)
class Alarm:
    """An epoch of the watched name that was dropped, and not seen as the same: it is `CHANGED` or `ABSENT`, or `MISSING` if it was
    lost."""

    epoch: int
    seen: Watched


@dataclass(frozen=True)
class Report:
    """What a client reports of the watched name, and the first and the last epoch that it is about: 0 if it is `UNWATCHED`."""

    what: Reported
    first: int
    last: int


@dataclass(frozen=True)
class Succeeded:
    """A client of the directory that goes on, and the entries of the client before it that are void: those after the last epoch."""

    client: Client
    void: list[bytes]


class Client:
    """A client of one directory, which has the keys and the policy that the directory publishes.

    `signing_key` and `vrf_key` are public keys, or objects for other schemes; `vrf_key` is None in a directory without a VRF, of
    which nothing can be looked up without such an object. `policy` is the `Policy`, or its digest, 32 bytes, which has no clock.
    `state` is what another client had as its `state`. `clock` returns the Unix time in seconds. `trust` names the auditors, of which
    a quorum confirms epochs; without it none is confirmed.
    """

    def __init__(
        self,
        signing_key: Union[bytes, SignatureScheme],
        vrf_key: Union[bytes, IndexScheme, None],
        policy: Union[bytes, Policy],
        state: Optional[bytes] = None,
        *,
        max_age: Optional[float] = None,
        skew: float = 300,
        clock: Clock = time.time,
        trust: Optional[Trust] = None,
    ):
        self._verifier = Verifier(signing_key, vrf_key)
        check_keys(policy, signing_key, vrf_key)
        self._policy = policy if isinstance(policy, Policy) else None
        self._clock, self._trust = clock, trust
        rules, auditors = rules_of(policy, max_age, skew, trust), trust.auditors if trust else 0
        self._memory = Memory(rules, auditors) if state is None else self._read(_bytes(state, "the state"), rules, auditors)

    @classmethod
    def vouched(
        cls,
        signing_key: Union[bytes, SignatureScheme],
        vrf_key: Union[bytes, IndexScheme, None],
        policy: Union[bytes, Policy],
        entry: bytes,
        heads: Mapping[str, Head],
        least: int,
        *,
        max_age: Optional[float] = None,
        skew: float = 300,
        clock: Clock = time.time,
        trust: Optional[Trust] = None,
    ) -> Client:
        """Returns a client whose chain begins with an entry that at least `least` auditors have. `heads` has the head of each
        auditor for that entry's epoch, by the auditor's name; get each from the auditor itself. With `trust`, call `mark` with each of
        them afterwards."""
        client = cls(signing_key, vrf_key, policy, max_age=max_age, skew=skew, clock=clock, trust=trust)
        rows = rows_of([*map(parts_of, heads.values())])
        client._start(_bytes(entry, "an entry"), rows, _number(least, 32, "how many auditors vouch"))
        return client

    def __reduce__(self) -> NoReturn:
        raise TypeError("a client can't be copied: one of both would miss what the other is fed. Pass its state on")

    # The chain.

    def feed(self, entries: Union[bytes, Iterable[bytes]]) -> list[Step]:
        """Accepts entries that continue the chain: a catch-up's bytes, or a list of entries. Raises `Refusal` at the first one that
        does not, and keeps those before it."""
        if isinstance(entries, (bytes, bytearray, memoryview)):
            entries = entries_of(bytes(entries))
        return [self._fed(_bytes(it, "an entry")) for it in entries]

    def _fed(self, entry: bytes) -> Step:
        received, why = self._verifier.of_received(entry), _core.Why()
        received.time = self._second()
        self._memory = memory = self._memory.with_room(stored=1)
        self._check(library.coniks_core_feed(memory, received, why), why, entry)
        return Step(memory.epoch(-1), _WATCHED[memory.stored[-1].seen])

    def _start(self, entry: bytes, rows: Any, least: int) -> None:
        """Begins with an entry that auditors have, whose heads these are. For this call `least` of them are the quorum."""
        received, why = self._verifier.of_received(entry), _core.Why()
        received.time = self._second()
        self._memory = memory = self._memory.with_room(stored=1)
        quorum, memory.rules.quorum = memory.rules.quorum, least
        status = library.coniks_core_start(memory, rows, len(rows), received, why)
        memory.rules.quorum = quorum
        self._check(status, why, entry)

    def _check(self, status: int, why: _core.Why, entry: bytes) -> None:
        """Raises what a status says of an entry."""
        if status:
            check(status, Status(why.status) if why.status else None, self._evidence(why, entry))

    def _evidence(self, why: _core.Why, entry: bytes) -> Optional[Evidence]:
        """What convicts the provider together with an entry, or None."""
        if not why.kind:
            return None
        return Evidence(entry if why.mine == _core.NOWHERE else self._memory.entry(why.mine), entry, EvidenceKind(why.kind))

    @property
    def entries(self) -> list[bytes]:
        """The entries that are stored, in the order of the chain."""
        return self._memory.column(0, ENTRY_LENGTH)

    def head(self) -> Optional[Head]:
        """The head of the latest entry, None before the first."""
        memory = self._memory
        return Head(memory.epoch(-1), link(memory.entry(-1))) if len(memory.stored) else None

    def compare(self, head: Head) -> Comparison:
        """Returns whether a head is one of the chain, as far as its entries are kept."""
        epoch, of_head = parts_of(head)
        return _COMPARED[library.coniks_core_compare(self._memory, epoch, of_head, ctypes.c_size_t())]

    def cover(self, head: Head) -> Comparison:
        """Drops the entries before that of an auditor's head, if it is one of this chain: the auditor's chain has them. Epochs
        that are missing stay, with what follows them, unless they are lost: of these an alarm stays. A client with `trust` only compares,
        since one auditor confirms nothing: call `mark` and `drop`."""
        found = self.compare(head)
        if found is Comparison.EQUAL and not self._trust:
            now, memory = self._second(), self._memory
            # An interrupt before the last step leaves what there was.
            copy = memory.copied(alarms=len(memory.alarms) + len(memory.stored))
            copy.set_marks([head.epoch], 1)
            dropped(copy, now)
            copy.set_marks([], 0)
            self._memory = copy
        return found

    def evidence(self, other_entry: bytes) -> Optional[Evidence]:
        """Returns what convicts the provider together with another one's entry, or None. Raises `Refusal` if that isn't signed."""
        entry, why = _bytes(other_entry, "an entry"), _core.Why()
        received = self._verifier.of_received(entry)
        status = library.coniks_core_evidence(self._memory, received, why)
        if status == NO_EVIDENCE:
            return alone(entry)
        check(status)
        return self._evidence(why, entry)

    # The auditors.

    def mark(self, auditor: int, head: Head) -> Comparison:
        """Compares a head that an auditor cosigned, as `compare` does, and remembers its epoch if they are equal. The auditor is the one
        at this place of the trust document. Verify the cosignature first. Raises ValueError if there is no such auditor."""
        place = _number(auditor, 32, "the place of an auditor")
        found = library.coniks_core_mark(self._memory, place, *parts_of(head))
        if found not in _COMPARED:
            check(found)
        return _COMPARED[found]

    @property
    def confirmed(self) -> Optional[int]:
        """The latest epoch that a quorum of the auditors confirms, None if there is none."""
        epoch = ctypes.c_uint64()
        status = library.coniks_core_confirmed(self._memory, epoch)
        return None if status == Misuse.NOT_CONFIRMED else epoch.value

    def is_relied(self, found: Found) -> bool:
        """Returns whether a quorum of the auditors confirms the epoch of what was found. Raises `Refusal` if it is not kept any more."""
        status = library.coniks_core_relied(self._memory, self._memory.place(found.epoch))
        if status != Misuse.NOT_CONFIRMED:
            check(status)
        return bool(status == 0)

    def drop(self) -> list[int]:
        """Drops the first epochs: those before the confirmed one, and before the first missing one that is not lost. Returns them. Each
        watched one that was not seen as the same leaves an alarm. No reply for a dropped epoch is accepted: ask for missing ones first.
        """
        now = self._second()
        self._memory = self._memory.with_room(alarms=len(self._memory.stored))
        return dropped(self._memory, now)

    # The succession.

    def succeed(
        self,
        succession: Succession,
        policy: Policy,
        entry: bytes,
        *,
        max_age: Optional[float] = None,
        skew: float = 300,
        clock: Optional[Clock] = None,
        trust: Optional[Trust] = None,
    ) -> Succeeded:
        """Returns a client of the directory that a succession of this one's policy names, which watches the same name. `policy` is the next
        policy, and `entry` the first of its chain that counts. This client stays as it is: if an entry is void, keep one with the
        succession, and tell the user. The clock is this client's if none is given. Raises `Refusal`."""
        key = self._policy.successor_key if self._policy else None
        begun = Client(
            policy.signing_key, policy.vrf_key, policy, max_age=max_age, skew=skew, clock=clock or self._clock, trust=trust
        )
        place = begun._go_on(self._memory, of_succession(succession, key), _bytes(entry, "an entry"))
        return Succeeded(begun, self.entries[place + 1 :])

    def _go_on(self, ended: Memory, succession: _core.Succession, entry: bytes) -> int:
        """Goes on after a client whose chain ended, and returns the place of its last epoch."""
        received, place = self._verifier.of_received(entry), ctypes.c_size_t()
        received.time = self._second()
        self._memory = memory = self._memory.with_room(stored=1, changes=1)
        memory.share(ended)
        status = library.coniks_core_succeed(ended, succession, received, memory, place)
        check(status, evidence=alone(entry) if status in (Cause.OTHER_POLICY, Cause.MALFORMED) else None)
        return place.value

    # Lookups.

    def lookup(self, name: Name, reply: bytes, epoch: Optional[int] = None) -> Found:
        """Returns what a reply shows of a name, at the epoch that was requested, or at the latest one. Raises `Refusal`."""
        requested, reply, needs = _name(name), _bytes(reply, "a reply"), _core.Needs()
        number = 0 if epoch is None else _number(epoch, 64, "the epoch")
        check(library.coniks_core_reply_needs(self._memory, reply, len(reply), needs))
        now, found, why = self._now(), _core.Found(), _core.Why()
        verdicts = self._verifier.of_reply(requested, reply, needs)
        asking = _core.Asking(requested, len(requested), reply, len(reply), epoch is not None, number, math.floor(now))
        status = library.coniks_core_lookup(self._memory, asking, verdicts, found, why)
        self._check(status, why, part(reply, needs.entry_start, ENTRY_LENGTH))
        return self._reported(found, part(reply, found.key_start, found.key_length), now)

    def history(self, name: Name, history: bytes) -> list[Found]:
        """Returns what a history shows of a name, one for each of its epochs. Raises `Refusal`, and then keeps nothing of it."""
        requested, history, needs = _name(name), _bytes(history, "a history"), _core.HistoryNeeds()
        check(library.coniks_core_history_needs(history, len(history), needs))
        now, asking = self._now(), _core.History(requested, len(requested), history, len(history))
        verdicts = self._verifier.of_history(requested, history, needs)
        room = len(self._memory.stored) + 1
        steps = _core.Steps((_core.Step * room)(), room)
        check(library.coniks_core_history(self._memory, asking, verdicts, _core.Siblings(), steps))
        return [self._reported(it, key, now) for it, key in with_keys(steps)]

    def _reported(self, found: Any, key: bytes, now: float) -> Found:
        """What the core found, in Python."""
        epoch, stored = self._memory.epoch(found.place), self._memory.stored[found.place]
        is_key, first_seen = found.shows == _SHOWS_KEY, int.from_bytes(stored.first_seen, "big")
        return Found(epoch, key if is_key else None, _WATCHED[found.seen], self._age(epoch, now), first_seen)

    # The clock.

    def _now(self) -> float:
        return seconds(self._clock(), "the time of the clock")

    def _second(self) -> int:
        return math.floor(self._now())

    def _age(self, epoch: int, now: float) -> Optional[float]:
        """How many seconds ago an epoch began by the policy's clock, None without one."""
        policy = self._policy
        if policy is None or policy.epoch_start is None or policy.epoch_period is None:
            return None
        return now - (policy.epoch_start + (epoch - 1) * policy.epoch_period)

    # The watched name.

    def watch(self, name: Name, key: Optional[bytes], since: Optional[int] = None) -> None:
        """Watches the client's own name: each epoch from `since` on, by default the latest, must show the key, or none if it is
        None. A client watches one name for its life. The same call once more changes nothing; another one raises ValueError."""
        first, memory = 0 if since is None else _number(since, 64, "the first epoch"), self._memory
        named, expected = memory.hold(_name(name), expected_key(key))
        wanted = _core.Watch(1, *named, first, *expected)
        check(library.coniks_core_watch(memory, wanted, since is not None), length=named[1])

    @property
    def first_key(self) -> Optional[bytes]:
        """The key that the first watched epoch must show, None if that must show none, or no name is watched."""
        watch = self._memory.watch
        return ctypes.string_at(watch.key, watch.key_length) if watch.is_watched and watch.key_length else None

    def expect(self, new: Optional[bytes], by: int) -> None:
        """Expects the owner's own change of the key: later epochs may show the old or the new key, and from epoch `by` on only
        the new one. No epoch may show the old key after one that showed the new key. Raises ValueError if no name is watched, and
        while another change is open: until the chain has its epoch `by` or a later one, or an epoch showed its key."""
        key, number = expected_key(new), _number(by, 64, "the epoch")
        self._memory = memory = self._memory.with_room(changes=1)
        memory.hold(key)
        status = library.coniks_core_expect(memory, key, len(key), number)
        latest, last = memory.epoch(-1) if len(memory.stored) else 0, memory.changes[-1].first_new if len(memory.changes) else 0
        check(status, latest=latest, last=last)

    @property
    def missing(self) -> list[int]:
        """The epochs that must show the watched name, and of which no reply was accepted."""
        return [epoch for epoch, _ in self._missing()]

    @property
    def lost(self) -> list[int]:
        """The missing epochs of which the policy promises no proof any more, by the client's clock. Say that they can no longer be
        verified, never that they are the same."""
        now = self._second()
        return [it for it, at in self._missing() if library.coniks_core_lost(self._memory, now, at)]

    def _missing(self) -> list[tuple[int, int]]:
        """The missing epochs with their places."""
        seen = self._memory.column(_core.StoredEntry.seen.offset, _core.StoredEntry.seen.offset + 1)
        return [(epoch, at) for at, epoch in enumerate(self._memory.epochs()) if seen[at][0] == _MISSING]

    @property
    def alarms(self) -> list[Alarm]:
        """The alarms of dropped epochs, until their owner takes note of them."""
        return [Alarm(it.epoch, Watched(_WATCHED[it.seen])) for it in self._memory.alarms]

    def note(self, epoch: int) -> None:
        """Takes note of the alarms up to an epoch, which the owner has seen: they are dropped."""
        check(library.coniks_core_note(self._memory, _number(epoch, 64, "the epoch")))

    def report(self) -> Report:
        """Returns what to tell the owner of the watched name. Raises ValueError if none is watched."""
        reported = _core.Report()
        check(library.coniks_core_report(self._memory, self._second(), reported))
        return Report(_REPORTED[reported.verdict], reported.first, reported.last)

    # The state.

    @property
    def state(self) -> bytes:
        """All that the client keeps, to be stored, and given to another one: 110 bytes, 218 for each epoch, 9 for each alarm, 8 for each
        auditor, and the watched name."""
        size = ctypes.c_size_t()
        check(library.coniks_core_state_size(self._memory, size))
        state = ctypes.create_string_buffer(size.value)
        check(library.coniks_core_state_write(self._memory, state, size.value, size))
        return state.raw

    def _read(self, state: bytes, rules: _core.Rules, auditors: int) -> Memory:
        """What a state has. Its marks are 0 if it is of other auditors."""
        needs = _core.StateNeeds()
        check(library.coniks_core_state_needs(_core.Core(rules), state, len(state), needs))
        verdicts = self._verifier.of_state(state, needs)
        memory = Memory(rules, auditors, state, stored=needs.stored, changes=needs.changes, alarms=needs.alarms)
        check(library.coniks_core_state_read(memory, state, len(state), verdicts, needs.stored))
        return memory


def check(status: int, of_entry: Optional[Status] = None, evidence: Optional[Evidence] = None, **values: int) -> None:
    """Raises what a status of the core says, if it is an error. `values` are for the texts of misuses."""
    if status >= min(Misuse):
        raise ValueError(MISUSES[Misuse(status)].format(**values))
    if status:
        raise Refusal(Cause(status), of_entry, evidence)


def alone(entry: bytes) -> Optional[Evidence]:
    """What a signed entry that no chain has convicts the provider with: itself."""
    kind = convicts(entry, entry)
    return Evidence(entry, entry, kind) if kind else None


def dropped(memory: Memory, now: int) -> list[int]:
    """Drops the first epochs, as far as a quorum of the marks confirms, and returns them."""
    epochs, covered = memory.epochs(), _core.Covered()
    check(library.coniks_core_cover(memory, now, covered))
    return epochs[: covered.epochs]


def entries_of(catch_up: bytes) -> list[bytes]:
    """The entries of a catch-up. Raises `Refusal` for another number of bytes."""
    count = ctypes.c_size_t()
    check(library.coniks_core_catch_up(catch_up, len(catch_up), count))
    return [part(catch_up, it * ENTRY_LENGTH, ENTRY_LENGTH) for it in range(count.value)]


def with_keys(steps: Iterable[_core.Step]) -> Iterator[tuple[_core.Step, bytes]]:
    """Steps with their keys. A key that a history repeats is one object, however long it is."""
    place, key = (0, 0), b""
    for it in steps:
        if (it.key, it.key_length) != place:
            place, key = (it.key, it.key_length), ctypes.string_at(it.key, it.key_length) if it.key else b""
        yield it, key


def parts_of(head: Any) -> tuple[int, Any]:
    """The epoch and the link of a head that its caller gives."""
    if not isinstance(head, Head):
        raise TypeError(f"a head is a Head, not {type(head).__name__}")
    return _number(head.epoch, 64, "the epoch"), _bytes32(head.link, "the link")


def rows_of(heads: Sequence[tuple[int, Any]]) -> Any:
    """The heads of auditors as the core takes them."""
    return (_core.Head * len(heads))(*(_core.Head(1, epoch, of_head) for epoch, of_head in heads))


def expected_key(key: Optional[bytes]) -> bytes:
    """An expected key that its caller gives, of no byte if it is None. No accepted proof shows an empty one."""
    if key is not None and not _bytes(key, "the expected key"):
        raise ValueError("an expected key has at least one byte; None expects none")
    return b"" if key is None else bytes(key)


def check_keys(policy: Any, signing_key: Any, vrf_key: Any) -> None:
    """Checks that keys are those of a policy document. An object in place of a key is its caller's choice."""
    if not isinstance(policy, Policy):
        return
    pairs = [(signing_key, policy.signing_key), (vrf_key, policy.vrf_key)]
    if any(given != wanted for given, wanted in pairs if given is None or isinstance(given, bytes)):
        raise Refusal(Cause.POLICY_KEYS)


def rules_of(policy: Any, max_age: Optional[float], skew: float, trust: Optional[Trust]) -> _core.Rules:
    """What a policy and a trust document fix."""
    document = policy if isinstance(policy, Policy) else None
    of_policy, clock, promised = digest(policy), limits(document, max_age, skew), promise(document)
    of_trust, quorum = trusted(trust)
    return _core.Rules(of_policy, of_trust, clock, promised, quorum)


def digest(policy: Any) -> Any:
    """A policy digest."""
    given = policy.digest if isinstance(policy, Policy) else _bytes(policy, "the policy")
    if len(given) != 32:
        raise ValueError("a policy digest has 32 bytes: pass Policy.read(document) for a document")
    return _bytes32(given, "the policy digest")


def limits(policy: Optional[Policy], max_age: Optional[float], skew: float) -> _core.Clock:
    """The policy's clock and the client's limits."""
    start, period = (policy.epoch_start, policy.epoch_period) if policy else (None, None)
    # No epoch is older than 2^64 seconds.
    longest = min(2 * (period or 0), (1 << 64) - 1) if max_age is None else math.floor(seconds(max_age, "max_age"))
    return _core.Clock(start is not None, start or 0, period or 0, longest, math.floor(seconds(skew, "skew")))


def promise(policy: Optional[Policy]) -> _core.Promise:
    """For how long a policy promises proofs, for ever without one."""
    stored = policy.proofs_kept if policy else None
    return _core.Promise(stored is not None, stored or 0)


def trusted(trust: Optional[Trust]) -> tuple[Any, int]:
    """The digest of a trust document, and the quorum of its auditors."""
    if trust is None:
        return _bytes32(bytes(32), "no trust document"), 0
    auditors, faulty = (_number(it, 32, "a number of auditors") for it in (trust.auditors, trust.faulty))
    quorum = library.coniks_core_quorum(auditors, faulty)
    if not quorum:
        raise ValueError("more than three auditors are needed for each one that may lie")
    return _bytes32(trust.digest, "the digest of a trust document"), quorum


def seconds(value: Any, what: str) -> float:
    """A number of seconds."""
    if not isinstance(value, (int, float)) or isinstance(value, bool):
        raise TypeError(f"{what} is a number of seconds, not {type(value).__name__}")
    if not 0 <= value < 1 << 64:
        raise ValueError(f"{what} is at least 0 seconds and less than 2^64, not {value}")
    return value
