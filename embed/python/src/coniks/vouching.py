"""Keys that their owners vouch for: a convention over the free bytes of a key. docs/FORMATS.md has the bytes.

    place = Place.of(policy, "alice")
    record = first(place, secret, b"my key", notice=168)           # register these bytes
    later = following(place, secret, record, b"my next key")       # and change to these
    judged(place, record, later, Span(1, 2, 3))                    # VOUCHED: the owner of the record signed the change

    notice = announced(record, bytes(new.verify_key), 200)         # the secret key is lost: the directory shows this first
    reset(place, new, notice, b"her next key")                     # and this from epoch 200 on

A friend who has a record refuses another one that the owner didn't sign, without monitoring. If the directory's policy promises
records (`Policy.records_vouched`), its service takes what `is_allowed` allows, and `convicts` decides for everyone whether two replies
convict the directory. The module needs PyNaCl.
"""

from __future__ import annotations

import enum
import hashlib
from dataclasses import dataclass, replace
from typing import NamedTuple, Optional, Sequence

from nacl.signing import SigningKey

from . import Body, Head, link
from ._ecvrf import is_key, is_signed
from ._formats import MAX_KEY
from ._messages import Refusal, Reply
from .client import Client
from .policy import Policy

__all__ = ["MOST_KEY", "Change", "Notice", "Place", "Record", "Span", "Value", "announced", "convicts"]
__all__ += ["fingerprint", "first", "following", "is_allowed", "judged", "of_reply", "reset"]

_TAG, _NOTICE_TAG = b"vouched1", b"notice-1"
# The bytes before the key of a record, and before the record of a notice.
_FRONT = len(_TAG) + 8 + 32 + 32 + 8 + 8 + 64
_NOTICE = len(_NOTICE_TAG) + 32 + 8
# The most bytes of an owner's key: a notice has room before its record.
MOST_KEY = MAX_KEY - _NOTICE - _FRONT


class Change(enum.Enum):
    """What a name's later bytes are to earlier ones: equal, or with another notice; a record that the owner signed; one after a reset; one
    to which no steps of an honest service lead, or none; or nobody can say, since the earlier bytes are no record."""

    SAME = "same"
    VOUCHED = "vouched"
    RESET = "reset"
    UNVOUCHED = "unvouched"
    UNKNOWN = "unknown"


@dataclass(frozen=True)
class Place:
    """Where a record counts: the policy digests of the directory, whose line of successions ends with its own, the name, and whether
    epochs have times."""

    policies: Sequence[bytes]
    name: str
    has_clock: bool

    @classmethod
    def of(cls, policy: Policy, name: str, earlier: Sequence[bytes] = ()) -> Place:
        """The place of a name under a policy. `earlier` has the digests of the policies that this one succeeds."""
        return cls((*earlier, policy.digest), name, policy.epoch_period is not None)

    @property
    def prefixes(self) -> list[bytes]:
        """What begins the text that a signature signs, of each policy."""
        name = self.name.encode()
        return [it + len(name).to_bytes(1, "big") + name for it in self.policies]


@dataclass(frozen=True)
class Record:
    """A record: its number, the key that verifies it, the SHA-256 of what it takes the place of, for how many epochs a reset must be
    announced (0: never), the effect of the notice if it is the record of a reset, the signature, and the owner's key."""

    number: int
    voucher: bytes
    before: bytes
    notice: int
    effect: int
    signature: bytes
    key: bytes

    @classmethod
    def read(cls, value: Optional[bytes]) -> Optional[Record]:
        """Returns the record that bytes are, None if they are none, or one after a notice."""
        if value is None or value[:8] != _TAG or not _FRONT <= len(value) <= _FRONT + MOST_KEY or not is_key(value[16:48]):
            return None
        number, notice, effect = (int.from_bytes(value[at : at + 8], "big") for at in (8, 80, 88))
        return cls(number, value[16:48], value[48:80], notice, effect, value[96:160], value[160:])

    def __bytes__(self) -> bytes:
        numbers = self.notice.to_bytes(8, "big") + self.effect.to_bytes(8, "big")
        return _TAG + self.number.to_bytes(8, "big") + self.voucher + self.before + numbers + self.signature + self.key

    def signed(self, prefix: bytes) -> bytes:
        """What the signature signs."""
        return prefix + bytes(replace(self, signature=b""))

    def is_signed(self, place: Place) -> bool:
        return any(is_signed(self.voucher, self.signed(it), self.signature) for it in place.prefixes)


class Notice(NamedTuple):
    """A notice of a reset: the key that is to verify the next record, and the epoch from which on that counts."""

    voucher: bytes
    effect: int

    def over(self, record: Record) -> bytes:
        """The bytes of a name with this notice."""
        return _NOTICE_TAG + self.voucher + self.effect.to_bytes(8, "big") + bytes(record)


@dataclass(frozen=True)
class Value:
    """What a name's bytes are: a record, alone or after a notice."""

    record: Record
    notice: Optional[Notice]

    @classmethod
    def read(cls, value: Optional[bytes]) -> Optional[Value]:
        """Returns the parts of a name's bytes, None if they are no record. Nothing is verified."""
        if value is None or value[:8] != _NOTICE_TAG:
            record = Record.read(value)
            return cls(record, None) if record else None
        record, notice = Record.read(value[_NOTICE:]), Notice(value[8:40], int.from_bytes(value[40:_NOTICE], "big"))
        return cls(record, notice) if record and is_key(notice.voucher) else None


class Span(NamedTuple):
    """The epochs of two replies: the earlier one, the epoch before in the entry of the later one, and the later one. Something may
    change at those from the earlier one on to the one before, and at the later one."""

    earlier: int
    before: int
    later: int

    @property
    def steps(self) -> int:
        """How many steps there may be."""
        return max(self.before - self.earlier, 0) + 1

    def epoch_of(self, step: int) -> int:
        """The first epoch at which so many steps may be done."""
        return self.later if step >= self.steps else self.earlier + step

    def step_at(self, epoch: int) -> int:
        """The first step at an epoch or later, which is one too many if there is none."""
        if epoch > self.later:
            return self.steps + 1
        return min(max(epoch - self.earlier, 1), self.steps)


def first(place: Place, secret: SigningKey, key: bytes, notice: int = 0) -> bytes:
    """Returns the first record of a name, which the secret key signs itself."""
    return _made(place, secret, Record(1, bytes(secret.verify_key), bytes(32), notice, 0, b"", key))


def following(place: Place, secret: SigningKey, before: bytes, key: bytes, notice: Optional[int] = None) -> bytes:
    """Returns the record after another one, which the same secret key signs, also if that has a notice. An empty key closes the name.
    It has the notice of the record before unless another one is given. Raises ValueError."""
    old = Value.read(before)
    if old is None or old.record.voucher != bytes(secret.verify_key):
        raise ValueError("the bytes before are no record of this secret key")
    if key and not old.record.key:
        raise ValueError("the name was closed by its owner")
    record = old.record
    kept = record.notice if notice is None else notice
    return _made(place, secret, Record(record.number + 1, record.voucher, _sum(bytes(record)), kept, 0, b"", key))


def announced(present: bytes, voucher: bytes, effect: int) -> bytes:
    """Returns the notice of a reset over a name's present record. Raises ValueError if that is none."""
    old = Value.read(present)
    if old is None:
        raise ValueError("the present bytes are no record")
    return Notice(voucher, effect).over(old.record)


def reset(place: Place, secret: SigningKey, notice: bytes, key: bytes, epochs: Optional[int] = None) -> bytes:
    """Returns the record of the reset that a notice announces, by the secret key of its voucher. It allows a reset after as many epochs
    as the record before unless another number is given. Raises ValueError."""
    old = Value.read(notice)
    if old is None or old.notice is None or old.notice.voucher != bytes(secret.verify_key):
        raise ValueError("the bytes before are no notice for this secret key")
    kept = old.record.notice if epochs is None else epochs
    return _made(place, secret, Record(old.record.number + 1, *old.notice[:1], _sum(notice), kept, old.notice.effect, b"", key))


def _made(place: Place, secret: SigningKey, record: Record) -> bytes:
    return bytes(replace(record, signature=secret.sign(record.signed(place.prefixes[-1])).signature))


def _sum(value: bytes) -> bytes:
    return hashlib.sha256(value).digest()


def fingerprint(name: str, value: bytes) -> str:
    """Returns the fingerprint of a name's bytes, which people compare: 8 groups of 5 digits."""
    found, text = Value.read(value), name.encode()
    voucher, key = (found.record.voucher, found.record.key) if found else (bytes(32), value)
    whole = hashlib.sha512(b"fingerprint coniks-1\n" + len(text).to_bytes(1, "big") + text + voucher + key).digest()
    return " ".join(f"{int.from_bytes(whole[at : at + 5], 'big') % 100_000:05}" for at in range(0, 40, 5))


def judged(place: Place, before: bytes, now: Optional[bytes], span: Optional[Span]) -> Change:
    """Returns what a name's later bytes are to earlier ones, None if it has none: no directory removes a name. Without a span, as of
    replies under different policies, no condition on epochs counts."""
    if now == before:
        return Change.SAME
    old, new = Value.read(before), Value.read(now)
    if old is None and now is not None:
        return Change.UNKNOWN
    if old is None or new is None:
        return Change.UNVOUCHED
    change, step = _Between(place, old, new, span).record()
    return change if _Between(place, old, new, span).is_shown(step) else Change.UNVOUCHED


# A step that there never is.
_NEVER = 1 << 72


class _Between:
    """What leads from the bytes of an earlier epoch to those of a later one. Its steps are those of the rule in docs/FORMATS.md."""

    def __init__(self, place: Place, old: Value, new: Value, span: Optional[Span]):
        self.place, self.old, self.new, self.span = place, old, new, span

    def is_shown(self, step: int) -> bool:
        """Whether the later bytes can be shown, if their record can at a step."""
        new = self.new
        if not new.notice:
            return self._is_there(step)
        return self._is_resettable(new.record, new.notice.voucher) and self._is_after(
            new.notice.effect, step + 1, new.record.notice
        )

    def record(self) -> tuple[Change, int]:
        """What the later record is, and the first step that can show it."""
        old, new = self.old.record, self.new.record
        if new == old:
            return Change.SAME, 0
        distance, is_owners = new.number - old.number, new.voucher == old.voucher
        if distance < 1 or not new.is_signed(self.place):
            return Change.UNVOUCHED, _NEVER
        if new.effect and distance == 1:
            return Change.RESET, self._announced()
        if new.effect:
            return Change.RESET, self._step_at(new.effect) if self._is_after(new.effect, self._last_notice(distance), 1) else _NEVER
        if is_owners and (old.key or not new.key):
            is_next = distance > 1 or new.before == _sum(bytes(old))
            return (Change.VOUCHED, distance) if is_next else (Change.UNVOUCHED, _NEVER)
        return Change.RESET, self._opened(distance) if is_owners else self._taken_over(distance)

    def _announced(self) -> int:
        """The step of a record that resets the earlier one."""
        old, new = self.old, self.new.record
        notice = Notice(new.voucher, new.effect)
        if not self._is_resettable(old.record, notice.voucher) or new.before != _sum(notice.over(old.record)):
            return _NEVER
        is_in_time = old.notice == notice or self._is_after(notice.effect, 1, old.record.notice)
        return self._step_at(notice.effect) if is_in_time else _NEVER

    def _last_notice(self, distance: int) -> int:
        """The step of the notice for the later record, which is not the first one after the earlier one."""
        old, new = self.old.record, self.new.record
        if new.voucher != old.voucher:
            return distance
        return min(self._first_reset() + distance - 1, distance + 1 if distance > 2 else _NEVER)

    def _taken_over(self, distance: int) -> int:
        """The step of a next record whose voucher a reset has made another one."""
        resets = self._first_reset(self.new.record.voucher) + distance - 1
        return min(resets, distance + 1 if distance > 2 else _NEVER) if distance > 1 and self._has_clock else _NEVER

    def _opened(self, distance: int) -> int:
        """The step of a next record of the same voucher after a closed one: two resets are between them."""
        steps = min(self._first_reset() + distance, distance + 2 if distance > 3 else _NEVER)
        return steps if distance > 2 and self._has_clock else _NEVER

    def _first_reset(self, voucher: Optional[bytes] = None) -> int:
        """The step of a reset of the earlier record, by a notice that is there, for this voucher if one is given, or by a new one."""
        old = self.old
        if not old.record.notice or not self._has_clock:
            return _NEVER
        effects = [self._epoch_of(1) + old.record.notice]
        if old.notice and old.notice.voucher != old.record.voucher and voucher in (None, old.notice.voucher):
            effects.append(old.notice.effect)
        return self._step_at(min(effects))

    def _is_resettable(self, record: Record, voucher: bytes) -> bool:
        return record.notice > 0 and self._has_clock and voucher != record.voucher

    # The epochs of the steps. Without a span each step is there, and each effect is late enough.

    @property
    def _has_clock(self) -> bool:
        return self.place.has_clock or self.span is None

    def _is_there(self, step: int) -> bool:
        return step < _NEVER and (self.span is None or step <= self.span.steps)

    def _epoch_of(self, step: int) -> int:
        return self.span.epoch_of(step) if self.span else 0

    def _step_at(self, epoch: int) -> int:
        return self.span.step_at(epoch) if self.span else 1

    def _is_after(self, effect: int, step: int, least: int) -> bool:
        """Whether a notice can be shown at a step: its effect is as many epochs later at the least."""
        return self._is_there(step) and self._has_clock and (self.span is None or effect >= self.span.epoch_of(step) + least)


def is_allowed(place: Place, present: Optional[bytes], value: bytes, epoch: int) -> bool:
    """Whether a service whose policy promises records may show bytes from an epoch on in the place of a name's present ones, None if it
    has none: a first record, the next one, one with a notice or without that, or the record of a reset."""
    new = Value.read(value)
    if new is None or value == present:
        return False
    if present is None:
        record = new.record
        is_first = not new.notice and (record.number, record.before, record.effect) == (1, bytes(32), 0)
        return is_first and record.is_signed(place)
    change = judged(place, present, value, Span(epoch - 1, epoch - 1, epoch))
    return change in (Change.SAME, Change.VOUCHED, Change.RESET)


def convicts(policy: Policy, name: str, before: bytes, now: bytes) -> bool:
    """Whether two replies for a name convict the directory of a policy that promises records: no steps of an honest service lead from
    what the earlier one shows to what the later one does. Anyone can decide it. Without the promise no change does."""
    if not policy.records_vouched:
        return False
    try:
        (first_body, old), (later_body, new) = (of_reply(policy, name, it) for it in (before, now))
    except Refusal:
        return False
    span = Span(first_body.epoch, later_body.previous_epoch, later_body.epoch)
    is_later = old is not None and span.earlier < span.later
    return is_later and judged(Place.of(policy, name), old or b"", new, span) is Change.UNVOUCHED


def of_reply(policy: Policy, name: str, reply: bytes) -> tuple[Body, Optional[bytes]]:
    """Returns the body of a reply's entry, and what it shows of a name, None if it has no key. Both are verified under the policy. Raises
    `Refusal`."""
    entry = Reply.read(reply).entry
    body = Body.of_entry(entry)
    head = Head(body.epoch, link(entry))
    client = Client.vouched(policy.signing_key, policy.vrf_key, policy, entry, {"": head}, 1)
    return body, client.lookup(name, reply, body.epoch).key
