"""Records of keys that their owners vouch for, from docs/FORMATS.md: their bytes, what may follow, and how two epochs compare, which is
found by a search of the steps between them."""

from __future__ import annotations

import heapq
from dataclasses import dataclass, replace
from itertools import count
from typing import Iterator, NamedTuple, Optional, Sequence

import curve
from bytelists import ZEROS, number, sha256

TAG, NOTICE = b"vouched1", b"notice-1"
# The epoch of what never is, and a voucher that is none of those in the bytes.
NEVER, OTHER = 1 << 65, b"another"
# So many records after the first one, each further one only takes a step more.
MOST = 6


class Record:
    """A record by its parts."""

    def __init__(self, whole: bytes) -> None:
        self.whole = whole
        self.number = int.from_bytes(whole[8:16], "big")
        self.voucher, self.before, self.signature, self.key = whole[16:48], whole[48:80], whole[96:160], whole[160:]
        self.notice, self.effect = int.from_bytes(whole[80:88], "big"), int.from_bytes(whole[88:96], "big")

    def is_signed(self, policies: Sequence[bytes], name: bytes) -> bool:
        texts = [it + number(len(name), 1) + name + self.whole[:96] + self.key for it in policies]
        return any(curve.is_signed(self.voucher, it, self.signature) for it in texts)


# A voucher and an effect.
Announced = tuple[bytes, int]


def record_of(value: Optional[bytes]) -> Optional[Record]:
    """The record of a name's bytes, also after a notice, None if they are none."""
    whole = value[48:] if value and value[:8] == NOTICE else value
    if whole is None or whole[:8] != TAG or not 160 <= len(whole) <= 16336 or not curve.is_key(whole[16:48]):
        return None
    return None if value != whole and not curve.is_key((value or b"")[8:40]) else Record(whole)


def notice_of(value: bytes) -> Optional[Announced]:
    """The notice of bytes that have a record."""
    return (value[8:40], int.from_bytes(value[40:48], "big")) if value[:8] == NOTICE else None


def noticed(record: bytes, announced: Announced) -> bytes:
    return NOTICE + announced[0] + number(announced[1], 8) + record


class Fields(NamedTuple):
    """What a record has besides what follows from the one before."""

    key: bytes
    notice: int = 0
    effect: int = 0


def made(policy: bytes, name: bytes, secret: bytes, fields: Fields, before: Optional[bytes] = None) -> bytes:
    """The record after other bytes, or the first. `secret` signs it."""
    old = record_of(before)
    front = TAG + number(old.number + 1 if old else 1, 8) + curve.public_key(secret)
    replaced = before if fields.effect or old is None else old.whole
    front += (sha256(replaced) if replaced else ZEROS) + number(fields.notice, 8) + number(fields.effect, 8)
    return front + curve.sign(secret, policy + number(len(name), 1) + name + front + fields.key) + fields.key


@dataclass(frozen=True)
class Place:
    """The policy digests of a line of successions, the name, and whether the directory has a clock."""

    policies: Sequence[bytes]
    name: bytes
    has_clock: bool


class Epochs:
    """Those at which something may change between two epochs. `before` is the epoch before of the later one."""

    def __init__(self, earlier: int, before: int, later: int) -> None:
        self.start, self.stop, self.later = earlier + 1, before + 1, later
        self.count = max(self.stop - self.start, 0)

    def at(self, step: int) -> int:
        if step <= self.count:
            return self.start + step - 1
        return self.later if step == self.count + 1 else NEVER

    def step(self, epoch: int) -> int:
        """The first step at an epoch or later."""
        if epoch > self.later:
            return self.count + 2
        return self.count + 1 if epoch >= self.stop else max(epoch - self.start, 0) + 1


class Unlimited(Epochs):
    """Under different policies no condition on epochs counts."""

    def __init__(self) -> None:
        super().__init__(0, 0, 0)

    def at(self, step: int) -> int:
        return 0

    def step(self, epoch: int) -> int:
        return 0


@dataclass(frozen=True)
class State:
    """What a name shows: how many records follow the first one, the present one's voucher, whether it is closed, its notice, and whether
    a name was reset meanwhile."""

    count: int
    voucher: bytes
    is_closed: bool
    notice: Optional[Announced] = None
    was_reset: bool = False


class Search:
    """Which step shows the later record first, of all that an honest service may do."""

    def __init__(self, place: Place, earlier: bytes, later: bytes, epochs: Epochs) -> None:
        self.place, self.epochs = place, epochs
        self.has_clock = place.has_clock or isinstance(epochs, Unlimited)
        old, new = record_of(earlier), record_of(later)
        assert old and new
        self.old, self.new, self.notice, self.asked = old, new, notice_of(earlier), notice_of(later)
        distance = new.number - old.number
        # Records that only take a step each are left out, after the first one.
        self.left_out = max(distance - MOST, 0)
        self.distance = distance - self.left_out

    def length(self, state: State) -> int:
        """For how many epochs a reset is announced. The owner of an unknown record could have asked for one epoch."""
        return 1 if state.count else self.old.notice

    def result(self) -> str:
        kept = self.notice == self.asked or self.asked is None
        if self.old.whole == self.new.whole:
            return "same" if kept or self.is_announced(0) else "unvouched"
        if self.distance < 1 or not self.new.is_signed(self.place.policies, self.place.name):
            return "unvouched"
        found = {was_reset: step for was_reset, step in self.ends() if self.is_announced(step)}
        return ("reset" if min(found) else "vouched") if found else "unvouched"

    def is_announced(self, step: int) -> bool:
        """Whether the later record can have the notice that is shown with it."""
        if self.asked is None:
            return self.epochs.at(step) < NEVER
        voucher, effect = self.asked
        if not self.has_clock or not self.new.notice or voucher == self.new.voucher or self.epochs.at(step + 1) >= NEVER:
            return False
        return isinstance(self.epochs, Unlimited) or effect >= self.epochs.at(step + 1) + self.new.notice

    def ends(self) -> Iterator[tuple[bool, int]]:
        """The steps that show the later record, by whether the name was reset before."""
        start, order = State(0, self.old.voucher, not self.old.key, self.notice), count()
        waiting, seen = [(0, next(order), start)], set[State]()
        while waiting:
            step, _, state = heapq.heappop(waiting)
            if state in seen or self.epochs.at(max(step, 1)) >= NEVER:
                continue
            seen.add(state)
            if state.count == self.distance:
                yield state.was_reset, step
                continue
            for after, it in self.steps(step, state):
                heapq.heappush(waiting, (after, next(order), it))

    def steps(self, step: int, state: State) -> Iterator[tuple[int, State]]:
        """What may follow a state, each with the first step at which it does."""
        # A notice in the place of one that came by a step would come later.
        if self.has_clock and self.length(state) and (state.notice is None or step == 0):
            yield from self.notices(step + 1, state)
        yield from self.nexts(step + 1, state)
        if state.notice and self.has_clock and self.length(state) and state.notice[0] != state.voucher:
            yield from self.resets(max(step + 1, self.epochs.step(state.notice[1])), state)

    def notices(self, step: int, state: State) -> Iterator[tuple[int, State]]:
        least = self.epochs.at(step) + self.length(state)
        is_late = self.new.effect >= least or isinstance(self.epochs, Unlimited)
        for voucher in {self.old.voucher, self.new.voucher, OTHER} - {state.voucher}:
            for effect in {least, self.new.effect if is_late and self.new.effect else least}:
                yield step, replace(state, notice=(voucher, effect))

    def nexts(self, step: int, state: State) -> Iterator[tuple[int, State]]:
        step += 0 if state.count else self.left_out
        for is_closed in {True, state.is_closed}:
            it = State(state.count + 1, state.voucher, is_closed, was_reset=state.was_reset)
            if it.count < self.distance or self.is_next(it):
                yield step, it

    def is_next(self, state: State) -> bool:
        """Whether the later record can be the next one in this state."""
        new = self.new
        is_after = self.distance + self.left_out > 1 or new.before == sha256(self.old.whole)
        return is_after and (new.voucher, not new.key, new.effect) == (state.voucher, state.is_closed, 0)

    def resets(self, step: int, state: State) -> Iterator[tuple[int, State]]:
        notice = state.notice
        assert notice
        step += 0 if state.count else self.left_out
        for is_closed in (True, False):
            it = State(state.count + 1, notice[0], is_closed, was_reset=True)
            if it.count < self.distance or self.is_reset(it, notice):
                yield step, it

    def is_reset(self, state: State, notice: Announced) -> bool:
        """Whether the later record can be that of the reset which a notice announces."""
        new, old = self.new, self.old
        is_after = self.distance + self.left_out > 1 or new.before == sha256(noticed(old.whole, notice))
        return is_after and (new.voucher, not new.key, new.effect) == (state.voucher, state.is_closed, notice[1])


def compared(place: Place, earlier: bytes, later: Optional[bytes], epochs: Optional[tuple[int, int, int]]) -> str:
    """The result for the bytes of a later epoch. `epochs` has the earlier epoch, the epoch before of the later one, and the later one;
    None if the two are of different policies."""
    if later == earlier:
        return "same"
    if later is None:
        return "unvouched"
    if record_of(earlier) is None or record_of(later) is None:
        return "unknown" if record_of(earlier) is None else "unvouched"
    return Search(place, earlier, later, Epochs(*epochs) if epochs else Unlimited()).result()


def may_follow(place: Place, present: Optional[bytes], value: bytes, epoch: int) -> bool:
    """Whether bytes may be shown from an epoch on in the place of the present ones."""
    new = record_of(value)
    if new is None or value == present:
        return False
    is_signed = new.is_signed(place.policies, place.name)
    if present is None:
        return value[:8] == TAG and (new.number, new.before, new.effect) == (1, ZEROS, 0) and is_signed
    old, notice, asked = record_of(present), notice_of(present), notice_of(value)
    if old is None:
        return False
    if new.whole == old.whole:
        return asked is None or (old.notice > 0 and place.has_clock and asked[0] != old.voucher and asked[1] >= epoch + old.notice)
    if asked or not is_signed or new.number != old.number + 1:
        return False
    if not new.effect:
        return new.voucher == old.voucher and new.before == sha256(old.whole) and bool(old.key or not new.key)
    is_ripe = notice == (new.voucher, new.effect) and new.effect <= epoch and new.before == sha256(present)
    return is_ripe and old.notice > 0 and place.has_clock and new.voucher != old.voucher
