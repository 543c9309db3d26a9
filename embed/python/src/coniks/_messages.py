"""Replies and histories: the bytes that a provider's service sends to clients, made, and read by those who keep their parts.
docs/FORMATS.md defines them. Also what a client refuses, by cause."""

from __future__ import annotations

from dataclasses import dataclass
from typing import Any, Iterable, Iterator, Optional, Sequence, Tuple

from . import ENTRY_LENGTH, EvidenceKind, Status, _bytes, text
from ._formats import MAX_NAME, MAX_SIBLINGS, TEXTS, Cause, Misuse

VERSION = b"\x01"
NOT_SENT = 3

# The kind of a proof's end, and its bytes.
End = Tuple[int, bytes]


# What the caller of a client must not do.
MISUSES = {
    Misuse.NAME: f"a name has 1 to {MAX_NAME} bytes, not {{length}}",
    Misuse.EXPECTED_KEY: "an expected key has fewer than 2^32 bytes",
    Misuse.OTHER_WATCH: "this client watches another name or key: use `expect`, or make another client",
    Misuse.NOT_WATCHING: "no name is watched: call `watch` first",
    Misuse.CHANGE_OPEN: "another change is expected by epoch {last}: expect the next one after it",
    Misuse.SAME_KEY: "the new key is the one that is expected already",
    Misuse.NOT_LATER: "epoch {latest} is in the chain: expect the new key by a later one",
    Misuse.NO_ROOM: "the client's memory was changed during the call: use a client in one thread at a time",
    Misuse.NO_AUDITOR: "the trust document has no such auditor",
    Misuse.NOT_CONFIRMED: "no quorum of the auditors confirms this",
    Misuse.HAS_ENTRIES: "a client that has an entry can't start late",
    Misuse.NO_QUORUM: "at least one auditor vouches for an entry",
    Misuse.MANY_HEADS: "at most 64 auditors vouch for an entry",
    Misuse.NO_STATE: "a state has room for fewer than 2^32 epochs, changes, alarms and marks",
}


@dataclass(frozen=True)
class Evidence:
    """Two signed entries that convict the owner of the signing key, and why: `mine` is one that the client kept, or `other` itself
    if no chain has it."""

    mine: bytes
    other: bytes
    kind: EvidenceKind


class Refusal(Exception):
    """A client refuses what it was given, and keeps nothing of it. `cause` says why. `status` is C's status where there is one, and
    `evidence` what convicts the provider, if something does."""

    def __init__(self, cause: Cause, status: Optional[Status] = None, evidence: Optional[Evidence] = None):
        self.cause, self.evidence = Cause(cause), evidence
        self.status = Status(cause) if cause < Cause.NO_REPLY else status
        super().__init__(TEXTS[self.cause] if self.cause in TEXTS else text(self.cause))

    def __reduce__(self) -> tuple[type[Refusal], tuple[Any, ...]]:
        return type(self), (self.cause, self.status, self.evidence)


class Reader:
    """Bytes that are taken from the front on. What is cut has one cause at a time."""

    def __init__(self, whole: bytes, cut: Cause, at: int = 0):
        self.whole, self.cut, self.at = whole, cut, at

    def take(self, size: int) -> bytes:
        end = self.at + size
        if end > len(self.whole):
            raise Refusal(self.cut)
        taken, self.at = self.whole[self.at : end], end
        return taken

    def number(self, size: int) -> int:
        return int.from_bytes(self.take(size), "big")

    def sized(self, size: int) -> bytes:
        """Bytes after their number."""
        return self.take(self.number(size))

    @property
    def is_over(self) -> bool:
        return self.at == len(self.whole)


def begun(whole: bytes, empty: Cause, other: Cause, cut: Cause) -> Reader:
    """Checks the version that a message begins with. What it returns reads the rest, and raises `cut` where that ends early."""
    if not whole:
        raise Refusal(empty)
    if whole[:1] != VERSION:
        raise Refusal(other)
    return Reader(whole, cut, 1)


def sized(value: bytes, size: int) -> bytes:
    """Bytes after their number."""
    return len(value).to_bytes(size, "big") + value


@dataclass(frozen=True)
class Reply:
    """What a service sends for a name at one epoch: the entry, the VRF proof (empty without a VRF), and the proof's bytes."""

    entry: bytes
    vrf: bytes
    proof: bytes

    @classmethod
    def read(cls, whole: bytes) -> Reply:
        """Returns the parts of a reply, of which nothing is verified. Raises `Refusal`."""
        it = begun(_bytes(whole, "a reply"), Cause.NO_REPLY, Cause.REPLY_VERSION, Cause.CUT_IN_ENTRY)
        entry = it.take(ENTRY_LENGTH)
        it.cut = Cause.CUT_IN_VRF
        return cls(entry, it.sized(2), whole[it.at :])

    def __bytes__(self) -> bytes:
        return VERSION + self.entry + sized(self.vrf, 2) + self.proof


@dataclass(frozen=True)
class Step:
    """One proof of a history, in parts."""

    epoch: int
    end: End
    siblings: Sequence[bytes]

    @classmethod
    def of_proof(cls, epoch: int, proof: bytes) -> Step:
        count = int.from_bytes(proof[1:3], "big")
        return cls(epoch, (proof[0], proof[3 + 32 * count :]), [proof[at : at + 32] for at in range(3, 3 + 32 * count, 32)])

    @property
    def proof(self) -> bytes:
        """The proof's bytes."""
        kind, end = self.end
        return bytes([kind]) + len(self.siblings).to_bytes(2, "big") + b"".join(self.siblings) + end

    def after(self, before: Step) -> bytes:
        """The bytes of this step after another one."""
        sent = [k >= len(before.siblings) or it != before.siblings[k] for k, it in enumerate(self.siblings)]
        kind, end = (NOT_SENT, b"") if self.end == before.end else self.end
        parts = [self.epoch.to_bytes(8, "big"), bytes([kind]), len(sent).to_bytes(2, "big"), map_bytes(sent)]
        return b"".join([*parts, *(it for it, is_sent in zip(self.siblings, sent) if is_sent), end])


# What is before the first step. No end is of its kind.
NO_STEP = Step(0, (NOT_SENT, b""), ())


def map_bytes(sent: Sequence[bool]) -> bytes:
    """A bit for each sibling, the first in the most significant bit of the first byte."""
    size = (len(sent) + 7) // 8
    number = sum(1 << (8 * size - 1 - k) for k, is_sent in enumerate(sent) if is_sent)
    return number.to_bytes(size, "big")


def history_bytes(vrf: bytes, proofs: Iterable[tuple[int, bytes]]) -> bytes:
    """The history of the proofs of one name by their epochs, which rise."""
    made, before = [VERSION, sized(vrf, 2)], NO_STEP
    for epoch, proof in proofs:
        step = Step.of_proof(epoch, proof)
        made.append(step.after(before))
        before = step
    return b"".join(made)


@dataclass(frozen=True)
class History:
    """The proofs of one name at several epochs. The bytes of the steps are read one after another."""

    vrf: bytes
    rest: bytes

    @classmethod
    def read(cls, whole: bytes) -> History:
        """Returns the parts of a history. Raises `Refusal`, also for an error in a step."""
        it = begun(_bytes(whole, "a history"), Cause.NO_HISTORY, Cause.HISTORY_VERSION, Cause.CUT_IN_VRF)
        history = cls(it.sized(2), whole[it.at :])
        for _ in history.steps():
            pass
        return history

    def steps(self) -> Iterator[Step]:
        """The proofs in the order of their epochs."""
        it, step = Reader(self.rest, Cause.CUT_IN_STEP), NO_STEP
        while not it.is_over:
            step = read_step(it, step)
            yield step


def read_step(it: Reader, before: Step) -> Step:
    """The next step of a history."""
    epoch, kind, count = it.number(8), it.number(1), it.number(2)
    if epoch <= before.epoch:
        raise Refusal(Cause.EPOCH_ORDER)
    if kind > NOT_SENT or (kind == NOT_SENT and before is NO_STEP):
        raise Refusal(Cause.UNKNOWN_END)
    if count > MAX_SIBLINGS:
        raise Refusal(Cause.TOO_DEEP)
    siblings = read_siblings(it, count, before.siblings)
    return Step(epoch, before.end if kind == NOT_SENT else read_end(it, kind, before.end), siblings)


def read_siblings(it: Reader, count: int, before: Sequence[bytes]) -> list[bytes]:
    room = it.take((count + 7) // 8)
    sent = [bool(room[k // 8] >> (7 - k % 8) & 1) for k in range(count)]
    if map_bytes(sent) != room or not all(sent[len(before) :]):
        raise Refusal(Cause.SIBLING_MAP)
    fresh = [it.take(32) if is_sent else before[k] for k, is_sent in enumerate(sent)]
    if any(is_sent and fresh[k] == before[k] for k, is_sent in enumerate(sent[: len(before)])):
        raise Refusal(Cause.SIBLING_REPEATED)
    return fresh


def read_end(it: Reader, kind: int, before: End) -> End:
    start = it.at
    if kind == 1:
        it.take(64)
    if kind == 2:
        it.take(32)
        it.sized(2)
        it.sized(4)
    end = kind, it.whole[start : it.at]
    if end == before:
        raise Refusal(Cause.END_REPEATED)
    return end
