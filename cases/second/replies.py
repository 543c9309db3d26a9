"""Replies to clients, catch-ups and histories, from docs/FORMATS.md: read, and made."""

from __future__ import annotations

from typing import Iterable, Iterator, Optional, Sequence

from bytelists import bit, number
from members import Fault
from proofs import Proof

ENTRY = 209
KINDS = ["empty", "other", "here"]

# A proof without its siblings: the kind of its end, and the bytes of its end.
End = tuple[int, bytes]


class Reader:
    """Bytes that are taken from the front on."""

    def __init__(self, whole: bytes) -> None:
        self.whole, self.at = whole, 0

    def take(self, length: int, cut: str) -> bytes:
        """The next bytes, or the error of a list that ends before."""
        if len(self.whole) - self.at < length:
            raise Fault(cut)
        self.at += length
        return self.whole[self.at - length : self.at]

    def number(self, length: int, cut: str) -> int:
        return int.from_bytes(self.take(length, cut), "big")

    def sized(self, length: int, cut: str) -> bytes:
        """Bytes after their number."""
        return self.take(self.number(length, cut), cut)

    def rest(self) -> bytes:
        found, self.at = self.whole[self.at :], len(self.whole)
        return found

    def is_over(self) -> bool:
        return self.at == len(self.whole)


class ProofOfBytes(Proof):
    """A proof that is read from its bytes."""

    def __init__(self, whole: bytes) -> None:
        it = Reader(whole)
        kind = it.number(1, "NoBytes")
        if kind > 2:
            raise Fault("UnknownKind")
        self.kind, count = KINDS[kind], it.number(2, "CutInCount")
        self.siblings = [it.take(32, "CutInSiblings") for _ in range(count)]
        if self.kind == "other":
            self.index, self.commitment = it.take(32, "CutInOther"), it.take(32, "CutInOther")
        if self.kind == "here":
            self.opening = it.take(32, "CutInOpening")
            self.name, self.key = it.sized(2, "CutInName"), it.sized(4, "CutInKey")
        if not it.is_over():
            raise Fault("BytesFollow")


class Reply:
    """A reply, whose proof is not read."""

    def __init__(self, whole: bytes) -> None:
        it = Reader(whole)
        if it.number(1, "NoReply") != 1:
            raise Fault("ReplyVersion")
        self.entry = it.take(ENTRY, "CutInEntry")
        self.vrf, self.proof = it.sized(2, "CutInVrf"), it.rest()


def entries_of(catch_up: bytes) -> list[bytes]:
    if len(catch_up) % ENTRY:
        raise Fault("CatchUpLength")
    return [catch_up[at : at + ENTRY] for at in range(0, len(catch_up), ENTRY)]


class History:
    """A history: the VRF proof, and the epoch and the bytes of each proof."""

    def __init__(self, whole: bytes) -> None:
        it = Reader(whole)
        if it.number(1, "NoHistory") != 1:
            raise Fault("HistoryVersion")
        self.vrf = it.sized(2, "CutInVrf")
        self.steps = list(steps(it))


def steps(it: Reader) -> Iterator[tuple[int, bytes]]:
    epoch, siblings, end = 0, list[bytes](), (3, b"")
    while not it.is_over():
        later, kind, count = (it.number(length, "CutInStep") for length in (8, 1, 2))
        if later <= epoch:
            raise Fault("EpochOrder")
        if kind > 3 or (kind == 3 and epoch == 0):
            raise Fault("UnknownEnd")
        if count > 256:
            raise Fault("TooDeep")
        siblings, epoch = siblings_of(it, count, siblings), later
        end = end if kind == 3 else end_of(it, kind, end)
        yield epoch, number(end[0], 1) + number(count, 2) + b"".join(siblings) + end[1]


def siblings_of(it: Reader, count: int, before: Sequence[bytes]) -> list[bytes]:
    room = it.take((count + 7) // 8, "CutInStep")
    sent = [bit(room, k) == 1 for k in range(8 * len(room))]
    if any(sent[count:]) or not all(sent[len(before) : count]):
        raise Fault("SiblingMap")
    fresh = [it.take(32, "CutInStep") if sent[k] else b"" for k in range(count)]
    if any(sent[k] and fresh[k] == before[k] for k in range(min(count, len(before)))):
        raise Fault("SiblingRepeated")
    return [fresh[k] if sent[k] else before[k] for k in range(count)]


def end_of(it: Reader, kind: int, before: End) -> End:
    start = it.at
    if kind == 1:
        it.take(64, "CutInStep")
    if kind == 2:
        it.take(32, "CutInStep")
        it.sized(2, "CutInStep")
        it.sized(4, "CutInStep")
    end = kind, it.whole[start : it.at]
    if end == before:
        raise Fault("EndRepeated")
    return end


def reply(entry: bytes, vrf: bytes, proof: bytes) -> bytes:
    return b"\1" + entry + number(len(vrf), 2) + vrf + proof


def history(vrf: bytes, proofs: Iterable[tuple[int, bytes]]) -> bytes:
    made, before, last = [b"\1", number(len(vrf), 2), vrf], list[bytes](), None
    for epoch, proof in proofs:
        siblings, end = parts(proof)
        made.append(step(epoch, siblings, before, end, last))
        before, last = siblings, end
    return b"".join(made)


def parts(proof: bytes) -> tuple[list[bytes], End]:
    count = int.from_bytes(proof[1:3], "big")
    return [proof[3 + 32 * k : 35 + 32 * k] for k in range(count)], (proof[0], proof[3 + 32 * count :])


def step(epoch: int, siblings: list[bytes], before: list[bytes], end: End, last: Optional[End]) -> bytes:
    sent = [k >= len(before) or it != before[k] for k, it in enumerate(siblings)]
    places = "".join("01"[it] for it in sent).ljust((len(sent) + 7) // 8 * 8, "0")
    room = int(places or "0", 2).to_bytes(len(places) // 8, "big")
    kind, after = (3, b"") if end == last else end
    shown = [it for it, is_sent in zip(siblings, sent) if is_sent]
    return number(epoch, 8) + number(kind, 1) + number(len(siblings), 2) + room + b"".join(shown) + after
