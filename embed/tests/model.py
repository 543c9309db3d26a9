"""Calls of every export of the C library with their results, by cases/second, which shares nothing with the library."""

from __future__ import annotations

import struct
from random import Random
from typing import Any, Callable, Optional, Sequence, cast

import bytelists
import chain
import evidence
import samples
from members import Fault
from proofs import judge

CHECK = ["TooDeep", "NameLength", "KeyLength", "WrongName", "OtherIsSame", "OtherOffPath", "RootMismatch"]
AUDIT = ["Version", "VersionBack", "FirstEpoch", "NotLater", "PreviousEpoch", "PreviousLink", "NonceChanged", "Verdict"]
STATUSES = {name: 2 + it for it, name in enumerate(CHECK)} | {name: 33 + it for it, name in enumerate(AUDIT)}
STATE, BODY, FILL = "=Q32s32sB7s", "=QQ32s32s32s32sB7s", b"\xa5"
KEY = bytes(32)
VERSION = 10000

# A call: the number of the export, then its arguments. An answer: the status, then what is written.
Call = tuple[Any, ...]
Answer = tuple[Any, ...]


def texts() -> dict[int, bytes]:
    numbers = samples.statuses()
    return {numbers[name]: it.encode() for name, it in samples.texts().items()}


TEXTS = texts()


class Shown:
    """A proof of bytes that are one."""

    def __init__(self, proof: bytes) -> None:
        self.kind = ["empty", "other", "here"][proof[0]]
        end = 3 + 32 * int.from_bytes(proof[1:3], "big")
        self.siblings = [proof[it : it + 32] for it in range(3, end, 32)]
        rest = proof[end:]
        self.index, self.commitment, self.opening = rest[:32], rest[32:64], rest[:32]
        size = int.from_bytes(rest[32:34], "big")
        self.name, self.key = rest[34 : 34 + size], rest[38 + size :]


class Before:
    """What an auditor keeps of an entry."""

    def __init__(self, state: bytes) -> None:
        self.epoch, self.link, self.nonce, self.version, _ = struct.unpack(STATE, state)


def audited(state: bytes, whole: bytes, verdict: int) -> bytes:
    """The state after an entry of 209 bytes; raises its first fault."""
    entry, before = chain.Entry(whole), Before(state)
    entry.signature = bytelists.demonstration_seal(KEY, entry.body) if verdict == 1 else b""
    chain.audit(entry, cast(Any, before) if before.epoch else None, KEY)
    return struct.pack(STATE, entry.epoch, bytelists.link(whole), entry.nonce, entry.version, bytes(7))


def check(_: int, nonce: bytes, root: bytes, index: bytes, name: bytes, proof: bytes, start: bytes, length: bytes) -> Answer:
    status = samples.wire_status(proof)
    if status:
        return status, start, length
    try:
        key = judge(cast(Any, Shown(proof)), index, name, nonce, root)
    except Fault as fault:
        return STATUSES[str(fault.answer["fault"])], start, length
    if key is None:
        return 1, start, length
    return 0, struct.pack("=Q", len(proof) - len(key)), struct.pack("=Q", len(key))


def begin(_: int, state: bytes) -> Answer:
    return 0, bytes(80)


def feed(verdict: int, state: bytes, entry: bytes) -> Answer:
    if len(entry) != 209:
        return 48, state
    try:
        return 0, audited(state, entry, verdict)
    except Fault as fault:
        return STATUSES[str(fault.answer["fault"])], state


def head(_: int, state: bytes, epoch: bytes, link: bytes) -> Answer:
    before = Before(state)
    return (0, state[:8], before.link) if before.epoch else (49, epoch, link)


def step(verdict: int, state: bytes, index: bytes, name: bytes, expected: bytes, entry: bytes, proof: bytes) -> Answer:
    if len(entry) != 209:
        return 48, state
    status = samples.wire_status(proof)
    if status:
        return status, state
    try:
        after, it = audited(state, entry, verdict), chain.Entry(entry)
        key = judge(cast(Any, Shown(proof)), index, name, it.nonce, it.root)
    except Fault as fault:
        return STATUSES[str(fault.answer["fault"])], state
    return (0 if key == (expected or None) else 1 if key is None else 9), after


def entry_body(_: int, entry: bytes, body: bytes) -> Answer:
    if len(entry) != 209:
        return 48, body
    it = chain.Entry(entry)
    return 0, struct.pack(
        BODY, it.epoch, it.epoch_before, it.root, it.previous_link, it.nonce, entry[113:145], it.version, bytes(7)
    )


def body_bytes(_: int, body: bytes, __: bytes) -> Answer:
    epoch, before, root, link, nonce, policy, version, _ = struct.unpack(BODY, body)
    return 0, bytes([version]) + epoch.to_bytes(8, "big") + before.to_bytes(8, "big") + root + link + nonce + policy


def link(_: int, entry: bytes, place: bytes) -> Answer:
    return (0, bytelists.link(entry)) if len(entry) == 209 else (48, place)


def convicts(_: int, a: bytes, b: bytes, kind: bytes) -> Answer:
    if len(a) != 209 or len(b) != 209:
        return 48, kind
    found = evidence.kind(a, b)
    return (0, struct.pack("=I", 1 + evidence.KINDS.index(found))) if found else (50, kind)


def text(status: int, place: bytes) -> Answer:
    whole = TEXTS.get(status, b"")
    return len(whole), (whole[: len(place) - 1] + b"\0" + place[len(whole) + 1 :] if place else b"")


def version(_: int) -> Answer:
    return (VERSION,)


CALLS: list[Callable[..., Answer]] = [check, begin, feed, head, step, entry_body, body_bytes, link, text, version, convicts]


def some_state(chance: Random) -> bytes:
    epoch = chance.choice([0, 0, 1, 7, 2**32, 2**64 - 2, 2**64 - 1])
    return struct.pack(
        STATE, epoch, chance.randbytes(32), chance.randbytes(32), chance.choice([0, 1, 1, 2, 2, 3]), chance.randbytes(7)
    )


def some_entry(chance: Random, state: bytes, root: bytes, nonce: bytes) -> bytes:
    """An entry that follows the state, or nearly so."""
    before = Before(state)
    epoch = chance.choice([min(before.epoch + chance.choice([1, 1, 1, 5]), 2**64 - 1), before.epoch, chance.getrandbits(64)])
    made = bytearray([chance.choice([1, 2, 2, 2])]) + epoch.to_bytes(8, "big") + before.epoch.to_bytes(8, "big") + root
    made += (before.link if before.epoch else bytes(32)) + nonce + chance.randbytes(96)
    how = chance.randrange(8)
    if how == 0:
        made[chance.randrange(len(made))] ^= 1 << chance.randrange(8)
    elif how == 1:
        made[chance.choice([0, 1, 9, 49, 81])] ^= chance.choice([1, 2, 3, 128])
    elif how == 2 and chance.randrange(2):
        made = made[: chance.randrange(209)] if chance.randrange(2) else made + bytes(chance.randrange(1, 40))
    return bytes(made)


def some_second(chance: Random, entry: bytes) -> bytes:
    """An entry that is like another one, or nearly so."""
    made = bytearray(entry)
    for _ in range(chance.randrange(3) if made else 0):
        place = chance.choice([0, 8, 16, 48, 112, 144, 208, chance.randrange(209)])
        if place < len(made):
            made[place] = (made[place] + chance.choice([1, 1, 2, 255])) % 256
    return bytes(made if chance.randrange(8) else made[:-1])


def some_call(chance: Random, lines: Sequence[samples.Line]) -> Call:
    """A call's number, its number and its arguments."""
    call = chance.choice([0, 0, 0, 2, 2, 4, 4, 4, 4, *range(11)])
    given, name, proof = samples.mutated(chance, chance.choice(lines))
    state, verdict = some_state(chance), chance.choice([1, 1, 1, 1, 1, 1, 0, 2, 2**32 - 1])
    if chance.randrange(2):
        state = state[:40] + given["nonce"] + state[72:]
    entry = some_entry(
        chance, state, given["root"], chance.choice([given["nonce"], given["nonce"], given["nonce"], chance.randbytes(32)])
    )
    key = Shown(proof).key if samples.wire_status(proof) is None and proof[0] == 2 else b""
    expected = chance.choice([b"", key, key, b"another key"])
    return (
        call,
        *[
            (0, given["nonce"], given["root"], given["index"], name, proof, FILL * 8, FILL * 8),
            (0, chance.randbytes(80)),
            (verdict, state, entry),
            (0, state, FILL * 8, FILL * 32),
            (verdict, state, given["index"], name, expected, entry, proof),
            (0, entry, FILL * 152),
            (0, chance.randbytes(152), FILL * 145),
            (0, entry, FILL * 32),
            (
                chance.choice([chance.randrange(60), chance.getrandbits(32)]),
                FILL * chance.choice([0, 1, 2, chance.randrange(80), 128]),
            ),
            (0,),
            (0, entry, some_second(chance, entry), FILL * 4),
        ][call],
    )


def record(call: int, number: int, *arguments: bytes) -> bytes:
    return bytes([call]) + number.to_bytes(4, "big") + b"".join(len(it).to_bytes(4, "big") + it for it in arguments)


def answer(call: int, number: int, *arguments: bytes) -> str:
    """What the driver prints of a call, twice: once for each place of the arguments."""
    status, *written = CALLS[call](number, *arguments)
    return " ".join([str(status)] + [it.hex() for it in written])
