"""States of version 03 in C: each is built here from the table of docs/STORED.md, and compared byte by byte."""

from __future__ import annotations

import ctypes
import hashlib
import struct
from typing import NamedTuple, Optional, Sequence

import pytest

pytest.importorskip("nacl.signing")

from core_client import EMPTY, LIBRARY, NOWHERE, STORED, Memory, Parts, bytes32, of, passed
from core_states import NO_ROOM, STATE_CHAIN, Read, size_of, written
from coniks import _core as raw

NO_STATE, LENGTH, VERSION, DAMAGED, POLICY, FORM = 143, 96, 97, 98, 99, 100
DIGEST, TRUST, NONE = bytes(range(32)), bytes(range(32, 64)), bytes(32)


@pytest.fixture(autouse=True)
def _library(embedded: None) -> None:
    """The library for C is built."""


def chain(numbers: Sequence[int], policy: bytes = DIGEST) -> list[bytes]:
    """Entries of these epochs, each with the link of the one before. The caller of C says whether a signature is valid."""
    entries: list[bytes] = []
    before = 0
    for epoch in numbers:
        link = hashlib.sha256(b"\x53" + entries[-1]).digest() if entries else NONE
        entries.append(struct.pack(">BQQ32s32s32s32s64s", 1, epoch, before, b"r" * 32, link, b"n" * 32, policy, b"s" * 64))
        before = epoch
    return entries


def stored_of(seen: Sequence[tuple[int, int]]) -> bytes:
    """Kept epochs, by their numbers and what was seen of them."""
    entries = chain([epoch for epoch, _ in seen])
    return b"".join(entry + struct.pack(">QB", 1000 + epoch, number) for entry, (epoch, number) in zip(entries, seen))


def sized(text: bytes) -> bytes:
    return struct.pack(">I", len(text)) + text


def body_of(parts: Parts) -> bytes:
    """The bytes between the policy digest and the digest."""
    body = struct.pack(">I", len(parts.stored) // STORED) + parts.stored
    body += struct.pack(">I", len(parts.alarms)) + b"".join(struct.pack(">QB", *it) for it in parts.alarms)
    body += parts.trust + struct.pack(f">I{len(parts.marks)}Q", len(parts.marks), *parts.marks)
    if parts.watch is None:
        return body + b"\0"
    name, since, key = parts.watch
    body += struct.pack(">BB", 1, len(name)) + name + struct.pack(">Q", since) + sized(key)
    return (
        body + struct.pack(">I", len(parts.changes)) + b"".join(struct.pack(">QQ", *it[:2]) + sized(it[2]) for it in parts.changes)
    )


def state_with(body: bytes, version: int = 3, policy: bytes = DIGEST) -> bytes:
    whole = bytes([version]) + policy + body
    return whole + hashlib.sha256(whole).digest()


# A client that watches alice from epoch 4 on, with alarms of dropped epochs, and what other clients have.
FULL = Parts(
    stored_of([(7, 5), (9, 1), (10, 3)]),
    (b"alice", 4, b"k"),
    [(7, 9, b"n"), (9, 12, b"")],
    [(4, 3), (5, 5), (2**64 - 1, 4)],
    TRUST,
    [0, 9, 2**64 - 1],
)
CLIENTS = [
    FULL,
    EMPTY,
    FULL._replace(alarms=[]),
    FULL._replace(marks=[]),
    FULL._replace(trust=NONE, marks=[]),
    FULL._replace(stored=b""),
    FULL._replace(changes=[]),
    EMPTY._replace(stored=stored_of([(1, 0), (2, 0)]), trust=TRUST, marks=[2]),
    EMPTY._replace(watch=(b"b" * 255, 0, b""), alarms=[(0, 5)]),
]


class Notice(NamedTuple):
    """What was read: the status, and the memory of the caller."""

    status: int
    memory: Read


def read(state: bytes, parts: Parts, verdicts: Optional[Sequence[int]] = None, short: tuple[int, int, int] = (0, 0, 0)) -> Notice:
    """Reads a state into room for these parts, but for so few places, as a client of their trust and number of marks."""
    count = len(parts.stored) // STORED
    rooms = (count - short[0], len(parts.changes) - short[1], len(parts.alarms) - short[2])
    memory = Read(rules(), parts.trust, len(parts.marks), rooms)
    return Notice(memory.read(state, [1] * count if verdicts is None else verdicts), memory)


def rules() -> raw.Rules:
    return raw.Rules(bytes32(DIGEST))


def needs(state: bytes) -> tuple[int, raw.StateNeeds]:
    found = raw.StateNeeds(NOWHERE, NOWHERE, NOWHERE, NOWHERE, NOWHERE)
    return int(LIBRARY.coniks_core_state_needs(raw.Core(rules()), *passed(state), of(found))), found


def refused(state: bytes, status: int) -> None:
    """Both calls refuse a state, and write nothing."""
    found = needs(state)
    assert (found[0], bytes(found[1])) == (status, b"\xff" * ctypes.sizeof(raw.StateNeeds)), (status, found[0])
    assert read(state, FULL).status == status


@pytest.mark.parametrize("parts", CLIENTS)
def test_written_and_read(parts: Parts) -> None:
    """The bytes are those of the table, and what is read of them is what was written."""
    state, memory = state_with(body_of(parts)), Memory(rules(), parts)
    size = 110 + len(parts.stored) + 9 * len(parts.alarms) + 8 * len(parts.marks)
    if parts.watch is not None:
        size += 17 + len(parts.watch[0]) + len(parts.watch[2]) + sum(20 + len(key) for _, _, key in parts.changes)
    assert len(state) == size and size_of(memory) == (0, size)
    assert written(memory, size) == (0, size, state + b"\xa5" * 9)
    assert written(memory, size - 1) == (NO_ROOM, NOWHERE, b"\xa5" * (size + 8))
    status, found = needs(state)
    assert status == 0 and (found.stored, found.changes, found.alarms) == (
        len(parts.stored) // STORED,
        len(parts.changes),
        len(parts.alarms),
    )
    assert (found.entry_start, found.entry_step) == (37, STORED)
    reported = read(state, parts)
    assert reported.status == 0 and reported.memory.parts() == parts


def test_marks_of_others() -> None:
    """A client of another trust document, or with another number of auditors, begins with marks of 0."""
    state = state_with(body_of(FULL))
    for mine in [
        FULL._replace(trust=NONE),
        FULL._replace(marks=[1, 2]),
        FULL._replace(marks=[1, 2, 3, 4]),
        FULL._replace(marks=[]),
    ]:
        reported = read(state, mine)
        assert reported.status == 0 and reported.memory.parts() == mine._replace(marks=[0] * len(mine.marks))


def test_rooms_and_verdicts() -> None:
    """No room comes before a signature that is not valid."""
    state = state_with(body_of(FULL))
    for short in [(1, 0, 0), (0, 1, 0), (0, 0, 1)]:
        assert read(state, FULL, short=short).status == NO_ROOM
        assert read(state, FULL, [1, 0, 1], short).status == NO_ROOM
    for verdicts in [(), (1, 1), (1, 0, 1), (1, 1, 2)]:
        assert read(state, FULL, [*verdicts]).status == STATE_CHAIN
    assert read(state, FULL, [1, 1, 1, 0]).status == 0


def test_errors_in_their_order() -> None:
    body = body_of(FULL)
    state = state_with(body)
    for length in range(110):
        refused(state[:length], LENGTH)
    refused(b"\2" + bytes(109), VERSION)
    refused(state_with(body, 2), VERSION)
    refused(state_with(body, 4, bytes(32)), VERSION)
    for place in range(1, len(state)):
        refused(state[:place] + bytes([state[place] ^ 1]) + state[place + 1 :], DAMAGED)
    refused(state_with(body, 3, bytes(32)), POLICY)
    refused(state_with(body + b"\0", 3, bytes(32)), POLICY)
    refused(state_with(body + b"\0"), FORM)
    for length in range(110 - 65, len(body)):
        refused(state_with(body[:length]), FORM)
    other = FULL._replace(stored=stored_of([(7, 5)]) + stored_of([(9, 1), (10, 3)]))
    assert read(state_with(body_of(other)), FULL).status == STATE_CHAIN


@pytest.mark.parametrize("seen", range(256))
def test_numbers_of_alarms(seen: int) -> None:
    """An alarm has the number 3, 4 or 5."""
    state = state_with(body_of(FULL._replace(alarms=[(4, 3), (5, seen), (6, 4)])))
    if seen in (3, 4, 5):
        assert read(state, FULL).status == 0
    else:
        refused(state, FORM)


def test_forms_of_alarms() -> None:
    """An alarm is of a watched epoch."""
    for alarms in [[(3, 3)], [(4, 3), (0, 5)], [(3, 4), (4, 3)]]:
        refused(state_with(body_of(FULL._replace(alarms=alarms))), FORM)
    unwatched = EMPTY._replace(stored=stored_of([(1, 0)]))
    assert read(state_with(body_of(unwatched)), FULL).status == 0
    refused(state_with(body_of(unwatched._replace(alarms=[(1, 3)]))), FORM)


def test_counts_that_are_too_great() -> None:
    """A number of parts for which there are no bytes."""
    body = body_of(FULL)
    for place in (0, 4 + len(FULL.stored), 4 + len(FULL.stored) + 4 + 9 * len(FULL.alarms) + 32):
        for count in (4, 2**16, 2**31, 2**32 - 1):
            refused(state_with(body[:place] + struct.pack(">I", count) + body[place + 4 :]), FORM)


def test_no_state() -> None:
    """A name that is too short or too long has no state."""
    for name in (b"", b"a" * 256):
        memory = Memory(rules(), FULL._replace(watch=(name, 4, b"k")))
        assert size_of(memory) == (NO_STATE, NOWHERE)
        assert written(memory, 4096)[:2] == (NO_STATE, NOWHERE)
