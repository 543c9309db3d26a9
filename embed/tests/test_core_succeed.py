"""The core's call that goes on in another directory: what its caller must not do, and numbers that no succession has."""

from __future__ import annotations

import ctypes
from dataclasses import replace
from typing import Any, Iterator, Optional

import pytest

pytest.importorskip("nacl.signing")

from client import LARGEST, Change, Client, StoredEntry, Watch
from client_successions import ENDED, GOING, NEXT, NEXT_KEY, OLD, TEXT
from chain import Entry
from client_world import SIGNING_KEY, VRF_KEY, hour
from coniks import _core as raw
from core_client import LIBRARY, SIZE, Memory, of, parts_of, rules_of, sized, struct_of
from successions import Succession

GOOD, NO_ROOM, HAS_ENTRIES = 0, 137, 140
SUCCESSION = Succession.read(TEXT.encode())
UNUSED = raw.Change(7, 7, None, 0)


@pytest.fixture(autouse=True)
def _built(embedded: None) -> Iterator[None]:
    yield


def ended(watch: Optional[Watch] = None) -> Client:
    client = Client(SIGNING_KEY, VRF_KEY, OLD.encode())
    client.feed(ENDED.entries(1, 2, 3, 5, 6), hour(6))
    client.watched = watch
    return client


def following() -> Client:
    return Client(NEXT_KEY, VRF_KEY, NEXT.encode())


def made(stored: int = 1, changes: int = 1) -> Memory:
    """A client that has seen nothing, in memory whose room has other bytes."""
    memory = Memory(rules_of(following()), parts_of(following()), stored=stored, changes=changes)
    ctypes.memset(memory.core.stored.items, 7, stored * ctypes.sizeof(raw.StoredEntry))
    for at in range(changes):
        memory.core.changes.items[at] = UNUSED
    return memory


def succeeded(client: Client, memory: Memory, entry: bytes = GOING[4], is_valid: int = 1, **verdict: Any) -> tuple[int, int]:
    """The status of the call, and the place that it writes."""
    old, place = Memory(rules_of(client), parts_of(client)), SIZE(77)
    given = verdict.get("given") or struct_of(SUCCESSION, verdict.get("is_signed", 1))
    received = raw.Received(*sized(entry), is_valid, hour(6))
    status = LIBRARY.coniks_core_succeed(old.core, given, received, of(memory.core), of(place))
    return status, place.value


def test_misuses_come_first_and_write_nothing() -> None:
    wrong = struct_of(replace(SUCCESSION, policy=bytes(32)), 0)
    for wanted, count, stored, changes in [
        (HAS_ENTRIES, 1, 1, 1),
        (HAS_ENTRIES, 1, 0, 0),
        (HAS_ENTRIES, 2**64 - 1, 1, 1),
        (NO_ROOM, 0, 0, 1),
        (NO_ROOM, 0, 1, 0),
        (88, 0, 1, 1),
    ]:
        memory = made(stored, changes)
        memory.core.stored.count = count
        before = memory.whole()
        assert succeeded(ended(), memory, b"", 0, given=wrong) == (wanted, 77), (wanted, count, stored, changes)
        assert memory.whole() == before, "after an error nothing is written"


def test_verdicts_are_1() -> None:
    """Any other number says that a signature is not valid."""
    for is_signed, is_valid, wanted in [(0, 1, 89), (2, 1, 89), (2**32 - 1, 1, 89), (1, 0, 40), (1, 2, 40), (1, 1, GOOD)]:
        assert succeeded(ended(), made(), is_valid=is_valid, is_signed=is_signed)[0] == wanted, (is_signed, is_valid)


def test_what_is_written() -> None:
    """The first epoch, one change at most, and the watch: nothing in the room behind them."""
    open_change = Watch(b"alice", 1, b"A", (Change(1, 2, b"X"), Change(2, 9, b"B")))
    for watch in [None, Watch(b"alice", 1, b"A"), open_change]:
        client, memory, wanted = ended(watch), made(3, 3), following()
        assert succeeded(client, memory) == (GOOD, 3), "the place of epoch 5"
        wanted.watched = watch and watch.carried(5, 4)
        wanted.stored = [StoredEntry(Entry(GOING[4]), hour(6), 5 if watch else 0)]
        assert memory.parts() == parts_of(wanted), watch
        _, stored, changes, *_ = memory.whole()
        assert stored[218:] == b"\7" * 2 * 218 and changes[len(bytes(UNUSED)) :] == bytes(UNUSED) * 2
        if watch is not open_change:
            assert changes == bytes(UNUSED) * 3, "no change goes on"


def test_counts_beyond_the_room() -> None:
    """Of the client before as many items are read as there is room for."""
    client, memory, place = ended(Watch(b"alice", 1, b"A", (Change(2, 9, b"B"),))), made(), SIZE(77)
    old = Memory(rules_of(client), parts_of(client))
    old.core.stored.count, old.core.changes.count = 2**64 - 1, 2**64 - 1
    received = raw.Received(*sized(GOING[4]), 1, hour(6))
    status = LIBRARY.coniks_core_succeed(old.core, struct_of(SUCCESSION, 1), received, of(memory.core), of(place))
    assert (status, place.value) == (GOOD, 3) and memory.parts().changes == [(3, 8, b"B")]


def test_numbers_that_no_succession_has() -> None:
    """Epoch 0 is none of a chain, and the last number there is can be looked for."""
    for last, first, wanted in [(0, 4, 83), (LARGEST, 4, 83), (5, 0, 92), (5, LARGEST, 92)]:
        given = struct_of(replace(SUCCESSION, last=(last, SUCCESSION.last[1]), first=(first, SUCCESSION.first[1])), 1)
        assert succeeded(ended(), made(), given=given) == (wanted, 77), (last, first)
