"""The memory of a client, which the core writes: it grows with what is kept, and the keys in it stay."""

from __future__ import annotations

import gc

import pytest

pytest.importorskip("nacl.signing")

import case_runner
import client as second
from case_runner import Answer
from client import plain
from client_attacks import WORLD
from client_world import PERIOD, SIGNING_KEY, VRF_KEY, World, digest, hour, policy_text
from made import THREE, made, raised
import coniks
from coniks.client import Refusal

EPOCHS = 40


def long_case() -> Answer:
    """An owner who changes the key at each epoch, and sees each third epoch. The others are lost, and dropped at once."""
    keys = [b"key %d" % it for it in range(EPOCHS + 2)]
    policy = policy_text(stored=PERIOD)
    world = World([(it, {"alice": keys[it]}) for it in range(1, EPOCHS + 1)], policy=digest(policy))
    name, steps = b"alice".hex(), list[Answer]()
    for it in range(1, EPOCHS + 1):
        steps += [{"do": "feed", "entries": [world[it].hex()]}, {"do": "watch", "name": name, "key": keys[1].hex(), "since": 1}]
        steps += [{"do": "expect", "key": keys[it + 1].hex(), "by": it + 1}]
        if it % 3 == 0:
            steps += [{"do": "lookup", "name": name, "reply": world.reply("alice", it).hex(), "epoch": it}]
    steps += [{"do": it} for it in ("lost", "missing", "report", "head")]
    steps += [{"do": "cover", "epoch": it, "link": world.link(it).hex()} for it in (EPOCHS // 2, EPOCHS)]
    steps += [{"do": it} for it in ("alarms", "lost", "missing", "report")] + [{"do": "note", "epoch": 9}]
    keys_of: Answer = {"signing_key": SIGNING_KEY.hex(), "vrf_key": VRF_KEY.hex(), "policy": policy}
    return {**keys_of, "now": hour(EPOCHS), "steps": steps}


def test_long_case() -> None:
    case = long_case()
    found = case_runner.verdicts(case)
    assert found == second.verdicts(case)
    alarms = found["steps"][-5]["alarms"]
    assert len(alarms) > EPOCHS // 2 and plain(found)["steps"][-1]["alarms"] == [it for it in alarms if it[0] > 9]


def test_room_is_doubled() -> None:
    """So that a long catch-up is not copied again for each of its entries."""
    world, client, rooms = World([(it, {}) for it in range(1, EPOCHS + 1)], policy=digest()), made(fed=False), set[int]()
    for entry in world.entries():
        client.feed([entry])
        rooms.add(client._memory.stored.room)
    assert rooms == {1, 2, 4, 8, 16, 32, 64}


def key_of(byte: int) -> bytes:
    """A key that nobody else holds."""
    return bytes([byte]) * 5000


def trodden() -> None:
    """Takes the memory that others have let go, and writes over it."""
    gc.collect()
    for size in (5000, 5033):
        assert len([b"\xff" * size for _ in range(2000)]) == 2000


def test_keys_stay() -> None:
    client = made(fed=False)
    client.watch(key_of(97)[:200].decode(), key_of(1))
    for byte, entry in enumerate(THREE, 2):
        client.feed([entry])
        client.expect(key_of(byte), by=int.from_bytes(entry[1:9], "big") + 1)
    trodden()
    state = client.state
    assert all(state.count(key_of(it)) == 1 for it in (1, 2, 3, 4)) and state.count(key_of(97)[:200]) == 1
    client.cover(coniks.Head(1, WORLD.link(1)))
    trodden()
    assert client.state == state, "what is missing stays"
    again = made(bytes(bytearray(state)))
    trodden()
    assert again.state == state, "those of a state"
    again.feed([WORLD[5]])
    again.expect(key_of(5), by=9)
    trodden()
    assert again.state.count(key_of(5)) == again.state.count(key_of(1)) == 1 and made(again.state).state == again.state


def test_dropped_keys_stay() -> None:
    """The key of the last dropped change is the first key then."""
    keys = {it: key_of(it) for it in (1, 2, 3)}
    world = World([(it, {"alice": key}) for it, key in keys.items()], policy=digest())
    client = made(fed=False)
    client.watch("alice", key_of(1), 1)
    for it in keys:
        client.feed([world[it]])
        client.lookup("alice", world.reply("alice", it), it)
        client.expect(key_of(it + 1), by=it + 1)
    client.cover(coniks.Head(3, world.link(3)))
    assert [it.epoch for it in client.feed([])] == [] and len(client.entries) == 1
    raised(lambda: client.expect(key_of(8), by=9))
    trodden()
    assert client.state.count(key_of(3)) == client.state.count(key_of(4)) == 1
    client.watch("alice", key_of(3))
    assert raised(lambda: client.watch("alice", key_of(1))) is ValueError


def test_refused_keys_go() -> None:
    """What is not expected after all takes no memory."""
    client = made()
    client.watch("alice", b"key of alice")
    for byte in range(100):
        assert raised(lambda: client.expect(key_of(byte), by=1)) is ValueError
        client.watch("alice", b"key of alice")
    assert sum(len(it) for it in client._memory._texts.values()) < 2 * 5000


def test_keys_of_histories() -> None:
    """A key that a history repeats is one object."""
    world = World([(1, {"alice": key_of(1)}), (2, {}), (3, {"alice": key_of(2)})], policy=digest())
    client = made(fed=False)
    client.feed(world.entries())
    found = client.history("alice", world.history("alice", 1, 2, 3))
    assert [it.key for it in found] == [key_of(1), key_of(1), key_of(2)] and found[0].key is found[1].key
    absent = client.history("dave", world.history("dave", 1, 2, 3))
    assert [it.key for it in absent] == [None] * 3


def test_refusal_keeps_room() -> None:
    """Entries that are refused leave nothing in the room that was made for them."""
    client = made()
    state = client.state
    for _ in range(50):
        with pytest.raises(Refusal):
            client.feed([THREE[2]])
    assert client.state == state and client.entries == THREE
