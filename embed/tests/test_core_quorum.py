"""The core's calls on auditors, beside the second implementation and numbers that are worked out here."""

from __future__ import annotations

import ctypes
import random
from dataclasses import replace
from typing import Any, Iterator, Optional, Sequence

import pytest

pytest.importorskip("nacl.signing")

import client as second
import core_client as core
from client import Alarm, Client, Trust
from bytelists import number, sha256
from client_world import BATCHES, POLICY, SIGNING_KEY, VRF_KEY, World, hour
from core_client import EMPTY, LIBRARY, SIZE, STORED, U32, U64, Memory, bytes32, of, parts_of, passed, sized
from core_states import size_of, written
from members import Fault
from policy import Policy
from coniks import _core as raw

WORLD, FORK = World(BATCHES), World(BATCHES, rotated=2)
OTHER = sha256(b"the link of another chain")
GOOD, NO_REPLY, NO_HISTORY, NAME = 0, 64, 69, 130
NOT_WATCHING, NO_ROOM, NO_AUDITOR, NOT_CONFIRMED, HAS_ENTRIES, NO_QUORUM, MANY_HEADS = 133, 137, 138, 139, 140, 141, 142

# An auditor's head: its epoch and its link.
Head = tuple[int, bytes]


LIBRARY.coniks_core_quorum.function.restype = SIZE


@pytest.fixture(autouse=True)
def _built(embedded: None) -> Iterator[None]:
    yield


def memory_of(client: Client, marks: Sequence[int], quorum: int = 1) -> Memory:
    """The memory of a client with these marks."""
    return Memory(raw.Rules(quorum=quorum), parts_of(client)._replace(marks=[*marks]))


def confirmed(marks: Sequence[int], quorum: int) -> Optional[int]:
    """The epoch that a quorum of marks reaches: the mark of this rank."""
    if not 0 < quorum <= len(marks):
        return None
    return sorted(marks, reverse=True)[quorum - 1] or None


def client_with(*epochs: int) -> Client:
    client = Client(SIGNING_KEY, VRF_KEY, POLICY.encode())
    for epoch in epochs:
        client.feed([WORLD[epoch]], hour(epoch))
    return client


def test_quorum() -> None:
    """The least number of auditors for which any two such sets share more than `faulty`, if three times `faulty` are fewer."""
    for auditors in range(130):
        for faulty in range(45):
            least = next(it for it in range(200) if 2 * it - auditors > faulty)
            wanted = least if 3 * faulty < auditors else 0
            assert LIBRARY.coniks_core_quorum(SIZE(auditors), SIZE(faulty)) == wanted, (auditors, faulty)
    most = 2**64 - 1
    for auditors, faulty in [(2**32, 0), (most, 1), (1, most), (most, most), (4, most // 3 + 1)]:
        assert LIBRARY.coniks_core_quorum(SIZE(auditors), SIZE(faulty)) == 0, (auditors, faulty)
    assert LIBRARY.coniks_core_quorum(SIZE(2**32 - 1), SIZE(0)) == 2**31


def test_confirmed() -> None:
    chance = random.Random(1)
    for _ in range(3000):
        marks = [chance.choice([0, 1, 2, 5, 7, 2**64 - 1]) for _ in range(chance.randrange(6))]
        quorum, epoch = chance.randrange(7), U64(77)
        memory = Memory(raw.Rules(quorum=quorum), EMPTY._replace(marks=marks))
        status = LIBRARY.coniks_core_confirmed(memory.core, of(epoch))
        wanted = confirmed(marks, quorum)
        assert (status, epoch.value) == ((NOT_CONFIRMED, 77) if wanted is None else (GOOD, wanted)), (marks, quorum)


def test_mark() -> None:
    """A mark is raised if a head is equal, and never falls."""
    client = client_with(1, 2, 3, 5)
    for epoch in range(8):
        for link in [WORLD.link(epoch) if epoch in WORLD.epochs else OTHER, OTHER]:
            wanted = client.compare(epoch, link)["compare"]
            for place in range(4):
                memory = memory_of(client, [0, 4, 9])
                reported = LIBRARY.coniks_core_mark(of(memory.core), SIZE(place), U64(epoch), link)
                raised = [max(it, epoch) if wanted == "equal" and at == place else it for at, it in enumerate([0, 4, 9])]
                assert memory.parts().marks == raised, (epoch, place, reported)
                assert reported == NO_AUDITOR if place == 3 else core.COMPARED[reported] == wanted, (epoch, place, reported)


def test_relied() -> None:
    client, epochs = client_with(1, 2, 3, 5), [1, 2, 3, 5]
    for marks in list[Sequence[int]]([[], [0, 0, 0], [3, 3, 3], [5, 2, 2], [5, 5, 1]]):
        for quorum in range(4):
            top, memory = confirmed(marks, quorum), memory_of(client, marks, quorum)
            for place in range(6):
                reported = LIBRARY.coniks_core_relied(memory.core, SIZE(place))
                wanted = second.NUMBERS["UnknownEpoch"] if place > 3 else GOOD if top and epochs[place] <= top else NOT_CONFIRMED
                assert reported == wanted, (marks, quorum, place)


def started(
    entry: bytes,
    heads: Sequence[Optional[Head]],
    quorum: int,
    is_valid: bool = True,
    room: int = 1,
    count: int = 0,
    watch: Optional[tuple[bytes, int, bytes]] = None,
) -> tuple[int, bytes, int, raw.Why]:
    """A start: its status, what is kept, the number of stored epochs, and why it was refused."""
    signed_heads = (raw.Head * len(heads))(*(raw.Head(1, it[0], bytes32(it[1])) if it else raw.Head(2, 9) for it in heads))
    rules = raw.Rules(bytes32(Policy.read(POLICY.encode()).digest), quorum=quorum)
    memory, why = Memory(rules, EMPTY._replace(watch=watch), stored=room), raw.Why(7, 7, 7)
    stored, received = memory.core.stored, raw.Received(*sized(entry), is_valid, hour(6))
    ctypes.memset(stored.items, 7, room * STORED)
    stored.count = count
    status = LIBRARY.coniks_core_start(of(memory.core), signed_heads, SIZE(len(heads)), received, of(why))
    return status, ctypes.string_at(stored.items, room * STORED), stored.count, why


def test_start() -> None:
    """Random heads: the core begins exactly when the second implementation does."""
    chance, statuses = random.Random(2), set[int]()
    for _ in range(1500):
        epoch = chance.choice([1, 3, 6])
        choices: list[Optional[Head]] = [*[(epoch, WORLD.link(epoch))] * 6, (2, WORLD.link(2)), (4, OTHER), None]
        heads = [chance.choice([*choices, *[(epoch, OTHER)] * (chance.random() < 0.3)]) for _ in range(chance.randrange(8))]
        quorum, client = chance.randrange(1, 6), client_with()
        status, stored, count, why = started(WORLD[epoch], heads, quorum)
        statuses.add(status)
        try:
            client.begin_with(WORLD[epoch], [it for it in heads if it], quorum, hour(6))
        except Fault as fault:
            assert status == second.NUMBERS[str(fault.answer["fault"])] and (stored, count) == (b"\7" * STORED, 0), heads
            first = next((at for at, it in enumerate(heads) if it == (epoch, OTHER)), 0)
            assert (why.status, why.kind, why.mine) == (0, 0, first), heads
        else:
            assert (status, count, stored) == (GOOD, 1, WORLD[epoch] + number(hour(6), 8) + b"\0"), heads
            assert (why.status, why.kind, why.mine) == (7, 7, 7), heads
    assert statuses == {GOOD, 104, 105}


def test_start_is_refused_in_this_order() -> None:
    entry, head = WORLD[3], (3, WORLD.link(3))
    foreign = World(BATCHES, policy=sha256(b"another policy"))[3]
    for status, calls in [
        (HAS_ENTRIES, started(entry, [head] * 65, 0, False, room=1, count=1)),
        (NO_QUORUM, started(b"", [head] * 65, 0, False, room=0)),
        (MANY_HEADS, started(b"", [head] * 65, 1, False, room=0)),
        (NO_ROOM, started(b"", [head] * 64, 1, False, room=0)),
        (48, started(entry + b"\0", [(3, OTHER)], 2, False)),
        (40, started(foreign, [(3, OTHER)], 2, False)),
        (80, started(foreign, [(3, OTHER)], 2)),
        (81, started(entry[:0] + b"\1" + bytes(8) + entry[9:], [(3, OTHER)], 2)),
        (105, started(entry, [(3, OTHER)], 2)),
        (104, started(entry, [head], 2)),
        (GOOD, started(entry, [head] * 64, 64)),
    ]:
        reported, stored, count, _ = calls
        assert reported == status, (reported, status)
        if status:
            assert stored == b"\7" * len(stored) and count == (1 if status == HAS_ENTRIES else 0), status


def test_start_of_a_watched_name() -> None:
    """The first epoch is missing if the name is watched there."""
    for since, seen in [(1, 5), (3, 5), (4, 0)]:
        assert started(WORLD[3], [(3, WORLD.link(3))], 1, watch=(b"alice", since, b"k"))[1][-1] == seen, since


def watching(chance: random.Random, numbers: Sequence[int], quorum: int = 1) -> core.Beside:
    """A client that watches a name, with random numbers of what it saw, alarms, marks of four auditors, and changes that are over and
    one that is open. Its policy promises proofs for some time."""
    client = core.Beside(SIGNING_KEY, VRF_KEY, POLICY.encode(), trust=Trust(OTHER, 4, quorum))
    for epoch in WORLD.epochs:
        client.feed([WORLD[epoch]], hour(epoch))
    client.watch(b"alice", b"k", chance.randrange(1, 5))
    assert client.watched
    changes = [second.Change(1, 2, b"l"), second.Change(3, 4, b"m"), second.Change(5, 7, b"n")]
    client.watched = second.Watch(b"alice", client.watched.since, b"k", tuple(changes[: chance.randrange(4)]))
    for it in client.stored:
        it.seen = chance.choice(numbers) if it.entry.epoch >= client.watched.since else second.UNWATCHED
    client.marks = [chance.choice([0, 2, 3, 5, 6]) for _ in range(4)]
    client.policy = replace(client.policy, proofs_kept=chance.choice([None, 0, 3600, 10**6]))
    return client


def test_cover() -> None:
    """The core drops what the second implementation drops, with the same alarms, and says what it dropped."""
    chance, dropped, left = random.Random(3), set[int](), set[int]()
    for _ in range(3000):
        client = watching(chance, [1, 1, 1, 3, 4, 5], chance.randrange(6))
        client.alarms = [Alarm(it, chance.choice([3, 4, 5])) for it in range(chance.randrange(3))]
        if chance.random() < 0.2:
            client.watched, client.alarms = None, []
        had = len(client.alarms)
        dropped.add(len(client.drop(hour(chance.randrange(1, 9)))["cover"]))
        left.add(len(client.alarms) - had)
    assert dropped == {0, 1, 2, 3, 4} and left >= {0, 1, 2, 3}


def full() -> core.Beside:
    """A client with five epochs, three changes and two alarms."""
    client = watching(random.Random(4), [3])
    changes = second.Change(1, 2, b"l"), second.Change(3, 4, b"m"), second.Change(5, 7, b"n")
    client.watched, client.alarms = second.Watch(b"alice", 1, b"k", changes), [Alarm(7, 3), Alarm(8, 3)]
    return client


def test_cover_beyond_the_room() -> None:
    """Counts beyond the arrays, and no room for an alarm: nothing is written."""
    for stored, changes, room in [(4, 3, 7), (5, 2, 7), (5, 3, 1), (5, 3, 4)]:
        client = full()
        memory, covered = Memory(core.rules_of(client), parts_of(client)._replace(marks=[5]), alarms=5), raw.Covered(7, 7, 7, 7, 7)
        it = memory.core
        it.rules.quorum, it.stored.room, it.changes.room, it.alarms.room = 1, stored, changes, room
        before = memory.whole(), memory.all()
        assert memory.covers(hour(9), covered) == NO_ROOM and covered.epochs == 7
        assert (it.stored.count, it.changes.count, it.alarms.count) == (5, 3, 2)
        assert (memory.whole(), memory.all()) == before


# Rooms that are smaller than the counts of `full`.
SMALL = [(4, 3, 2), (5, 2, 2), (5, 3, 1), (0, 0, 0)]


def cut(rooms: tuple[int, int, int], is_beyond: bool) -> Memory:
    """The client of `full` with so many epochs, changes and alarms; if its counts are beyond the rooms, they are as they were."""
    client = full()
    stored, changes, alarms = rooms
    parts, rules = parts_of(client), core.rules_of(client)
    if is_beyond:
        memory = Memory(rules, parts)
        memory.core.stored.room, memory.core.changes.room, memory.core.alarms.room = rooms
        return memory
    kept = parts._replace(stored=parts.stored[: stored * STORED], changes=parts.changes[:changes], alarms=parts.alarms[:alarms])
    return Memory(rules, kept)


def given_by(memory: Memory) -> list[Any]:
    """What the calls write and return that only read a client, and what coniks_core_mark does."""
    given, reported = list[Any](), raw.Report(7, 7, 7)
    for epoch in WORLD.epochs:
        link, place, why, needs = WORLD.link(epoch), SIZE(9), raw.Why(7, 7, 7), raw.Needs(7, 7, 7, 7)
        given += [LIBRARY.coniks_core_compare(memory.core, U64(epoch), link, of(place)), place.value]
        given += [LIBRARY.coniks_core_evidence(memory.core, raw.Received(*sized(FORK[epoch]), 1, 0), of(why)), bytes(why)]
        given += [LIBRARY.coniks_core_reply_needs(memory.core, *passed(b"\1" + WORLD[epoch] + bytes(2)), of(needs)), bytes(needs)]
    for at in range(7):
        given += [LIBRARY.coniks_core_relied(memory.core, SIZE(at)), LIBRARY.coniks_core_lost(memory.core, U64(hour(9)), SIZE(at))]
    given += [LIBRARY.coniks_core_report(memory.core, U64(hour(9)), of(reported)), bytes(reported)]
    given += [*size_of(memory), written(memory, size_of(memory)[1])]
    given += [LIBRARY.coniks_core_mark(of(memory.core), SIZE(0), U64(it), WORLD.link(it)) for it in WORLD.epochs]
    return [*given, memory.core.marks[0]]


@pytest.mark.parametrize("rooms", SMALL)
def test_reads_beyond_the_rooms(rooms: tuple[int, int, int]) -> None:
    """Calls that only read a client read as many items as there is room for, if a count is greater."""
    assert given_by(cut(rooms, True)) == given_by(cut(rooms, False)) != given_by(cut((5, 3, 2), False))


def marked_by(memory: Memory) -> list[int]:
    """What the calls return that mark a client: an empty reply, an empty history, and a name that is watched from now on, after one of no
    byte. What they may write was 7, and is as it was if they give up."""
    found, why, steps = raw.Found(7, 7, 7, 7, 7), raw.Why(7, 7, 7), raw.Steps((raw.Step * 9)(), 9, 7)
    core, verdicts, asking = of(memory.core), of(raw.Verdicts(1, 1)), raw.Asking(*sized(b"alice"), *sized(b""), 0, 0, hour(9))
    written = bytes(found), bytes(why), bytes(steps), memory.whole()
    statuses = [LIBRARY.coniks_core_lookup(core, of(asking), verdicts, of(found), of(why))]
    history = raw.History(*sized(b"alice"), *sized(b""))
    statuses += [LIBRARY.coniks_core_history(core, of(history), verdicts, of(raw.Siblings()), of(steps))]
    assert statuses[0] != NO_ROOM or (bytes(found), bytes(why), bytes(steps), memory.whole()) == written
    memory.core.watch, key = raw.Watch(), memory.placed(b"k")
    for name in (b"", b"bob"):
        before = memory.whole()
        wanted = raw.Watch(1, *memory.placed(name), 1, *key)
        statuses += [LIBRARY.coniks_core_watch(core, of(wanted), U32(1))]
        assert statuses[-1] == GOOD or memory.whole() == before
    return statuses


@pytest.mark.parametrize("rooms", [(5, 3, 2), *SMALL])
def test_marks_beyond_the_rooms(rooms: tuple[int, int, int]) -> None:
    """Calls that mark a client give up if a count is greater than its room: a lookup and a history at once."""
    assert marked_by(cut(rooms, True)) == (
        [NO_REPLY, NO_HISTORY, NAME, GOOD] if rooms == (5, 3, 2) else [NO_ROOM, NO_ROOM, NAME, NO_ROOM]
    )


def test_note() -> None:
    chance = random.Random(6)
    for _ in range(500):
        client = watching(chance, [1])
        client.alarms = [Alarm(it, chance.choice([3, 4, 5])) for it in sorted(chance.sample(range(9), chance.randrange(6)))]
        client.note(chance.randrange(10))
    memory = Memory(raw.Rules(), EMPTY._replace(alarms=[(1, 3), (2, 5)]))
    memory.core.alarms.room = 1
    assert LIBRARY.coniks_core_note(of(memory.core), U64(9)) == NO_ROOM and memory.all() == memory.before


def test_report() -> None:
    chance, verdicts = random.Random(5), set[str]()
    for _ in range(4000):
        client = watching(chance, chance.choice([[1], [1, 1, 1, 5], [1, 3], [1, 4, 5]]), chance.randrange(5))
        client.alarms = [Alarm(it, chance.choice([3, 4, 5, 5, 5])) for it in range(max(0, chance.randrange(-2, 3)))]
        client.marks = [chance.choice([0, 5, 6]) for _ in range(4)]
        if chance.random() < 0.2:
            client.watched = second.Watch(b"alice", 9, b"k")
        verdicts.add(client.report(hour(chance.randrange(1, 9)))["report"][0])
    assert verdicts == {*core.REPORTS}


def test_report_without_a_watch() -> None:
    memory, reported = memory_of(client_with(1, 2), [2]), raw.Report(7, 7, 7)
    status = LIBRARY.coniks_core_report(memory.core, U64(0), of(reported))
    assert (status, reported.verdict, reported.first, reported.last) == (NOT_WATCHING, 7, 7, 7)
