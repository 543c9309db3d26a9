"""A client that names auditors: what a quorum of them confirms, what it may rely on, and what it drops."""

from __future__ import annotations

from typing import Any, Optional

import pytest

pytest.importorskip("nacl.signing")

from client_attacks import OTHER, WORLD
from client_world import PERIOD, SIGNING_KEY, VRF_KEY, World, hour, policy_text
from made import DIRECTORY, THREE, made, raised
import coniks
from coniks.client import Alarm, Cause, Client, Comparison, Refusal, Report, Reported, Trust, Watched

# Three of four are a quorum.
TRUST = Trust(b"\7" * 32, 4, 1)
SECOND, THIRD = (coniks.Head(it, WORLD.link(it)) for it in (2, 3))


def test_quorums() -> None:
    for auditors, faulty, least in [(1, 0, 1), (2, 0, 2), (3, 0, 2), (4, 1, 3), (5, 1, 4), (7, 2, 5)]:
        client = made(trust=Trust(bytes(32), auditors, faulty))
        for place in range(least):
            assert client.confirmed is None, (auditors, faulty, place)
            assert client.mark(place, THIRD) is Comparison.EQUAL
        assert client.confirmed == 3, (auditors, faulty)
    for wrong in [(0, 0), (1, 1), (3, 1), (6, 2), (-1, 0), (4, -1), (1 << 32, 0), (True, 0), (4.0, 0)]:
        found = raised(lambda: made(trust=Trust(bytes(32), *wrong)))  # type: ignore[arg-type]
        assert found in (ValueError, TypeError), wrong
    for digest in [bytes(31), bytes(33), "7" * 32, None]:
        found = raised(lambda: made(trust=Trust(digest, 4, 1)))  # type: ignore[arg-type]
        assert found in (ValueError, TypeError), digest


def test_marks() -> None:
    client = made(trust=TRUST)
    assert client.mark(0, coniks.Head(3, OTHER.link(3))) is Comparison.DIFFERS
    assert client.mark(1, coniks.Head(9, WORLD.link(3))) is Comparison.UNKNOWN
    for place in (4, 5, 1 << 31, -1, 1 << 64):
        assert raised(lambda: client.mark(place, THIRD)) is ValueError, place
    for wrong in (True, 1.0, "0", None):
        assert raised(lambda: client.mark(wrong, THIRD)) is TypeError, wrong  # type: ignore[arg-type]
    assert raised(lambda: client.mark(0, None)) is TypeError  # type: ignore[arg-type]
    assert client.state == made(trust=TRUST).state, "none of them counts"
    for place in (0, 0, 3):
        client.mark(place, THIRD)
    assert client.confirmed is None, "an auditor counts once"
    client.mark(2, SECOND)
    assert client.confirmed == 2, "the quorum's earliest"
    client.mark(0, SECOND)
    client.mark(3, SECOND)
    assert client.confirmed == 2 and client.mark(1, THIRD) is Comparison.EQUAL and client.confirmed == 3, "no mark goes back"


def relied(client: Client, epoch: int) -> Any:
    """Whether a client relies on what it finds at an epoch, or why it finds nothing."""
    try:
        return client.is_relied(client.lookup("alice", WORLD.reply("alice", epoch), epoch))
    except Refusal as error:
        return error.cause


def test_relied() -> None:
    client = made(trust=TRUST)
    assert [relied(client, it) for it in (1, 2, 3)] == [False, False, False]
    for place, head in enumerate([SECOND, SECOND, THIRD]):
        client.mark(place, head)
    assert [relied(client, it) for it in (1, 2, 3)] == [True, True, False]
    first = client.lookup("alice", WORLD.reply("alice", 1), 1)
    assert client.drop() == [1] and [relied(client, it) for it in (2, 3)] == [True, False], "epochs have moved"
    assert raised(lambda: client.is_relied(first)) is Cause.UNKNOWN_EPOCH, "of a dropped epoch"
    client.mark(0, THIRD)
    client.mark(1, THIRD)
    assert relied(client, 3) is True
    latest = client.lookup("alice", WORLD.reply("alice", 3), 3)
    assert raised(lambda: made(fed=False, trust=TRUST).is_relied(latest)) is Cause.UNKNOWN_EPOCH, "of another client"
    assert [relied(made(), it) for it in (1, 3)] == [False, False], "without auditors"


def test_marks_in_states() -> None:
    client = made(trust=TRUST)
    for place in range(3):
        client.mark(place, THIRD)
    state = client.state
    assert made(state, trust=TRUST).confirmed == 3 and made(state, trust=TRUST).state == state
    for other in [None, Trust(b"\10" * 32, 4, 1), Trust(TRUST.digest, 5, 1), Trust(TRUST.digest, 3, 0)]:
        again = made(state, trust=other)
        assert again.confirmed is None and again.entries == client.entries, other


def test_without_auditors() -> None:
    client = watching(None)
    assert raised(lambda: client.mark(0, THIRD)) is ValueError and client.confirmed is None and client.drop() == []
    client.history("alice", WORLD.history("alice", 1, 2))
    client.lookup("alice", WORLD.reply("alice", 3), 3)
    assert client.report() == Report(Reported.UNCONFIRMED, 1, 3), "nobody confirms it"
    assert client.cover(SECOND) is Comparison.EQUAL and client.report() == Report(Reported.UNCONFIRMED, 2, 3)


def watching(trust: Optional[Trust], key: bytes = b"key of alice", **more: Any) -> Client:
    """A client that watches a name whose key is the expected one up to epoch 2, and expects the next one by epoch 3."""
    client = made(fed=False, trust=trust, **more)
    client.watch("alice", key, 1)
    client.feed(THREE[:2])
    client.expect(b"second key of alice", by=3)
    client.feed(THREE[2:])
    return client


def test_reports() -> None:
    client = watching(TRUST)
    assert raised(lambda: made(trust=TRUST).report()) is ValueError
    assert client.report() == Report(Reported.MISSING, 1, 1)
    client.history("alice", WORLD.history("alice", 1, 2, 3))
    for place in range(3):
        assert client.report() == Report(Reported.UNCONFIRMED, 1, 3) and client.drop() == []
        client.mark(place, THIRD)
    assert client.report() == Report(Reported.GOOD, 1, 3)
    assert client.drop() == [1, 2] and client.report() == Report(Reported.GOOD, 3, 3) and client.alarms == []
    other = watching(TRUST, b"another key")
    other.history("alice", WORLD.history("alice", 1, 2, 3))
    for place in range(3):
        other.mark(place, THIRD)
    assert other.report() == Report(Reported.CHANGED, 1, 1) and other.drop() == [1, 2]
    assert other.alarms == [Alarm(1, Watched.CHANGED), Alarm(2, Watched.CHANGED)] and other.report().first == 1
    other.note(1)
    assert other.alarms == [Alarm(2, Watched.CHANGED)] and other.report().first == 2
    assert made(other.state, trust=TRUST).alarms == other.alarms
    for wrong, error in [(-1, ValueError), (1 << 64, ValueError), (None, TypeError), (True, TypeError)]:
        assert raised(lambda: other.note(wrong)) is error, wrong  # type: ignore[arg-type]
    other.note(2)
    assert other.alarms == [] and other.report() == Report(Reported.GOOD, 3, 3)


def test_lost_epochs() -> None:
    """Lost epochs keep no later one, whoever confirms it, and leave alarms."""
    policy = coniks.Policy.read(policy_text(stored=PERIOD).encode())
    world = World([(epoch, {"alice": b"key of alice"} if epoch == 1 else {}) for epoch in (1, 2, 3, 4)], policy=policy.digest)
    head = coniks.Head(4, world.link(4))
    for trust in (None, Trust(bytes(32), 1, 0)):
        now = hour(4, 0) - 0.5
        client = Client(SIGNING_KEY, VRF_KEY, policy, clock=lambda: now, trust=trust)
        client.watch("alice", b"key of alice", 1)
        client.feed(world.entries())
        assert client.lost == [1] and client.missing == [1, 2, 3, 4]
        if trust:
            client.mark(0, head)
        dropped = client.drop() if trust else client.cover(head)
        assert dropped == ([1] if trust else Comparison.EQUAL) and client.missing == [2, 3, 4]
        now = hour(4, 0)
        assert client.lost == [2] and client.alarms == [Alarm(1, Watched.MISSING)]
        client.drop() if trust else client.cover(head)
        assert client.missing == [3, 4] and client.alarms == [Alarm(1, Watched.MISSING), Alarm(2, Watched.MISSING)]
        assert client.report() == Report(Reported.MISSING, 3, 3)
        client.history("alice", world.history("alice", 3, 4))
        assert client.report() == Report(Reported.LOST, 1, 1)


def test_cover_of_one() -> None:
    """One auditor's head drops nothing of a client that names its auditors."""
    client = made(trust=TRUST)
    assert client.cover(THIRD) is Comparison.EQUAL and len(client.entries) == 3 and client.confirmed is None
    assert made().cover(THIRD) is Comparison.EQUAL


def late(heads: Any, least: int, trust: Optional[Trust], now: int = hour(3)) -> Client:
    return Client.vouched(SIGNING_KEY, VRF_KEY, DIRECTORY, THREE[2], heads, least, clock=lambda: now, trust=trust)


def test_late_start() -> None:
    heads = {"one": THIRD, "two": THIRD, "three": THIRD}
    client = late(heads, 3, TRUST)
    assert client.confirmed is None and client.entries == THREE[2:] and relied(client, 3) is False
    for place, head in enumerate(heads.values()):
        client.mark(place, head)
    assert client.confirmed == 3 and relied(client, 3) is True
    assert raised(lambda: late({"one": THIRD, "two": THIRD, "three": SECOND}, 3, TRUST)) is Cause.NOT_VOUCHED
    assert raised(lambda: late({"one": THIRD, "two": coniks.Head(3, bytes(32))}, 1, TRUST)) is Cause.AUDITORS_DIFFER
    many = {str(it): THIRD for it in range(65)}
    assert raised(lambda: late(many, 1, None)) is ValueError and late(dict([*many.items()][:64]), 64, None).entries
    for least, error in [(0, ValueError), (-1, ValueError), (1 << 32, ValueError), (True, TypeError)]:
        assert raised(lambda: late({"one": THIRD}, least, None)) is error, least
    found = late({"one": THIRD}, 1, None, hour(3, 900)).lookup("alice", WORLD.reply("alice", 3), 3)
    assert found.first_seen == hour(3, 900)
