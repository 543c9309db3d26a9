"""What a hurried or hostile caller does with `coniks.client`: steps that are left out, objects that are used again, results that
are only truthy, exceptions in the middle, and states that were changed. Nothing of it is taken for an accepted reply."""

from __future__ import annotations

import copy
import math
import pickle
from dataclasses import dataclass, field
from hashlib import sha256
from typing import Any, Callable, Iterator, Optional

import pytest

pytest.importorskip("nacl.signing")

import curve
from case_runner import Clock
from client_attacks import OTHER, WORLD
from client_world import BATCHES, PERIOD, POLICY, SIGNING_KEY, VRF_KEY, World, hour, index, policy_text, signed, vrf_proof
from made import DIRECTORY, THREE, made, raised
import coniks
from coniks.client import Cause, Client, Comparison, Refusal, Watched


KEY = b"second key of alice"


@dataclass
class Scheme:
    """An object in place of a key, which returns what it is told to, or raises it."""

    result: Any
    calls: list[tuple[bytes, bytes]] = field(default_factory=list)
    at: Any = b"\7" * 32

    def verify(self, one: bytes, other: bytes) -> Any:
        self.calls.append((one, other))
        if isinstance(self.result, BaseException):
            raise self.result
        return self.result

    def index(self, name: bytes, proof: bytes) -> Any:
        return self.at


class Calling(Scheme):
    """Feeds its own client when it is called first."""

    client: Optional[Client] = None

    def verify(self, one: bytes, other: bytes) -> Any:
        is_first = not self.calls
        super().verify(one, other)
        return bool(self.client and self.client.feed([one + other])) if is_first else True


class Agreeing:
    """Equals everything, and is true."""

    def __eq__(self, other: object) -> bool:
        return True

    def __bool__(self) -> bool:
        return True


TRUTHY: list[Any] = [1, 1.0, "True", b"True", [True], (True,), object(), Agreeing(), b"\x01", {"verified": True}, NotImplemented]
FALSE: list[Any] = [False, None, 0, "", [], b""]


def test_forgotten() -> None:
    """A lookup without what must come before it."""
    reply = WORLD.reply("alice", 3)
    assert raised(lambda: made(fed=False).lookup("alice", reply)) is Cause.UNKNOWN_EPOCH, "without a chain"
    late = made(fed=False)
    assert raised(lambda: late.feed(THREE[1:])) is Cause.PREVIOUS_EPOCH and not late.entries, "from the middle of a chain"
    found = made().lookup("alice", reply)
    assert found.key == KEY and found.epoch == 3 and found.seen is None and found.age == 600, "a key"
    assert raised(lambda: bool(found)) is TypeError, "a result that is not looked at"
    absent = made().lookup("dave", WORLD.reply("dave", 3))
    assert absent.key is None and raised(lambda: bool(absent)) is TypeError, "an absence"
    assert raised(lambda: made(fed=False).feed(list(THREE[0]))) is TypeError, "no catch-up of whole numbers"  # type: ignore[arg-type]
    assert made().feed(b"") == [], "an empty catch-up"
    assert made(made().state).head() == made().head(), "a state that is thrown away"


def vouched_by(head: Any) -> Client:
    return Client.vouched(SIGNING_KEY, VRF_KEY, DIRECTORY, WORLD[5], {"auditor": head}, 1)


def test_types() -> None:
    """Values of other types and sizes."""
    client, reply = made(), WORLD.reply("alice", 3)
    wrong: list[tuple[str, object, Callable[[], object]]] = [
        ("a reply of text", TypeError, lambda: client.lookup("alice", "reply")),  # type: ignore[arg-type]
        ("a name of None", TypeError, lambda: client.lookup(None, reply)),  # type: ignore[arg-type]
        ("a lone surrogate", UnicodeEncodeError, lambda: client.lookup("alice\ud800", reply)),
        ("an epoch of True", TypeError, lambda: client.lookup("alice", reply, True)),
        ("an epoch of text", TypeError, lambda: client.lookup("alice", reply, "3")),  # type: ignore[arg-type]
        ("an epoch below 0", ValueError, lambda: client.lookup("alice", reply, -1)),
        ("an epoch of 2^64", ValueError, lambda: client.lookup("alice", reply, 1 << 64)),
        ("an entry of None", TypeError, lambda: client.feed([None])),  # type: ignore[list-item]
        ("no entries", TypeError, lambda: client.feed(None)),  # type: ignore[arg-type]
        ("a head of None", TypeError, lambda: client.compare(None)),  # type: ignore[arg-type]
        ("a link that equals all", TypeError, lambda: client.compare(coniks.Head(3, Agreeing()))),  # type: ignore[arg-type]
        ("a link of 31 bytes", ValueError, lambda: client.cover(coniks.Head(3, bytes(31)))),
        ("an auditor's link that equals all", TypeError, lambda: vouched_by(coniks.Head(5, Agreeing()))),  # type: ignore[arg-type]
        ("an auditor's head of None", TypeError, lambda: vouched_by(None)),
        ("a key of text", TypeError, lambda: client.watch("alice", "key")),  # type: ignore[arg-type]
        ("a state of text", TypeError, lambda: made("state")),  # type: ignore[arg-type]
        ("a signing key of text", TypeError, lambda: Client("key", VRF_KEY, DIRECTORY)),  # type: ignore[arg-type]
        ("a VRF key of text", TypeError, lambda: Client(SIGNING_KEY, "key", DIRECTORY)),  # type: ignore[arg-type]
        ("a VRF object without index", TypeError, lambda: Client(SIGNING_KEY, Agreeing(), DIRECTORY)),  # type: ignore[arg-type]
        ("a short signing key", Cause.SIGNING_KEY, lambda: Client(SIGNING_KEY[:31], VRF_KEY, DIRECTORY)),
        ("a document as the policy", ValueError, lambda: Client(SIGNING_KEY, VRF_KEY, POLICY.encode())),
        ("no policy", TypeError, lambda: Client(SIGNING_KEY, VRF_KEY, None)),  # type: ignore[arg-type]
        ("a copy", TypeError, lambda: copy.copy(client)),
        ("a deep copy", TypeError, lambda: copy.deepcopy(client)),
        ("a pickle", TypeError, lambda: pickle.dumps(client)),
    ]
    for what, wanted, call in wrong:
        assert raised(call) is wanted, f"types: {what}: {raised(call)}"
    assert client.state == made().state, "types: the client is as before"
    error = pickle.loads(pickle.dumps(Refusal(Cause.NOT_LATER)))
    assert error.cause is Cause.NOT_LATER and error.status is coniks.Status.NOT_LATER and str(error), "a refusal is pickled"
    assert all(str(Refusal(it)) for it in Cause), "each cause has a text"
    assert all(Cause(it).name == it.name for it in coniks.Status if it is not coniks.Status.NO_ENTRY), "statuses and causes"


def test_clocks() -> None:
    """Clocks and limits that compare with nothing."""
    nan = float("nan")
    for what, value in [
        ("nan", nan),
        ("infinite", float("inf")),
        ("negative", -1.0),
        ("text", "1"),
        ("None", None),
        ("True", True),
    ]:
        client = made()
        client._clock = lambda: value  # type: ignore[assignment, return-value]
        found = raised(lambda: client.lookup("alice", WORLD.reply("alice", 3)))
        assert found in (ValueError, TypeError), f"clock: {what}: {found}"
        assert raised(lambda: client.feed([WORLD[5]])) in (ValueError, TypeError), f"clock: {what}, nothing is fed"
        assert client.state == made().state, f"clock: {what}, nothing is kept"
        for name in ["max_age", "skew"]:
            is_default = value is None and name == "max_age"
            setting: dict[str, Any] = {name: value}
            found = raised(lambda: made(**setting))
            assert found in ((None,) if is_default else (ValueError, TypeError)), f"{name}: {what}: {found}"


def test_limits() -> None:
    """Limits and times of fractions of seconds, which are dropped, and two periods that no number of the core has."""
    for late, more, wanted in [
        (7200, {}, None),
        (7200.75, {}, None),
        (7201, {}, Cause.STALE),
        (99, {"max_age": 98.75}, Cause.STALE),
        (98.75, {"max_age": 98.25}, None),
        (-300, {}, None),
        (-300.5, {}, Cause.FUTURE),
        (-9, {"skew": 9.5}, None),
        (-9.5, {"skew": 9.5}, Cause.FUTURE),
    ]:
        client = made(now=hour(3, 0) + late, **more)  # type: ignore[arg-type]
        found = raised(lambda: client.lookup("alice", WORLD.reply("alice", 3)))
        assert found is wanted, f"{late} seconds after the epoch began, {more}: {found}"
        it = client.lookup("alice", WORLD.reply("alice", 3), 3)
        assert it.age == late and it.first_seen == hour(3, 0) + math.floor(late), "an age has its fraction"
    policy = coniks.Policy.read(policy_text(start=0, period=2**63).encode())
    world = World([(1, {"alice": KEY})], policy=policy.digest)
    for now in (0, 2**63, 2**64 - 2048):
        client = Client(SIGNING_KEY, VRF_KEY, policy, clock=lambda: now)
        client.feed(world.entries())
        assert client.lookup("alice", world.reply("alice", 1)).age == now, "two periods are more than 2^64 seconds"


def test_parts_of_entries() -> None:
    """A scheme is given the parts of an entry, and nothing of another length."""
    scheme = Scheme(True)
    client = Client(scheme, VRF_KEY, DIRECTORY, clock=lambda: hour(3))
    for entry in (b"", THREE[0][:208], THREE[0] + b"\0"):
        assert raised(lambda: client.feed([entry])) is raised(lambda: client.evidence(entry)) is Cause.ENTRY_LENGTH
        head = {"auditor": coniks.Head(1, WORLD.link(1))}
        assert raised(lambda: Client.vouched(scheme, VRF_KEY, DIRECTORY, entry, head, 1)) is Cause.ENTRY_LENGTH
    assert scheme.calls == []
    client.feed(THREE[:1])
    assert scheme.calls == [(THREE[0][:145], THREE[0][145:])]


def test_schemes() -> None:
    """What objects in place of keys return."""
    reply, now = WORLD.reply("alice", 3), lambda: hour(3)
    for result in [*TRUTHY, *FALSE]:
        what, scheme = f"verify returns {result!r:.30}", Scheme(result)
        client = Client(scheme, VRF_KEY, DIRECTORY, clock=now)
        assert raised(lambda: client.feed(THREE)) is Cause.SIGNATURE and not client.entries, f"signature: {what}"
        assert raised(lambda: client.evidence(THREE[0])) is Cause.SIGNATURE, f"signature: {what}, in evidence"
        assert (
            raised(lambda: Client(scheme, VRF_KEY, DIRECTORY, made().state)) is Cause.STATE_CHAIN
        ), f"signature: {what}, in a state"
        head = {"auditor": coniks.Head(1, WORLD.link(1))}
        late = raised(lambda: Client.vouched(scheme, VRF_KEY, DIRECTORY, THREE[0], head, 1))
        assert late is Cause.SIGNATURE, f"signature: {what}, in a late start"
        other = Client(SIGNING_KEY, Scheme(result), DIRECTORY, clock=now)
        other.feed(THREE)
        assert raised(lambda: other.lookup("alice", reply)) is Cause.VRF_PROOF, f"VRF: {what}"
        assert raised(lambda: other.history("alice", WORLD.history("alice", 3))) is Cause.VRF_PROOF, f"VRF: {what}, in a history"
    good = Client(SIGNING_KEY, Scheme(True, at=index("alice")), DIRECTORY, clock=now)
    good.feed(THREE)
    assert good.lookup("alice", reply).key == KEY, "VRF: an object that verifies"
    for at in [index("alice")[:31], index("alice") + b"\0", bytearray(index("alice")), index("alice").hex(), None, 7]:
        good._verifier._indices.at = at  # type: ignore[attr-defined]
        assert raised(lambda: good.lookup("alice", reply)) is TypeError, f"VRF: an index {at!r:.20}"


def test_exceptions() -> None:
    """Exceptions in the middle, and a `verify` that calls the client."""
    for error in [RuntimeError("down"), KeyboardInterrupt(), Refusal(Cause.STALE)]:
        scheme = Scheme(True)
        client = Client(scheme, VRF_KEY, DIRECTORY, clock=lambda: hour(3))
        client.feed(THREE[:2])
        before, scheme.result = client.state, error
        try:
            client.feed([THREE[2]])
            is_raised = False
        except BaseException as found:
            is_raised = found is error
        scheme.result = True
        assert (
            is_raised and client.state == before and [it.epoch for it in client.feed([THREE[2]])] == [3]
        ), f"{error!r}: nothing is kept"
    client = made(fed=False)
    assert raised(lambda: client.feed(failing())) is RuntimeError and len(client.entries) == 2, "entries that end with an exception"
    assert [it.epoch for it in client.feed([THREE[2]])] == [3], "and go on"
    calling = Calling(True)
    nested = calling.client = Client(calling, VRF_KEY, DIRECTORY, clock=lambda: hour(3))
    assert raised(lambda: nested.feed(THREE[:1])) is Cause.NOT_LATER and nested.entries == THREE[:1], "verify feeds the client"
    changed = bytearray(THREE[0])
    client = made(fed=False)
    client.feed([changed])
    changed[20] ^= 1
    assert client.entries == THREE[:1], "an entry that is changed afterwards"


def failing() -> Iterator[bytes]:
    yield from THREE[:2]
    raise RuntimeError("the stream broke")


def test_again() -> None:
    """Objects that are used again."""
    client, old = made(), WORLD.reply("alice", 3)
    first = client.lookup("alice", old)
    assert client.lookup("alice", old) == first, "a reply twice"
    client._clock.now = hour(5)  # type: ignore[attr-defined]
    client.feed([WORLD[5]])
    assert raised(lambda: client.lookup("alice", old)) is Cause.OTHER_EPOCH, "an old reply after a new entry"
    assert client.lookup("alice", old, 3).key == KEY, "the same by its number"
    assert raised(lambda: client.feed(THREE)) is Cause.NOT_LATER, "the chain twice"
    assert client.head() == coniks.Head(5, WORLD.link(5)), "latest never goes back"
    error = refusal(lambda: client.feed([OTHER[3]]))
    evidence = error.evidence
    assert evidence and coniks.convicts(evidence.mine, evidence.other) is evidence.kind and error.status == 36, "evidence"
    assert evidence and all(is_signed(it) for it in (evidence.mine, evidence.other)), "evidence of both is signed"
    assert client.evidence(OTHER[3]) == evidence, "evidence is found again"
    shown = refusal(lambda: client.lookup("alice", OTHER.reply("alice", 3)))
    assert shown.cause is Cause.EQUIVOCATION and shown.evidence == evidence and shown.status is None, "and by a reply"
    assert client.compare(coniks.Head(3, OTHER.link(3))) is Comparison.DIFFERS, "another one's head"
    once_more = signed(THREE[2][:145], nonce=5)
    head = coniks.Head(3, coniks.link(once_more))
    assert client.compare(head) is Comparison.DIFFERS and client.evidence(once_more) is None, "two signatures of one body"
    two = {"one auditor": coniks.Head(5, WORLD.link(5))}
    few = raised(lambda: Client.vouched(SIGNING_KEY, VRF_KEY, DIRECTORY, WORLD[5], two, 2))
    assert few is Cause.NOT_VOUCHED, "one auditor counts once"
    assert raised(lambda: Client.vouched(SIGNING_KEY, VRF_KEY, DIRECTORY, WORLD[5], {}, 0)) is ValueError, "no auditor vouches"


def refusal(call: Callable[[], object]) -> Refusal:
    try:
        call()
    except Refusal as error:
        return error
    raise AssertionError("nothing was refused")


def is_signed(entry: bytes) -> bool:
    return curve.is_signed(SIGNING_KEY, entry[:145], entry[145:])


def test_keys() -> None:
    """Keys and policies that don't belong together, and a digest in place of the document."""
    by_digest = Client(SIGNING_KEY, VRF_KEY, DIRECTORY.digest, clock=lambda: hour(10**6))
    by_digest.feed(THREE)
    found = by_digest.lookup("alice", WORLD.reply("alice", 3))
    assert found.key == KEY and found.age is None and found.first_seen == hour(10**6), "a digest has no clock"
    other = Client(SIGNING_KEY, VRF_KEY, bytes(32))
    assert raised(lambda: other.feed(THREE)) is Cause.OTHER_POLICY and not other.entries, "another digest"
    plain = coniks.Policy.read(policy_text(vrf=None).encode())
    world, without = World(BATCHES[:1], policy=plain.digest), Client(SIGNING_KEY, None, plain.digest)
    without.feed(world.entries())
    for reply in (world.reply("alice", 1), world.reply("alice", 1, vrf=b"")):
        assert raised(lambda: without.lookup("alice", reply)) is Cause.VRF_PROOF, "no VRF, and no object"


NAMES = [
    "Alice",
    "alice ",
    " alice",
    "alice\0",
    "al\u200bice",
    "ali\u0441e",
    "alice\ufe0f",
    "\u202ealice",
    "alice\u3164",
    "a\u034flice",
]
NAMES += [
    "\u0640 \u02eecarol",
    "alice\u2800",
    "\u17b4alice",
    "alic\u00e9",
    "alice\n",
    "ALICE",
    "alice@",
    "\ufeffalice",
    "ecila",
    "",
]


def test_names() -> None:
    """Names that look like alice's."""
    for name in NAMES:
        for what, proved in [("her reply", "alice"), ("bob's reply", "bob"), ("an absence", "dave")]:
            found = raised(lambda: made().lookup(name, WORLD.reply(proved, 3)))
            assert found is Cause.VRF_PROOF, f"{name!r}, {what}: {found}"


def test_states() -> None:
    """A state of which each byte is changed, first with its digest as it was, then with the one of the changed bytes."""
    client = made(fed=False)
    client.watch("alice", b"key of alice")
    client.feed(THREE)
    client.lookup("alice", WORLD.reply("alice", 1), 1)
    client.expect(b"new key", by=9)
    state = client.state
    assert made(state).state == state and made(state).missing == [2, 3], "a state goes on"
    policy = coniks.Policy.read(policy_text(VRF_KEY, SIGNING_KEY).encode())
    assert raised(lambda: Client(VRF_KEY, SIGNING_KEY, policy, state)) is Cause.STATE_POLICY, "of another directory"
    for place in range(len(state)):
        changed = [state[:place] + bytes([state[place] ^ 1 << bit]) + state[place + 1 :] for bit in (0, 3, 7)]
        assert all(is_state_refused(it) for it in changed), f"state: byte {place}"
        assert all(
            is_harmless(it[:-32] + sha256(it[:-32]).digest(), client) for it in changed
        ), f"state: byte {place}, with a digest"
    for size in range(0, len(state), 7):
        assert raised(lambda: made(state[:size])) in (Cause.STATE_LENGTH, Cause.STATE_DAMAGED), f"state: {size} bytes"


def is_state_refused(state: bytes) -> bool:
    found = raised(lambda: made(state))
    return isinstance(found, Cause) and found.name.startswith("STATE_")


def is_harmless(state: bytes, before: Client) -> bool:
    """Whether a state is refused, or only changes times and what is known of the watched name: the chain is the same. One of another
    trust document is stored as one of the client's."""
    try:
        after = made(state)
    except Refusal as error:
        return error.cause.name.startswith("STATE_")
    trust = 37 + 218 * len(before.entries) + 4
    stored = state[:-32] if state[trust : trust + 32] == bytes(32) else before.state[:-32]
    return after.entries == before.entries and after.head() == before.head() and after.state[:-32] == stored


def test_watching() -> None:
    """What the owner of a name is told."""
    client = made(fed=False)
    client.watch("alice", b"key of alice")
    reported = [it.seen for it in client.feed(b"".join(THREE))]
    assert reported == [Watched.MISSING] * 3 and client.missing == [1, 2, 3], "each epoch is missing at first"
    found = client.history("alice", WORLD.history("alice", 1, 3))
    assert [it.seen for it in found] == [Watched.SAME, Watched.CHANGED] and client.missing == [2], "a history that leaves one out"
    client = made(client.state)
    client.watch("alice", b"key of alice")
    assert client.missing == [2], "the watch is in the state"
    assert raised(lambda: client.watch("bob", b"key of bob")) is ValueError, "another name"
    assert raised(lambda: client.watch("alice", KEY)) is ValueError, "another key"
    assert client.cover(coniks.Head(3, WORLD.link(3))) is Comparison.EQUAL, "the head of an auditor that covers it"
    assert client.missing == [2] and len(client.entries) == 2, "what is missing stays"
    assert client.lookup("alice", WORLD.reply("alice", 2), 2).seen is Watched.SAME and client.missing == [], "and is proved"


def test_misuses() -> None:
    """What a caller must not do has a text, and changes nothing."""
    client, none_expected = made(), "an expected key has at least one byte; None expects none"
    check_texts(
        client,
        ("no name is watched: call `watch` first", lambda: client.expect(KEY, 9)),
        ("a name has 1 to 255 bytes, not 256", lambda: client.watch("a" * 256, KEY)),
        ("a name has 1 to 255 bytes, not 0", lambda: client.watch("", KEY)),
        (none_expected, lambda: client.watch("alice", b"")),
        ("the trust document has no such auditor", lambda: client.mark(0, coniks.Head(3, WORLD.link(3)))),
        ("at least one auditor vouches for an entry", lambda: Client.vouched(SIGNING_KEY, VRF_KEY, DIRECTORY, THREE[2], {}, 0)),
    )
    client.watch("alice", KEY)
    other = "this client watches another name or key: use `expect`, or make another client"
    check_texts(
        client,
        (other, lambda: client.watch("bob", KEY)),
        (other, lambda: client.watch("alice", None)),
        (other, lambda: client.watch("alice", KEY, 2)),
        ("the new key is the one that is expected already", lambda: client.expect(KEY, 9)),
        ("epoch 3 is in the chain: expect the new key by a later one", lambda: client.expect(b"new", 3)),
        (none_expected, lambda: client.expect(b"", 9)),
    )
    client.expect(b"new", 7)
    text = "another change is expected by epoch 7: expect the next one after it"
    check_texts(client, (text, lambda: client.expect(b"newer", 9)))


def check_texts(client: Client, *expected: tuple[str, Callable[[], object]]) -> None:
    state = client.state
    for text, call in expected:
        with pytest.raises(ValueError) as caught:
            call()
        assert str(caught.value) == text and client.state == state


def test_lost() -> None:
    """Epochs that can no longer be verified, by clocks that return fractions or nothing, and by a bare digest."""
    policy, clock = coniks.Policy.read(policy_text(stored=PERIOD).encode()), Clock()
    world, end = World(BATCHES[:3], policy=policy.digest), hour(3, 0)

    def watching(given: Any, clock: Any) -> Client:
        client = Client(SIGNING_KEY, VRF_KEY, given, clock=clock)
        client.watch("alice", KEY)
        client.feed(world.entries())
        return client

    client = watching(policy, clock)
    for seconds, wanted in [(end - 0.25, []), (end, [1]), (end + 0.25, [1]), (end + PERIOD - 0.001, [1]), (end + PERIOD, [1, 2])]:
        clock.now = seconds
        assert client.lost == wanted, f"lost: {seconds - end} seconds after the end: {client.lost}"
    state = client.state
    client.lost.append(3)
    assert client.lost == [1, 2] and client.state == state, "lost: a list of one's own"
    assert Client(SIGNING_KEY, VRF_KEY, policy, state, clock=lambda: end).lost == [1], "lost: a resumed state"
    assert watching(policy.digest, lambda: hour(10**9)).lost == [], "lost: never by a digest"
    for time in [-1, 2.0**64, float("nan"), float("inf")]:
        clock.now = time
        assert raised(lambda: client.lost) is ValueError, f"lost: a clock that returns {time}"
    clock.now = True
    assert raised(lambda: client.lost) is TypeError, "lost: a clock that returns no number"
    assert client.state == state and client.missing == [1, 2, 3], "lost: nothing of it is kept"
