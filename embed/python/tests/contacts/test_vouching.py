"""`coniks.vouching` beside the second implementation and a search of all steps: each pair of records, and the replies that convict a
directory."""

from __future__ import annotations

import hashlib
import json
import re
import subprocess
import sys
from dataclasses import dataclass
from itertools import combinations, product
from pathlib import Path
from typing import Any, Iterator, Optional

import pytest

pytest.importorskip("nacl.signing")

import client_world
import curve
import vouched
from client_world import World, digest
from directories import VOUCHED, vouched_world
from nacl.signing import SigningKey
from steps_of_records import VOUCHERS, Shown, Small, result
from coniks import Policy, vouching
from coniks.vouching import MOST_KEY, Change, Notice, Place, Record, Span, Value, announced, convicts, fingerprint
from coniks.vouching import first, following, is_allowed, judged, reset

POLICY = Policy.read(VOUCHED.encode())
ALICE = Place.of(POLICY, "alice")
SECRETS = {name: SigningKey(name.encode().ljust(32)) for name in ["one", "other", *VOUCHERS]}
ONE, OTHER = SECRETS["one"], SECRETS["other"]
TOP = Path(__file__).resolve().parents[4]
FORMATS = (TOP / "docs/FORMATS.md").read_text("utf-8")
ROWS = [json.loads(it) for it in (TOP / "cases/records.jsonl").read_text("utf-8").splitlines()]
# From an epoch to the next one, and to one far away.
NEXT, FAR = Span(3, 3, 4), Span(3, 99, 100)


def place_of(row: dict[str, Any]) -> Place:
    return Place([bytes.fromhex(it) for it in row["policies"]], row["of"], row["clock"])


def bytes_of(text: Optional[str]) -> Optional[bytes]:
    return None if text is None else bytes.fromhex(text)


@pytest.mark.parametrize("row", [it for it in ROWS if "result" in it], ids=lambda it: str(it["name"]))
def test_changes(row: dict[str, Any]) -> None:
    """The table that the second implementation has written."""
    span = row["epochs"] and Span(*map(int, row["epochs"]))
    assert judged(place_of(row), bytes.fromhex(row["earlier"]), bytes_of(row["later"]), span).value == row["result"]


@pytest.mark.parametrize("row", [it for it in ROWS if "allowed" in it], ids=lambda it: str(it["name"]))
def test_allowed(row: dict[str, Any]) -> None:
    """What a service that promises records may show, by the same table."""
    is_found = is_allowed(place_of(row), bytes_of(row["present"]), bytes.fromhex(row["value"]), int(row["epoch"]))
    assert is_found is row["allowed"]


@dataclass(frozen=True)
class Made:
    """The bytes of what a small world shows, with signatures that the tests take for good."""

    start: Shown

    def record(self, it: Shown, before: bytes) -> Record:
        voucher = bytes(SECRETS[it.voucher].verify_key)
        return Record(it.number, voucher, before, it.notice, it.effect, bytes(64), b"k" if it.has_key else b"")

    def value(self, it: Shown) -> Value:
        notice = Notice(bytes(SECRETS[it.asked[0]].verify_key), it.asked[1]) if it.asked else None
        return Value(self.record(it, self.before(it)), notice)

    def before(self, it: Shown) -> bytes:
        """What takes the place of the first record has its digest, or that of its notice. Others replace what nobody has seen."""
        if it.number != 2:
            return bytes(32)
        first_record = self.record(self.start, bytes(32))
        notice = Notice(bytes(SECRETS[it.voucher].verify_key), it.effect)
        return hashlib.sha256(notice.over(first_record) if it.effect else bytes(first_record)).digest()

    def bytes_of(self, it: Shown) -> bytes:
        value = self.value(it)
        return value.notice.over(value.record) if value.notice else bytes(value.record)


SPANS = [Span(1, 1, 2), Span(1, 1, 4), Span(1, 2, 3), Span(1, 2, 5), Span(1, 3, 4), Span(1, 3, 6), Span(1, 4, 5), Span(2, 1, 3)]


@pytest.mark.parametrize("span", SPANS)
@pytest.mark.parametrize("has_clock", [True, False], ids=["clock", "no clock"])
def test_all_steps(span: Span, has_clock: bool, monkeypatch: pytest.MonkeyPatch, say: Any) -> None:
    """In a small world the rule finds exactly what steps can lead to: of all that a name could show first, and all that it could show
    later. The second implementation is compared in some of it."""
    monkeypatch.setattr(vouching, "is_signed", lambda *_: True)
    monkeypatch.setattr(vouching, "is_key", lambda _: True)
    monkeypatch.setattr(curve, "is_signed", lambda *_: True)
    monkeypatch.setattr(curve, "is_key", lambda _: True)
    small, counts = Small((1, 2), has_clock, 6), dict.fromkeys(["same", "vouched", "reset", "unvouched"], 0)
    place, other = Place([bytes(32)], "a", has_clock), vouched.Place([bytes(32)], b"a", has_clock)
    for start, later, wanted in pairs(small, span):
        made = Made(start)
        before, now = made.bytes_of(start), made.bytes_of(later)
        assert judged(place, before, now, span).value == wanted, (start, later)
        counts[wanted] += 1
        if counts[wanted] % 500 == 1:
            assert vouched.compared(other, before, now, span) == wanted, (start, later)
    say(f"{span}, {has_clock}: {counts}")
    assert counts["unvouched"] and counts["same"] and counts["vouched"] and bool(counts["reset"]) is has_clock


def pairs(small: Small, span: Span) -> Iterator[tuple[Shown, Shown, str]]:
    """Pairs of what a name shows, with their results by the search of all steps: all that are reached, and one in nine of the others."""
    for at, start in enumerate(small.start()):
        reached = small.reached(start, [*range(span.earlier + 1, span.before + 1), span.later])
        others = {start._replace(asked=it) for it in [None, *product(VOUCHERS, range(1, small.last + 1))]}
        some = {it for number, it in enumerate(small.all(4)) if number % 9 == at % 9}
        for later in others | some | {it for it in reached if it.number < 5}:
            yield start, later, result(start, later, reached)


def test_honest_histories() -> None:
    """No two replies of a service that takes what it may convict it: owners, who may be several after resets, in six steps."""
    shown: list[list[Optional[bytes]]] = [[None]]
    for epoch in range(1, 7):
        shown = [[*it, value] for it in shown for value in [it[-1], *candidates(it[-1], epoch)]]
    for history in shown:
        for (earlier, before), (later, now) in combinations(enumerate(history), 2):
            if before:
                assert judged(ALICE, before, now, Span(earlier, later - 1, later)) is not Change.UNVOUCHED, history
    assert len(shown) > 300 and any(value and Value.read(value).record.effect for it in shown for value in it)  # type: ignore[union-attr]


def candidates(present: Optional[bytes], epoch: int) -> Iterator[bytes]:
    """What may follow, of what two secret keys and an operator make."""
    found = [first(ALICE, ONE, b"k", 1)]
    value = Value.read(present)
    if present and value:
        found = [announced(present, bytes(it.verify_key), epoch + 1) for it in (ONE, OTHER)] + [bytes(value.record)]
        mine = ONE if value.record.voucher == bytes(ONE.verify_key) else OTHER
        found += [following(ALICE, mine, present, b"l", 1)]
        found += [
            reset(ALICE, it, present, b"m", 1)
            for it in (ONE, OTHER)
            if value.notice and bytes(it.verify_key) == value.notice.voucher
        ]
    return (it for it in found if is_allowed(ALICE, present, it, epoch))


def test_bytes() -> None:
    """The records of docs/FORMATS.md, and their fingerprints."""
    found = re.findall(r"((?:^    [0-9a-f]+\n)+)", FORMATS.partition("### How two epochs compare")[2], re.M)
    start, second, notice, last = (bytes.fromhex("".join(it.split())) for it in found)
    mine = SigningKey(bytes.fromhex("f5e5767cf153319517630f226876b86c8160cc583bc013744c6bf255f5cc0ee5"))
    later = SigningKey(bytes.fromhex("833fe62409237b9d62ec77587520911e9a759cec1d19755b7da901b96dca3d42"))
    place = Place([bytes.fromhex("5f75a068225cfe181d7149be0081df3d59afc095aeff7f9e3c1fdaca09965a10")], "alice", True)
    assert first(place, mine, b"k", 168) == start and following(place, mine, start, b"l") == second
    assert announced(second, bytes(later.verify_key), 200) == notice and reset(place, later, notice, b"m") == last
    read = Value.read(notice)
    assert read and (read.record.number, read.record.key, bytes(read.record)) == (2, b"l", second)
    assert read.notice == (bytes(later.verify_key), 200)
    assert [f"`{fingerprint('alice', it)}`" in FORMATS for it in (second, notice, b"l", b"k", start)] == [True] * 3 + [False] * 2


def test_signed_over_a_policy_of_the_line() -> None:
    before = Place([digest("before")], "alice", True)
    start = first(before, ONE, b"k")
    line = Place([*before.policies, *ALICE.policies], "alice", True)
    second = following(line, ONE, start, b"l")
    for place, is_good in ((line, True), (ALICE, False)):
        record = Record.read(start)
        assert record and record.is_signed(place) is is_good and is_allowed(place, None, start, 1) is is_good
    assert judged(ALICE, start, second, NEXT) is Change.VOUCHED, "what is signed now is signed over the policy of now"


def test_wrong_values() -> None:
    """What isn't made: a record after that of another secret key, after a closed one, and a reset without its notice."""
    closed = following(ALICE, ONE, first(ALICE, ONE, b"k", 3), b"")
    notice = announced(closed, bytes(OTHER.verify_key), 9)
    for before in [first(ALICE, OTHER, b"k"), b"plain key", closed, announced(first(ALICE, OTHER, b"k"), bytes(ONE.verify_key), 9)]:
        with pytest.raises(ValueError):
            following(ALICE, ONE, before, b"l")
    for secret, before in [(ONE, notice), (OTHER, closed), (OTHER, b"plain key")]:
        with pytest.raises(ValueError):
            reset(ALICE, secret, before, b"l")
    with pytest.raises(ValueError):
        announced(b"plain key", bytes(ONE.verify_key), 9)
    assert following(ALICE, ONE, closed, b"") and Value.read(reset(ALICE, OTHER, notice, b"l"))
    longest = first(ALICE, ONE, bytes(MOST_KEY), 3)
    assert len(announced(longest, bytes(OTHER.verify_key), 9)) == 16384


def changed_world(text: str) -> World:
    """A directory under a policy document that replaces a record by a key of its own."""
    start = first(Place([digest(text)], "alice", True), ONE, b"k")
    batches: list[tuple[int, client_world.Batch]] = [
        (1, {"alice": start, "bob": start}),
        (2, {"alice": b"key of mallory"}),
        (4, {}),
    ]
    return World(batches, policy=digest(text))


def test_replies() -> None:
    """Two replies convict if both are the directory's, for this name, and in the order of their epochs."""
    start, world = first(ALICE, ONE, b"k"), changed_world(VOUCHED)
    signed = vouched_world([(1, {"alice": start}), (2, {"alice": following(ALICE, ONE, start, b"l")})])
    one, other = world.reply("alice", 1), world.reply("alice", 4)
    assert convicts(POLICY, "alice", one, other) and convicts(POLICY, "alice", one, world.reply("alice", 2))
    assert not convicts(POLICY, "alice", one, signed.reply("alice", 2))
    policy = Policy("keys.example.org", POLICY.signing_key, POLICY.vrf_key, records_vouched=True)
    for first_reply, second_reply in product([one, other, world.reply("bob", 1), one[:-1], b""], repeat=2):
        is_pair = (first_reply, second_reply) == (one, other)
        assert convicts(POLICY, "alice", first_reply, second_reply) is is_pair
        assert not convicts(policy, "alice", first_reply, second_reply) and not convicts(POLICY, "bob", first_reply, second_reply)
    for at in range(0, len(other), 7):
        altered = other[:at] + bytes([other[at] ^ 1]) + other[at + 1 :]
        # The signature covers the entry; what isn't signed is under its root, or a proof of the VRF.
        assert not convicts(POLICY, "alice", one, altered), at


@pytest.mark.parametrize("text, is_promised", [(VOUCHED, True), (client_world.POLICY, False)], ids=["promised", "not promised"])
def test_only_a_promise_convicts(text: str, is_promised: bool, tmp_path: Path) -> None:
    """The same replies convict a directory whose policy has the line, and no other: neither here nor in the second implementation."""
    world, policy = changed_world(text), Policy.read(text.encode())
    one, other = world.reply("alice", 1), world.reply("alice", 2)
    shown = world.epochs[1].names[client_world.index("alice")][2]
    assert (
        judged(Place.of(policy, "alice"), shown, b"key of mallory", Span(1, 1, 2)) is Change.UNVOUCHED
    ), "a friend refuses it in both"
    assert convicts(policy, "alice", one, other) is is_promised
    line = json.dumps({"kind": "unvouched", "name": "alice", "evidence": [one.hex(), other.hex()], "policy": text})
    (tmp_path / "policy").write_text(text)
    assert second_convicts(tmp_path / "policy", line) == ((0, "unvouched") if is_promised else (1, "no evidence"))


def second_convicts(policy: Path, line: str) -> tuple[int, str]:
    """The status of the second implementation, and what it says of a line of evidence."""
    words = [sys.executable, str(TOP / "cases/second/convicts"), str(policy)]
    ran = subprocess.run(words, input=line + "\n", capture_output=True, text=True)
    return ran.returncode, ran.stdout.partition(":")[0].strip()


def test_a_promise_of_another_directory(tmp_path: Path) -> None:
    """Replies of a directory without the line don't convict under a document with it, which they don't sign, or under no document."""
    world = changed_world(client_world.POLICY)
    one, other = world.reply("alice", 1), world.reply("alice", 2)
    line = json.dumps({"kind": "unvouched", "name": "alice", "evidence": [one.hex(), other.hex()], "policy": VOUCHED})
    assert not convicts(POLICY, "alice", one, other)
    (tmp_path / "policy").write_text(VOUCHED)
    assert second_convicts(tmp_path / "policy", line) == (1, "no evidence")
    (tmp_path / "policy").write_text(client_world.POLICY + "records vouched\n")
    assert second_convicts(tmp_path / "policy", line) == (2, "")
