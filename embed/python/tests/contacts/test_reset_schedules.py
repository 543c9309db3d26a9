"""Every schedule of a few steps, an epoch for each, of an owner, a thief of her phone, who has her secret key and her token, her new device,
and operators who help or cheat. Friends look at any epochs. No change is told as the owner's unless her secret key signed it, and no
step that a service may take convicts it."""

from __future__ import annotations

import base64
import hashlib
import json
from contextlib import suppress
from dataclasses import dataclass
from functools import lru_cache
from typing import Any, Callable, Iterator, Optional, Sequence

import pytest

pytest.importorskip("nacl.signing")

import client_world
from directories import VOUCHED, Directory, Reply
from nacl.exceptions import BadSignatureError
from nacl.signing import SigningKey, VerifyKey
from people import POLICY as VOUCHED_POLICY
from people import Person
from coniks import contacts
from coniks._telling import Verdict
from coniks.vouching import Change, Notice, Place, Record, Span, Value, announced, first, following, is_allowed, judged, reset

OWNER, DEVICE, MALLORY = (SigningKey(it.encode().ljust(32)) for it in ("owner", "device", "mallory"))
POLICY = hashlib.sha256(b"policy").digest()
PLACE = Place([POLICY], "alice", True)
STEPS = 5
Shown = Optional[bytes]
History = Sequence[Shown]


def key_of(secret: SigningKey) -> bytes:
    return bytes(secret.verify_key)


def made(secret: SigningKey, number: int, before: bytes, effect: int = 0, key: bytes = b"m") -> bytes:
    """A record as somebody likes it, signed by his secret key."""
    record = Record(number, key_of(secret), before, 1, effect, b"", key)
    return bytes(Record(number, key_of(secret), before, 1, effect, secret.sign(record.signed(PLACE.prefixes[0])).signature, key))


def digest(value: bytes) -> bytes:
    return hashlib.sha256(value).digest()


# What a client or the operator asks of the service, given the present bytes and the epoch. It takes only what it may.
REQUESTS: dict[str, Callable[[Value, bytes, int], bytes]] = {
    "owner changes": lambda value, present, epoch: following(PLACE, OWNER, present, b"k%d" % epoch),
    "owner allows no reset": lambda value, present, epoch: following(PLACE, OWNER, present, b"k", 0),
    "owner closes": lambda value, present, epoch: following(PLACE, OWNER, present, b""),
    "thief changes": lambda value, present, epoch: following(PLACE, OWNER, present, b"thief's"),
    "helper announces": lambda value, present, epoch: announced(present, key_of(DEVICE), epoch + value.record.notice),
    "cheat announces": lambda value, present, epoch: announced(present, key_of(MALLORY), epoch + value.record.notice),
    "operator takes back": lambda value, present, epoch: bytes(value.record),
    "device resets": lambda value, present, epoch: reset(PLACE, DEVICE, present, b"d"),
    "mallory resets": lambda value, present, epoch: reset(PLACE, MALLORY, present, b"m"),
    "device changes": lambda value, present, epoch: following(PLACE, DEVICE, present, b"e"),
}
# What an operator shows though no service may.
CHEATS: dict[str, Callable[[Value, bytes, int], Shown]] = {
    "a next record": lambda value, present, epoch: made(MALLORY, value.record.number + 1, digest(bytes(value.record))),
    "a later record": lambda value, present, epoch: made(MALLORY, value.record.number + 2, bytes(32)),
    "a record far above": lambda value, present, epoch: made(MALLORY, 1 << 40, bytes(32)),
    "an early notice": lambda value, present, epoch: announced(present, key_of(MALLORY), epoch),
    "a reset without a notice": lambda value, present, epoch: made(
        MALLORY, value.record.number + 1, digest(announced(present, key_of(MALLORY), epoch)), epoch
    ),
    "a reset with a record between": lambda value, present, epoch: made(MALLORY, value.record.number + 2, bytes(32), epoch),
    "another key": lambda value, present, epoch: bytes(value.record)[:160] + b"x",
    "a plain key": lambda value, present, epoch: b"x",
    "no key": lambda value, present, epoch: None,
}


def following_steps(history: History, epoch: int) -> Iterator[tuple[str, Shown]]:
    """What may come next: nothing new, what the service takes of what is asked, and what a cheating operator shows."""
    present = history[-1]
    value = Value.read(present)
    yield "nothing", present
    if present is None or value is None:
        yield "owner registers", first(PLACE, OWNER, b"k", 1)
        return
    for name, request in REQUESTS.items():
        try:
            asked = request(value, present, epoch)
        except ValueError:
            continue
        if is_allowed(PLACE, present, asked, epoch):
            yield name, asked
    yield "what was shown at first", next(it for it in history if it)
    for name, cheat in CHEATS.items():
        yield name, cheat(value, present, epoch)


@lru_cache(None)
def found(before: bytes, now: Shown, span: Span) -> Change:
    return judged(PLACE, before, now, span)


@lru_cache(None)
def is_step(present: Shown, value: Shown, epoch: int) -> bool:
    """Whether a service may show this at the next epoch."""
    return value == present or (value is not None and is_allowed(PLACE, present, value, epoch))


def is_signed_by(voucher: bytes, value: bytes) -> bool:
    """Whether the record in bytes is signed by a secret key, by the layout of docs/FORMATS.md."""
    record = value[48:] if value.startswith(b"notice-1") else value
    try:
        VerifyKey(voucher).verify(POLICY + b"\x05alice" + record[:96] + record[160:], record[96:160])
    except BadSignatureError:
        return False
    return True


def wrong(history: History, at: int) -> Optional[str]:
    """What is wrong about what a friend, who has seen an epoch, thinks of the last one."""
    before, now, last = history[at], history[-1], len(history) - 1
    old = Value.read(before)
    if before is None or old is None:
        return None
    change = found(before, now, Span(at, last - 1, last))
    steps = [is_step(history[it], history[it + 1], it + 1) for it in range(at, last)]
    if all(steps) and change is Change.UNVOUCHED:
        return "an honest service is convicted"
    if steps == [False] and change is not Change.UNVOUCHED:
        return "a step that no service may take is not noticed"
    if change is Change.VOUCHED and not (now and is_signed_by(old.record.voucher, now)):
        return "a change is told as the owner's that her secret key did not sign"
    if change is Change.RESET and not is_late(old, now, last, at):
        return "a reset is told that was not announced for long enough"
    verdict = contacts.verdict_on("alice", now, change, None) if now else Verdict.KEY_GONE
    is_accepted = verdict in (Verdict.KEY, Verdict.KEY_VOUCHED, Verdict.KEY_CLOSED)
    return None if is_accepted is (change in (Change.SAME, Change.VOUCHED)) else f"the friend is told {verdict.name}"


def is_late(old: Value, now: Shown, last: int, at: int) -> bool:
    """Whether a reset of a record could be announced in time. Of a record between nobody knows for how long."""
    new = Value.read(now)
    if new is None or not is_signed_by(new.record.voucher, now or b""):
        return False
    if new.record.number > old.record.number + 1:
        return last >= at + 2
    notice = Notice(new.record.voucher, new.record.effect)
    least = 0 if old.notice == notice else at + 1 + old.record.notice
    return old.record.notice > 0 and least <= notice.effect <= last


def test_every_schedule(say: Any) -> None:
    counts = dict.fromkeys(["schedules", *(it.value for it in Change)], 0)

    def explored(history: tuple[Shown, ...], names: tuple[str, ...]) -> None:
        for at in range(len(history) - 1):
            assert wrong(history, at) is None, (names, at, wrong(history, at))
            if Value.read(history[at]):
                counts[found(history[at] or b"", history[-1], Span(at, len(history) - 2, len(history) - 1)).value] += 1
        counts["schedules"] += 1
        if len(history) <= STEPS:
            seen = dict[Shown, str]()
            for name, shown in following_steps(history, len(history)):
                seen.setdefault(shown, name)
            for shown, name in seen.items():
                explored((*history, shown), (*names, name))

    explored((None,), ())
    say(f"{counts}")
    assert counts["schedules"] > 5_000 and all(counts[it.value] for it in Change if it is not Change.UNKNOWN)


class Ruled(Directory):
    """A directory that takes only what its policy allows, unless it cheats."""

    def honest(self, path: str, query: Any, body: bytes) -> Reply:
        if path == "/v1/operations" and not self.is_allowed(base64.b64decode(json.loads(body)["key"])):
            return Reply(b'{"detail":"it may not follow"}', 403)
        return super().honest(path, query, body)

    @property
    def present(self) -> Shown:
        found = self.world.epochs[self.latest].names.get(client_world.index("dave"))
        return found[2] if found else None

    def is_allowed(self, value: bytes) -> bool:
        return is_allowed(DAVE, self.present, value, self.latest + 1)


DAVE = Place.of(VOUCHED_POLICY, "dave")


@dataclass
class Story:
    """An owner with her thief, her new device and a friend at a directory, whose epochs are the steps."""

    directory: Ruled
    owner: Person
    device: Person
    friend: Person

    def saved(self) -> list[Any]:
        return [[*self.directory.batches], *(it.state.read_bytes() for it in self.people)]

    def restore(self, saved: Sequence[Any]) -> None:
        self.directory.batches = [*saved[0]]
        self.directory.renew()
        for it, state in zip(self.people, saved[1:]):
            it.state.write_bytes(state)

    @property
    def people(self) -> list[Person]:
        return [self.owner, self.device, self.friend]

    def secret(self, person: Person) -> SigningKey:
        return SigningKey(bytes.fromhex(person.stored()["own"]["dave"]["secret"]))

    def show(self, value: bytes, is_cheat: bool = False) -> None:
        """The operator shows something at the next epoch."""
        if is_cheat or self.directory.is_allowed(value):
            self.directory.commit(self.directory.latest + 1, dave=value)

    def step(self, name: str) -> None:
        present, epoch = self.directory.present or b"", self.directory.latest + 1
        if name in ("owner changes", "owner keeps"):
            self.owner.run(*(["register", "dave", f"k{epoch}"] if name == "owner changes" else ["keep", "dave"]))
        elif name == "device resets":
            self.device.run("reset", "dave", "d")
        elif name == "thief changes":
            with suppress(ValueError):
                self.show(following(DAVE, self.secret(self.owner), present, b"thief's"))
        elif name == "operator announces":
            self.show(announced(present, key_of(self.secret(self.device)), epoch + 1))
        elif name == "operator takes back":
            self.show(present[48:] if present.startswith(b"notice-1") else present)
        else:
            self.show(following(DAVE, MALLORY, first(DAVE, MALLORY, b"m", 1), b"m"), is_cheat=True)
        if self.directory.latest < epoch:
            self.directory.commit(epoch)


ACTS = [
    "owner changes",
    "owner keeps",
    "device resets",
    "thief changes",
    "operator announces",
    "operator takes back",
    "operator cheats",
]


def told(story: Story, names: Sequence[str]) -> None:
    """What the owner and the friend are told is right for what the directory shows."""
    value, owners = Value.read(story.directory.present), key_of(story.secret(story.owner))
    (watched, lines), (looked, said) = story.owner.run("watch"), story.friend.run("lookup", "dave")
    has_cheated, was_stolen = "operator cheats" in names, "thief changes" in names
    is_hers = value is not None and value.record.voucher == owners
    assert value and value.record.is_signed(DAVE)
    if watched == 0:
        assert is_hers and value.notice is None and value.record.key != b"thief's", (names, lines)
    if looked == 0:
        assert is_hers, (names, said)
    if not has_cheated and not was_stolen and is_hers:
        assert watched == (1 if value.notice else 0) and looked == 0, (names, lines, said)
    kinds = {it["kind"] for person in story.people for it in person.stored()["found"]}
    assert "unvouched" not in kinds or has_cheated, names
    assert "changed" not in kinds or has_cheated or not is_hers, names


def test_every_schedule_of_clients(clock: Any, tmp_path: Any, capsys: pytest.CaptureFixture[str], say: Any) -> None:
    """The same by `coniks-client`, in fewer steps: the owner and a friend look after each one."""
    directory = Ruled(policy=VOUCHED)
    with directory:
        clock.latest = lambda: directory.latest
        made_people = []
        for name in ("owner", "device", "friend"):
            (tmp_path / name).mkdir()
            made_people.append(Person(tmp_path / name, capsys))
            assert made_people[-1].begin(directory) == 0
        story, count = Story(directory, *made_people), 0
        assert story.owner.run("register", "dave", "k", "--reset", "1")[0] == 0 and story.device.run("reset", "dave", "d")[0] == 3
        assert story.friend.run("lookup", "dave")[0] == 0

        def explored(names: tuple[str, ...]) -> None:
            nonlocal count
            saved = story.saved()
            for name in ACTS if len(names) < 3 else []:
                story.restore(saved)
                story.step(name)
                told(story, (*names, name))
                count += 1
                explored((*names, name))

        explored(())
        say(f"{count} schedules of clients")
        assert count == 7 + 7**2 + 7**3
