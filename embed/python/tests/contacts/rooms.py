"""A client of `coniks-client` with its directory, its auditors and its time, and what the runs of its verdicts prepare."""

from __future__ import annotations

from dataclasses import dataclass
from typing import Any, Callable, Mapping, Optional, Sequence, Union

import client_world
import pytest
from client_world import hour
from directories import Directory, Reply, vouched_world
from people import AUDITORS, FORKS, KEYS, POLICY, Auditing, Clock, Person
from nacl.signing import SigningKey
from coniks import Head, Policy, _http, _person
from coniks._client_state import StateFile
from coniks.notes import Auditor, Note, cosign, text_of
from coniks.trust import Trust
from coniks.vouching import Place, announced, first, following, reset

NOBODY, FEW = ", which no auditor confirms", ", which too few of your auditors confirm"
DAVE = Place.of(POLICY, "dave")
RECORD = first(DAVE, KEYS["one"], b"k")
# One that allows a reset after a day, its notice at epoch 4, and the record of the reset.
RESETTABLE = first(DAVE, KEYS["one"], b"k", 24)
ANNOUNCED = announced(RESETTABLE, bytes(KEYS["two"].verify_key), 28)
RESET = reset(DAVE, KEYS["two"], ANNOUNCED, b"m")
TIME = "2026-01-02 03:00 UTC"
# A directory that promises proofs for two periods, and then an epoch can no longer be verified.
LIMITED = client_world.policy_text(stored=7200)


@dataclass
class Room:
    """A client with its directory, its auditors and its time. It has begun without auditors unless `audited` is called."""

    person: Person
    directory: Directory
    auditors: list[Auditing]
    clock: Clock
    patch: pytest.MonkeyPatch
    # What another run has.
    locked: Optional[StateFile] = None

    def begin(self) -> None:
        assert self.person.begin(self.directory) == 0

    def audited(self, *named: tuple[str, str]) -> None:
        """Begins anew, with two auditors."""
        self.person.state.unlink(missing_ok=True)
        self.person.begin(self.directory, *(named or [it.pair for it in self.auditors[:2]]))

    def write(self, **members: Any) -> None:
        """Changes members of the state."""
        StateFile(self.person.state).write({**self.person.stored(), **members})

    def lie(self, path: str, body: bytes, status: int = 200) -> None:
        self.directory.lies[path] = lambda _: Reply(body, status)

    def run(self, *words: str) -> None:
        self.person.run(*words)

    def own(self) -> None:
        """Registers a name."""
        assert self.person.run("register", "dave", "key one")[0] == 0

    def missing(self) -> None:
        """A name of which the service shows nothing at epoch 4."""
        self.own()
        self.directory.commit(4)
        self.directory.commit(5)
        self.lie("/v1/history", b"", 503)

    def changed(self) -> None:
        """A name whose key is another one at epoch 4, and what its owner registered at epoch 5."""
        self.own()
        record = self.directory.world.epochs[3].names[client_world.index("dave")][2]
        self.directory.commit(4, dave=b"key of mallory")
        self.directory.commit(5, dave=record)

    def lost(self) -> None:
        """A name whose epochs 4 to 6 can no longer be verified, with auditors that confirm epoch 8."""
        policy, directory = Policy.read(LIMITED.encode()), self.directory
        (self.person.room / "policy").write_text(LIMITED)
        directory.policy = LIMITED
        directory.renew()
        self.confirm(policy, 2)
        self.audited(*[(f"https://{it}.example", str(AUDITORS[it])) for it in ("one", "two")])
        self.own()
        directory.batches += [(epoch, {}) for epoch in range(4, 9)]
        directory.renew()
        self.directory.lies["/v1/history"] = lambda _: Reply(directory.world.history("dave", 7, 8))
        self.clock.seconds = hour(9)
        self.confirm(policy, 8)

    def confirm(self, policy: Policy, epoch: int) -> None:
        """The service carries a note of both auditors."""
        text = text_of(policy, Head(epoch, self.directory.world.link(epoch)))
        self.directory.note = bytes(Note(text, tuple(cosign(name, KEYS[name], text, self.clock()) for name in ("one", "two"))))

    def announced(self, effect: int = 175) -> None:
        """A reset of the user's name is announced at epoch 4."""
        self.own()
        record = self.directory.world.epochs[3].names[client_world.index("dave")][2]
        self.directory.commit(4, dave=announced(record, bytes(KEYS["two"].verify_key), effect))

    def twin(self) -> None:
        """Another device with the user's secret key changes the key at epoch 4."""
        self.own()
        secret = SigningKey(bytes.fromhex(self.person.stored()["own"]["dave"]["secret"]))
        record = self.directory.world.epochs[3].names[client_world.index("dave")][2]
        self.directory.commit(4, dave=following(DAVE, secret, record, b"key two"))

    def resetting(self) -> None:
        """The user waits for the reset of a name, which is announced at epoch 4."""
        self.directory.commit(3, dave=RESETTABLE)
        self.person.run("reset", "dave", "key two")
        self.directory.commit(4, dave=announced(RESETTABLE, bytes.fromhex(self.voucher()), 28))

    def voucher(self) -> str:
        """The voucher of the user's name."""
        return bytes(SigningKey(bytes.fromhex(self.person.stored()["own"]["dave"]["secret"])).verify_key).hex()

    def record(self) -> None:
        """A contact's first record is accepted."""
        self.directory.commit(3, dave=RECORD)
        assert self.person.run("lookup", "dave")[0] == 0

    def fork(self) -> None:
        self.directory.world = FORKS[0]

    def head(self, **more: Any) -> None:
        """The second auditor cosigns something else."""
        self.audited()
        self.auditors[1].sign(2, **more)


@dataclass(frozen=True)
class Run:
    """The status of a run, a sentence and the members of JSON, the command, what is prepared, and the status of the line if that is
    beside others."""

    status: int
    text: Union[str, Callable[[Room], str]]
    members: Mapping[str, Any]
    words: Sequence[str]
    prepare: Callable[[Room], object] = Room.begin
    line: Optional[int] = None


def key_of(
    name: str, key: Optional[str], before: Optional[str] = None, change: Optional[str] = None, epoch: int = 2
) -> dict[str, Any]:
    return {"name": name, "epoch": epoch, "key": key, "before": before, "change": change}


def made(*calls: Callable[[Room], object]) -> Callable[[Room], object]:
    """Makes calls."""

    def making(room: Room) -> None:
        for it in calls:
            it(room)

    return making


def after(*calls: Callable[[Room], object]) -> Callable[[Room], object]:
    """Begins, and makes calls."""
    return made(Room.begin, *calls)


def words(*given: str) -> Callable[[Room], object]:
    return lambda room: room.run(*given)


def commit(epoch: int, **keys: bytes) -> Callable[[Room], object]:
    return lambda room: room.directory.commit(epoch, **keys)


def lie(path: str, body: bytes, status: int = 200) -> Callable[[Room], object]:
    return lambda room: room.lie(path, body, status)


def state(**members: Any) -> Callable[[Room], object]:
    return lambda room: room.write(**members)


def at(seconds: int) -> Callable[[Room], object]:
    return lambda room: setattr(room.clock, "seconds", seconds)


def waiting(room: Room) -> None:
    room.directory.commits = False


def refusing(room: Room) -> None:
    room.directory.refusal = "no"


def gone(room: Room) -> None:
    """The entry of epoch 4 is of a directory that has removed the name."""
    room.record()
    directory, removed = room.directory, vouched_world([(1, {}), (2, {}), (4, {})])
    body = removed[4][:9] + (3).to_bytes(8, "big") + removed[4][17:49] + directory.world.link(3) + removed[4][81:145]
    entry = client_world.signed(body)
    room.clock.seconds = hour(4)
    pages = {"2": directory.world[3] + entry, "3": entry, "4": b""}
    directory.lies["/v1/entries"] = lambda query: Reply(pages[query["after"]])
    directory.lies["/v1/lookup"] = lambda _: Reply(removed.reply("dave", 4, entry=entry))


def overdue(room: Room) -> None:
    room.missing()
    room.clock.seconds = hour(5, 10)
    room.run("watch")
    room.clock.seconds += 3601


def signed_again(room: Room) -> None:
    """The service goes on over another signature than the auditors have."""
    room.audited()
    room.directory.commit(3)
    room.directory.world.sign_again(2)


def hidden(room: Room) -> None:
    room.audited()
    for it in room.auditors[:2]:
        it.commit(3)
        it.sign(3)


def old(room: Room) -> None:
    room.clock.seconds = hour(6, 1)
    room.head(seconds=hour(6, 1))


def unfounded(room: Room) -> None:
    room.head(link=bytes(32))
    room.auditors[1].lies["/v1/entries"] = lambda _: Reply(b"", 503)


def other_key(room: Room) -> None:
    room.audited(room.auditors[0].pair, (room.auditors[1].url, str(Auditor("two", bytes(KEYS["three"].verify_key)))))


def trust_file(policy: bytes) -> Callable[[Room], object]:
    text = bytes(Trust(policy, (AUDITORS["one"], AUDITORS["two"]), 0))
    return lambda room: (room.person.room / "trust").write_bytes(text)


def file(text: bytes) -> Callable[[Room], object]:
    return lambda room: room.person.state.write_bytes(text)


def older_version(room: Room) -> None:
    room.person.state.write_bytes(room.person.state.read_bytes().replace(b"coniks-client 3 ", b"coniks-client 2 "))


def taken(room: Room) -> None:
    room.locked = StateFile(room.person.state)


def endless(room: Room) -> None:
    """A service that sends an entry at a time, of which two are taken at once."""
    room.patch.setattr(_http, "PAGES", 2)
    for epoch in (3, 4, 5):
        room.directory.commit(epoch)
    world = room.directory.world
    room.directory.lies["/v1/entries"] = lambda query: Reply(
        b"".join([it for epoch, it in ((e, world[e]) for e in world.epochs) if epoch > int(query["after"])][:1])
    )


def shown_at(name: str, *epochs: int) -> Callable[[Room], list[str]]:
    """The replies for a name, as evidence has them."""
    return lambda room: [room.directory.world.reply(name, it).hex() for it in epochs]


def faulty(room: Room) -> None:
    def raising(*_: object) -> None:
        raise AssertionError("a fault")

    room.patch.setattr(_person, "answered", raising)
