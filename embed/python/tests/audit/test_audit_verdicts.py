"""All verdicts of `coniks-audit`: a run tells each of them with the status, the event and the sentence that are written by hand beside it."""

from __future__ import annotations

import json
import time
from contextlib import ExitStack
from dataclasses import dataclass, field
from pathlib import Path
from typing import Callable, Iterator, Optional, Sequence

import pytest

pytest.importorskip("nacl.signing")

import client_world
from client_world import BATCHES, World, digest
from endings import BEGUN, ENDED, FIRST, NEXT_POLICY, OLD, OLD_POLICY, OTHER, SIGNED, STOLEN, chained, succession
from sources import Source
from test_audit import AUDITORS, KEYS, LATEST, NOW, Room
from coniks import Head, _http
from coniks._telling import Verdict
from coniks.audit import Audit
from coniks.notes import Note, cosign, text_of


@dataclass
class Place:
    """An auditor with a service and another auditor. `more` is the rest of its command line."""

    room: Room
    service: Source
    peer: Source
    patch: pytest.MonkeyPatch
    opened: list[Audit] = field(default_factory=list)
    more: list[str] = field(default_factory=list)
    before: Optional[Room] = None

    def once(self) -> int:
        return self.room.once(self.service.url, *self.more)

    def end(self, text: bytes = SIGNED) -> None:
        """The directory ends by a succession."""
        self.service.succession = text
        self.once()

    def go_on(self, entries: Sequence[bytes] = BEGUN, text: bytes = SIGNED) -> None:
        """The same auditor goes on in the next directory."""
        self.end(text)
        self.before, self.room = self.room, Room(self.room.home / "next", policy=NEXT_POLICY)
        self.more = ["--before", str(self.before.folder)]
        self.service.entries, self.service.succession = list(entries), b""
        self.patch.setattr(time, "time", lambda: client_world.hour(4))


@dataclass(frozen=True)
class Run:
    """The status of a run, and the line that it prints: its event and its sentence. `prepare` makes what is wrong, after a round in
    which all was well if `is_later`."""

    status: int
    event: str
    text: str
    prepare: Callable[[Place], object]
    is_later: bool = False


def late(it: Place) -> None:
    it.patch.setattr(time, "time", lambda: client_world.hour(LATEST + 2, 1))


def cosigned(world: World, epoch: int, name: str = "other") -> Callable[[Place], object]:
    """The other auditor has cosigned the head of an epoch."""
    return lambda it: setattr(it.peer, "note", published(world, epoch, name))


def published(world: World, epoch: int, name: str = "other") -> bytes:
    text = text_of(OLD_POLICY, Head(epoch, world.link(epoch)))
    return bytes(Note(text, (cosign(name, KEYS[name], text, NOW),)))


def unsigned(it: Place) -> None:
    """An entry of which a bit of the signature is another one."""
    it.service.entries = [ENDED[1][:-1] + bytes([ENDED[1][-1] ^ 1])]


def withheld(it: Place) -> None:
    it.peer.note = published(STOLEN, LATEST + 1)


def twice(it: Place) -> None:
    """The other auditor has another signature of the latest entry."""
    again = World(BATCHES, policy=digest(OLD))
    again.sign_again(LATEST)
    it.peer.entries, it.peer.note = again.entries(), published(again, LATEST)


def two(it: Place) -> None:
    it.opened.append(it.room.opened())


def emptied(it: Place) -> None:
    (it.room.folder / "entries").write_bytes(b"")


def flipped(it: Place) -> None:
    entries = it.room.read("entries")
    (it.room.folder / "entries").write_bytes(entries[:300] + bytes([entries[300] ^ 1]) + entries[301:])


def failing(it: Place) -> None:
    def raising(*_: object) -> None:
        raise AssertionError("a fault")

    it.patch.setattr(_http, "answered", raising)


def shown(**members: object) -> Callable[[Place], object]:
    """The service shows these in place of what it has."""

    def show(it: Place) -> None:
        for name, value in members.items():
            setattr(it.service, name, value)

    return show


def ended(**members: object) -> Callable[[Place], object]:
    """The directory has ended, and then the service shows something else."""

    def end(it: Place) -> None:
        it.end()
        shown(**members)(it)

    return end


def gone_on(entries: Sequence[bytes], text: bytes = SIGNED) -> Callable[[Place], object]:
    """The auditor goes on in the next directory, of which the service has these entries."""

    def go_on(it: Place) -> None:
        it.go_on(entries, text)

    return go_on


def unrelated(it: Place) -> None:
    """The auditor goes on in a directory that the succession doesn't name."""
    it.go_on()
    (it.room.home / "policy").write_text(client_world.POLICY)


def not_ended(it: Place) -> None:
    it.go_on()
    assert it.before
    (it.before.folder / "succession.note").unlink()


def of_another(it: Place) -> None:
    (it.room.folder / "policy").write_text(client_world.POLICY)


def changed(it: Place) -> None:
    it.end()
    (it.room.folder / "succession").write_bytes(succession(ENDED[5]))


ROTATED = chained([bytes(32)] * 4, nonce=bytes(32))
WRONG = "the signature isn't valid for this body"
RUNS = {
    "AUDIT_ALARM": Run(1, "alarm", "SERVICE: EQUIVOCATION", lambda it: setattr(it.service, "entries", OTHER.entries()), True),
    "AUDIT_PEER_ALARM": Run(1, "alarm", "PEER: HEAD_DIFFERS", cosigned(OTHER, LATEST)),
    "AUDIT_REFUSED": Run(3, "unusable", f"SERVICE: {WRONG}", unsigned),
    "AUDIT_NOT_COSIGNED": Run(3, "unusable", "PEER: the note isn't cosigned by other", cosigned(ENDED, LATEST, "one")),
    "AUDIT_WITHHELD": Run(
        3, "unusable", f"PEER: the entries up to epoch {LATEST + 1} are withheld, which other has cosigned", withheld
    ),
    "AUDIT_TWICE": Run(
        3, "unusable", f"PEER: other has cosigned another signature of epoch {LATEST}: its next head will decide", twice
    ),
    "AUDIT_LATE": Run(3, "late", "the latest epoch is 2 epochs behind the policy's clock", late),
    "AUDIT_TAKEN": Run(3, "ended", "Unusable: another process audits in FOLDER", two),
    "AUDIT_CHANGED": Run(3, "ended", f"Unusable: FOLDER was changed, or is an old backup: {WRONG}", flipped, True),
    "AUDIT_LACKS": Run(
        3, "ended", "Unusable: FOLDER was changed, or is an old backup: the entries lack the head that was cosigned", emptied, True
    ),
    "AUDIT_ENDED": Run(3, "ended", "AssertionError: a fault", failing),
    "AUDIT_OTHER": Run(3, "ended", "Unusable: FOLDER is of another directory: give each policy a folder of its own", of_another),
    "AUDIT_SUCCEEDED": Run(
        0,
        "succession",
        f"the directory ends with epoch {LATEST}, and goes on under the policy {NEXT_POLICY.digest.hex()}: audit that --before FOLDER",
        shown(succession=SIGNED),
        True,
    ),
    "AUDIT_UNCOMPARED": Run(
        0,
        "succession",
        "epoch 3 and the last one before it have no roots to compare: VRF or nonce is another one",
        gone_on(ROTATED, succession(first=ROTATED[FIRST - 1])),
    ),
    "AUDIT_SUCCESSIONS": Run(
        1,
        "alarm",
        "SERVICE: it shows another succession of this directory, and the successor key signed both",
        ended(succession=succession(ENDED[5])),
    ),
    "AUDIT_VOID": Run(
        1,
        "alarm",
        "SERVICE: an entry is signed after the directory's last epoch: the signing key was stolen, or the directory takes entries back",
        ended(entries=STOLEN.entries(1, 2, 3, 5, 6, 7)),
    ),
    "AUDIT_END_DIFFERS": Run(
        1,
        "alarm",
        "SERVICE: the entry of the last epoch is another one than the succession names",
        shown(succession=succession(OTHER[LATEST])),
        True,
    ),
    "AUDIT_START_DIFFERS": Run(
        1,
        "alarm",
        "SERVICE: the entry of the first epoch that counts is another one than the succession before names",
        gone_on(chained([bytes(32)] * 4)),
    ),
    "AUDIT_ROOTS_DIFFER": Run(
        1,
        "alarm",
        "SERVICE: the first epoch that counts shows other keys than the last one of the directory before",
        gone_on(BEGUN, succession(first=BEGUN[3])),
    ),
    "AUDIT_UNSIGNED": Run(
        3,
        "unusable",
        "SERVICE: the succession is of another directory, or its successor key did not sign it",
        shown(succession=succession(secret=client_world.SIGNING)),
    ),
    "AUDIT_UNENDED": Run(
        3,
        "unusable",
        f"SERVICE: the entries up to epoch {LATEST + 1} are withheld, with which the directory ends",
        shown(succession=succession(STOLEN[LATEST + 1])),
    ),
    "AUDIT_SUCCESSION_CHANGED": Run(
        3,
        "ended",
        "Unusable: FOLDER was changed, or is an old backup: its succession is not the one that was cosigned",
        changed,
    ),
    "AUDIT_NOT_BEFORE": Run(
        3,
        "ended",
        "Unusable: BEFORE has no directory that this one goes on from: this is no succession of docs/FORMATS.md: take the bytes that "
        "its directory publishes",
        not_ended,
    ),
    "AUDIT_NOT_NEXT": Run(
        3,
        "ended",
        f"Unusable: BEFORE has no directory that this one goes on from: another policy is next, {NEXT_POLICY.digest.hex()}",
        unrelated,
    ),
}


@pytest.fixture
def place(tmp_path: Path, monkeypatch: pytest.MonkeyPatch) -> Iterator[Place]:
    monkeypatch.setattr(time, "time", lambda: NOW)
    with ExitStack() as opened:
        service, peer = (opened.enter_context(Source(ENDED.entries())) for _ in range(2))
        peer.note = published(ENDED, LATEST)
        place = Place(Room(tmp_path / "one", policy=OLD_POLICY), service, peer, monkeypatch)
        place.more = ["--peer", peer.url, str(AUDITORS["other"])]
        yield place


@pytest.mark.parametrize("name", RUNS)
def test_verdict(name: str, place: Place, capsys: pytest.CaptureFixture[str]) -> None:
    """A verdict is reported in one line of JSON, and the run ends with its status."""
    run = RUNS[name]
    if run.is_later:
        assert place.once() == 0
    assert not capsys.readouterr().err, "all is well, which prints nothing"
    run.prepare(place)
    capsys.readouterr()
    status = place.once()
    lines = [json.loads(it) for it in capsys.readouterr().err.splitlines()]
    text = run.text
    places = {"SERVICE": place.service.url, "PEER": place.peer.url, "FOLDER": str(place.room.folder)}
    places["BEFORE"] = str(place.before.folder) if place.before else ""
    for it, value in places.items():
        text = text.replace(it, value)
    assert (status, [(it["event"], it["text"]) for it in lines if it["event"] != "late" or name == "AUDIT_LATE"]) == (
        run.status,
        [(run.event, text)],
    )
    assert all(it.keys() == {"time", "event", "text"} for it in lines) and Verdict[name].status == run.status


def test_each_verdict() -> None:
    """Each verdict of `coniks-audit` has a run."""
    assert {*RUNS} == {it.name for it in Verdict if it.name.startswith("AUDIT_")}
