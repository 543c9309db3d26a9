"""`coniks.audit` over services that are honest, late, broken and lying, and beside other auditors."""

from __future__ import annotations

import base64
import json
import os
import random
import resource
import socket
import subprocess
import sys
import time
import urllib.error
import urllib.request
from contextlib import suppress
from pathlib import Path
from typing import Any, Callable, Optional

import pytest

pytest.importorskip("nacl.signing")

import client_world
import curve
from chain import Entry
from client_attacks import resigned
from client_world import World
import evidence
from nacl.signing import SigningKey
from sources import FORKS, WORLD, Source, dripping
from coniks import Head, Policy, _http, audit
from coniks.audit import Audit, Shelf, Unusable, main
from coniks.notes import Auditor, Note, cosign, read_note, text_of

TOP = Path(__file__).resolve().parents[4]
POLICY = Policy.read(client_world.POLICY.encode())
KEYS = {name: SigningKey(name.encode().ljust(32)) for name in ["one", "other"]}
AUDITORS = {name: Auditor(name, bytes(key.verify_key)) for name, key in KEYS.items()}
NOW, LATEST = client_world.hour(6), max(WORLD.epochs)


class Room:
    """An auditor's folder and key, in which the command runs or an `Audit`."""

    def __init__(self, folder: Path, name: str = "one", policy: Policy = POLICY):
        self.home, self.name, self.folder, self.policy = folder, name, folder / "audit", policy
        self.folder.mkdir(parents=True)
        (folder / "policy").write_bytes(bytes(policy))
        (folder / "key").write_bytes(bytes(KEYS[name]))

    def words(self, service: str, *more: str) -> list[str]:
        files = ["--policy", str(self.home / "policy"), "--folder", str(self.folder), "--key", str(self.home / "key")]
        return ["--name", self.name, "--service", service, *files, *more]

    def once(self, service: str, *more: str) -> int:
        return main(self.words(service, "--once", *more))

    def opened(self) -> Audit:
        return Audit(self.folder, self.policy, self.name, KEYS[self.name], self.home / "key.head")

    def read(self, file: str) -> bytes:
        path = self.folder / file
        return path.read_bytes() if path.exists() else b""

    @property
    def alarm(self) -> Any:
        return json.loads(self.read("alarm") or b"null")

    @property
    def head(self) -> Optional[Head]:
        return read_note(self.read("note")).head(self.policy) if self.read("note") else None

    def metric(self, name: str) -> float:
        rows = dict(it.split() for it in self.read("metrics").decode().splitlines())
        return float(rows[f"coniks_audit_{name}"])


@pytest.fixture
def room(tmp_path: Path, monkeypatch: pytest.MonkeyPatch) -> Room:
    monkeypatch.setattr(time, "time", lambda: NOW)
    return Room(tmp_path / "one")


def head_of(world: World, epoch: int) -> Head:
    return Head(epoch, world.link(epoch))


def test_honest_service(room: Room) -> None:
    """Entries are stored, and each head is cosigned by what the second implementation accepts."""
    with Source(WORLD.entries(1, 2, 3, 5)) as source:
        assert room.once(source.url) == 0 and room.read("entries") == b"".join(WORLD.entries(1, 2, 3, 5))
        assert room.head == head_of(WORLD, 5)
        source.entries = WORLD.entries()
        assert room.once(source.url) == 0 and room.head == head_of(WORLD, 6)
        assert room.once(source.url) == 0 and room.read("entries") == b"".join(WORLD.entries())
        assert source.requested[-2:] == ["/v1/entries?after=5", "/v1/entries?after=6"], "it asks from its latest entry on"
    note = read_note(room.read("note"))
    data = base64.b64decode(note.lines[0].split(" ")[2])
    message = f"cosignature/v1\ntime {NOW}\n{note.text}".encode()
    assert data[4:12] == NOW.to_bytes(8, "big") and curve.is_signed(AUDITORS["one"].key, message, data[12:])
    assert room.metric("epoch") == 6 and room.metric("alarm") == 0 and room.metric("epochs_behind") == 0 and not room.alarm


def test_pages(room: Room) -> None:
    """A service may send a few entries at once."""
    with Source([]) as source:
        entries = WORLD.entries()
        source.page = lambda after: b"".join([it for it in entries if Entry(it).epoch > after][:2])
        assert room.once(source.url) == 0 and room.read("entries") == b"".join(entries)


@pytest.mark.parametrize("kind", FORKS)
def test_equivocation(room: Room, kind: str, monkeypatch: pytest.MonkeyPatch) -> None:
    """However a directory parts from what the auditor has seen, it is told, stored and convicts, and nothing more is cosigned."""
    fork = FORKS[kind]
    with Source(WORLD.entries()) as source:
        assert room.once(source.url) == 0
        note = room.read("note")
        source.entries = fork.entries()
        assert room.once(source.url) == 1
        mine, other = (bytes.fromhex(it) for it in room.alarm["evidence"])
        assert evidence.kind(mine, other) == "overlap" and mine in WORLD.entries() and other in fork.entries()
        assert room.alarm["why"] == "EQUIVOCATION" and room.alarm["source"] == source.url and room.metric("alarm") == 1
        assert is_convicted(room), "anyone can decide that by the policy document and the alarm"
        alarm = room.read("alarm")
        source.entries = WORLD.entries()
        monkeypatch.setattr(time, "time", lambda: NOW + 5)
        assert room.once(source.url) == 1 and (room.read("note"), room.read("alarm")) == (note, alarm)
        source.entries = [
            *WORLD.entries(1, 2, 3, 5),
            FORKS["the last entry"][6] if kind != "the last entry" else FORKS["an earlier entry"][6],
        ]
        assert room.once(source.url) == 1 and (room.read("note"), room.read("alarm")) == (note, alarm), "the first one tells most"


def is_convicted(room: Room) -> bool:
    """Whether the alarm convicts the directory for the second implementation."""
    words = [sys.executable, str(TOP / "cases/second/convicts"), str(room.home / "policy")]
    status = subprocess.run(words, input=room.read("alarm"), stdout=subprocess.DEVNULL).returncode
    assert status == (0 if room.alarm["kind"] else 1)
    return status == 0


def test_signed_but_wrong(room: Room) -> None:
    """Entries that are signed and that no honest directory makes are an alarm, also without a pair that convicts."""
    first, second, third = WORLD.entries(1, 2, 3)
    policy, place = resigned(second, 113, bytes(32)), resigned(third, 49, bytes(32))
    for number, (entries, why, count) in enumerate(
        [([first, policy], "OTHER_POLICY", 2), ([first, second, place], "PREVIOUS_LINK", 1)]
    ):
        other = Room(room.home / str(number))
        with Source(entries) as source:
            assert other.once(source.url) == 1 and (other.alarm["why"], len(other.alarm["evidence"])) == (why, count)
            assert is_convicted(other) is (count == 2)
            assert other.read("entries") == b"".join(entries[:-1]), "what was accepted before is stored"


def test_harmless(room: Room, capsys: pytest.CaptureFixture[str]) -> None:
    """What anyone on the way can do is no alarm: the auditor ends with another status, and nothing is cosigned."""
    first, second, third = WORLD.entries(1, 2, 3)
    pages = [b"x", first[:-1], first + b"x", first[:-1] + bytes([first[-1] ^ 1]), b"x" * 209, bytes(209 * 2000), None]
    pages += [second, second + first, first + first, first + third]
    with Source([]) as source:
        for page in pages:
            source.page = lambda after: page
            assert room.once(source.url) == 3 and room.head in (None, head_of(WORLD, 1)), page
        source.page = lambda after: (first + second)[: 209 * 2 - 1]
        assert room.once(source.url) == 3
        source.page = lambda after: first
        assert room.once(source.url) == 3, "entries that do not rise are not asked for again and again"
    for url in [source.url, "http://127.0.0.1:1", "ftp://x", "x", "http://[", "file:///etc/passwd"]:
        assert room.once(url) == 3
    assert not room.alarm and room.read("entries") in (b"", first)
    assert "Traceback" not in capsys.readouterr().err


def test_future_entries(room: Room, monkeypatch: pytest.MonkeyPatch) -> None:
    """Epochs that begin later than now are not taken, whatever is signed, and so they don't end the chain. One that convicts does."""
    far = World([*client_world.BATCHES, (1 << 63, {})])
    with Source(far.entries()) as source:
        assert room.once(source.url) == 3 and room.head == head_of(WORLD, LATEST) and not room.alarm
        assert len(room.read("entries")) == 209 * len(WORLD.entries())
        source.entries = World([*client_world.BATCHES, (LATEST + 1, {})]).entries()
        monkeypatch.setattr(time, "time", lambda: client_world.START + LATEST * client_world.PERIOD - 301)
        assert room.once(source.url) == 3 and room.head and room.head.epoch == LATEST
        monkeypatch.setattr(time, "time", lambda: client_world.START + LATEST * client_world.PERIOD - 299)
        assert room.once(source.url) == 0 and room.head and room.head.epoch == LATEST + 1
        source.entries = World([*client_world.BATCHES[:-1], (1 << 63, {"alice": b"other"})]).entries()
        assert room.once(source.url) == 1 and room.alarm["why"] == "EQUIVOCATION"


@pytest.mark.parametrize("limit", ["PAGES", "LONGEST"])
def test_endless_entries(room: Room, limit: str, monkeypatch: pytest.MonkeyPatch) -> None:
    """What is taken at once is bounded, and the next round goes on."""
    world = World([(it, {}) for it in range(1, 30)])
    monkeypatch.setattr(time, "time", lambda: client_world.hour(30))
    monkeypatch.setattr(_http, limit, 3 if limit == "PAGES" else 0.0)
    with Source([]) as source:
        source.page = lambda after: b"".join(world[it] for it in range(after + 1, min(after + 6, 30)))
        rounds = 0
        while room.once(source.url) == 3:
            rounds += 1
            assert rounds < 20, "it goes on"
        assert rounds > 0 and room.head and room.head.epoch == 29


def test_dripping_service(room: Room, monkeypatch: pytest.MonkeyPatch) -> None:
    """A server that sends a byte now and then keeps the auditor only for its time."""
    monkeypatch.setattr(_http, "SECONDS", 1.0)
    for head in [b"HTTP/1.1 200 OK\r\nA: ", b"HTTP/1.1 200 OK\r\n\r\n"]:
        with dripping(head) as url:
            assert room.once(url) == 3
    assert not room.alarm


def test_lost_entries(room: Room) -> None:
    """A service that lacks what it had is no alarm yet, since a replica may lag: the auditor says so, and keeps its head."""
    with Source(WORLD.entries()) as source:
        assert room.once(source.url) == 0
        source.entries = WORLD.entries(1, 2)
        assert room.once(source.url) == 3 and room.head == head_of(WORLD, 6)


def test_late_service(room: Room, monkeypatch: pytest.MonkeyPatch) -> None:
    monkeypatch.setattr(time, "time", lambda: client_world.hour(8, 1))
    with Source(WORLD.entries()) as source:
        assert room.once(source.url) == 3 and room.metric("epochs_behind") == 2 and room.head == head_of(WORLD, 6)


def test_stored_before_it_is_signed(room: Room, monkeypatch: pytest.MonkeyPatch) -> None:
    """The key is used once all entries are synced."""
    synced, signed = [], 0
    fsync = os.fsync

    def noted(file: int) -> None:
        fsync(file)
        synced.append(os.readlink(f"/proc/self/fd/{file}"))

    def checked(name: str, key: SigningKey, text: str, seconds: int) -> str:
        nonlocal signed
        signed += 1
        assert synced[-1] == str(room.folder / "entries")
        assert text == text_of(POLICY, Head(Entry(room.read("entries")[-209:]).epoch, Entry(room.read("entries")[-209:]).link))
        return cosign(name, key, text, seconds)

    monkeypatch.setattr(os, "fsync", noted)
    monkeypatch.setattr(audit, "cosign", checked)
    with Source(WORLD.entries()) as source:
        assert room.once(source.url) == 0
    assert signed == 1


def test_full_disk(room: Room) -> None:
    """Entries that the disk takes only in part are not cosigned. Once there is room they are fetched again."""
    with Source(WORLD.entries()) as source:
        words = [sys.executable, "-m", "coniks.audit", *room.words(source.url, "--once")]
        size = 209 * 2 + 100
        limit = lambda: resource.setrlimit(resource.RLIMIT_FSIZE, (size, size))
        assert subprocess.run(words, stderr=subprocess.DEVNULL, preexec_fn=limit).returncode == 3
        assert len(room.read("entries")) == size and not room.read("note")
        assert room.once(source.url) == 0 and room.read("entries") == b"".join(WORLD.entries()) and room.head == head_of(WORLD, 6)


@pytest.mark.kills
def test_kills(tmp_path: Path, request: pytest.FixtureRequest) -> None:
    """The auditor is killed at random moments while a directory grows. Each note that it published is of the one chain."""
    room, draw, heads = Room(tmp_path / "one"), random.Random(request.config.getoption("seed")), set()
    world = World([(it, {}) for it in range(1, 150)])
    with Source(world.entries(1)) as source:
        for _ in range(max(2, request.config.getoption("kills") // 4)):
            words = [sys.executable, "-m", "coniks.audit", *room.words(source.url, "--interval", "0.001")]
            running = subprocess.Popen(words, stderr=subprocess.DEVNULL)
            before, start, more = room.head, time.monotonic(), draw.random() / 2
            while time.monotonic() < start + 60 and (room.head == before or time.monotonic() < start + 0.6 + more):
                source.entries = world.entries(*range(1, min(149, len(source.entries) + 1) + 1))
                time.sleep(0.04)
                heads.add(room.head)
            running.kill()
            running.wait()
        assert room.once(source.url) == 3 and room.read("entries") == b"".join(source.entries), "late, and whole"
    assert len(heads) > 2
    assert all(it is None or it.link == world.link(it.epoch) for it in heads)


def test_old_and_changed_folders(room: Room) -> None:
    """A folder from an old backup, a changed and a cut one: nothing is cosigned over them."""
    with Source(WORLD.entries()) as source:
        assert room.once(source.url) == 0
        whole = room.read("entries")
        flipped = whole[:300] + bytes([whole[300] ^ 1]) + whole[301:]
        fork = b"".join(FORKS["the last entry"].entries(1, 2, 3, 5, 6))
        for wrong in [whole[: 209 * 3], b"", flipped, fork, whole[209:]]:
            (room.folder / "entries").write_bytes(wrong)
            assert room.once(source.url) == 3, wrong[:20]
            assert room.read("entries") == wrong
        (room.folder / "entries").write_bytes(whole + b"cut")
        assert room.once(source.url) == 0 and room.read("entries") == whole
        with pytest.raises(Unusable, match="another process"):
            both = [room.opened(), room.opened()]
            assert not both


def grown() -> tuple[World, World]:
    """The directory, and the same one with another signature of epoch 5, over which it goes on."""
    world, again = World(client_world.BATCHES), World(client_world.BATCHES)
    again.sign_again(5)
    return world, again


def test_signed_again(room: Room) -> None:
    """The next entry may follow another signature of the latest one: the auditor goes on with that, and cosigns one head of each epoch."""
    world, again = grown()
    with Source(world.entries(1, 2, 3, 5)) as source:
        assert room.once(source.url) == 0 and room.head == head_of(world, 5)
        note = room.read("note")
        source.entries = again.entries(1, 2, 3, 5)
        assert room.once(source.url) == 0 and room.read("note") == note, "nothing follows it yet"
        source.entries = again.entries()
        assert room.once(source.url) == 0 and room.head == head_of(again, 6) and not room.alarm
        assert room.read("entries") == b"".join([*world.entries(1, 2, 3, 5), *again.entries(5, 6)]), "what was cosigned stays"
        assert room.once(source.url) == 0 and room.head == head_of(again, 6), "it is read again"
        source.entries = world.entries()
        assert room.once(source.url) == 1 and room.alarm["why"] == "EQUIVOCATION", "two entries that follow epoch 5"


def test_note_of_the_other_signature(room: Room) -> None:
    """From the other signature on, no note is served before its auditor has cosigned the next head: a peer would take it for a lie."""
    world, again = grown()
    with Source(world.entries(1, 2, 3, 5)) as source:
        assert room.once(source.url) == 0
        auditor, note = room.opened(), (room.home / "key.head").read_bytes()
        source.entries = again.entries()
        auditor.follow(source.url)
        assert not room.read("note") and (room.home / "key.head").read_bytes() == note
        auditor.sign()
        assert room.head == head_of(again, 6)


def test_signed_again_and_withheld(room: Room) -> None:
    """Without the other signature the next entry is an alarm, as one that follows no entry."""
    world, again = grown()
    with Source(world.entries(1, 2, 3, 5)) as source:
        assert room.once(source.url) == 0
        source.entries = [*world.entries(1, 2, 3, 5), again[6]]
        assert room.once(source.url) == 1 and room.alarm["why"] == "PREVIOUS_LINK" and room.alarm["evidence"] == [again[6].hex()]
        assert room.read("entries") == b"".join(world.entries(1, 2, 3, 5)) and room.head == head_of(world, 5)


def test_signed_again_and_refused(room: Room) -> None:
    """The other signature is stored, also if the entry that asked for it is refused after all."""
    world, again = grown()
    with Source(world.entries(1, 2, 3, 5)) as source:
        assert room.once(source.url) == 0
        source.entries = [*again.entries(1, 2, 3, 5), resigned(again[6], 81, bytes(32))]
        assert room.once(source.url) == 1 and room.alarm["why"] == "NONCE_CHANGED"
        assert room.read("entries") == b"".join([*world.entries(1, 2, 3, 5), again[5]])
        assert room.once(source.url) == 1 and room.read("entries") == b"".join(
            [*world.entries(1, 2, 3, 5), again[5]]
        ), "it is read again"


def test_signed_again_and_not_followed(room: Room) -> None:
    """The other signature is not taken for an entry that follows the first one, and is refused for something else."""
    world, again = grown()
    with Source(world.entries(1, 2, 3, 5)) as source:
        assert room.once(source.url) == 0
        source.entries = [*again.entries(1, 2, 3, 5), resigned(world[6], 81, bytes(32))]
        assert room.once(source.url) == 1 and room.alarm["why"] == "NONCE_CHANGED"
        assert room.read("entries") == b"".join(world.entries(1, 2, 3, 5)) and room.head == head_of(world, 5)


def test_signed_again_during_a_call(room: Room) -> None:
    """The same within one catch-up: the page with the entry was sent before it was signed again."""
    world, again = grown()
    pages = [b"".join(world.entries(1, 2, 3, 5)), again[6], again[5] + again[6]]
    with Source([]) as source:
        source.page = lambda after: pages.pop(0) if pages else b""
        assert room.once(source.url) == 0 and room.head == head_of(again, 6) and not pages


def test_end_between_two_signatures(room: Room) -> None:
    """An auditor that ends before it has stored the next entry cosigns no second head of the epoch, and goes on."""
    world, again = grown()
    with Source(world.entries(1, 2, 3, 5)) as source:
        assert room.once(source.url) == 0
        note = room.read("note")
        (room.folder / "entries").write_bytes(b"".join([*world.entries(1, 2, 3, 5), again[5], again[6][:100]]))
        source.entries = again.entries(1, 2, 3, 5)
        assert room.once(source.url) == 0 and (room.home / "key.head").read_bytes() == note
        source.entries = again.entries()
        assert room.once(source.url) == 0 and room.head == head_of(again, 6)


@pytest.mark.parametrize("entries", [2, 3, 4, 5, 6, 1000])
def test_served_in_place(room: Room, entries: int, monkeypatch: pytest.MonkeyPatch) -> None:
    """Whatever the size of a page is, another signature is served in the place of the first one, and who follows gets one chain."""
    world, again = grown()
    before = [*world.entries(1, 2, 3, 5), *again.entries(5, 6)]
    again.sign_again(6)
    (room.folder / "entries").write_bytes(b"".join([*before, again[6]]))
    monkeypatch.setattr(audit, "PAGE", entries * 209)
    shelf, epochs = Shelf(room.folder), [0]
    got = list[bytes]()
    while page := shelf.entries(epochs[-1]):
        assert len(page) <= entries * 209
        got += [page[at : at + 209] for at in range(0, len(page), 209)]
        epochs = [Entry(it).epoch for it in got]
    assert got == again.entries(), epochs


@pytest.mark.parametrize("epoch, link", [(5, bytes(32)), (6, None)], ids=["another link", "another epoch"])
def test_lies_beside_two_signatures(epoch: int, link: Optional[bytes], room: Room) -> None:
    """Another signature that a peer shows doesn't excuse the head of no entry, or that of another epoch."""
    world, again = grown()
    with Source(world.entries()) as service, Source([*again.entries(1, 2, 3, 5), world[6]]) as peer:
        text = text_of(POLICY, Head(epoch, link or again.link(5)))
        peer.note = bytes(Note(text, (cosign("other", KEYS["other"], text, NOW),)))
        assert room.once(service.url, "--peer", peer.url, str(AUDITORS["other"])) == 1
        assert json.loads(room.read("alarm.peer"))["note"] == peer.note.decode() and not room.alarm


def test_peers_with_two_signatures(room: Room) -> None:
    """A peer that has cosigned the other signature of the latest epoch is no alarm. What it made up is one."""
    world, again = grown()
    with Source(world.entries(1, 2, 3, 5)) as service, Source(again.entries(1, 2, 3, 5)) as peer:
        words = [service.url, "--peer", peer.url, str(AUDITORS["other"])]
        peer.note = published(again, 5)
        assert room.once(*words) == 3 and not room.read("alarm.peer") and room.head == head_of(world, 5)
        peer.entries = again.entries()
        peer.note = published(again, 6)
        assert room.once(*words) == 0 and room.head == head_of(again, 6), "what it goes on with is taken"
        forged = again[6][:-1] + bytes([again[6][-1] ^ 1])
        peer.entries = [*again.entries(1, 2, 3, 5), forged]
        text = text_of(POLICY, Head(6, Entry(forged).link))
        peer.note = bytes(Note(text, (cosign("other", KEYS["other"], text, NOW),)))
        assert room.once(*words) == 1 and room.read("alarm.peer") and not room.alarm, "nobody signed it"


# Other auditors.


def published(world: World, epoch: int, name: str = "other") -> bytes:
    text = text_of(POLICY, head_of(world, epoch))
    return bytes(Note(text, (cosign(name, KEYS[name], text, NOW),)))


@pytest.mark.parametrize("kind", FORKS)
def test_two_auditors(room: Room, kind: str) -> None:
    """A directory shows two auditors different chains. Each is content alone, and convicts it by the other's entries."""
    fork = FORKS[kind]
    with Source(WORLD.entries()) as service, Source(fork.entries()) as peer:
        peer.note = published(fork, max(fork.epochs))
        assert room.once(service.url) == 0
        assert room.once(service.url, "--peer", peer.url, str(AUDITORS["other"])) == 1
        mine, other = (bytes.fromhex(it) for it in room.alarm["evidence"])
        assert evidence.kind(mine, other) == "overlap" and room.alarm["source"] == peer.url


def test_honest_peers(room: Room) -> None:
    """An auditor behind and one ahead are no alarm. What the one ahead has is taken from it."""
    with Source(WORLD.entries(1, 2, 3, 5)) as service, Source(WORLD.entries()) as peer:
        peer.note = published(WORLD, 2)
        assert room.once(service.url, "--peer", peer.url, str(AUDITORS["other"])) == 0 and room.head == head_of(WORLD, 5)
        assert "/v1/entries" not in "".join(peer.requested), "equal heads need no entries"
        peer.note = published(WORLD, 6)
        assert room.once(service.url, "--peer", peer.url, str(AUDITORS["other"])) == 0 and room.head == head_of(WORLD, 6)


def test_lying_peers(room: Room) -> None:
    """A peer that cosigns what it can't show is reported apart from a directory that lies, and stops nobody."""
    with Source(WORLD.entries()) as service, Source(WORLD.entries()) as peer:
        words = [service.url, "--peer", peer.url, str(AUDITORS["other"])]
        peer.note = published(FORKS["the last entry"], 6)
        assert room.once(*words) == 1 and not room.alarm and room.head == head_of(WORLD, 6)
        assert json.loads(room.read("alarm.peer"))["note"] == peer.note.decode() and room.metric("peer_alarm") == 1
        (room.folder / "alarm.peer").unlink()
        for note in [b"", b"x", published(WORLD, 6, "one"), published(WORLD, 6).replace(b"\n6\n", b"\n7\n")]:
            peer.note = note
            assert room.once(*words) == 3 and not room.alarm and not room.read("alarm.peer"), note
        peer.note, peer.page = published(WORLD, 6), lambda after: b"x"
        assert room.once(*words) == 0, "a head that is equal needs no entries"
        later = World([*client_world.BATCHES, (7, {})])
        for page in (b"", b"".join(later.entries()[:-1]), later[6]):
            peer.note, peer.page = published(later, 7), lambda after: b"".join(it for it in [page] if after < 6)
            assert room.once(*words) == 3 and not room.read("alarm.peer"), "entries that someone on the way withholds are no alarm"


def test_command(tmp_path: Path, capsys: pytest.CaptureFixture[str]) -> None:
    """A key, a running auditor that serves what it has, its alarm and its end."""
    assert main(["--name", "one", "--new-key", str(tmp_path / "new")]) == 0
    printed = Auditor.read(capsys.readouterr().out.strip())
    assert printed.key == bytes(SigningKey((tmp_path / "new").read_bytes()).verify_key)
    assert (tmp_path / "new").stat().st_mode & 0o777 == 0o600
    assert main(["--name", "one", "--new-key", str(tmp_path / "new")]) == 3, "a key is never replaced"
    with pytest.raises(SystemExit) as ended:
        main(["--name", "one"])
    assert ended.value.code == 2
    room = Room(tmp_path / "one")
    at = f"127.0.0.1:{free_port()}"
    with Source(WORLD.entries()) as source:
        audits = [*room.words(source.url, "--interval", "0.05"), "--listen", f"127.0.0.1:{free_port()}"]
        serves = ["--folder", str(room.folder), "--listen", at]
        running, serving = (
            subprocess.Popen([sys.executable, "-m", "coniks.audit", *it], stderr=subprocess.DEVNULL) for it in (audits, serves)
        )
        try:
            check_served(room, source, at)
            assert running.wait(60) == 1, "it ends at the alarm, and what it had is served by another process"
            assert served(at, "/alarm") == room.read("alarm")
        finally:
            running.kill()
            serving.terminate()
            assert serving.wait(60) == 0


def free_port() -> int:
    with socket.socket() as free:
        free.bind(("127.0.0.1", 0))
        return int(free.getsockname()[1])


@pytest.mark.parametrize("address", ["8081", ":8081", "127.0.0.1", "127.0.0.1:", "127.0.0.1:x", "127.0.0.1:70000"])
def test_bad_addresses(address: str, capsys: pytest.CaptureFixture[str]) -> None:
    """An address without a host would be open to everyone."""
    with pytest.raises(SystemExit) as ended:
        main(["--folder", "x", "--listen", address])
    assert ended.value.code == 2 and "HOST:PORT" in capsys.readouterr().err


def test_emptied_folder(room: Room) -> None:
    """A folder that lacks what its key has cosigned is refused: the auditor would cosign another chain."""
    with Source(WORLD.entries()) as source:
        assert room.once(source.url) == 0 and (room.home / "key.head").read_bytes() == room.read("note")
        for file in room.folder.iterdir():
            file.unlink()
        source.entries = FORKS["the last entry"].entries()
        assert room.once(source.url) == 3 and not room.read("note") and not room.read("entries")
        (room.folder / "entries").write_bytes(b"".join(WORLD.entries(1, 2, 3, 5)))
        assert room.once(source.url) == 3, "an old backup"
        (room.folder / "entries").write_bytes(b"".join(WORLD.entries()))
        source.entries = WORLD.entries()
        assert room.once(source.url) == 0


@pytest.mark.parametrize("epoch", [3, 5])
@pytest.mark.parametrize("rotated", [None, 3, 5])
def test_withheld_entries(room: Room, rotated: Optional[int], epoch: int) -> None:
    """An entry that is withheld for a while is no alarm, whatever it has changed."""
    world = World(client_world.BATCHES, rotated)
    with Source(world.entries(1, 2)) as source:
        assert room.once(source.url) == 3 and room.head == head_of(world, 2), "it is late"
        source.entries = [it for it in world.entries() if it != world[epoch]]
        assert room.once(source.url) == 3 and not room.alarm
        source.entries = world.entries()
        assert room.once(source.url) == 0


def test_unexpected(room: Room, monkeypatch: pytest.MonkeyPatch) -> None:
    """An error of the program is status 3, and no alarm."""

    def raising(*_: object) -> None:
        raise AssertionError("a fault")

    monkeypatch.setattr(_http, "answered", raising)
    assert room.once("http://127.0.0.1:1") == 3 and not room.alarm


def test_without_a_package(tmp_path: Path) -> None:
    """A package that is missing is status 3 in one line."""
    (tmp_path / "nacl").mkdir()
    (tmp_path / "nacl/__init__.py").write_text("raise ImportError('no PyNaCl here')\n")
    path = os.pathsep.join([str(tmp_path), str(Path(audit.__file__).parent.parent)])
    for command in ("audit", "client"):
        words = [sys.executable, "-m", "coniks.commands", command, "--help"]
        ran = subprocess.run(words, capture_output=True, text=True, env=os.environ | {"PYTHONPATH": path})
        assert (ran.returncode, ran.stderr) == (3, f"coniks-{'audit' if command == 'audit' else 'client'}: no PyNaCl here\n")


def check_served(room: Room, source: Source, at: str) -> None:
    wait_for(lambda: room.read("note") and served(at, "/v1/note") == room.read("note"))
    assert served(at, "/v1/entries?after=2") == b"".join(WORLD.entries(3, 5, 6)) and served(at, "/alarm") is None
    assert served(at, "/v1/entries?after=0") == b"".join(WORLD.entries()) and served(at, "/v1/entries?after=99") == b""
    for target in ["/", "/v1/entries", "/v1/entries?after=x", "/v1/entries?after=-1", "/../key", "/v1/entries?after=" + "9" * 30]:
        assert served(at, target) is None
    source.entries = FORKS["the last entry"].entries()
    wait_for(lambda: served(at, "/alarm"))
    assert served(at, "/alarm") == room.read("alarm")
    wait_for(lambda: b"coniks_audit_alarm 1\n" in (served(at, "/metrics") or b""))


def wait_for(call: Callable[[], object]) -> None:
    """Waits until a call returns something true."""
    end = time.monotonic() + 60
    while not call():
        assert time.monotonic() < end
        time.sleep(0.05)


def served(at: str, target: str) -> Optional[bytes]:
    try:
        with urllib.request.urlopen(f"http://{at}{target}", timeout=30) as found:
            body: bytes = found.read()
            return body
    except urllib.error.URLError:
        return None
