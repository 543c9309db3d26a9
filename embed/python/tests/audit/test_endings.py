"""`coniks.audit` and the succession of its directory: in each order, withheld, forged, twice, and with entries after the end."""

from __future__ import annotations

import json
import os
import random
import subprocess
import sys
import time
from pathlib import Path
from typing import Any, Callable

import pytest

pytest.importorskip("nacl.signing")

import client_world
import curve
import evidence
from client_world import BATCHES, World, digest
from endings import ENDED, LAST, OLD, OLD_POLICY, OTHER, SIGNED, STOLEN, SUCCESSOR, chained, is_cosigned, succession, with_successor
from nacl.signing import SigningKey
from sources import Source
from test_audit import AUDITORS, KEYS, LATEST, Room, free_port, served
from coniks import Head, Policy, audit
from coniks.audit import Shelf
from coniks.notes import Note, cosign, read_succession, text_of

# Another succession of the same directory, and what nobody who has the offline key has signed.
SECOND = succession(ENDED[5])
# Epoch 8 may be shown already, and epoch 6 is not late yet.
NOW = client_world.hour(7, 3400)
TARGET = f"/v1/succession?policy={digest(OLD).hex()}"


@pytest.fixture
def room(tmp_path: Path, monkeypatch: pytest.MonkeyPatch) -> Room:
    monkeypatch.setattr(time, "time", lambda: NOW)
    return Room(tmp_path / "one", policy=OLD_POLICY)


def beside(room: Room) -> bytes:
    path = room.home / "key.head.succession"
    return path.read_bytes() if path.exists() else b""


def is_ended(room: Room, text: bytes = SIGNED) -> bool:
    """Whether the succession is cosigned, by the second implementation, and is where it must be."""
    note = room.read("succession.note")
    assert note in (b"", beside(room)) and (not note or room.read("succession") == text)
    return bool(note) and is_cosigned(note, text, AUDITORS["one"].key, NOW) and Shelf(room.folder).page(TARGET) == note


def parts(room: Room) -> list[bytes]:
    return [bytes.fromhex(it) for it in room.alarm["evidence"]]


def peer_note(world: World, epoch: int) -> bytes:
    """What another auditor shows, which has cosigned a head."""
    text = text_of(OLD_POLICY, Head(epoch, world.link(epoch)))
    return bytes(Note(text, (cosign("other", KEYS["other"], text, NOW),)))


def cosigned(text: bytes = SIGNED) -> bytes:
    """What another auditor shows of the end."""
    return bytes(Note(text.decode(), (cosign("other", KEYS["other"], text.decode(), NOW),)))


def events(capsys: pytest.CaptureFixture[str]) -> list[tuple[str, str]]:
    lines = [json.loads(it) for it in capsys.readouterr().err.splitlines()]
    return [(it["event"], it["text"]) for it in lines]


def test_after_the_entries(room: Room, capsys: pytest.CaptureFixture[str], monkeypatch: pytest.MonkeyPatch) -> None:
    """The directory ends once the auditor has all entries. It says so once, and is not late from then on."""
    with Source(ENDED.entries()) as source:
        assert room.once(source.url) == 0 and not room.read("succession") and source.requested[0] == TARGET
        assert Shelf(room.folder).page(TARGET) is None and room.metric("succession") == 0
        note, source.succession = room.read("note"), SIGNED
        assert room.once(source.url) == 0 and is_ended(room) and room.metric("succession") == 1
        assert room.read("note") == note and not room.alarm
        told = events(capsys)
        assert [it for it, _ in told] == ["succession"] and f"epoch {LAST}," in told[0][1] and succession()[-1:] == b"\n"
        monkeypatch.setattr(time, "time", lambda: client_world.hour(LATEST + 20))
        assert room.once(source.url) == 0 and not events(capsys), "no epoch is late"
        assert room.read("succession.note") == beside(room) and room.read("entries") == b"".join(ENDED.entries())


@pytest.mark.parametrize("is_shown_by_peer", [False, True])
def test_before_the_entries(room: Room, is_shown_by_peer: bool, capsys: pytest.CaptureFixture[str]) -> None:
    """It is stored at once, and cosigned once the last entry is there. Nothing else ends the directory meanwhile."""
    with Source(ENDED.entries(1, 2, 3)) as service, Source([]) as peer:
        words = [service.url]
        if is_shown_by_peer:
            words += ["--peer", peer.url, str(AUDITORS["other"])]
            peer.note, peer.entries, peer.succession = peer_note(ENDED, 3), ENDED.entries(1, 2, 3), cosigned()
        else:
            service.succession = SIGNED
        assert room.once(*words) == 3 and room.read("succession") == SIGNED and not beside(room)
        assert ("unusable", f"{service.url}: the entries up to epoch {LAST} are withheld, with which the directory ends") in events(
            capsys
        )
        assert room.head == Head(3, ENDED.link(3)) and Shelf(room.folder).page(TARGET) is None
        service.entries, service.succession, peer.succession = ENDED.entries(), b"", b""
        assert room.once(*words) == 0 and is_ended(room) and room.head == Head(LAST, ENDED.link(LAST))


def test_thief_before(room: Room) -> None:
    """A thief's entries come first, and then the succession: it is cosigned and served, the first entry after the end is an alarm, and no
    head is cosigned any more."""
    with Source(STOLEN.entries(*range(1, 4), 5, 6, 7)) as source:
        room.once(source.url)
        note = room.read("note")
        assert room.head == Head(7, STOLEN.link(7))
        source.succession = SIGNED
        assert room.once(source.url) == 1 and is_ended(room) and room.read("note") == note
        assert (room.alarm["why"], room.alarm["source"], parts(room)) == ("VOID", source.url, [SIGNED, STOLEN[7]])
        assert room.alarm["kind"] == "", "it convicts nobody alone"
        source.entries = STOLEN.entries()
        assert room.once(source.url) == 1 and room.read("note") == note and room.metric("alarm") == 1
        assert room.read("entries") == b"".join(STOLEN.entries()[:-1]), "no entry after the last epoch is taken"
        assert Shelf(room.folder).entries(6) == STOLEN[7], "what it has is served"


@pytest.mark.parametrize("by", ["one page", "the service", "a peer"])
def test_thief_after(room: Room, by: str) -> None:
    """An entry after the end is an alarm, whoever shows it, and is not taken."""
    with Source(ENDED.entries()) as service, Source(ENDED.entries()) as peer:
        service.succession, peer.note = SIGNED, peer_note(ENDED, LAST)
        words = [service.url, "--peer", peer.url, str(AUDITORS["other"])]
        if by == "one page":
            service.entries = STOLEN.entries()
        else:
            assert room.once(*words) == 0 and is_ended(room)
        if by == "the service":
            service.entries = STOLEN.entries()
        if by == "a peer":
            peer.entries, peer.note = STOLEN.entries(), peer_note(STOLEN, 8)
        assert room.once(*words) == 1 and is_ended(room)
        assert (room.alarm["why"], parts(room)) == ("VOID", [SIGNED, STOLEN[7]])
        assert room.alarm["source"] == (peer.url if by == "a peer" else service.url)
        assert room.read("entries") == b"".join(ENDED.entries())
        assert room.head == (None if by == "one page" else Head(LAST, ENDED.link(LAST))), "after an alarm no head is cosigned"


def test_void_and_far(room: Room) -> None:
    """An entry after the end that is for a time to come is one too."""
    far = World([*BATCHES, (1 << 63, {})], policy=digest(OLD))
    with Source(far.entries()) as source:
        source.succession = SIGNED
        assert room.once(source.url) == 1 and parts(room) == [SIGNED, far[1 << 63]] and is_ended(room)


def test_void_and_unsigned(room: Room) -> None:
    """What anyone on the way adds after the end is no alarm."""
    with Source([*ENDED.entries(), STOLEN[7][:-1] + bytes([STOLEN[7][-1] ^ 1])]) as source:
        source.succession = SIGNED
        assert room.once(source.url) == 3 and not room.alarm and is_ended(room)
        source.entries = [*ENDED.entries(), chained([bytes(32)] * 7)[6]]
        assert room.once(source.url) == 3 and not room.alarm, "nor are entries of the next directory"


def test_void_that_overlaps(room: Room) -> None:
    """A later entry that also convicts by an entry before the end is reported as that."""
    with Source(ENDED.entries()) as source:
        source.succession = SIGNED
        assert room.once(source.url) == 0
        jumping = World([*BATCHES[:-1], (7, {"alice": b"other"})], policy=digest(OLD))
        source.entries = jumping.entries()
        assert room.once(source.url) == 1 and room.alarm["why"] == "EQUIVOCATION"
        mine, other = parts(room)
        assert evidence.kind(mine, other) == "overlap" and (mine, other) == (ENDED[6], jumping[7])


@pytest.mark.parametrize("by", ["the service", "a peer"])
def test_two_successions(room: Room, by: str) -> None:
    """Two successions that the successor key signed convict the directory. The first one stays, and no other one is cosigned."""
    with Source(ENDED.entries()) as service, Source(ENDED.entries()) as peer:
        service.succession, peer.note = SIGNED, peer_note(ENDED, LAST)
        words = [service.url, "--peer", peer.url, str(AUDITORS["other"])]
        assert room.once(*words) == 0 and is_ended(room)
        if by == "a peer":
            peer.succession = cosigned(SECOND)
        else:
            service.succession = SECOND
        assert room.once(*words) == 1 and room.alarm["why"] == "SUCCESSIONS" and parts(room) == [SIGNED, SECOND] and is_ended(room)
        assert (room.alarm["source"], room.alarm["kind"]) == (peer.url if by == "a peer" else service.url, "successions")
        for text in parts(room):
            front, _, signature = text.partition(b"signature ")
            assert curve.is_signed(curve.public_key(SUCCESSOR), front, bytes.fromhex(signature.decode()))


def test_two_at_once(room: Room) -> None:
    """An auditor that sees two successions before the end cosigns neither."""
    with Source(ENDED.entries(1, 2)) as service, Source(ENDED.entries()) as peer:
        service.succession, peer.succession, peer.note = SIGNED, cosigned(SECOND), peer_note(ENDED, LAST)
        words = [service.url, "--peer", peer.url, str(AUDITORS["other"])]
        assert room.once(*words) == 1 and room.alarm["why"] == "SUCCESSIONS" and not beside(room) and not room.head
        service.entries, peer.succession = ENDED.entries(), b""
        assert room.once(*words) == 1 and not beside(room) and room.read("succession") == SIGNED


def test_void_and_another_succession(room: Room) -> None:
    """The alarm of two successions takes the place of that of void entries, which a theft explains."""
    with Source(STOLEN.entries()) as source:
        source.succession = SIGNED
        assert room.once(source.url) == 1 and room.alarm["why"] == "VOID"
        source.succession = SECOND
        assert room.once(source.url) == 1 and room.alarm["why"] == "SUCCESSIONS"
        source.succession = SIGNED
        assert room.once(source.url) == 1 and room.alarm["why"] == "SUCCESSIONS" and is_ended(room)


def test_signed_twice(room: Room) -> None:
    """Another signature of the same lines is no other succession."""
    again = succession(nonce=7)
    assert again != SIGNED and again[:-129] == SIGNED[:-129]
    with Source(ENDED.entries()) as source:
        for source.succession in (SIGNED, again, cosigned(again)):
            assert room.once(source.url) == 0 and is_ended(room)


@pytest.mark.parametrize("is_first", [False, True])
def test_another_last_entry(room: Room, is_first: bool) -> None:
    """The chain has another entry at the last epoch: an alarm, and the succession is not cosigned."""
    with Source(OTHER.entries(1, 2, 3, 5) if is_first else OTHER.entries(1, 2, 3, 5, 6)) as source:
        source.succession = SIGNED if is_first else b""
        assert room.once(source.url) == (3 if is_first else 0)
        source.entries, source.succession = OTHER.entries(1, 2, 3, 5, 6), SIGNED
        note = room.read("note")
        assert room.once(source.url) == 1 and room.alarm["why"] == "CHAIN_DIFFERS" and parts(room) == [SIGNED, OTHER[6]]
        assert room.once(source.url) == 1 and not beside(room) and room.read("note") == note


def test_jump_over_the_end(room: Room) -> None:
    """An entry that covers the last epoch and is later is another one there, and is not taken."""
    jumping = World([*BATCHES[:-1], (7, {"alice": b"other"})], policy=digest(OLD))
    with Source(jumping.entries()) as source:
        source.succession = SIGNED
        assert room.once(source.url) == 1 and room.alarm["why"] == "CHAIN_DIFFERS" and parts(room) == [SIGNED, jumping[7]]
        assert room.read("entries") == b"".join(jumping.entries(1, 2, 3, 5)) and not beside(room)


WRONG: dict[str, bytes] = {
    "the signing key": succession(secret=client_world.SIGNING),
    "another policy": succession(policies=(with_successor(client_world.policy_text(stored=5)), OLD)),
    "a changed link": SIGNED.replace(b"last-epoch 6", b"last-epoch 5"),
    "a changed signature": SIGNED[:-2] + (b"0" if SIGNED[-2:-1] != b"0" else b"1") + b"\n",
    "no signature": SIGNED[: SIGNED.index(b"signature")],
    "junk": b"x",
    "no UTF-8": b"\xff\n\n\xff",
    "a note of junk": b"x\n\n" + cosigned().partition(b"\n\n")[2],
    "a head": peer_note(ENDED, LAST),
    "many bytes": SIGNED + bytes(1 << 17),
    "two texts": SIGNED + SIGNED,
}


@pytest.mark.parametrize("name", WRONG)
def test_not_verified(room: Room, name: str, capsys: pytest.CaptureFixture[str]) -> None:
    """What isn't signed by the successor key is told, since anyone on the way can send it, and changes nothing."""
    with Source(ENDED.entries()) as source:
        source.succession = WRONG[name]
        assert room.once(source.url) == 3 and not room.alarm and not room.read("succession") and not beside(room)
        assert room.head == Head(LAST, ENDED.link(LAST)) and [it for it, _ in events(capsys)] == ["unusable"]
        source.succession, source.status = SIGNED, 500
        assert room.once(source.url) == 3 and not room.read("succession")
        source.status = 200
        assert room.once(source.url) == 0 and is_ended(room)


@pytest.mark.parametrize("text", [client_world.POLICY, with_successor(client_world.POLICY, None)])
def test_without_a_successor(tmp_path: Path, text: str, monkeypatch: pytest.MonkeyPatch) -> None:
    """An auditor of a policy without a successor key asks for no succession."""
    monkeypatch.setattr(time, "time", lambda: NOW)
    room, world = Room(tmp_path / "one", policy=Policy.read(text.encode())), World(BATCHES, policy=digest(text))
    with Source(world.entries()) as source:
        source.succession = succession(world[6], policies=(text, OLD))
        assert room.once(source.url) == 0 and not room.read("succession")
        assert source.requested and not any("succession" in it for it in source.requested)


def test_last_entry_signed_again(room: Room) -> None:
    """The succession may name another signature of the last entry, as the next entry may: the auditor takes that."""
    again = World(BATCHES, policy=digest(OLD))
    again.sign_again(6)
    assert again[6] != ENDED[6]
    with Source(ENDED.entries()) as source:
        assert room.once(source.url) == 0
        source.entries, source.succession = again.entries(), succession(again[6])
        assert room.once(source.url) == 0 and is_ended(room, succession(again[6]))
        assert room.read("entries") == b"".join([*ENDED.entries(), again[6]]) and not room.alarm
        assert room.once(source.url) == 0, "it is read again"


def test_last_entry_signed_again_by_a_thief(room: Room) -> None:
    """A thief signs the last entry again and goes on from that. The auditor has had the one that the succession names, and cosigns it."""
    thief = World([*BATCHES, (7, {"alice": b"key of mallory"})], policy=digest(OLD))
    thief.sign_again(6)
    assert thief[6] != ENDED[6] and thief[6][:145] == ENDED[6][:145]
    with Source(ENDED.entries()) as source:
        assert room.once(source.url) == 0
        source.entries = thief.entries()
        assert room.once(source.url) == 0 and room.head == Head(7, thief.link(7))
        source.succession = SIGNED
        for _ in range(2):
            assert room.once(source.url) == 1 and is_ended(room) and parts(room) == [SIGNED, thief[7]]
            assert room.alarm["why"] == "VOID" and room.read("entries") == b"".join([*ENDED.entries(), *thief.entries(6, 7)])


def test_last_entry_signed_again_and_withheld(room: Room) -> None:
    """Without that other signature the last entry is another one, as without an entry that the next one follows."""
    again = World(BATCHES, policy=digest(OLD))
    again.sign_again(6)
    third = ENDED[6][:145] + curve.sign(client_world.SIGNING, ENDED[6][:145], 11)
    with Source(ENDED.entries()) as source:
        assert room.once(source.url) == 0
        source.entries, source.succession = [*ENDED.entries(1, 2, 3, 5), third], succession(again[6])
        assert room.once(source.url) == 1 and room.alarm["why"] == "CHAIN_DIFFERS" and not beside(room)
        assert room.read("entries") == b"".join(ENDED.entries()), "a third signature is not taken"


def test_after_another_alarm(room: Room) -> None:
    """An auditor with another alarm than that of void entries cosigns no succession, until someone has looked at it."""
    with Source(ENDED.entries()) as source:
        assert room.once(source.url) == 0
        source.entries = OTHER.entries()
        assert room.once(source.url) == 1 and room.alarm["why"] == "EQUIVOCATION"
        source.entries, source.succession = ENDED.entries(), SIGNED
        assert room.once(source.url) == 1 and room.read("succession") == SIGNED and not beside(room)
        (room.folder / "alarm").unlink()
        assert room.once(source.url) == 0 and is_ended(room)


def test_lost_folder(room: Room) -> None:
    """A folder that is lost, or an old backup, cosigns no other succession."""
    with Source(ENDED.entries()) as source:
        assert room.once(source.url) == 0
        old = {it.name: it.read_bytes() for it in room.folder.iterdir()}
        source.succession = SIGNED
        assert room.once(source.url) == 0
        note, source.succession = beside(room), SECOND
        for file in room.folder.iterdir():
            file.unlink()
        assert room.once(source.url) == 3 and not room.read("succession.note"), "the entries are lost too"
        for name, data in old.items():
            (room.folder / name).write_bytes(data)
        assert room.once(source.url) == 1 and room.alarm["why"] == "SUCCESSIONS" and parts(room) == [SIGNED, SECOND]
        assert beside(room) == note == room.read("succession.note")


def test_lost_entries(room: Room) -> None:
    """A folder that lacks the last entry of the succession that its key cosigned is refused, also without a head beside the key."""
    with Source(ENDED.entries()) as source:
        source.succession = SIGNED
        assert room.once(source.url) == 0
        for path in [*room.folder.iterdir(), room.home / "key.head"]:
            path.unlink()
        for world, epochs in [(ENDED, [1]), (ENDED, [1, 2, 3, 5]), (OTHER, [1, 2, 3, 5, 6])]:
            (room.folder / "entries").write_bytes(b"".join(world.entries(*epochs)))
            assert room.once(source.url) == 3 and not room.read("succession.note") and not room.read("note")
        (room.folder / "entries").write_bytes(b"".join(ENDED.entries()))
        assert room.once(source.url) == 0 and is_ended(room)


def test_no_head_after_the_end(room: Room) -> None:
    """Once a succession is stored, no later head is cosigned, whatever the entries are."""
    with Source(STOLEN.entries()) as source:
        auditor = room.opened()
        auditor.follow(source.url)
        source.succession = SIGNED
        auditor.learn(source.url)
        auditor.sign()
        assert not room.read("note") and not (room.home / "key.head").exists() and not room.alarm


@pytest.mark.parametrize("file", ["succession", "succession.note", "../key.head.succession"])
def test_changed_files(room: Room, file: str, capsys: pytest.CaptureFixture[str]) -> None:
    """A folder whose succession isn't that beside the key, or isn't this directory's, is refused."""
    with Source(ENDED.entries()) as source:
        source.succession = SIGNED
        assert room.once(source.url) == 0
        events(capsys)
        for text in [SECOND, succession(secret=client_world.SIGNING), b"x", SIGNED[:-1]]:
            before = (room.folder / file).read_bytes()
            (room.folder / file).write_bytes(cosigned(text) if "." in file else text)
            assert room.once(source.url) == 3 and [it for it, _ in events(capsys)] == ["ended"]
            (room.folder / file).write_bytes(before)
        assert room.once(source.url) == 0


def test_folder_of_another_policy(room: Room) -> None:
    """A folder audits one policy."""
    with Source([]) as source:
        room.once(source.url)
        assert room.read("policy") == OLD.encode()
        (room.home / "policy").write_text(client_world.POLICY)
        source.entries = World(BATCHES).entries()
        assert room.once(source.url) == 3 and not room.read("entries")


class Killed(BaseException):
    """The process ends here."""


def killing(at: int, patch: pytest.MonkeyPatch) -> Callable[[], int]:
    """Ends the process before one of the calls that store something. Returns how many there were."""
    count = 0

    def counted(call: Callable[..., Any]) -> Callable[..., Any]:
        def made(*given: Any) -> Any:
            nonlocal count
            count += 1
            if count == at:
                raise Killed
            return call(*given)

        return made

    for name in ("fsync", "replace", "unlink"):
        patch.setattr(os, name, counted(getattr(os, name)))
    return lambda: count


def test_ends_between_files(tmp_path: Path) -> None:
    """The process ends before each call that stores something. Started again, beside a service that shows another succession by then, it
    cosigns at most the one that it has stored."""
    at, count = 0, 1
    while at < count:
        at += 1
        with pytest.MonkeyPatch.context() as patch:
            patch.setattr(time, "time", lambda: NOW)
            room = Room(tmp_path / str(at), policy=OLD_POLICY)
            with Source(ENDED.entries()) as source:
                assert room.once(source.url) == 0
                source.succession = SIGNED
                with pytest.MonkeyPatch.context() as killer:
                    calls = killing(at, killer)
                    try:
                        room.once(source.url)
                    except Killed:
                        count = at + 1
                    counted = calls()
                check_after_end(room, source, counted >= at)
    assert at > 10


def check_after_end(room: Room, source: Source, was_ended: bool) -> None:
    """What a process that ended somewhere has left, and what the next one makes of it."""
    stored, source.succession = room.read("succession"), SECOND
    texts = [it for it in (beside(room), room.read("succession.note")) if it]
    assert beside(room) or not room.read("succession.note"), "it is beside the key before it is published"
    assert all(it.startswith(SIGNED) for it in texts) and stored in (b"", SIGNED) and (stored or not texts)
    assert was_ended or texts
    if stored:
        assert room.once(source.url) == 1 and parts(room) == [SIGNED, SECOND]
        assert not texts or is_ended(room)
        return
    assert room.once(source.url) == 1 and (room.alarm["why"], room.read("succession")) == ("VOID", SECOND)
    assert is_ended(room, SECOND)


@pytest.mark.kills
def test_kills(tmp_path: Path, request: pytest.FixtureRequest) -> None:
    """The auditor is killed at random moments while the directory ends. It never publishes two successions."""
    draw = random.Random(request.config.getoption("seed"))
    for turn in range(max(2, request.config.getoption("kills") // 3)):
        room = Room(tmp_path / str(turn), policy=OLD_POLICY)
        with Source(ENDED.entries()) as source:
            notes = set[bytes]()
            for text in (SIGNED, SECOND, SIGNED):
                source.succession = text
                words = [sys.executable, "-m", "coniks.audit", *room.words(source.url, "--interval", "0.001")]
                running = subprocess.Popen(words, stderr=subprocess.DEVNULL)
                until = time.monotonic() + 0.3 + draw.random() / 2
                while time.monotonic() < until:
                    notes |= {Shelf(room.folder).page(TARGET) or b"", beside(room)}
                running.kill()
                running.wait()
            notes |= {Shelf(room.folder).page(TARGET) or b"", beside(room)}
            assert len({bytes(read_succession(it)[0]) for it in notes if it}) <= 1


def test_from_another_auditor(room: Room) -> None:
    """The service withholds the succession from one of two auditors: it has it from the other one."""
    other = Room(room.home / "other", "other", OLD_POLICY)
    with Source(ENDED.entries()) as source, Source(ENDED.entries()) as withholding:
        source.succession, port = SIGNED, free_port()
        assert other.once(source.url) == 0
        audit.serve(Shelf(other.folder), "127.0.0.1", port)
        assert room.once(withholding.url) == 0 and not room.read("succession")
        assert room.once(withholding.url, "--peer", f"http://127.0.0.1:{port}", str(AUDITORS["other"])) == 0 and is_ended(room)
    assert read_succession(room.read("succession.note"))[1].lines != read_succession(other.read("succession.note"))[1].lines


def test_served(room: Room) -> None:
    """The succession is served over HTTP, under the digest of its policy alone."""
    with Source(ENDED.entries()) as source:
        source.succession = SIGNED
        assert room.once(source.url) == 0
    port = free_port()
    audit.serve(Shelf(room.folder), "127.0.0.1", port)
    assert served(f"127.0.0.1:{port}", TARGET) == room.read("succession.note") != b""
    for target in [
        TARGET[:-1],
        TARGET + "0",
        TARGET.upper(),
        TARGET[:-64] + 64 * "0",
        "/v1/succession",
        TARGET + "&x=1",
        "/policy",
    ]:
        assert served(f"127.0.0.1:{port}", target) is None, target
