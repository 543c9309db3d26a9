"""`coniks-client` over the marks, the alarms and the reports of the proved core: what is confirmed, what is dropped, and what is reported until
its owner takes note of it."""

from __future__ import annotations

import hashlib
from dataclasses import dataclass
from pathlib import Path
from typing import Callable

import pytest

pytest.importorskip("nacl.signing")

import client_world
from people import AUDITORS, KEYS, POLICY, Auditing, Person
from test_contacts import interrupted
from rooms import Room
from coniks import Head
from coniks._client_state import StateFile
from coniks.notes import Note, cosign, text_of

# The places of the auditors in a trust document with the first two of them, or with all, by the order of their lines.
PLACES = {name: place for place, name in enumerate(sorted(AUDITORS, key=lambda it: f"auditor {AUDITORS[it]}"))}


@dataclass(frozen=True)
class StoredEntry:
    """What a state of a client has, by the table of docs/STORED.md: stored epochs, alarms, the digest of a trust document, and marks."""

    epochs: list[int]
    alarms: list[tuple[int, int]]
    trust: str
    marks: list[int]


def stored_in(state: str) -> StoredEntry:
    whole = bytes.fromhex(state)

    def number(at: int, size: int) -> int:
        return int.from_bytes(whole[at : at + size], "big")

    count = number(33, 4)
    epochs = [number(37 + it * 218 + 1, 8) for it in range(count)]
    at = 37 + count * 218
    alarms = [(number(at + 4 + it * 9, 8), number(at + 12 + it * 9, 1)) for it in range(number(at, 4))]
    at += 4 + len(alarms) * 9
    marks = [number(at + 36 + it * 8, 8) for it in range(number(at + 32, 4))]
    assert whole[0] == 3 and hashlib.sha256(whole[:-32]).digest() == whole[-32:]
    return StoredEntry(epochs, alarms, whole[at : at + 32].hex(), marks)


def chain(person: Person) -> StoredEntry:
    return stored_in(person.stored()["chain"])


def own(person: Person, name: str = "dave") -> StoredEntry:
    return stored_in(person.stored()["own"][name]["client"])


@pytest.fixture
def four(room: Room) -> Room:
    """A client that has begun with all four auditors, of whom one may lie."""
    assert room.person.begin(room.directory, *[it.pair for it in room.auditors], faulty=1) == 0
    return room


def follow(room: Room, **epochs: int) -> None:
    """Auditors have the directory's entries, and cosign the heads of epochs now."""
    for name, epoch in epochs.items():
        it = room.auditors[list(AUDITORS).index(name)]
        it.world = room.directory.world
        it.sign(epoch, room.clock())


def test_marks_are_stored(four: Room) -> None:
    """Each auditor's mark is at its place, for the chain and for each name, with the digest of the trust document."""
    file = four.person.room / "trust"
    four.person.run("trust", str(file))
    assert PLACES != {name: place for place, name in enumerate(AUDITORS)}, "another order than that of the command line"
    follow(four, one=2, two=1, three=2, four=2)
    four.own()
    assert chain(four.person).trust == own(four.person).trust == hashlib.sha256(file.read_bytes()).hexdigest()
    assert four.person.stored()["auditors"] == [list(it.pair) for it in four.auditors]
    follow(four, one=3, two=2, three=3, four=2)
    assert four.person.run("watch")[1][-1]["agreed"] == 2
    assert chain(four.person).marks == own(four.person).marks == by_place(one=3, two=2, three=3, four=2)
    follow(four, one=3, two=3, three=2)
    assert four.person.run("watch")[1][-1]["agreed"] == 3
    assert chain(four.person).marks == own(four.person).marks == by_place(one=3, two=3, three=3, four=2), "no mark goes back"


def by_place(**epochs: int) -> list[int]:
    return [epochs[name] for name in sorted(epochs, key=lambda it: PLACES[it])]


UNVERIFIED: dict[str, Callable[[Room, Auditing], None]] = {
    "another's key": lambda room, it: setattr(it, "note", signed_by(room, "three", "two", 2)),
    "another's name": lambda room, it: setattr(it, "note", signed_by(room, "three", "three", 2)),
    "an old time": lambda room, it: it.sign(2, room.clock() - 3 * 3600 - 1),
    "a time to come": lambda room, it: it.sign(2, room.clock() + 301),
    "another link": lambda room, it: it.sign(2, link=bytes(32)),
    "no note": lambda room, it: setattr(it, "note", b""),
    "a cut signature": lambda room, it: setattr(it, "note", it.note[:-6] + b"AAAA=\n"),
}


def signed_by(room: Room, key: str, name: str, epoch: int) -> bytes:
    """A note with a key of one auditor and the name of another one."""
    text = text_of(POLICY, Head(epoch, room.directory.world.link(epoch)))
    return bytes(Note(text, (cosign(name, KEYS[key], text, room.clock()),)))


@pytest.mark.parametrize("what", UNVERIFIED)
def test_unverified_notes(what: str, room: Room) -> None:
    """A note that is not verified, or not recent, leaves no mark, whatever the service carries beside it."""
    UNVERIFIED[what](room, room.auditors[1])
    room.audited()
    first, second = (0, 1) if PLACES["one"] < PLACES["two"] else (1, 0)
    marks = chain(room.person).marks
    assert (marks[first], marks[second]) == (2, 0), what
    room.directory.note = room.auditors[1].note
    assert room.person.run("compare")[0] in (1, 3) and chain(room.person).marks == marks, what


def test_confirmed_once(four: Room) -> None:
    """What was confirmed stays so while the auditors are late, and nothing is relied on meanwhile. A later run goes on with it."""
    four.directory.commit(3, alice=b"second key of alice")
    follow(four, one=3, two=3, three=3, four=3)
    assert four.person.run("lookup", "alice")[1][0]["epoch"] == 3
    seen = four.person.stored()["seen"]
    four.directory.commit(4)
    for it in four.auditors:
        it.note = b""
    status, lines = four.person.run("lookup", "alice")
    assert (status, lines[-2]["epoch"], lines[-1]["agreeing"], lines[-1]["needed"]) == (3, 4, 0, 3)
    assert "which too few of your auditors confirm" in lines[-2]["text"]
    assert four.person.stored()["seen"] == seen and chain(four.person).marks == [3, 3, 3, 3]
    follow(four, one=3, two=3, three=3)
    status, lines = four.person.run("lookup", "alice")
    assert (status, lines[-2]["epoch"], lines[-2]["key"], lines[-1]["agreed"]) == (0, 3, "second key of alice", 3)


def test_relied(four: Room) -> None:
    """With other auditors nothing is confirmed before they have it, also not the epoch of what was accepted under the others."""
    four.directory.commit(3, alice=b"second key of alice")
    follow(four, one=3, two=3, three=3, four=2)
    assert four.person.run("lookup", "alice")[1][0]["epoch"] == 3
    words = ["--remove-auditor", four.auditors[2].url, "--remove-auditor", four.auditors[3].url, "--faulty", "0"]
    assert four.person.run("set", *words)[0] == 0 and chain(four.person).marks == by_place(one=3, two=3, three=3, four=2)
    follow(four, one=2, two=3)
    status, lines = four.person.run("lookup", "alice")
    assert (status, lines[0]["epoch"], lines[0]["status"], lines[1]["agreed"]) == (3, 3, 3, 2)
    assert lines[0]["text"].endswith("(epoch 3, which too few of your auditors confirm)")
    assert sorted(chain(four.person).marks) == [2, 3]
    follow(four, one=3)
    assert four.person.run("lookup", "alice")[0] == 0


def test_dropped(four: Room) -> None:
    """What is confirmed leaves the state, but not what an auditor that is heard, or a name, has not reached."""
    four.own()
    for epoch in range(4, 12):
        four.directory.commit(epoch)
        follow(four, one=epoch, two=epoch, three=epoch, four=epoch - 1)
        status, lines = four.person.run("watch")
        assert (status, lines[-1]["agreed"], lines[-1]["text"][0]) == (0, epoch, "3")
        assert max(len(chain(four.person).epochs), len(own(four.person).epochs)) <= 3, "an auditor is always behind"
    four.directory.commit(12)
    follow(four, one=12, two=12, three=12, four=12)
    assert four.person.run("compare")[1][-1]["agreed"] == 12
    assert chain(four.person).epochs[0] <= own(four.person).epochs[-1], "the name goes on from there"
    assert four.person.run("watch")[0] == 0 and chain(four.person).epochs == own(four.person).epochs == [12]


def test_too_few_drop_nothing(room: Room) -> None:
    """Auditors that are heard one after another confirm an epoch, but nothing is dropped before a quorum is heard at once."""
    room.audited()
    room.directory.commit(3)
    room.directory.commit(4)
    for name, silent, marks in [("one", "two", {"one": 4, "two": 2}), ("two", "one", {"one": 4, "two": 4})]:
        follow(room, **{name: 4})
        room.auditors[list(AUDITORS).index(silent)].note = b""
        assert room.person.run("compare")[0] == 3
        assert (chain(room.person).epochs, chain(room.person).marks) == ([2, 3, 4], by_place(**marks))
    follow(room, one=4, two=4)
    assert room.person.run("compare")[0] == 0 and chain(room.person).epochs == [4]


def test_behind_what_was_dropped(four: Room) -> None:
    """An auditor that was silent, and comes back with the head of an epoch that was dropped, is reported as one that is behind."""
    four.directory.commit(3)
    follow(four, one=3, two=3, three=3)
    four.auditors[3].note = b""
    assert four.person.run("compare")[0] == 0 and chain(four.person).epochs == [3]
    follow(four, four=2)
    status, lines = four.person.run("compare")
    assert (status, lines[0]["text"]) == (0, "four has cosigned no later epoch than 2, which is old")
    assert lines[-1]["text"] == "3 of your 4 auditors confirm this chain up to epoch 3"


def test_reports(room: Room) -> None:
    """What the core reports of a name is reported: good once a quorum confirms the latest epoch, else unconfirmed."""
    room.audited()
    status, lines = room.person.run("register", "dave", "key one")
    assert status == 0 and (lines[0]["report"], lines[-1]["agreed"]) == ("unconfirmed", 2)
    follow(room, one=3, two=3)
    status, lines = room.person.run("watch")
    assert (status, lines[0]["report"], lines[-1]["agreed"]) == (0, "good", 3)
    room.directory.commit(4, dave=b"key of mallory")
    room.directory.commit(5)
    room.lie("/v1/lookup", room.directory.world.reply("dave", 3))
    assert room.person.run("watch")[0] == 3, "an older reply is refused"


def test_latest_epoch_of_an_own_name(room: Room) -> None:
    """Of an own name the latest epoch counts, whatever auditors confirm: its owner knows the key."""
    room.audited()
    room.own()
    status, lines = room.person.run("lookup", "dave")
    assert (status, lines[0]["epoch"], lines[0]["status"], lines[-1]["agreed"]) == (0, 3, 0, 2)
    room.directory.commit(4, dave=b"key of mallory")
    follow(room, one=3, two=3)
    status, lines = room.person.run("lookup", "dave")
    assert (status, lines[0]["epoch"], lines[-2]["agreed"]) == (1, 4, 3) and "which is not yours" in lines[0]["text"]


def alarmed(room: Room) -> None:
    """A name that had another key at epoch 4, which was dropped since, and is noted as that."""
    room.audited()
    room.changed()
    follow(room, one=5, two=5)


def test_alarm_until_noted(room: Room) -> None:
    """An epoch of another key is reported at each watch, also once it was dropped, until its owner takes note of it."""
    alarmed(room)
    sentence = '"dave" did not have your key (epoch 4): tell all who use it'
    assert [line["epochs"] for line in room.person.run("watch")[1] if line["status"] == 1 and "epochs" in line] == [[4]]
    assert own(room.person).alarms == [(4, 3)] and own(room.person).epochs == [5]
    for _ in range(2):
        status, lines = room.person.run("watch")
        assert status == 1 and [line["text"] for line in lines].count(sentence) == 1
    status, lines = room.person.run("note", "dave")
    assert status == 1 and [line["text"] for line in lines[:2]] == [
        sentence,
        '"dave": no alarm of epoch 4 is reported any more, since you have taken note',
    ]
    assert own(room.person).alarms == []
    status, lines = room.person.run("watch")
    assert sentence not in [line["text"] for line in lines] and lines[0]["report"] == "good"
    assert status == 1 and "coniks-client evidence" in lines[-1]["text"], "what was found stays found"


def test_all_alarms(room: Room) -> None:
    """Each epoch of another key is reported, not only the first one, and is noted with the others."""
    room.audited()
    room.changed()
    record = room.directory.world.epochs[5].names[client_world.index("dave")][2]
    room.directory.commit(6, dave=b"key of mallory")
    room.directory.commit(7, dave=record)
    follow(room, one=7, two=7)
    assert room.person.run("watch")[0] == 1 and own(room.person).alarms == [(4, 3), (6, 3)]
    for words in (["watch"], ["note", "dave"]):
        assert room.person.run(*words)[1][0]["text"] == '"dave" did not have your key (epochs 4, 6): tell all who use it'
    assert own(room.person).alarms == []


def test_alarm_without_service(room: Room) -> None:
    """An alarm is reported whatever the service refuses."""
    alarmed(room)
    room.person.run("watch")
    room.lie("/v1/lookup", b"", 503)
    texts = [line["text"] for line in room.person.run("watch")[1]]
    assert '"dave" did not have your key (epoch 4): tell all who use it' in texts, texts


def test_alarm_of_an_end(room: Room, monkeypatch: pytest.MonkeyPatch) -> None:
    """Wherever a run ends that sees another key, a later one tells it, and what convicts is kept."""
    room.begin()
    room.changed()
    room.directory.commits, whole = False, room.person.state.read_bytes()
    for words in (["watch"], ["register", "dave", "key two"]):
        steps = 0
        room.person.state.write_bytes(whole)
        while interrupted(room.person, words, steps, monkeypatch):
            status, lines = room.person.run("watch")
            assert status == 1 and any(4 in line.get("epochs", []) and line["status"] == 1 for line in lines), (words, steps)
            assert [it["kind"] for it in room.person.stored()["found"]] == ["unvouched"], (words, steps)
            room.person.state.write_bytes(whole)
            steps += 1
        assert steps > 5


def test_note_of_an_end(room: Room, capsys: pytest.CaptureFixture[str], monkeypatch: pytest.MonkeyPatch) -> None:
    """Wherever taking note ends, the state is the old or the new one, and no alarm is gone that was not shown in that run."""
    room.lost()
    room.person.run("watch")
    whole, steps, ends = room.person.state.read_bytes(), 0, set[bool]()
    while interrupted(room.person, ["note", "dave"], steps, monkeypatch):
        is_shown = "epochs 4 to 6 can no longer be verified" in capsys.readouterr().out
        is_noted = own(room.person).alarms == []
        assert is_shown and (is_noted or room.person.state.read_bytes() == whole), steps
        ends.add(is_noted)
        room.person.state.write_bytes(whole)
        steps += 1
    assert steps > 3 and ends == {False, True}


def test_noted_lost(room: Room) -> None:
    """What can no longer be verified is reported until its owner takes note of it, and not again after that."""
    room.lost()
    for status in (3, 0, 0):
        ended, lines = room.person.run("watch")
        assert ended == status and [line["lost"] for line in lines if "lost" in line] == [[4, 5, 6]]
    assert own(room.person).alarms == [(epoch, 5) for epoch in (4, 5, 6)]
    assert [line.get("lost") for line in room.person.run("note", "dave")[1]] == [[4, 5, 6], None]
    status, lines = room.person.run("watch")
    assert status == 0 and not any("lost" in line for line in lines) and own(room.person).alarms == []
    assert room.person.run("note", "dave")[1][0]["text"].startswith('"dave" has nothing to take note of yet')
    assert room.person.run("note", "erin")[0] == 3


@pytest.mark.parametrize("words", [["compare"], ["lookup", "alice"], ["watch"]], ids=" ".join)
def test_ends(words: list[str], room: Room, monkeypatch: pytest.MonkeyPatch) -> None:
    """Wherever a run ends that raises marks and drops epochs, each part of the state is the old or the new one, and the next run goes on."""
    room.audited()
    room.own()
    follow(room, one=3, two=3)
    assert room.person.run("watch")[0] == 0
    room.directory.commit(4)
    follow(room, one=4, two=4)
    whole, steps, seen = room.person.state.read_bytes(), 0, set[tuple[int, ...]]()
    assert (chain(room.person).epochs, chain(room.person).marks) == ([3], [3, 3]), "before"
    while interrupted(room.person, words, steps, monkeypatch):
        parts = chain(room.person), own(room.person)
        assert all((it.epochs, it.marks) in WHOLE for it in parts), (steps, parts)
        assert parts[0].epochs[0] <= parts[1].epochs[-1], "the name goes on from there"
        assert room.person.run("watch")[0] == 0 and own(room.person).marks == [4, 4], steps
        seen.add((*parts[0].epochs, *parts[0].marks))
        room.person.state.write_bytes(whole)
        steps += 1
    assert steps > 5 and len(seen) > 1 and not room.person.stored()["found"]


# What a client keeps before a run, once it has the new entry, with its marks, and once the old one is dropped.
WHOLE = [([3], [3, 3]), ([3, 4], [3, 3]), ([3, 4], [4, 4]), ([4], [4, 4])]


def test_exchanged_states(four: Room, tmp_path: Path) -> None:
    """The parts of a state of other auditors have no marks for these ones, and what was confirmed there is not confirmed here."""
    other = Person(tmp_path, four.person._capture)
    other.state = tmp_path / "other"
    assert other.begin(four.directory, *[it.pair for it in four.auditors[:3]]) == 0 and chain(other).marks == [2, 2, 2]
    for it in four.auditors:
        it.note = b""
    StateFile(four.person.state).write({**four.person.stored(), "chain": other.stored()["chain"]})
    status, lines = four.person.run("lookup", "alice")
    assert status == 3 and lines[-1]["agreeing"] == 0 and chain(four.person).marks == [0, 0, 0, 0]
    StateFile(four.person.state).write({**four.person.stored(), "chain": ""})
    assert four.person.run("lookup", "alice")[0] == 3 and chain(four.person).marks == [0, 0, 0, 0]


def test_watched_again(four: Room) -> None:
    """A name that was watched no more for a while is watched again from the latest epoch on, with its secret key."""
    four.own()
    secret = four.person.stored()["own"]["dave"]["secret"]
    assert four.person.run("set", "--unwatch", "dave")[0] == 0
    for epoch in (4, 5, 6):
        four.directory.commit(epoch)
        follow(four, one=epoch, two=epoch, three=epoch, four=epoch)
        assert four.person.run("compare")[1][-1]["agreed"] == epoch
    assert chain(four.person).epochs == [6]
    status, lines = four.person.run("register", "dave", "key one")
    assert status == 0 and lines[0]["epochs"] == [6] and four.person.stored()["own"]["dave"]["secret"] == secret
    assert four.person.run("register", "dave", "key two")[0] == 0 and not four.person.stored()["found"]


def test_watched_again_from_where_it_was(room: Room) -> None:
    """A name whose entries are kept misses nothing of the time in which it was not watched."""
    room.begin()
    room.own()
    record = room.directory.world.epochs[3].names[client_world.index("dave")][2]
    assert room.person.run("set", "--unwatch", "dave")[0] == 0
    room.directory.commit(4, dave=b"key of mallory")
    room.directory.commit(5, dave=record)
    status, lines = room.person.run("register", "dave", "key two")
    assert status == 1 and [line["epochs"] for line in lines if line["status"] == 1 and "epochs" in line] == [[4]]
