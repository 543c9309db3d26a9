"""`coniks-client` over directories that are honest, late, broken and lying, and its state."""

from __future__ import annotations

import base64
import json
import os
import random
import re
import subprocess
import sys
import time
from contextlib import suppress
from pathlib import Path
from typing import Any, Callable, Mapping, Optional

import pytest

pytest.importorskip("nacl.signing")

import client_world
import vouched
from client_world import World, hour
from directories import Directory, Reply, vouched_world
from people import AUDITORS, FORKS, KEYS, POLICY, WORLD, Auditing, Clock, Person, convicted
from sources import dripping
from coniks import Head, Policy, _http, _own_names, _person, contacts
from coniks._client_state import StateFile
from coniks.notes import Note, cosign, text_of
from coniks.vouching import Place, first, following

TOP = Path(__file__).resolve().parents[4]


def test_contacts(person: Person, directory: Directory) -> None:
    """A key is looked up, verified and compared with the one before. A name has one form."""
    status, lines = person.run("lookup", "ALICE")
    assert status == 0 and (lines[0]["name"], lines[0]["key"], lines[0]["epoch"]) == ("alice", "key of alice", 2)
    assert "have not verified" in lines[0]["text"] and "nobody notices" in lines[1]["text"]
    assert person.run("verify", "alice", "--key", "key of mallory")[0] == 1
    assert person.run("verify", "alice", "--key", "key of alice")[0] == 0
    status, lines = person.run("lookup", "alice")
    assert (status, lines[0]["change"]) == (0, "same") and "have not verified" not in lines[0]["text"]
    status, lines = person.run("lookup", "nobody")
    assert status == 4 and lines[0]["key"] is None and person.run("verify", "nobody", "--key", "k")[0] == 1
    assert "/v1/lookup?name=alice" in directory.requested and set(person.stored()["seen"]) == {"alice"}


def test_sentences(person: Person, capsys: pytest.CaptureFixture[str]) -> None:
    """Without --json a sentence is printed, with the directory's name."""
    assert contacts.main(["lookup", "--state", str(person.state), "alice"]) == 0
    assert (
        'keys.example.com: "alice" has the key "key of alice". You have not verified it yet (epoch 2, which no auditor confirms)\n'
        in capsys.readouterr().out
    )


def test_own_name(person: Person, directory: Directory) -> None:
    """A registered key is a first record, a changed one the record after it, and each epoch is verified."""
    status, lines = person.run("register", "Dave", "key one")
    assert status == 0 and (lines[0]["key"], lines[0]["epochs"]) == ("key one", [3])
    record = directory.world.epochs[3].names[client_world.index("dave")][2]
    read = vouched.record_of(record)
    assert read and (read.number, read.key) == (1, b"key one") and read.is_signed([POLICY.digest], b"dave")
    assert person.run("register", "dave", "key one")[0] == 0 and len(directory.operations) == 1, "once"
    directory.commit(4)
    directory.commit(5)
    assert person.run("watch")[1][0]["epochs"] == [4, 5]
    status, lines = person.run("register", "dave", "key two")
    changed = directory.world.epochs[6].names[client_world.index("dave")][2]
    assert status == 0 and lines[0]["epochs"] == [5, 6] and directory.operations[1]["op"] == "change"
    beside = ", which no auditor confirms"
    assert lines[0]["text"] == f'"dave" has your key "key one" (epoch 5{beside}) and "key two" (epoch 6{beside})'
    assert vouched.compared(vouched.Place([POLICY.digest], b"dave", True), record, changed, (3, 5, 6)) == "vouched"
    assert person.run("watch")[0] == 0 and not person.stored()["found"]


def test_waiting(person: Person, directory: Directory) -> None:
    """An operation may wait for its epoch, or be lost: the same command goes on."""
    directory.commits = False
    for _ in range(2):
        status, lines = person.run("register", "dave", "key one")
        assert status == 3 and "waits" in lines[0]["text"]
    assert person.run("register", "dave", "another key")[0] == 3
    assert len({it["key"] for it in directory.operations}) == 1 and person.run("watch")[0] == 3
    directory.commits = True
    assert person.run("register", "dave", "key one")[0] == 0 and person.run("watch")[0] == 0
    assert directory.operations[-1]["key"] == directory.operations[0]["key"]


def test_refused(person: Person, directory: Directory) -> None:
    """A refusal deletes no secret key, and its words do nothing to a terminal: the same bytes are sent again."""
    directory.refusal = "no \x1b[2J\u202e, said the service"
    status, lines = person.run("register", "dave", "key one")
    assert status == 3 and lines[0]["text"].endswith("no \\u{1b}[2J\\u{202e}, said the service")
    assert person.run("watch")[0] == 3 and person.run("register", "dave", "key two")[0] == 3
    directory.refusal = ""
    assert person.run("register", "dave", "key one")[0] == 0 and len({it["key"] for it in directory.operations}) == 1
    directory.refusal = "a replica that is late"
    assert person.run("register", "dave", "key two")[0] == 3 and person.stored()["own"]["dave"]["value"]
    directory.refusal = ""
    assert person.run("register", "dave", "key two")[0] == 0 and len({it["key"] for it in directory.operations}) == 2


def test_refused_after_it_was_stored(person: Person, directory: Directory) -> None:
    """A refusal of what an earlier run had stored counts for nothing."""
    directory.commits = False
    person.run("register", "dave", "key one")
    directory.commit(3, dave=base64.b64decode(directory.operations[0]["key"]))
    directory.refusal = "the name is registered already"
    status, lines = person.run("register", "dave", "key one")
    assert status == 0 and lines[0]["epochs"] == [3]


def test_another_key_from_the_start(person: Person, directory: Directory) -> None:
    """A directory that takes a registration, and then shows another key, is reported."""

    def lie(_: Mapping[str, str]) -> Reply:
        directory.commit(3, dave=b"key of mallory")
        return Reply(b'{"state":"stored","epoch":3}')

    directory.lies["/v1/operations"] = lie
    status, lines = person.run("register", "dave", "key one")
    assert status == 1 and '"key of mallory"' in lines[0]["text"]


def test_replaced_key(person: Person, directory: Directory) -> None:
    """A key that the directory replaces is noticed by its owner and by a friend, also if it is put back."""
    person.run("register", "dave", "key one")
    record = directory.world.epochs[3].names[client_world.index("dave")][2]
    friend_sees(person, directory, record)
    directory.commit(4, dave=b"key of mallory")
    directory.commit(5, dave=record)
    status, lines = person.run("watch")
    assert status == 1 and lines[0]["epochs"] == [4] and "key of mallory" in lines[0]["text"]
    assert convicted(person) == ["unvouched"]
    assert person.run("watch")[0] == 1, "it is not forgotten"


def own_record(directory: Directory, epoch: int) -> bytes:
    """The bytes that dave has at an epoch."""
    return directory.world.epochs[epoch].names[client_world.index("dave")][2]


def is_alarm(ran: tuple[int, list[dict[str, Any]]], epoch: int) -> bool:
    """Whether a run says that dave has another key at an epoch, and nothing that contradicts it."""
    status, lines = ran
    wrong = [it for it in lines if it["status"] == 1 and it.get("name") == "dave"]
    return status == 1 and [it["epochs"] for it in wrong] == [[epoch]] and not any("your key" in it["text"] for it in lines)


def test_replaced_key_again(person: Person, directory: Directory) -> None:
    """The alarm stays as long as the latest epoch shows the other key, for each command."""
    person.run("register", "dave", "key one")
    directory.commit(4, dave=b"key of mallory")
    for _ in range(3):
        assert is_alarm(person.run("watch"), 4)
    assert is_alarm(person.run("register", "dave", "key one"), 4) and len(directory.operations) == 1
    status, lines = person.run("register", "dave", "key two")
    assert is_alarm((status, lines), 4) and len(directory.operations) == 1, "nothing is signed after another's key"
    for words in [("lookup", "dave"), ("verify", "dave", "--key", "key of mallory"), ("verify", "dave", "--key", "key one")]:
        status, lines = person.run(*words)
        assert status == 1 and "which is not yours" in lines[0]["text"], words
    assert convicted(person) == ["unvouched"]


HISTORIES: list[tuple[str, Callable[[Directory], Callable[[Mapping[str, str]], Optional[Reply]]]]] = [
    ("refused", lambda _: lambda _: Reply(b"", 503)),
    ("without a step", lambda it: lambda _: Reply(it.world.history("dave"))),
    ("of another epoch", lambda it: lambda _: Reply(it.world.history("dave", 2))),
    ("no bytes", lambda _: lambda _: Reply(b"")),
]


@pytest.mark.parametrize("what, lie", HISTORIES, ids=[it[0] for it in HISTORIES])
def test_withheld_history(
    what: str, lie: Callable[[Directory], Callable[[Mapping[str, str]], Optional[Reply]]], person: Person, directory: Directory
) -> None:
    """A key that was replaced is reported and kept, whatever the service withholds of earlier epochs."""
    person.run("register", "dave", "key one")
    directory.commit(4)
    directory.commit(5, dave=b"key of mallory")
    directory.lies["/v1/history"] = lie(directory)
    status, lines = person.run("watch")
    assert is_alarm((status, lines), 5) and convicted(person) == ["unvouched"], what
    directory.lies["/v1/lookup"] = lambda _: Reply(b"", 503)
    assert person.run("watch")[0] == 1, "it is not forgotten"


def test_refused_for_a_period(person: Person, directory: Directory, clock: Clock) -> None:
    """A promised proof that is refused for longer than a period is an alarm. It ends if the proof comes."""
    person.run("register", "dave", "key one")
    directory.commit(4)
    directory.commit(5)
    directory.lies["/v1/history"] = lambda _: Reply(b"", 503)
    clock.seconds = hour(5, 10)
    assert person.run("watch")[0] == 3
    clock.seconds += 3600
    assert person.run("watch")[0] == 3
    clock.seconds += 1
    status, lines = person.run("watch")
    assert status == 1 and "epoch 4 for more than 3600 seconds" in lines[-2]["text"] and lines[-2]["missing"] == [4]
    del directory.lies["/v1/history"]
    assert person.run("watch")[0] == 0
    directory.lies["/v1/lookup"] = lambda _: Reply(b"", 503)
    assert person.run("watch")[0] == 3
    directory.commit(7)
    clock.seconds = hour(7, 100)
    status, lines = person.run("watch")
    assert status == 1 and "for more than 3600 seconds" in lines[1]["text"]


def test_squatted(person: Person, directory: Directory) -> None:
    """A name that someone else has registered is reported with that key, and nothing is signed or sent."""
    status, lines = person.run("register", "alice", "key of mine")
    assert status == 1 and lines[0]["text"].startswith('"alice" is taken: it has the key "key of alice" (epoch 2)')
    assert not directory.operations and not person.stored()["own"]
    directory.commits = False
    person.run("register", "dave", "key one")
    directory.commit(3, dave=b"key of mallory")
    for words in [("watch",), ("register", "dave", "key one")]:
        status, lines = person.run(*words)
        assert status == 1 and lines[0]["text"].startswith('"dave" has another key than yours, "key of mallory" (epoch 3)')
    assert [it["kind"] for it in person.stored()["found"]] == ["changed"]


def test_another_key_at_an_early_epoch(person: Person, directory: Directory) -> None:
    """An epoch whose proof came late is judged by the key that the name had then, also after a second change."""
    person.run("register", "dave", "key one")
    one = own_record(directory, 3)
    directory.commits = False
    assert person.run("register", "dave", "key two")[0] == 3
    two = base64.b64decode(directory.operations[-1]["key"])
    directory.commit(4)
    directory.commit(5, dave=two)
    directory.lies["/v1/history"] = lambda _: Reply(b"", 503)
    assert person.run("watch")[0] == 3 and person.run("register", "dave", "key three")[0] == 3
    assert len({it["key"] for it in directory.operations}) == 2, "no third key is signed before epoch 4 is verified"
    del directory.lies["/v1/history"]
    directory.commits = True
    status, lines = person.run("register", "dave", "key three")
    keys = [key for key, _ in BY_KEY.findall(lines[0]["text"])]
    assert status == 0 and keys == ["key one", "key two", "key three"] and one != two


def test_restored(person: Person, directory: Directory) -> None:
    """A state from before a change of the key is an alarm until its owner gives the present key."""
    person.run("register", "dave", "key one")
    before = person.state.read_bytes()
    person.run("register", "dave", "key two")
    person.state.write_bytes(before)
    assert person.run("watch")[0] == 1
    for wrong in ("key one", "key three"):
        assert person.run("register", "dave", wrong)[0] == 1 and len(directory.operations) == 2
    status, lines = person.run("register", "dave", "key two")
    assert lines[0]["text"].startswith('"dave" has your key "key two" (epoch 4') and lines[0]["status"] == 0
    assert person.run("register", "dave", "key three")[1][0]["key"] == "key three" and person.run("watch")[1][0]["status"] == 0
    record = vouched.record_of(own_record(directory, directory.latest))
    assert record and record.number == 3


BY_KEY = re.compile(r'"([^"]*)" \((epochs? [^),]*)')


def test_refused_page(person: Person, directory: Directory, monkeypatch: pytest.MonkeyPatch) -> None:
    """What a page of a history shows is reported and kept, though the service refuses the next one."""
    monkeypatch.setattr(_own_names, "_SPAN", 1)
    person.run("register", "dave", "key one")
    record = directory.world.epochs[3].names[client_world.index("dave")][2]
    directory.commit(4, dave=b"key of mallory")
    directory.commit(5, dave=record)
    directory.lies["/v1/history"] = lambda query: Reply(b"", 500) if query["first"] == "5" else None
    assert person.run("watch")[0] == 1 and convicted(person) == ["unvouched"]


def friend_sees(person: Person, directory: Directory, record: bytes) -> None:
    """A friend has the record, and then another one is shown."""
    other = Person(person.room, person._capture)
    other.state = person.room / "friend"
    other.begin(directory)
    assert other.run("verify", "dave", "--key", "key one")[0] == 0
    directory.batches.append((4, {"dave": record + b"x"}))
    directory.renew()
    for words in [("lookup", "dave"), ("verify", "dave", "--key", "key one"), ("verify", "dave", "--key", "key onex")]:
        status, lines = other.run(*words)
        assert status == 1, words
    assert other.stored()["seen"]["dave"]["value"] == record.hex() and convicted(other) == ["unvouched"]
    directory.batches.pop()
    directory.renew()


CHANGES: list[tuple[str, Callable[[bytes], Optional[bytes]], int, str]] = [
    ("the owner's", lambda it: following(Place.of(POLICY, "dave"), KEYS["one"], it, b"l"), 0, "vouched"),
    ("another owner's", lambda it: first(Place.of(POLICY, "dave"), KEYS["two"], b"l"), 1, "unvouched"),
    ("plain", lambda it: b"l", 1, "unvouched"),
    ("none", lambda it: None, 1, "unvouched"),
]


@pytest.mark.parametrize("what, change, status, reported", CHANGES, ids=[it[0] for it in CHANGES])
def test_changes(
    what: str,
    change: Callable[[bytes], Optional[bytes]],
    status: int,
    reported: str,
    person: Person,
    directory: Directory,
    clock: Clock,
) -> None:
    """A friend takes the change that the owner signed, and no other."""
    record = first(Place.of(POLICY, "dave"), KEYS["one"], b"k")
    directory.commit(3, dave=record)
    assert person.run("lookup", "dave")[0] == 0
    value = change(record)
    if value is None:
        removed = vouched_world([(1, {}), (2, {}), (4, {})])
        entry = resigned_after(directory.world, removed)
        clock.seconds = hour(4)
        pages = {"2": directory.world[3] + entry, "3": entry, "4": b""}
        directory.lies["/v1/entries"] = lambda query: Reply(pages[query["after"]])
        directory.lies["/v1/lookup"] = lambda _: Reply(removed.reply("dave", 4, entry=entry))
    else:
        directory.commit(4, dave=value)
    found, lines = person.run("lookup", "dave")
    assert (found, lines[0]["change"]) == (status, reported) and ("l" if value else None) == lines[0]["key"]
    assert convicted(person) == ["unvouched"] if status else not person.stored()["found"]


def test_changes_without_a_promise(tmp_path: Path, capsys: pytest.CaptureFixture[str], clock: Clock) -> None:
    """A directory whose policy promises no records is convicted by no change. Owner and friend are told of it as before."""
    it, friend = (Person(tmp_path, capsys, client_world.POLICY) for _ in range(2))
    friend.state = tmp_path / "friend"
    with Directory() as directory:
        clock.latest = lambda: directory.latest
        assert (it.begin(directory), friend.begin(directory)) == (0, 0)
        assert it.run("register", "dave", "key one")[0] == 0 and friend.run("lookup", "dave")[0] == 0
        directory.commit(4, dave=b"key of mallory")
        assert it.run("lookup", "dave")[0] == 1 and [saved["kind"] for saved in it.stored()["found"]] == ["changed"]
        assert is_alarm(it.run("watch"), 4)
        status, lines = friend.run("lookup", "dave")
        assert (status, lines[0]["change"]) == (1, "unvouched") and "was not signed with the secret key of the one before" in lines[
            0
        ]["text"]
    assert friend.run("evidence")[1][0]["text"] == "nothing was found that convicts the directory"
    status, lines = it.run("evidence")
    assert (status, [line["kind"] for line in lines]) == (1, ["changed"]) and lines[0]["text"].endswith("alone it convicts nobody")


def resigned_after(world: World, removed: World) -> bytes:
    """The entry of epoch 4 of another directory, as one that follows epoch 3."""
    body = removed[4][:9] + (3).to_bytes(8, "big") + removed[4][17:49] + world.link(3) + removed[4][81:145]
    return client_world.signed(body)


def test_plain_change(person: Person, directory: Directory) -> None:
    """Nobody vouches for a plain key: a friend must ask, and says so by `verify`."""
    person.run("lookup", "alice")
    directory.commit(3, alice=b"second key of alice")
    for _ in range(2):
        status, lines = person.run("lookup", "alice")
        assert (status, lines[0]["change"], lines[0]["before"]) == (1, "unknown", "key of alice")
    assert person.run("verify", "alice", "--key", "second key of alice")[0] == 0 and person.run("lookup", "alice")[0] == 0
    assert not person.stored()["found"]


def reply_of(world: World, name: str, epoch: int) -> Callable[[Mapping[str, str]], Optional[Reply]]:
    return lambda _: Reply(world.reply(name, epoch))


ALICE = WORLD.reply("alice", 2)
LIES: dict[str, tuple[str, Callable[[Mapping[str, str]], Optional[Reply]]]] = {
    "an older epoch": ("/v1/lookup", reply_of(WORLD, "alice", 1)),
    "another's reply": ("/v1/lookup", reply_of(WORLD, "bob", 2)),
    "another's VRF proof": ("/v1/lookup", lambda _: Reply(WORLD.reply("alice", 2, vrf=client_world.vrf_proof("bob")))),
    "another key": ("/v1/lookup", lambda _: Reply(ALICE[:-1] + b"x")),
    "another's proof": ("/v1/lookup", lambda _: Reply(WORLD.reply("alice", 2, proof=WORLD.proof("bob", 2)))),
    "no byte": ("/v1/lookup", lambda _: Reply(b"")),
    "a byte more": ("/v1/lookup", lambda _: Reply(ALICE + b"x")),
    "a byte less": ("/v1/lookup", lambda _: Reply(ALICE[:-1])),
    "a huge reply": ("/v1/lookup", lambda _: Reply(bytes(1 << 22))),
    "a redirect": ("/v1/lookup", lambda _: Reply(b"", 302, {"Location": "http://127.0.0.1:1/"})),
    "an error": ("/v1/lookup", lambda _: Reply(b'{"detail":7}', 500)),
    "no entries": ("/v1/entries", lambda _: Reply(b"")),
    "cut entries": ("/v1/entries", lambda _: Reply(WORLD[1][:-1])),
    "an entry that is not signed": ("/v1/entries", lambda _: Reply(WORLD[2] + bytes(209))),
    "huge entries": ("/v1/entries", lambda _: Reply(bytes(209 * 5000))),
    "entries in another order": ("/v1/entries", lambda _: Reply(WORLD[2] + WORLD[1])),
    "redirected entries": ("/v1/entries", lambda _: Reply(b"", 301, {"Location": "/v1/entries?after=0"})),
}


@pytest.mark.parametrize("what", LIES)
def test_lies(what: str, person: Person, directory: Directory) -> None:
    """What anyone on the way can make of a reply is refused, shows no key, is no alarm, and is forgotten."""
    before = person.stored()
    path, directory.lies[path] = LIES[what][0], LIES[what][1]
    for words in [("lookup", "alice"), ("verify", "alice", "--key", "key of alice")]:
        status, lines = person.run(*words)
        assert status == 3 and not any("key" in it for it in lines), lines
    after = person.stored()
    assert after == before
    del directory.lies[path]
    assert person.run("lookup", "alice")[0] == 0


@pytest.mark.parametrize("fork", FORKS, ids=["the latest entry", "an earlier entry", "other numbers"])
def test_forks(fork: World, person: Person, directory: Directory) -> None:
    """Another chain than before convicts the directory."""
    directory.world = fork
    status, lines = person.run("lookup", "alice")
    assert status == 1 and not any("key" in it for it in lines) and convicted(person) == ["overlap"]
    directory.world = WORLD
    assert person.run("lookup", "alice")[0] == 1 and len(person.stored()["found"]) == 1, "it is not forgotten"


def test_late(person: Person, directory: Directory, clock: Clock) -> None:
    """A directory that shows no new epoch is not believed any more, and neither is one whose clock is ahead."""
    clock.seconds = hour(5, 10)
    status, lines = person.run("lookup", "alice")
    assert status == 3 and lines[0]["cause"] == "STALE"
    directory.commit(9)
    status, lines = person.run("lookup", "alice")
    assert status == 3 and "shows epoch 9, which begins later than now" in lines[0]["text"]


def test_slow(person: Person, monkeypatch: pytest.MonkeyPatch) -> None:
    """A server that sends a byte now and then keeps a client only for its time."""
    monkeypatch.setattr(_http, "SECONDS", 1.0)
    for head in [b"HTTP/1.1 200 OK\r\nA: ", b"HTTP/1.1 200 OK\r\nContent-Length: 9999\r\n\r\n"]:
        with dripping(head) as url:
            StateFile(person.state).write({**person.stored(), "service": url})
            start = time.monotonic()
            assert person.run("lookup", "alice")[0] == 3 and time.monotonic() < start + 30


def test_no_service(person: Person) -> None:
    for url in ["http://127.0.0.1:1", "ftp://x", "x", "http://[", "file:///etc/passwd", ""]:
        StateFile(person.state).write({**person.stored(), "service": url})
        assert person.run("lookup", "alice")[0] == 3


NAMES = ["", "a\nb", "a\x1b[2Jb", "a\x00b", "\udce4", "\ud800", "x" * 256, "x" * 100_000, "\u0378", "\u00fc" * 128]


@pytest.mark.parametrize("name", NAMES, ids=range(len(NAMES)))
def test_hostile_names(name: str, person: Person, directory: Directory, capsys: pytest.CaptureFixture[str]) -> None:
    """A name that is none is refused in one line before anything is asked."""
    count = len(directory.requested)
    for words in [["lookup", name], ["register", name, "k"], ["verify", name, "--key", "k"]]:
        with pytest.raises(SystemExit) as ended:
            contacts.main([words[0], "--state", str(person.state), *words[1:]])
        text = capsys.readouterr().err
        assert ended.value.code == 2 and len(text) < 1000 and text.isascii() and "\x1b" not in text
    assert len(directory.requested) == count


SHOWN = [
    ("a\u202eb", "a\\u{202e}b"),
    ("a\u200bb", "a\\u{200b}b"),
    ('a"b', "a\\u{22}b"),
    ("\u0430lice", "(U+0430 U+006C"),
    ("a\\b", "\\u{5c}"),
]


@pytest.mark.parametrize("name, text", SHOWN)
def test_shown_names(name: str, text: str, person: Person) -> None:
    """What isn't seen in a name, and what looks like another letter, is written out."""
    status, lines = person.run("lookup", name)
    assert status == 4 and text in lines[0]["text"] and "\u202e" not in lines[0]["text"]


@pytest.mark.parametrize("key", [b"\x1b[2J", b'x" (epoch 9)', b"\xff\xfe", "\u202e".encode(), b"base64:eA==", b"a\nb", bytes(32)])
def test_shown_keys(key: bytes, person: Person, directory: Directory) -> None:
    """A key that is no plain text is shown in base64, and what is shown is taken back."""
    directory.commit(3, dave=key)
    status, lines = person.run("lookup", "dave")
    shown = "base64:" + base64.b64encode(key).decode()
    assert status == 0 and lines[0]["key"] == shown and f'"{shown}"' in lines[0]["text"]
    assert person.run("verify", "dave", "--key", shown)[0] == 0


@pytest.mark.parametrize("key", ["", "base64:", "base64:!", "base64:eA", "x" * 16177, "\udce4"])
def test_bad_keys(key: str, person: Person, directory: Directory, capsys: pytest.CaptureFixture[str]) -> None:
    for command in [["register", "dave"], ["reset", "dave"], ["verify", "dave", "--key"]]:
        with pytest.raises(SystemExit) as ended:
            contacts.main([command[0], "--state", str(person.state), *command[1:], key])
        assert ended.value.code == 2 and "a key is text" in capsys.readouterr().err
    assert not directory.operations


@pytest.mark.parametrize("url", ["keys.example.com", "ftp://x", "http://", "http://x:0", "http://x:port", "http://x?y", ""])
def test_bad_urls(url: str, tmp_path: Path, capsys: pytest.CaptureFixture[str]) -> None:
    for words in [["begin", "--policy", "x", "--without-auditors", "--service", url], ["set", "--service", url]]:
        with pytest.raises(SystemExit) as ended:
            contacts.main(words)
        assert ended.value.code == 2 and "a URL begins with http" in capsys.readouterr().err


def test_token(person: Person, directory: Directory) -> None:
    """The token goes with an operation, and with what is refused without it. Nothing else has it."""
    assert person.run("register", "dave", "key one")[0] == 0 and directory.tokens == ["/v1/operations"]
    directory.commit(4)
    directory.commit(5)
    for words in [["watch"], ["lookup", "alice"], ["compare"], ["verify", "dave", "--key", "key one"]]:
        assert person.run(*words)[0] == 0 and "/v1/history" in "".join(directory.requested)
    assert directory.tokens == ["/v1/operations"]
    directory.commit(6)
    directory.commit(7)
    directory.private.add("/v1/history")
    assert person.run("watch")[0] == 0 and directory.tokens[1:] == ["/v1/history"]
    (person.room / "token").write_text("another token\n")
    assert person.run("set", "--token", str(person.room / "token"))[0] == 0
    directory.commit(8)
    directory.commit(9)
    status, lines = person.run("watch")
    assert status == 3 and "only the owner" in lines[0]["text"]


@pytest.mark.parametrize("host", ["0.0.0.0", "keys.example.com", "localhost.example.com", "127.0.0.1.example.com", "[::2]", "[::]"])
def test_token_without_tls(host: str, person: Person, directory: Directory) -> None:
    """A token goes over http to this host alone: neither `begin` nor `set` takes another one."""
    url, saved = directory.url.replace("127.0.0.1", host), person.state.read_bytes()
    empty, other = person.room / "empty", person.room / "other"
    empty.write_text("")
    status, lines = person.run("set", "--service", url)
    assert status == 3 and "no TLS" in lines[0]["text"] and person.state.read_bytes() == saved
    words = ["begin", "--service", url, "--policy", str(person.room / "policy"), "--without-auditors", "--state", str(other)]
    status, lines = person.run(*words, "--token", str(person.room / "token"))
    assert status == 3 and "no TLS" in lines[0]["text"] and not other.exists()
    assert person.run("set", "--service", url, "--token", str(empty))[0] == 0
    assert person.run("set", "--token", str(person.room / "token"))[0] == 3
    for own in ["https://keys.example.com", "http://localhost:1", "http://127.1.2.3", "http://[::1]:8080", directory.url]:
        assert person.run("set", "--service", own, "--token", str(person.room / "token"))[0] == 0


def test_state_with_a_token_without_tls(person: Person, directory: Directory) -> None:
    """A state that names another host over http sends no token, though the service refuses what comes without it."""
    StateFile(person.state).write({**person.stored(), "service": directory.url.replace("127.0.0.1", "0.0.0.0")})
    directory.private.add("/v1/lookup")
    for words in [["register", "dave", "key one"], ["lookup", "alice"]]:
        status, lines = person.run(*words)
        assert status == 3 and "no TLS" in lines[0]["text"]
    directory.private.clear()
    assert person.run("register", "dave", "key one")[0] == 3 and not directory.operations and not directory.tokens


def test_begun_at_a_wrong_place(tmp_path: Path, capsys: pytest.CaptureFixture[str], directory: Directory) -> None:
    """A service that isn't there leaves no state, which would be in the way of the right one."""
    it = Person(tmp_path, capsys)
    directory.lies["/v1/entries"] = lambda _: Reply(b"", 404)
    assert it.begin(directory) == 3 and not it.state.exists()
    del directory.lies["/v1/entries"]
    assert it.begin(directory) == 0 and it.state.exists()


def test_unexpected(person: Person, monkeypatch: pytest.MonkeyPatch) -> None:
    """An error of the program is reported in one line, and is no alarm."""

    def raising(*_: object) -> None:
        raise AssertionError("a fault\x1b[2J")

    monkeypatch.setattr(_person, "answered", raising)
    status, lines = person.run("lookup", "alice")
    assert (status, len(lines)) == (3, 1) and lines[0]["text"].endswith("AssertionError: a fault\\u{1b}[2J")


ESCAPES = "\x1b[2J\u202e\x07\x9b\u2028"


def test_escapes(person: Person, directory: Directory, capsys: pytest.CaptureFixture[str], auditors: list[Auditing]) -> None:
    """Nothing that comes from elsewhere reaches a terminal as it is: status lines, headers, bodies, names, keys, files and errors."""
    text = ESCAPES.encode()
    pages: list[Reply] = [Reply(json.dumps({"detail": ESCAPES}).encode(), 500), Reply(text, 500), Reply(b"", 200, {"A": "\x1b[2J"})]
    shown = list[str]()

    def run(*words: str) -> None:
        with suppress(SystemExit):
            contacts.main([words[0], "--state", str(person.state), *words[1:]])
        captured = capsys.readouterr()
        shown.append(captured.out + captured.err)

    for page in pages:
        for path in ("/v1/lookup", "/v1/entries", "/v1/note", "/v1/operations", "/v1/history"):
            directory.lies[path] = lambda _: page
            for words in [("lookup", "alice"), ("register", "dave", "key one"), ("watch",), ("compare",)]:
                run(*words)
            del directory.lies[path]
    with dripping(b"HTTP/1.1 \x1b[2J\x07 no status line at all\r\n\r\n") as url:
        StateFile(person.state).write({**person.stored(), "service": url})
        run("lookup", "alice")
    altered: list[dict[str, Any]] = [
        {"policy": ESCAPES},
        {"service": f"http://{ESCAPES}"},
        {"auditors": [["http://x", ESCAPES]]},
        {"chain": ESCAPES},
    ]
    for members in altered:
        StateFile(person.state).write({**person.stored(), **members})
        run("lookup", "alice")
    found = [{"kind": "changed", "evidence": [ESCAPES], "name": ESCAPES}]
    StateFile(person.state).write(
        {**person.stored(), "policy": bytes(POLICY).decode(), "auditors": [], "chain": "", "found": found}
    )
    run("evidence")
    run("lookup", ESCAPES)
    run("set", "--state", str(person.room / ESCAPES), "--service", directory.url)
    run(ESCAPES)
    run("lookup", "alice", ESCAPES)
    assert len(shown) > 60 and any("\\u{1b}[2J" in it for it in shown)
    assert not [it for it in shown if not it.replace("\n", "").isprintable()]


# The state.


def test_state_of_another_directory(person: Person, directory: Directory, tmp_path: Path) -> None:
    """Parts of two states can't be mixed."""
    person.run("register", "dave", "key one")
    person.run("register", "erin", "key two")
    members = person.stored()
    chain = members["chain"]
    others = [
        {**members, "policy": members["policy"].replace("keys.example.com", "keys.example.org")},
        {**members, "chain": chain[:-1] + ("1" if chain.endswith("0") else "0")},
        {**members, "own": {"dave": members["own"]["erin"], "erin": members["own"]["dave"]}},
        {**members, "own": {"dave": {**members["own"]["dave"], "value": members["own"]["erin"]["value"]}}},
        {**members, "own": []},
        {**members, "auditors": [["http://127.0.0.1:1", "x"]]},
        {name: it for name, it in members.items() if name != "chain"},
    ]
    count = len(directory.requested)
    for it in others:
        StateFile(person.state).write(it)
        status, lines = person.run("watch")
        assert status == 3 and "was changed" in lines[0]["text"]
    assert len(directory.requested) == count
    StateFile(person.state).write(members)
    assert person.run("watch")[0] == 0


def test_damaged_state(person: Person, directory: Directory) -> None:
    """A state that was cut or changed is refused as a whole, and left as it is."""
    whole, count = person.state.read_bytes(), len(directory.requested)
    cuts = [whole[:it] for it in [0, 1, 15, 16, 79, 80, 81, len(whole) // 2, len(whole) - 1]]
    flips = [whole[:it] + bytes([whole[it] ^ 1]) + whole[it + 1 :] for it in range(0, len(whole), 37)]
    for text in [*cuts, *flips, whole + b"x", b"\xff" * 200]:
        person.state.write_bytes(text)
        status, lines = person.run("watch")
        assert status == 3 and "cut or changed" in lines[0]["text"] and person.state.read_bytes() == text
    person.state.unlink()
    assert "coniks-client begin" in person.run("watch")[1][0]["text"]
    person.state.mkdir()
    assert person.run("watch")[0] == 3 and len(directory.requested) == count


def test_other_versions(person: Person, directory: Directory) -> None:
    """A state that another version of coniks-client wrote isn't taken for a changed one, and is left as it is."""
    whole, count = person.state.read_bytes(), len(directory.requested)
    assert whole.startswith(b"coniks-client 3 ")
    for version in (b"1", b"2", b"4"):
        text = whole.replace(b" 3 ", b" %s " % version, 1)
        person.state.write_bytes(text)
        status, [line] = person.run("watch")
        assert status == 3 and "of another version" in line["text"] and "changed" not in line["text"]
        assert person.state.read_bytes() == text and len(directory.requested) == count
    person.state.write_bytes(whole)
    assert person.run("lookup", "alice")[0] == 0


def test_begun_twice(person: Person, directory: Directory) -> None:
    """A state isn't overwritten, and one without quorum isn't made."""
    before = person.state.read_bytes()
    assert person.begin(directory) == 3 and person.state.read_bytes() == before
    other = Person(person.room, person._capture)
    other.state = person.room / "other"
    pair = [("http://127.0.0.1:1", str(AUDITORS[it])) for it in ("one", "two")]
    for auditors, faulty in [([pair[0], pair[0]], 0), ([("http://127.0.0.1:1", "x"), pair[0]], 0), (pair, 1), (pair, -1)]:
        assert other.begin(directory, *auditors, faulty=faulty) == 3 and not other.state.exists()
    (person.room / "policy").write_bytes(b"x")
    assert other.begin(directory) == 3 and not other.state.exists()


def test_rights(person: Person) -> None:
    """The state has secret keys: nobody else reads it, whatever is in its place before. A symbolic link stays."""
    assert person.state.stat().st_mode & 0o777 == 0o600
    left = person.room / "state.new"
    left.write_text("coniks-client 3 left")
    left.chmod(0o666)
    assert person.run("lookup", "alice")[0] == 0 and person.state.stat().st_mode & 0o777 == 0o600 and not left.exists()
    person.state.rename(person.room / "real")
    person.state.symlink_to(person.room / "real")
    assert person.run("register", "dave", "key one")[0] == 0
    assert person.state.is_symlink() and (person.room / "real").stat().st_mode & 0o777 == 0o600


def test_second_run(person: Person) -> None:
    """One run at a time has the state."""
    file = StateFile(person.state)
    status, lines = person.run("lookup", "alice")
    assert status == 3 and "another run" in lines[0]["text"]
    file.close()
    assert person.run("lookup", "alice")[0] == 0


class Stopped(BaseException):
    """An end at some moment."""


def test_interrupted_at_each_step(person: Person, directory: Directory, monkeypatch: pytest.MonkeyPatch) -> None:
    """Wherever a registration and a change end, before or after a request or a stored file, the same call goes on, and each key
    is registered once."""
    for key in ["key one", "key two"]:
        steps = 0
        while interrupted(person, ["register", "dave", key], steps, monkeypatch):
            steps += 1
        ran = person.run("register", "dave", key)
        assert steps > 5 and ran[0] == 0, ran
        status, lines = person.run("watch")
        assert status == 0 and lines[0]["key"] == key
    record = vouched.record_of(directory.world.epochs[directory.latest].names[client_world.index("dave")][2])
    assert record and record.number == 2 and not person.stored()["found"]


def interrupted(person: Person, words: list[str], at: int, monkeypatch: pytest.MonkeyPatch) -> bool:
    """Ends a run before its step of this number, or after it. Returns whether there was one."""
    count = 0

    def counted(call: Callable[..., Any]) -> Callable[..., Any]:
        def made(*arguments: Any, **more: Any) -> Any:
            nonlocal count
            count += 1
            if count == at // 2 + 1 and at % 2 == 0:
                raise Stopped
            found = call(*arguments, **more)
            if count == at // 2 + 1 and at % 2 == 1:
                raise Stopped
            return found

        return made

    with monkeypatch.context() as patch:
        for module, name in [(_person, "answered"), (_http, "answered"), (os, "fsync"), (os, "replace")]:
            patch.setattr(module, name, counted(getattr(module, name)))
        try:
            contacts.main([words[0], "--state", str(person.state), "--json", *words[1:]])
        except Stopped:
            return True
    return False


@pytest.mark.kills
def test_kills(person: Person, directory: Directory, request: pytest.FixtureRequest, clock: Clock) -> None:
    """The process is killed at random moments. The state is always whole, and the key is registered once."""
    draw = random.Random(request.config.getoption("seed"))
    words = [sys.executable, "-m", "coniks.contacts", "register", "--state", str(person.state), "dave", "key one"]
    for _ in range(request.config.getoption("kills")):
        process = subprocess.Popen(words, stdout=subprocess.DEVNULL, stderr=subprocess.DEVNULL)
        with suppress(subprocess.TimeoutExpired):
            process.wait(draw.random() * 0.6)
        process.kill()
        process.wait()
        StateFile(person.state).read()
    clock.seconds = None
    assert person.run("register", "dave", "key one")[0] == 0
    keys = {it["key"] for it in directory.operations}
    assert len(keys) == 1 and not person.stored()["found"]


def test_interrupt(person: Person, monkeypatch: pytest.MonkeyPatch) -> None:
    """An interrupt by the keyboard ends without a trace of the program."""

    def raising(*_: object) -> None:
        raise KeyboardInterrupt

    monkeypatch.setattr(_http, "answered", raising)
    monkeypatch.setattr(_person, "answered", raising)
    assert person.run("lookup", "alice")[0] == 130


def test_full_disk(person: Person, monkeypatch: pytest.MonkeyPatch) -> None:
    """A state that can't be stored is an error, and stays as it was."""
    before = person.state.read_bytes()

    def raising(*_: object) -> None:
        raise OSError(28, "No space left on device")

    with monkeypatch.context() as patch:
        patch.setattr(os, "fsync", raising)
        status, lines = person.run("register", "dave", "key one")
    assert status == 3 and "No space left" in lines[-1]["text"] and person.state.read_bytes() == before


def test_missing_epochs(person: Person, directory: Directory) -> None:
    """Epochs without a proof are reported, and looked at again."""
    person.run("register", "dave", "key one")
    directory.commit(4)
    directory.commit(5)
    directory.lies["/v1/history"] = lambda query: Reply(directory.world.history("dave"))
    status, lines = person.run("watch")
    assert status == 3 and lines[0]["epochs"] == [5] and lines[1]["missing"] == [4] and "epoch 4" in lines[1]["text"]
    status, lines = person.run("register", "dave", "key two")
    assert status == 3 and "epoch 4 must be verified" in lines[0]["text"] and len(directory.operations) == 1
    del directory.lies["/v1/history"]
    assert person.run("watch")[1][0]["epochs"] == [4, 5]


def test_lost_epochs(tmp_path: Path, capsys: pytest.CaptureFixture[str], clock: Clock) -> None:
    """Epochs whose proofs are no longer promised are reported by the sentence of docs/STORED.md."""
    text = client_world.policy_text(stored=7200)
    it = Person(tmp_path, capsys, text)
    with Directory(policy=text) as directory:
        assert it.begin(directory) == 0
        directory.commits = False
        it.run("register", "dave", "key one")
        for epoch in range(3, 9):
            directory.batches.append((epoch, {"dave": base64.b64decode(directory.operations[0]["key"])} if epoch == 3 else {}))
        directory.renew()
        directory.lies["/v1/history"] = lambda query: Reply(directory.world.history("dave", 7, 8))
        clock.seconds = hour(9)
        status, lines = it.run("watch")
        assert status == 3 and lines[0]["text"] == '"dave": epochs 3 to 6 can no longer be verified'
        assert lines[1]["epochs"] == [7, 8] and it.run("watch")[0] == 0, "the rest goes on"


def test_dropped_epochs(tmp_path: Path, capsys: pytest.CaptureFixture[str], clock: Clock) -> None:
    """Lost epochs keep no later one once the auditors confirm it, and are reported by the same sentence ever after."""
    text = client_world.policy_text(stored=7200)
    it, policy = Person(tmp_path, capsys, text), Policy.read(text.encode())
    with Directory(policy=text) as directory:

        def confirm(epoch: int) -> None:
            head = text_of(policy, Head(epoch, directory.world.link(epoch)))
            directory.note = bytes(Note(head, tuple(cosign(name, KEYS[name], head, clock()) for name in ("one", "two"))))

        confirm(2)
        assert it.begin(directory, *[(f"https://{name}.example", str(AUDITORS[name])) for name in ("one", "two")]) == 0
        assert it.run("register", "dave", "key one")[0] == 0
        directory.batches += [(epoch, {}) for epoch in range(4, 9)]
        directory.renew()
        directory.lies["/v1/history"] = lambda query: Reply(b"", 503)
        clock.seconds = hour(9)
        confirm(8)
        sentence = '"dave": epochs 4 to 6 can no longer be verified'
        for is_promised_shown, count in [(False, 2), (False, 2), (True, 1)]:
            if is_promised_shown:
                del directory.lies["/v1/history"]
            status, lines = it.run("watch")
            assert status == (0 if is_promised_shown else 3), lines
            assert [line["text"] for line in lines if "lost" in line] == [sentence], lines
            assert int.from_bytes(bytes.fromhex(it.stored()["own"]["dave"]["client"])[33:37], "big") == count
        assert [line["epochs"] for line in lines if "key" in line] == [[7, 8]], "epoch 7 can still be verified"


def test_signed_again(person: Person, directory: Directory) -> None:
    """The next entry may link to another signature of the latest one: the chain goes on with that, and so does an own name."""
    assert person.run("register", "dave", "key one")[0] == 0
    directory.commit(4)
    directory.world.sign_again(3)
    status, lines = person.run("watch")
    assert status == 0 and lines[0]["epochs"] == [4], lines
    assert person.run("lookup", "dave")[0] == 0 and not person.stored()["found"]
    directory.world.sign_again(4)
    assert person.run("watch")[0] == 0, "the latest one"


def test_two_under_way(person: Person, directory: Directory) -> None:
    """What the service refuses for one name does nothing to another one that waits."""
    directory.commits = False
    person.run("register", "dave", "key one")
    directory.refusal = "no"
    assert person.run("register", "erin", "key two")[0] == 3
    assert all(person.stored()["own"][name]["next"] for name in ("dave", "erin"))
    directory.commit(3, dave=base64.b64decode(directory.operations[0]["key"]))
    status, lines = person.run("watch")
    assert status == 3 and [it["name"] for it in lines[:2]] == ["dave", "erin"] and lines[0]["status"] == 0


def test_unusual_outputs(person: Person, monkeypatch: pytest.MonkeyPatch, clock: Clock) -> None:
    """A terminal without UTF-8, and a reader that goes away, are no alarm."""
    words = [sys.executable, "-m", "coniks.contacts", "lookup", "--state", str(person.state)]
    ran = subprocess.run([*words, "\u0142"], capture_output=True, text=True, env=os.environ | {"PYTHONIOENCODING": "ascii"})
    assert ran.returncode == 3 and not ran.stderr, "the directory of the test is late now"
    ran = subprocess.run(["bash", "-c", '"$@" | true; echo ${PIPESTATUS[0]}', "bash", *words, "a"], capture_output=True, text=True)
    assert ran.stdout in ("3\n",) and "Traceback" not in ran.stderr
