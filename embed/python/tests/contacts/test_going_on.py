"""`coniks-client` and directories that end with a succession: it goes on, waits, or alarms."""

from __future__ import annotations

import json
import subprocess
import sys
from contextlib import ExitStack
from pathlib import Path
from typing import Any, Callable, Iterator

import pytest

pytest.importorskip("nacl.signing")

from client_world import BATCHES
from coniks import Head
from coniks.succession import Succession
from directories import Reply
from endings import NEXT, OLD, OTHER, SUCCESSOR, Confirming, Ended, thief
from people import Clock, Person

TOP = Path(__file__).resolve().parents[4]
# In an hour of the old directory there are two epochs of the next one.
LATEST = BATCHES[-1][0]


@pytest.fixture
def ended(clock: Clock) -> Iterator[Ended]:
    with Ended() as it:
        clock.latest = lambda: it.hour
        yield it


@pytest.fixture
def auditors(ended: Ended) -> Iterator[list[Confirming]]:
    with ExitStack() as opened:
        made = [Confirming(it, ended) for it in ("one", "two", "three")]
        for it in made:
            opened.enter_context(it)
        yield made


@pytest.fixture
def anna(tmp_path: Path, capsys: pytest.CaptureFixture[str], ended: Ended) -> Person:
    """A client that has no auditors, and goes on by itself."""
    it = Person(tmp_path, capsys, OLD)
    assert it.begin(ended) == 0
    assert it.run("set", "--go-on")[0] == 0
    return it


def texts(lines: list[dict[str, Any]]) -> str:
    return "\n".join(it["text"] for it in lines)


def test_goes_on(anna: Person, ended: Ended) -> None:
    """Names and contacts go on: the own name is watched from the first epoch that counts on, and a contact's key is the same."""
    assert anna.run("register", "dave", "key one")[0] == 0
    assert anna.run("lookup", "bob")[0] == 0
    succession = ended.end()
    status, lines = anna.run("watch")
    assert status == 0 and "goes on from epoch" in texts(lines)
    stored = anna.stored()
    assert stored["policy"] == NEXT and len(stored["before"]) == 1 and stored["before"][0]["policy"] == OLD
    own = [it for it in lines if it["text"].startswith('"dave" has your key')]
    assert own and own[0]["epochs"][0] == succession.first.epoch, "from the first epoch that counts on"
    status, lines = anna.run("lookup", "bob")
    assert (status, lines[0]["change"], lines[0]["key"]) == (0, "same", "key of bob")
    status, lines = anna.run("register", "dave", "key two")
    assert status == 0 and 'your key "key two"' in texts(lines) or "key two" in texts(lines)
    assert anna.run("watch")[0] == 0 and anna.run("evidence")[0] == 0


def test_late(anna: Person, ended: Ended) -> None:
    """A client that lacks entries of the old chain takes them from the service that goes on."""
    for epoch in (7, 8):
        ended.commit(epoch)
    ended.end()
    assert anna.run("lookup", "alice")[0] == 0
    assert len(anna.stored()["before"]) == 1


def test_another_key(anna: Person, ended: Ended) -> None:
    """A directory that goes on with another key of a watched name is noticed by its owner and by a contact."""
    assert anna.run("register", "dave", "key one")[0] == 0
    assert anna.run("lookup", "bob")[0] == 0
    ended.end(changes={"dave": b"key of mallory", "bob": b"key of mallory"})
    status, lines = anna.run("watch")
    assert status == 1 and "which is not yours" in texts(lines)
    assert anna.run("lookup", "bob")[0] == 1


def test_asks(tmp_path: Path, capsys: pytest.CaptureFixture[str], ended: Ended) -> None:
    """Without its user's word a client does not go on: each command alarms until it has that."""
    person = Person(tmp_path, capsys, OLD)
    assert person.begin(ended) == 0
    ended.end()
    for command in (["lookup", "alice"], ["watch"], ["compare"], ["register", "dave", "key one"]):
        status, lines = person.run(*command)
        assert status == 1 and "coniks-client succeed" in texts(lines), command
    assert person.stored()["policy"] == OLD
    status, lines = person.run("succeed")
    assert status == 0 and person.stored()["policy"] == NEXT
    assert person.run("lookup", "alice")[0] == 0
    assert person.run("succeed")[0] == 3, "once"


def test_void(tmp_path: Path, capsys: pytest.CaptureFixture[str], ended: Ended, clock: Clock) -> None:
    """A client that has entries after the last epoch says so, keeps one, and goes on without what they showed."""
    person = Person(tmp_path, capsys, OLD)
    with thief(LATEST) as stolen:
        clock.latest = lambda: max(ended.hour, stolen.hour)
        assert person.begin(stolen) == 0
        assert person.run("set", "--go-on")[0] == 0
        assert person.run("lookup", "bob")[1][0]["key"] == "key of mallory"
        assert person.run("register", "dave", "key one")[0] == 0
    person.run("set", "--service", ended.url)
    succession = ended.end()
    ended.go_on(LATEST + 3)
    status, lines = person.run("lookup", "alice")
    assert status == 1, "void epochs are an alarm"
    assert "its signing key was stolen, or it takes back what it signed" in texts(lines)
    assert '"bob" had the key "key of mallory"' in texts(lines) and '"dave" was not registered' in texts(lines)
    stored = person.stored()
    assert stored["policy"] == NEXT and "bob" not in stored["seen"]
    assert person.run("lookup", "bob")[1][0]["key"] == "key of bob" and person.run("lookup", "bob")[0] == 0
    status, lines = person.run("evidence")
    assert status == 1 and lines[0]["kind"] == "void" and lines[0]["evidence"][0] == bytes(succession).hex()
    assert int.from_bytes(bytes.fromhex(lines[0]["evidence"][1])[1:9], "big") > succession.last.epoch
    status, lines = person.run("register", "dave", "key one")
    assert status == 0 and '"dave" has your key' in texts(lines)


def test_fork(tmp_path: Path, capsys: pytest.CaptureFixture[str], ended: Ended, clock: Clock) -> None:
    """A client whose chain has another entry at the last epoch does not go on, until its user says so."""
    person = Person(tmp_path, capsys, OLD)
    with Ended([*BATCHES[:-1], (LATEST, {"bob": b"key of mallory"})]) as stolen:
        clock.latest = lambda: max(ended.hour, stolen.hour)
        assert person.begin(stolen) == 0
        assert person.run("register", "dave", "key one")[0] == 0
    person.run("set", "--service", ended.url, "--go-on")
    ended.end()
    status, lines = person.run("lookup", "bob")
    assert status == 1 and "another entry than you were shown" in texts(lines)
    assert person.stored()["policy"] == OLD and person.run("succeed")[0] == 1
    status, lines = person.run("succeed", "--anew")
    assert person.stored()["policy"] == NEXT
    assert person.run("lookup", "alice")[0] == 0
    status, lines = person.run("watch")
    assert status == 1 and '"dave" has no key' in texts(lines), "the owner's name is in no epoch that the directory answers for"


def test_two_successions(anna: Person, ended: Ended) -> None:
    """Two successions of one directory convict it, for anyone."""
    one = ended.end()
    other = Succession(one.policy, one.last, one.next_policy, Head(one.first.epoch, bytes(32))).sign(SUCCESSOR)
    shown = [bytes(one), bytes(other)]
    ended.lies["/v1/succession"] = lambda _: Reply(shown[0])
    with Confirming("one", ended) as auditor, Confirming("two", ended) as second:
        auditor.lies["/v1/succession"] = lambda _: Reply(auditor.cosigned(shown[1].decode()))
        words = [word for it in (auditor, second) for word in ("--add-auditor", *it.pair)]
        assert anna.run("set", *words)[0] == 0
        status, lines = anna.run("lookup", "alice")
    assert status == 1 and "two successions" in texts(lines) and anna.stored()["policy"] == OLD
    status, lines = anna.run("evidence")
    assert status == 1 and lines[0]["kind"] == "successions" and {bytes.fromhex(it) for it in lines[0]["evidence"]} == set(shown)


@pytest.mark.parametrize("wrong", ["key", "policy", "text", "none"])
def test_not_signed(anna: Person, ended: Ended, wrong: str) -> None:
    """What the successor key did not sign for this policy counts for nothing, whoever shows it."""
    one = ended.end()
    made: dict[str, Callable[[], bytes]] = {
        "key": lambda: bytes(one.sign(OTHER)),
        "policy": lambda: bytes(Succession(bytes(32), one.last, one.next_policy, one.first).sign(SUCCESSOR)),
        "text": lambda: bytes(one)[:-1],
        "none": lambda: one.signed,
    }
    ended.lies["/v1/succession"] = lambda _: Reply(made[wrong]())
    status, lines = anna.run("lookup", "alice")
    assert status == 3 and anna.stored()["policy"] == OLD, "the service shows another directory's entries"
    ended.lies.clear()
    assert anna.run("lookup", "alice")[0] == 0 and anna.stored()["policy"] == NEXT


def begun(tmp_path: Path, capsys: pytest.CaptureFixture[str], ended: Ended, auditors: list[Confirming], *more: str) -> Person:
    person = Person(tmp_path, capsys, OLD)
    assert person.begin(ended, *(it.pair for it in auditors)) == 0
    assert not more or person.run("set", *more)[0] == 0
    return person


def test_auditors(tmp_path: Path, capsys: pytest.CaptureFixture[str], ended: Ended, auditors: list[Confirming]) -> None:
    """A client with auditors goes on once a quorum of them has cosigned the succession."""
    person = begun(tmp_path, capsys, ended, auditors, "--go-on")
    assert person.run("register", "dave", "key one")[0] == 0
    ended.end()
    for it in auditors[:2]:
        it.lies["/v1/succession"] = lambda _: Reply(b"", 404)
    status, lines = person.run("watch")
    assert status == 3 and "1 of your auditors" in texts(lines) and person.stored()["policy"] == OLD
    auditors[0].lies["/v1/succession"] = lambda _: Reply(ended.past[next(iter(ended.past))][2])
    assert person.run("watch")[0] == 3, "what an auditor has not cosigned does not count"
    auditors[0].lies["/v1/succession"] = lambda _: Reply(auditors[1].cosigned(ended.past[next(iter(ended.past))][2].decode()))
    assert person.run("watch")[0] == 3, "nor what another one has"
    auditors[0].lies.clear()
    status, lines = person.run("watch")
    assert status == 0 and person.stored()["policy"] == NEXT, texts(lines)
    assert "2 of your 3 auditors" in texts(lines) or "3 of your 3 auditors" in texts(lines)


def test_auditors_show_it(
    tmp_path: Path, capsys: pytest.CaptureFixture[str], ended: Ended, auditors: list[Confirming], clock: Clock
) -> None:
    """A service that goes on after the end is left by what the auditors show."""
    person = begun(tmp_path, capsys, ended, auditors)
    ended.end()
    with thief(LATEST) as stolen:
        clock.latest = lambda: max(ended.hour, stolen.hour)
        assert person.run("set", "--service", stolen.url)[0] == 0
        status, lines = person.run("lookup", "bob")
        assert status == 1 and "coniks-client succeed" in texts(lines), texts(lines)
        assert person.run("set", "--go-on")[0] == 0
        status, lines = person.run("lookup", "bob")
        assert status == 1 and "give its URL" in texts(lines) and person.stored()["policy"] == OLD
        assert "after its last epoch" in texts(lines), "void epochs are told at once"
    person.run("set", "--service", ended.url)
    ended.commit(ended.latest + 4)
    status, lines = person.run("lookup", "bob")
    assert status == 1 and "after its last epoch" in texts(lines) and person.stored()["policy"] == NEXT
    assert person.run("lookup", "bob")[1][0]["key"] == "key of bob"


def test_trust_document(tmp_path: Path, capsys: pytest.CaptureFixture[str], ended: Ended, auditors: list[Confirming]) -> None:
    """The trust document says whether its clients go on by themselves; the next one does too."""
    person = begun(tmp_path, capsys, ended, auditors, "--go-on")
    document = tmp_path / "trust"
    assert person.run("trust", str(document))[0] == 0
    key = bytes(SUCCESSOR.verify_key).hex()
    assert f"\nsuccessor-key {key}\n" in document.read_text()
    other = Person(tmp_path, capsys, OLD)
    other.state = tmp_path / "other"
    urls = [word for it in auditors for word in ("--auditor", *it.pair)]
    words = ["--service", ended.url, "--policy", str(tmp_path / "policy"), "--trust", str(document), *urls]
    assert other.run("begin", *words)[0] == 0 and other.stored()["goes_on"] is True
    document.write_text(document.read_text().replace(key, bytes(OTHER.verify_key).hex()))
    other.state = tmp_path / "third"
    assert other.run("begin", *words)[0] == 3, "another successor key than the policy's"
    ended.end()
    assert person.run("compare")[0] == 0
    assert person.run("trust", str(document))[0] == 0 and f"\nsuccessor-key {key}\n" in document.read_text()


def test_second_implementation(anna: Person, ended: Ended) -> None:
    """What two successions are is decided the same way by the second implementation."""
    one = ended.end()
    other = Succession(one.policy, one.last, one.next_policy, Head(one.first.epoch, bytes(32))).sign(SUCCESSOR)
    line = {"kind": "successions", "evidence": [bytes(one).hex(), bytes(other).hex()]}
    words = [sys.executable, str(TOP / "cases/second/convicts"), str(anna.room / "policy")]
    same = {"kind": "successions", "evidence": [bytes(one).hex(), bytes(one).hex()]}
    for it, status in ((line, 0), (same, 1)):
        assert subprocess.run(words, input=json.dumps(it) + "\n", capture_output=True, text=True).returncode == status
