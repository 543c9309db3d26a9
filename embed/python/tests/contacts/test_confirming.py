"""`coniks-client` with the heads of auditors: which epochs a quorum of them confirms."""

from __future__ import annotations

from pathlib import Path
from typing import Callable

import pytest

pytest.importorskip("nacl.signing")

from client_world import hour
from directories import Directory, Reply
from people import AUDITORS, FORKS, KEYS, NOW, POLICY, WORLD, Auditing, Clock, Person, convicted
from coniks import Head, contacts
from coniks._client_state import StateFile
from coniks.notes import Auditor, Note, cosign, text_of


def test_quorum(tmp_path: Path, capsys: pytest.CaptureFixture[str], directory: Directory, auditors: list[Auditing]) -> None:
    """Three of four auditors must have the chain, if one may lie."""
    it = Person(tmp_path, capsys)
    assert it.begin(directory, *[a.pair for a in auditors], faulty=1) == 0
    assert it.run("compare")[1][-1]["text"] == "4 of your 4 auditors confirm this chain up to epoch 2"
    auditors[0].note = b""
    assert it.run("compare")[0] == 0
    spoiled: list[Callable[[Auditing], None]] = [
        lambda a: a.sign(2, hour(2, -3 * 3600)),
        lambda a: a.sign(2, hour(5)),
        lambda a: setattr(a, "note", auditors[2].note),
    ]
    for spoil in spoiled:
        spoil(auditors[1])
        for words in [("compare",), ("lookup", "alice"), ("verify", "alice", "--key", "key of alice")]:
            status, lines = it.run(*words)
            assert status == 3 and (lines[-1]["agreeing"], lines[-1]["needed"]) == (2, 3), (words, lines)
    assert not it.stored()["found"]


def test_another_link(tmp_path: Path, capsys: pytest.CaptureFixture[str], directory: Directory, auditors: list[Auditing]) -> None:
    """An auditor with another link for an epoch is an alarm, also if it shows no entries, and if the others are a quorum."""
    it = Person(tmp_path, capsys)
    it.begin(directory, *[a.pair for a in auditors[:3]])
    auditors[2].sign(2, link=bytes(32))
    auditors[2].lies["/v1/entries"] = lambda _: Reply(b"", 503)
    status, lines = it.run("lookup", "alice")
    assert status == 1 and "three has cosigned another chain, at epoch 2" in lines[0]["text"]
    assert [(found["kind"], bytes.fromhex(found["evidence"][0])) for found in it.stored()["found"]] == [("head", auditors[2].note)]


def test_another_key_of_an_auditor(
    tmp_path: Path, capsys: pytest.CaptureFixture[str], directory: Directory, auditors: list[Auditing]
) -> None:
    """An auditor that signs with another key than the one that was named is reported as that."""
    it = Person(tmp_path, capsys)
    it.begin(directory, auditors[0].pair, (auditors[1].url, str(Auditor("two", bytes(KEYS["three"].verify_key)))))
    status, lines = it.run("compare")
    assert status == 3 and "two signs with another key" in lines[0]["text"]


def test_clocks_of_auditors(
    tmp_path: Path, capsys: pytest.CaptureFixture[str], directory: Directory, auditors: list[Auditing], clock: Clock
) -> None:
    """A cosignature of a time more than five minutes ahead does not count, and is reported."""
    it = Person(tmp_path, capsys)
    it.begin(directory, auditors[0].pair, auditors[1].pair)
    for ahead, is_reported in [(300, False), (301, True), (4_102_444_800, True)]:
        auditors[1].sign(2, clock() + ahead)
        status, lines = it.run("compare")
        assert status == (3 if is_reported else 0), lines
        assert ("two has cosigned for a time that is to come" in lines[0]["text"]) is is_reported


def test_unconfirmed_epochs(
    tmp_path: Path, capsys: pytest.CaptureFixture[str], directory: Directory, auditors: list[Auditing], clock: Clock
) -> None:
    """A contact's key is that of the latest epoch which a quorum confirms. If that is old, nothing new is relied on."""
    it = Person(tmp_path, capsys)
    it.begin(directory, auditors[0].pair, auditors[1].pair)
    directory.note = auditors[0].note
    directory.commit(3, alice=b"key of mallory")
    directory.commit(4)
    for seconds, status in [(hour(4), 0), (hour(5, 3599), 0), (hour(6, 1), 3)]:
        clock.seconds = seconds
        for a in auditors[:2]:
            a.sign(2, seconds)
        found, lines = it.run("lookup", "alice")
        assert found == status, lines
        if status:
            directory.lies["/v1/lookup"] = lambda _: Reply(b"", 503)
            assert "rely on nothing new" in lines[-1]["text"] and not any("key of alice" in line["text"] for line in lines)
        else:
            assert (lines[0]["key"], lines[0]["epoch"]) == ("key of alice", 2)
    seen = it.stored()["seen"]["alice"]
    assert bytes.fromhex(seen["value"]) == b"key of alice", "an unconfirmed key is not accepted"


def test_heads_of_their_own(
    tmp_path: Path, capsys: pytest.CaptureFixture[str], directory: Directory, auditors: list[Auditing], clock: Clock
) -> None:
    """An auditor confirms each epoch up to its own head, also if the heads differ. An epoch that was confirmed once stays so, and a key
    isn't taken from an earlier one."""
    it = Person(tmp_path, capsys)
    it.begin(directory, *[a.pair for a in auditors], faulty=1)
    directory.commit(3, alice=b"second key of alice")
    clock.latest = lambda: 3
    for a, epoch in zip(auditors, [3, 3, 3, 2]):
        a.commit(3, alice=b"second key of alice")
        a.sign(epoch, hour(3))
    assert [line["epoch"] for line in it.run("lookup", "alice")[1] if "key" in line] == [3]
    for a in auditors[:2]:
        a.sign(2, hour(3))
    status, lines = it.run("lookup", "alice")
    assert (status, lines[0]["epoch"], lines[0]["change"]) == (0, 3, "same") and lines[1]["agreed"] == 3
    assert lines[1]["text"] == "3 of your 4 auditors confirm this chain up to epoch 3"


def test_without_auditors(person: Person) -> None:
    """Nothing is status 0 for someone who has neither auditors nor chosen to do without them."""
    assert person.run("lookup", "alice")[0] == 0
    StateFile(person.state).write({**person.stored(), "alone": False})
    for words in [("lookup", "alice"), ("verify", "alice", "--key", "key of alice"), ("compare",)]:
        status, lines = person.run(*words)
        assert status == 3 and "no auditor is named" in lines[-1]["text"]
    assert person.run("set", "--without-auditors")[0] == 0 and person.run("lookup", "alice")[0] == 0


def test_set(tmp_path: Path, capsys: pytest.CaptureFixture[str], directory: Directory, auditors: list[Auditing]) -> None:
    """Service, token and auditors are changed, and secret keys stay."""
    it = Person(tmp_path, capsys)
    it.begin(directory, auditors[0].pair, auditors[1].pair)
    it.run("register", "dave", "key one")
    secret = it.stored()["own"]["dave"]["secret"]
    (tmp_path / "other").write_text("another token\n")
    words = ["--service", f"{directory.url}/", "--token", str(tmp_path / "other"), "--faulty", "1"]
    assert it.run("set", *words)[0] == 3, "one of two may not lie"
    assert it.run("set", *words, *[word for a in auditors[2:] for word in ("--add-auditor", *a.pair)])[0] == 0
    stored = it.stored()
    assert (stored["service"], stored["token"], stored["faulty"]) == (directory.url, "another token", 1)
    assert [url for url, _ in stored["auditors"]] == [a.url for a in auditors] and it.run("watch")[0] == 0
    for wrong in [["--remove-auditor", "http://127.0.0.1:1"], [*(["--remove-auditor", auditors[0].url])], ["--unwatch", "erin"]]:
        assert it.run("set", *wrong)[0] == 3 and it.stored() == {**it.stored(), "auditors": stored["auditors"]}
    removed = [word for a in auditors for word in ("--remove-auditor", a.url)]
    assert it.run("set", *removed, "--faulty", "0")[0] == 3
    assert it.run("set", *removed, "--faulty", "0", "--without-auditors")[0] == 0 and it.run("watch")[0] == 0
    assert it.run("set", "--unwatch", "dave")[0] == 0 and it.run("watch")[0] == 3
    assert it.run("register", "dave", "key one")[0] == 0 and it.stored()["own"]["dave"]["secret"] == secret
    assert len(directory.operations) == 1


def test_lagging_auditors(
    tmp_path: Path, capsys: pytest.CaptureFixture[str], directory: Directory, auditors: list[Auditing]
) -> None:
    """The quorum's epoch is the latest that a quorum of the auditors has. Entries up to it leave the state, and nothing is lost."""
    it = Person(tmp_path, capsys)
    for a in auditors[:2]:
        a.sign(1)
    it.begin(directory, *[a.pair for a in auditors], faulty=1)
    assert it.run("compare")[1][-1]["agreed"] == 1
    size = len(it.stored()["chain"])
    for a in auditors:
        a.sign(2)
    assert it.run("compare")[1][-1]["agreed"] == 2 and len(it.stored()["chain"]) == size - 2 * 218
    assert it.run("lookup", "alice")[0] == 0


def test_signed_again(tmp_path: Path, capsys: pytest.CaptureFixture[str], directory: Directory, auditors: list[Auditing]) -> None:
    """Auditors that have another signature of the latest entry have no other chain. Heads of both signatures don't count together."""
    it = Person(tmp_path, capsys)
    it.begin(directory, auditors[0].pair, auditors[1].pair)
    directory.world.sign_again(2)
    assert it.run("lookup", "alice")[0] == 0, "the service has the other one"
    auditors[1].world.sign_again(2)
    auditors[1].sign(2)
    status, lines = it.run("lookup", "alice")
    assert status == 3 and "1 of your 2 auditors" in lines[-1]["text"] and not it.stored()["found"], lines
    auditors[0].world = auditors[1].world
    auditors[0].sign(2)
    assert it.run("lookup", "alice")[0] == 0


@pytest.mark.parametrize("fork", range(len(FORKS)))
def test_auditor_of_another_chain(
    fork: int, tmp_path: Path, capsys: pytest.CaptureFixture[str], directory: Directory, auditors: list[Auditing]
) -> None:
    """An auditor that was shown another chain has the entries that convict the directory."""
    it = Person(tmp_path, capsys)
    it.begin(directory, auditors[0].pair, auditors[1].pair)
    auditors[1].world = FORKS[fork]
    auditors[1].sign(max(FORKS[fork].epochs))
    status, lines = it.run("lookup", "alice")
    assert status == 1 and convicted(it) == ["overlap"]
    assert ["key of alice"] == [line["key"] for line in lines if "key" in line] and "too few of your auditors" in lines[1]["text"]
    assert not it.stored()["seen"], "it isn't relied on"


def test_hidden_epochs(tmp_path: Path, capsys: pytest.CaptureFixture[str], directory: Directory, auditors: list[Auditing]) -> None:
    """Auditors that have epochs which the service does not show don't confirm its chain."""
    it = Person(tmp_path, capsys)
    it.begin(directory, auditors[0].pair, auditors[1].pair)
    for a in auditors[:2]:
        a.commit(3, alice=b"key of mallory")
        a.sign(3)
    assert it.run("lookup", "alice")[0] == 3 and not it.stored()["found"]


def test_carried(tmp_path: Path, capsys: pytest.CaptureFixture[str], directory: Directory, auditors: list[Auditing]) -> None:
    """The note of the service spares the auditors, if a quorum cosigned it lately and it is of this chain."""
    it = Person(tmp_path, capsys)
    it.begin(directory, *[a.pair for a in auditors], faulty=1)

    def carried(*names: str, seconds: int = NOW, link: bytes = WORLD.link(2)) -> None:
        text = text_of(POLICY, Head(2, link))
        directory.note = bytes(Note(text, tuple(cosign(name, KEYS[name], text, seconds) for name in names)))

    def requested() -> bool:
        count = sum(len(a.requested) for a in auditors)
        assert it.run("lookup", "alice")[0] == 0
        return sum(len(a.requested) for a in auditors) > count

    carried("one", "two", "three")
    assert not requested()
    for names, more in [(("one", "two"), {}), (("one", "one", "two"), {}), (("one", "two", "three"), {"seconds": NOW - 4 * 3600})]:
        carried(*names, **more)  # type: ignore[arg-type]
        assert requested(), names
    carried("one", "two", "three", seconds=NOW + 3600)
    assert requested(), "a time that is yet to come"
    carried("one", "two", "three", link=bytes(32))
    assert requested()
    carried("one", "two", "three")
    for epoch in (3, 4):
        directory.commit(epoch)
        for a in auditors:
            a.commit(epoch)
            a.sign(epoch)
        assert requested() is (epoch == 4), "a note of two epochs ago, which a service that forks may carry"
    for note in [b"", b"!", b"x" * 3000, b"\xff", bytes(1 << 17)]:
        directory.note = note
        assert requested(), "the auditors are asked, and nothing ends by it"


def test_begun_without_two_auditors(tmp_path: Path, capsys: pytest.CaptureFixture[str]) -> None:
    auditors: list[list[str]] = [[], ["--auditor", "http://x", str(AUDITORS["one"])]]
    for words in auditors:
        with pytest.raises(SystemExit) as ended:
            contacts.main(["begin", "--service", "http://x", "--policy", "x", *words])
        assert ended.value.code == 2 and "at least two" in capsys.readouterr().err
