"""`coniks-client` and resets: notices over a user's name, a name that is reset to a new device, closed names, two devices of one secret
key, and fingerprints. The directory commits what it is given; what a service takes is tested in test_vouching.py."""

from __future__ import annotations

import base64
from pathlib import Path
from typing import Any, Iterator

import client_world
import pytest
from directories import Directory
from nacl.signing import SigningKey
from people import POLICY, Clock, Person
from coniks import _person, contacts
from coniks.vouching import Place, Value, announced, first, following, is_allowed, reset

DAVE = Place.of(POLICY, "dave")
FINDER = SigningKey(b"finder".ljust(32))
WEEK = 168


@pytest.fixture
def friend(person: Person, directory: Directory, capsys: pytest.CaptureFixture[str], tmp_path_factory: Any) -> Person:
    it = Person(tmp_path_factory.mktemp("friend"), capsys)
    assert it.begin(directory) == 0
    return it


def shown(directory: Directory, epoch: int) -> bytes:
    return directory.world.epochs[epoch].names[client_world.index("dave")][2]


def secret_of(person: Person) -> SigningKey:
    return SigningKey(bytes.fromhex(person.stored()["own"]["dave"]["secret"]))


def sent(directory: Directory) -> set[str]:
    """The keys that came with operations."""
    return {it["key"] for it in directory.operations}


def texts(lines: list[dict[str, Any]]) -> str:
    return "\n".join(it["text"] for it in lines)


def value_of(directory: Directory, epoch: int) -> Value:
    found = Value.read(shown(directory, epoch))
    assert found
    return found


def test_notices_of_registers(person: Person, directory: Directory) -> None:
    """A record allows a reset after 7 days, after as many epochs as are said, or never. Only the owner changes that, by a record."""
    assert person.run("register", "dave", "k")[0] == 0
    assert value_of(directory, 3).record.notice == WEEK
    for words, notice, count in [
        ((), WEEK, 1),
        (("--reset", "5"), 5, 2),
        ((), 5, 2),
        (("--reset", "never"), 0, 3),
        (("--reset", "never"), 0, 3),
    ]:
        assert person.run("register", "dave", "k", *words)[0] == 0 and len(directory.operations) == count
        found = value_of(directory, directory.latest).record
        assert (found.notice, found.number) == (notice, count)
    assert person.run("register", "dave", "l")[0] == 0 and value_of(directory, directory.latest).record.notice == 0
    assert person.run("watch")[0] == 0


@pytest.mark.parametrize("words", [["--reset", "0"], ["--reset", "x"], ["--reset", "-1"], ["--reset", str(1 << 32)]])
def test_bad_notices(words: list[str], person: Person, directory: Directory) -> None:
    with pytest.raises(SystemExit) as ended:
        person.run("register", "dave", "k", *words)
    assert ended.value.code == 2 and not directory.operations


def test_kept(person: Person, friend: Person, directory: Directory) -> None:
    """The owner is told of a notice at each run, and takes it back by a next record with the same key. Nothing of it is evidence, and
    nothing is called another's key."""
    assert person.run("register", "dave", "k")[0] == 0 and friend.run("lookup", "dave")[0] == 0
    notice = announced(shown(directory, 3), bytes(FINDER.verify_key), 4 + WEEK)
    directory.commit(4, dave=notice)
    directory.commit(5)
    for _ in range(2):
        status, lines = person.run("watch")
        assert status == 1 and f"from epoch {4 + WEEK}, " in texts(lines) and "not yours" not in texts(lines)
        assert any(it.get("effect") == 4 + WEEK and it["status"] == 1 for it in lines)
    status, lines = person.run("lookup", "dave")
    assert (
        status == 1 and lines[0]["status"] == 0 and "is announced" in lines[1]["text"]
    ), "the key is the owner's, and the notice an alarm"
    status, lines = friend.run("lookup", "dave")
    assert status == 0 and lines[0]["change"] == "same" and "is announced" in lines[1]["text"]
    assert person.run("keep", "dave")[0] == 0 and is_allowed(DAVE, notice, shown(directory, 6), 6)
    assert value_of(directory, 6).record.number == 2 and value_of(directory, 6).record.key == b"k"
    directory.commit(7)
    for it, words in [(person, ["watch"]), (person, ["lookup", "dave"]), (friend, ["lookup", "dave"]), (person, ["keep", "dave"])]:
        status, lines = it.run(*words)
        assert status == 0 and "announced: from" not in texts(lines)
    assert person.stored()["found"] == friend.stored()["found"] == []
    assert len(directory.operations) == 2, "nothing is signed to take back what is taken back"


def test_notices_that_went(person: Person, directory: Directory) -> None:
    """Notices that came and went between two runs are no change, and the runs after that verify each epoch."""
    assert person.run("register", "dave", "k")[0] == 0
    record = shown(directory, 3)
    for epoch, effect in [(4, 200), (6, 201), (8, 202)]:
        directory.commit(epoch, dave=announced(record, bytes(FINDER.verify_key), effect))
        directory.commit(epoch + 1, dave=record)
    for _ in range(2):
        status, lines = person.run("watch")
        assert status == 0 and "not yours" not in texts(lines) and person.stored()["found"] == [], texts(lines)
    directory.commit(10, dave=announced(record, bytes(FINDER.verify_key), 203))
    assert person.run("watch")[0] == 1
    directory.commit(11, dave=record)
    assert person.run("watch")[0] == 0
    directory.commit(12, dave=b"key of mallory")
    directory.commit(13, dave=record)
    status, lines = person.run("watch")
    assert status == 1 and any(it.get("epochs") == [12] and "not yours" in it["text"] for it in lines)


def test_notices_that_went_around_another_key(person: Person, directory: Directory) -> None:
    """A notice doesn't hide another key."""
    assert person.run("register", "dave", "k")[0] == 0
    record = shown(directory, 3)
    directory.commit(4, dave=announced(record, bytes(FINDER.verify_key), 200))
    directory.commit(5, dave=b"key of mallory")
    directory.commit(6, dave=announced(record, bytes(FINDER.verify_key), 201))
    directory.commit(7, dave=record)
    for _ in range(2):
        status, lines = person.run("watch")
        assert status == 1 and "tell all who use it" in texts(lines)


def test_notice_over_what_waits(person: Person, directory: Directory) -> None:
    """A notice over a record that was under way, and one over the present one while the next is under way, which takes it back."""
    assert person.run("register", "dave", "k")[0] == 0
    directory.commits = False
    assert person.run("register", "dave", "l")[0] == 3
    two = base64.b64decode(directory.operations[-1]["key"])
    directory.commit(4, dave=announced(shown(directory, 3), bytes(FINDER.verify_key), 200))
    assert person.run("watch")[0] == 1
    directory.commits = True
    assert person.run("keep", "dave")[0] == 0
    assert shown(directory, 5) == two and person.run("watch")[0] == 0
    directory.commits = False
    assert person.run("register", "dave", "m")[0] == 3
    three = base64.b64decode(directory.operations[-1]["key"])
    directory.commit(6, dave=three)
    directory.commit(7, dave=announced(three, bytes(FINDER.verify_key), 300))
    status, lines = person.run("watch")
    assert status == 1 and "from epoch 300, " in texts(lines) and "not yours" not in texts(lines)
    assert person.stored()["own"]["dave"]["value"] == three.hex() and person.stored()["found"] == []


def test_notices_hide_no_older_record(person: Person, directory: Directory) -> None:
    """A record that the owner has replaced is another's key when it comes back, alone or after a notice, seen in one run or in two."""
    assert person.run("register", "dave", "k")[0] == 0 and person.run("register", "dave", "l")[0] == 0
    one, two = shown(directory, 3), shown(directory, 4)
    state = person.state.read_bytes()
    for between in (True, False):
        for back in (one, announced(one, bytes(FINDER.verify_key), 300)):
            person.state.write_bytes(state)
            del directory.batches[4:]
            directory.commit(5, dave=announced(two, bytes(FINDER.verify_key), 300))
            if between:
                assert person.run("watch")[0] == 1
            directory.commit(6, dave=back)
            directory.commit(7, dave=two)
            for words in (["watch"], ["watch"]):
                status, lines = person.run(*words)
                assert status == 1 and "tell all who use it" in texts(lines), (between, back)


def test_notices_hide_no_older_record_before_the_next(person: Person, directory: Directory) -> None:
    """A notice over the record before is another's key once an epoch has shown the record that was under way, though one run sees both."""
    assert person.run("register", "dave", "k")[0] == 0
    directory.commits = False
    assert person.run("register", "dave", "l")[0] == 3
    one, two = shown(directory, 3), base64.b64decode(directory.operations[-1]["key"])
    notice = announced(one, bytes(FINDER.verify_key), 300)
    for epoch, value in [(4, notice), (5, two), (6, notice), (7, two)]:
        directory.commit(epoch, dave=value)
    status, lines = person.run("watch")
    assert status == 1 and [it["epochs"] for it in lines if "not yours" in it["text"]] == [[6]]


@pytest.fixture
def device(friend: Person) -> Iterator[Person]:
    """A new device of the owner's."""
    yield friend


def test_reset(person: Person, device: Person, directory: Directory, clock: Clock, tmp_path: Path, capsys: Any) -> None:
    """A new device draws a secret key, is announced, and signs the record of the reset once that is in time. It watches from then on, and
    the owner's friends are told."""
    other = Person(tmp_path, capsys)
    other.state = tmp_path / "other"
    assert other.begin(directory) == 0 and person.run("register", "dave", "k", "--reset", "24")[0] == 0
    assert other.run("lookup", "dave")[0] == 0
    record, voucher = shown(directory, 3), ""
    for _ in range(2):
        status, lines = device.run("reset", "dave", "new key")
        asked = [it["voucher"] for it in lines if "voucher" in it]
        assert status == 3 and asked == [bytes(secret_of(device).verify_key).hex()] and voucher in ("", asked[0])
        voucher = asked[0]
    notice = announced(record, bytes.fromhex(voucher), 28)
    directory.commit(4, dave=notice)
    assert device.run("reset", "dave", "new key")[0] == 3 and device.run("watch")[0] == 3 and len(directory.operations) == 1
    assert other.run("lookup", "dave")[0] == 0
    directory.commit(27)
    assert device.run("register", "dave", "new key", "--reset", "48")[0] == 0
    ended = shown(directory, 28)
    assert is_allowed(DAVE, notice, ended, 28) and value_of(directory, 28).record.notice == 48
    status, lines = other.run("lookup", "dave")
    assert status == 1 and lines[0]["change"] == "reset" and "after 1 day of notice" in lines[0]["text"]
    assert other.run("lookup", "dave")[0] == 1, "it isn't accepted"
    told = next(it for it in device.run("fingerprint", "dave")[1] if "fingerprint" in it)["fingerprint"]
    assert other.run("verify", "dave", *told.split())[0] == 0 and other.run("lookup", "dave")[0] == 0
    directory.commit(29)
    assert device.run("watch")[0] == 0 and device.run("register", "dave", "next key")[0] == 0
    assert other.run("lookup", "dave")[1][0]["change"] == "vouched"
    status, lines = person.run("watch")
    assert status == 1 and "not yours" in texts(lines), "the old device is told"
    assert all(it.stored()["found"] == [] for it in (device, other))


def test_reset_that_was_taken_back(person: Person, device: Person, directory: Directory) -> None:
    """A reset that the owner takes back before the new device has signed can be announced again, and one after that under a new voucher:
    no secret key signs two records of one number."""
    assert person.run("register", "dave", "k", "--reset", "1")[0] == 0
    device.run("reset", "dave", "new key")
    mine = bytes(secret_of(device).verify_key)
    directory.commit(4, dave=announced(shown(directory, 3), mine, 6))
    directory.commit(5, dave=shown(directory, 3))
    assert device.run("reset", "dave", "new key")[0] == 3 and bytes(secret_of(device).verify_key) == mine
    directory.commit(6, dave=announced(shown(directory, 3), mine, 7))
    directory.commits = False
    assert device.run("reset", "dave", "new key")[0] == 3 and len(sent(directory)) == 2
    directory.commit(7, dave=shown(directory, 3))
    status, lines = device.run("watch")
    assert status == 3 and any("voucher" in it for it in lines)
    status, lines = device.run("reset", "dave", "new key")
    assert status == 3 and bytes(secret_of(device).verify_key) != mine and len(sent(directory)) == 2
    [(name, dropped)] = device.stored()["dropped"]
    assert name == "dave" and bytes(SigningKey(bytes.fromhex(dropped["secret"])).verify_key) == mine, "no secret key is deleted"


def test_reset_after_a_notice_that_was_taken_back(person: Person, device: Person, directory: Directory) -> None:
    """Epochs before the new device has signed are none of its own: no alarm comes from them. The same command once more changes nothing."""
    assert person.run("register", "dave", "k", "--reset", "1")[0] == 0
    device.run("reset", "dave", "new key")
    mine = bytes(secret_of(device).verify_key)
    directory.commit(4, dave=announced(shown(directory, 3), mine, 50))
    directory.commit(5, dave=shown(directory, 3))
    directory.commit(6, dave=announced(shown(directory, 3), mine, 8))
    for _ in range(2):
        status, lines = device.run("reset", "dave", "new key")
        assert status == (3 if directory.latest == 6 else 0), texts(lines)
        directory.commit(directory.latest + 1)
    assert 'has your key "new key" (epochs 8' in texts(lines) or 'has your key "new key" (epoch 8' in texts(lines)
    for words in (["reset", "dave", "new key"], ["watch"]):
        status, lines = device.run(*words)
        assert status == 0 and 'has your key "new key"' in texts(lines) and device.stored()["found"] == []
    assert device.run("reset", "dave", "another key")[0] == 3 and len(sent(directory)) == 2


def test_reset_that_is_interrupted(person: Person, device: Person, directory: Directory) -> None:
    """The record of a reset that was sent and not stored is sent again with the same bytes, and epochs of the notice are no other key."""
    assert person.run("register", "dave", "k", "--reset", "1")[0] == 0
    device.run("reset", "dave", "new key")
    directory.commit(4, dave=announced(shown(directory, 3), bytes(secret_of(device).verify_key), 5))
    directory.commits = False
    assert device.run("reset", "dave", "new key")[0] == 3 and device.run("watch")[0] == 3
    directory.commit(5)
    directory.commit(6)
    directory.commits = True
    assert device.run("register", "dave", "new key")[0] == 0
    assert len(sent(directory)) == 2 and shown(directory, 7) == base64.b64decode(directory.operations[-1]["key"])
    directory.commit(8)
    assert device.run("watch")[0] == 0 and device.stored()["found"] == []


def test_closed(person: Person, friend: Person, directory: Directory) -> None:
    """A closed name has no key for its friends and for its owner, and never has one again."""
    assert person.run("register", "dave", "k")[0] == 0 and friend.run("lookup", "dave")[0] == 0
    assert person.run("close", "dave")[0] == 0 and value_of(directory, 4).record.key == b""
    assert person.run("close", "dave")[0] == 0 and len(directory.operations) == 2, "once"
    directory.commit(5)
    for _ in range(2):
        status, lines = friend.run("lookup", "dave")
        assert status == 4 and lines[0]["key"] is None and "was closed by its owner" in lines[0]["text"]
    status, lines = person.run("watch")
    assert status == 0 and "is closed, by you (epoch 5)" in texts(lines)
    assert person.run("lookup", "dave")[0] == 4 and person.run("register", "dave", "k")[0] == 3
    directory.commit(6, dave=following(DAVE, secret_of(person), shown(directory, 3), b"x"))
    assert friend.run("lookup", "dave")[0] == 1 and person.run("watch")[0] == 1


def test_twins(person: Person, directory: Directory) -> None:
    """Another device with the secret key is noticed, told apart from another's key, and taken over. This state signs no number that it has
    seen used."""
    assert person.run("register", "dave", "k")[0] == 0
    copy, record = person.state.read_bytes(), shown(directory, 3)
    twins = following(DAVE, secret_of(person), record, b"l")
    directory.commit(4, dave=twins)
    status, lines = person.run("lookup", "dave")
    assert status == 1 and "by another device" in lines[0]["text"] and person.stored()["found"] == []
    for _ in range(2):
        status, lines = person.run("watch")
        assert (
            status == 1
            and "by another device" in texts(lines)
            and "not yours" not in texts(lines)
            and person.stored()["found"] == []
        )
    directory.commit(5, dave=record)
    person.run("register", "dave", "m")
    assert len(directory.operations) == 1, "number 2 was used, though the directory shows number 1 again"
    directory.commit(6, dave=twins)
    assert person.run("adopt", "dave")[0] == 0
    assert person.run("register", "dave", "m")[0] == 0 and value_of(directory, 7).record.number == 3
    person.state.write_bytes(copy)
    person.run("watch")
    assert person.run("adopt", "dave")[0] == 0 and person.run("register", "dave", "n")[0] == 0
    assert value_of(directory, 8).record.number == 4


def test_a_twin_of_nobody(person: Person, directory: Directory) -> None:
    """Bytes that only look like a record of the secret key are another's key, which is evidence, and nothing is adopted."""
    assert person.run("register", "dave", "k")[0] == 0
    twins = following(DAVE, secret_of(person), shown(directory, 3), b"l")
    directory.commit(4, dave=twins[:-1] + b"x")
    assert person.run("adopt", "dave")[0] == 3
    status, lines = person.run("watch")
    assert status == 1 and "not yours" in texts(lines) and person.stored()["found"]


FINGERPRINTS = [("{}", 0), ("{} ", 0), ("x", 2), ("", 2), ("1" * 40, 1), ("1" * 39, 2)]


@pytest.mark.parametrize("form, wanted", FINGERPRINTS)
def test_fingerprints(form: str, wanted: int, person: Person, directory: Directory) -> None:
    """A fingerprint is taken with spaces or without, as one word or several."""
    told = next(it["fingerprint"] for it in person.run("fingerprint", "alice")[1] if "fingerprint" in it)
    assert len(told) == 47
    for text in [told, told.replace(" ", ""), told.replace(" ", "\u00a0")]:
        words = [form.replace("{}", text)]
        if wanted == 2:
            with pytest.raises(SystemExit):
                person.run("verify", "alice", *words)
        else:
            assert person.run("verify", "alice", *words)[0] == wanted


def test_fingerprint_and_key(person: Person, directory: Directory) -> None:
    for words in [["1" * 40, "--key", "k"], ["--key", ""]]:
        with pytest.raises(SystemExit):
            contacts.main(["verify", "--state", str(person.state), "alice", *words])
    assert person.run("verify", "alice", "--key", "key of alice")[0] == 0


def test_fingerprint_has_the_voucher(person: Person, directory: Directory) -> None:
    """A record of another owner with the same key has another fingerprint."""
    one, other = (first(DAVE, SigningKey(it.ljust(32)), b"k") for it in (b"one", b"other"))
    directory.commit(3, dave=one)
    told = person.run("fingerprint", "dave")[1][0]["fingerprint"]
    directory.renew()
    directory.batches[-1] = (3, {"dave": other})
    directory.renew()
    assert person.run("verify", "dave", told)[0] == 1


def test_own_record_by_the_first_owner_again(person: Person, friend: Person, directory: Directory) -> None:
    """A reset of which a friend saw neither notice nor effect is told without a length of the notice."""
    start = first(DAVE, FINDER, b"k", 24)
    directory.commit(3, dave=start)
    assert friend.run("lookup", "dave")[0] == 0
    second = following(DAVE, FINDER, start, b"l", 1)
    other = SigningKey(b"other".ljust(32))
    notice = announced(second, bytes(other.verify_key), 6)
    for epoch, value in [(4, second), (5, notice), (6, reset(DAVE, other, notice, b"m"))]:
        directory.commit(epoch, dave=value)
    status, lines = friend.run("lookup", "dave")
    assert status == 1 and '"dave" was reset, and has the key "m"' in lines[0]["text"] and friend.stored()["found"] == []


def test_spans(directory: Directory) -> None:
    """The epochs of two replies count only under one policy."""
    directory.commit(5)
    one, two = directory.world.reply("alice", 1), directory.world.reply("alice", 5)
    other = client_world.World([(1, {}), (2, {})]).reply("alice", 2)
    assert _person.span_of(one, two) == (1, 2, 5) and _person.span_of(one, other) is None
