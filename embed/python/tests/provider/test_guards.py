"""What `coniks.guard` must refuse, what may be abandoned, and which records and places it takes."""

from __future__ import annotations

import fcntl
import hashlib
import os
import re
import shutil
import stat
import subprocess
import sys
import tempfile
from contextlib import suppress
from pathlib import Path
from typing import Any, Callable, Iterator, Optional

import pytest

from bodies import NONCE, Bench, after, bench_in, body, is_chain
from stand_ins import HAS_NACL, Salted, Signer, lines, small_disk
from raising import raises
from worked_examples import worked_example
from coniks import guard as guard_module
from coniks._files import sync_folder
from coniks.guard import BodyAbandoned, BodyRefused, BodySigned, Guard, GuardError, RecordFailed

if HAS_NACL:
    from nacl.signing import VerifyKey

Call = Callable[[], object]
# Lets the guard of a record abandon a body, in another process.
ABANDON = """
import sys
from coniks.guard import Guard
Guard(sys.argv[1], lambda _: b"").abandon(bytes.fromhex(sys.argv[2]))
"""


def refused(what: str, error: type[GuardError], bench: Bench, call: Call, *words: str) -> None:
    """Checks that a call raises an error with these words, uses no key, and leaves the record as it is."""
    before = bench.used(), bench.text()
    raised = raises(what, error, call)
    text = str(raised)
    assert all(it in text for it in words) and not re.search("[0-9a-f]{64}", text), f"{what}: its text: {text}"
    assert (bench.used(), bench.text()) == before, f"{what}: no key is used, and the record stays"


def test_chain(room: str) -> None:
    """Bodies that follow each other, and those that don't."""
    bench = Bench(room)
    refused("guard: a first body", BodyRefused, bench, lambda: bench.guard(after(b"")), "new_directory=True")
    bench.guard = bench.open(new_directory=True)
    for wrong in (body(1, 0, b"\1" * 32), body(0, 0, bytes(32)), after(b"", version=0), after(b"", version=3)):
        refused("guard: a first body that no chain has", BodyRefused, bench, lambda: bench.guard(wrong), "no chain")
    refused("guard: a later body without a record", BodyRefused, bench, lambda: bench.guard(body(2, 1, NONCE)), "known=")
    assert bench.guard.signed() is None and bench.guard.asked() is None and not bench.path.exists(), "guard: nothing is recorded"
    for epoch in (1, 2, 3, 9):
        entry = bench.sign(after(bench.last, epoch))
        assert bench.signer.verify(entry[:145], entry[145:]) and bench.guard.signed() == entry, f"guard: epoch {epoch} is signed"
    assert bench.used() == [it[:145] for it in bench.entries] and is_chain(bench.entries), "guard: the key is used once for each"
    for own in (bench.guard, bench.open()):
        assert own(bench.last[:145]) == bench.last[145:], "guard: the same body has the stored signature"
    assert len(bench.used()) == 4, "guard: and no key is used for it"
    version_2 = bench.sign(after(bench.last, version=2, nonce=bytes(32)))
    assert bench.guard.signed() == version_2, "guard: a rotated nonce"
    assert rights() == {"record": 0o644, "record.lock": 0o600}, f"guard: the rights of the files: {rights()}"
    check_others(bench)
    refused("guard: new_directory stays", BodyRefused, bench, lambda: bench.open(new_directory=True), "without new_directory")
    bench.path.unlink()
    refused("guard: a lost record", BodyRefused, bench, lambda: bench.guard(after(b"")), "new_directory=True")


def rights() -> dict[str, int]:
    """The files of a record that is made and replaced without a umask, and their rights."""
    was = os.umask(0)
    try:
        with tempfile.TemporaryDirectory() as room:
            Bench(room, 2)
            return {it.name: stat.S_IMODE(it.stat().st_mode) for it in Path(room).iterdir() if it.name != "asked"}
    finally:
        os.umask(was)


def check_others(bench: Bench) -> None:
    """Bodies of another chain, after epoch 10 with version 2."""
    old, last = bench.entries[0], bench.last
    zeros: dict[str, Any] = {"version": 2, "nonce": bytes(32)}
    for what, wrong, words in [
        ("the log of an old backup", after(old, 4), ["follows epoch 1", "signed epoch 10", "old backup"]),
        ("the log of an old backup, later", after(old, 11, **zeros), ["follows epoch 1", "put back the log that has epoch 10"]),
        ("a number that goes back", after(bench.entries[1], 3, b"other"), ["follows epoch 2"]),
        ("the same number with another root", after(bench.entries[3], 10, b"other", **zeros), ["follows epoch 9"]),
        ("the same body with another nonce", after(bench.entries[3], 10, version=2), ["follows epoch 9"]),
        ("an earlier body", bench.entries[0][:145], ["begins a directory"]),
        ("a second directory", after(b"", 11, **zeros), ["begins a directory", "a new key"]),
        ("another policy", after(last, **zeros, policy=bytes(32)), ["another policy"]),
        ("another link", body(11, 10, bytes([5]) * 32, **zeros), ["another entry of epoch 10"]),
        ("the record of an old backup", body(12, 11, bytes([5]) * 32, **zeros), ["follows epoch 11", "the record is from"]),
        ("a number that isn't later", after(last, 10, **zeros), ["no chain"]),
        ("a version that goes back", after(last, nonce=bytes(32)), ["version"]),
        ("a version of no chain", after(last, version=3), ["no chain"]),
    ]:
        refused(f"guard: {what}", BodyRefused, bench, lambda: bench.guard(wrong), str(bench.path), *words)


def test_nonce(room: str) -> None:
    bench = Bench(room, 1)
    other = after(bench.last, nonce=bytes(32))
    refused("guard: another nonce in version 1", BodyRefused, bench, lambda: bench.guard(other), "nonce")
    # A copy of the record, which is put back later.
    stored = bench.text()
    bench.sign(after(bench.last))
    bench.sign(after(bench.last))
    bench.path.write_text(stored)
    refused("guard: a record of an old backup", BodyRefused, bench, lambda: bench.guard(after(bench.last)), "the record is")


def test_open(room: str) -> None:
    """A body is open while the signer fails: no other one is accepted before it is signed or abandoned."""
    bench = Bench(room, 2)
    mine, other = after(bench.last, 3, b"mine"), after(bench.last, 4, b"other")
    for turn in range(2):
        bench.signer.fails = 1
        raises(f"open: what the signer raises, {turn}", TimeoutError, lambda: bench.guard(mine))
        assert bench.guard.asked() == mine and bench.guard.signed() == bench.last, f"open: the body is recorded, {turn}"
    for own in (bench.guard, bench.open()):
        refused("open: a second service", BodyRefused, bench, lambda: own(other), "another body is open, of epoch 3", "abandon")
        old = after(bench.entries[0], 4)
        refused("open: a body that can't follow", BodyRefused, bench, lambda: own(old), "old backup")
    bench.sign(mine)
    assert bench.guard.asked() is None and is_chain(bench.entries) and len(bench.used()) == 5, "open: the same body is signed"
    bench.sign(after(bench.last, 4, b"other"))


def test_abandon(room: str) -> None:
    bench = Bench(room, 2)
    first, second, third = (after(bench.last, epoch) for epoch in (3, 4, 5))
    bench.guard.abandon(first)
    bench.signer.fails = 1
    raises("abandon: another body is asked for", TimeoutError, lambda: bench.guard(second))
    bench.open().abandon(third)
    assert bench.guard.asked() == second, "abandon: another one stays open"
    bench.guard.abandon(second)
    assert bench.guard.asked() is None, "abandon: an open one"
    text, changed = bench.text(), os.stat(bench.path).st_ino
    bench.guard.abandon(first)
    assert bench.text() == text and os.stat(bench.path).st_ino != changed, "abandon: again, durably"
    for it in (first, second, third):
        refused("abandon: the body", BodyAbandoned, bench, lambda: bench.guard(it), "was abandoned", "later epoch")
    assert text.count("abandoned") == 3 and "asked" not in text, "abandon: each has its line"
    bench.sign(after(bench.last, 6))
    for it in (first, second, third):
        refused("abandon: after the next signature", BodyAbandoned, bench, lambda: bench.guard(it), "was abandoned", "later epoch")
        bench.guard.abandon(it)
    bench.sign(after(bench.last, 7))
    assert "abandoned" not in bench.text(), "abandon: the lines go with the signature after that"
    refused("abandon: it is refused then too", BodyRefused, bench, lambda: bench.guard(first), "follows epoch 2")
    signed = bench.last[:145]
    refused("abandon: a body that is signed", BodySigned, bench, lambda: bench.guard.abandon(signed), "epoch 7 is signed")
    refused("abandon: one that may be", BodySigned, bench, lambda: bench.guard.abandon(first), "may be signed")
    late = body(9, 8, NONCE)
    refused("abandon: one after a lost entry", BodyRefused, bench, lambda: bench.guard.abandon(late), "put back", "epoch 7")
    elsewhere = bench_in(room, "elsewhere", 0)
    elsewhere.guard.abandon(after(b""))
    elsewhere.guard = elsewhere.open(new_directory=True)
    refused("abandon: a first body", BodyAbandoned, elsewhere, lambda: elsewhere.guard(after(b"")))
    assert elsewhere.sign(after(b"", 2)), "abandon: another first body"


@pytest.mark.parametrize("other", [False, True])
def test_race(room: str, other: bool) -> None:
    """A body is abandoned, by this process and by another one, while it is signed: its signature is given to nobody."""
    bench = bench_in(room, f"race {other}")
    mine, words = after(bench.last), [sys.executable, "-c", ABANDON, str(bench.path)]
    abandon: Call = lambda: subprocess.run([*words, mine.hex()], check=True) if other else bench.open().abandon(mine)
    bench.signer.before = abandon
    raises(f"race: abandoned while it is signed, {other}", BodyAbandoned, lambda: bench.guard(mine))
    bench.signer.before = None
    assert bench.used()[-1] == mine and bench.guard.signed() == bench.last, f"race: it was signed, {other}"
    next_one = after(bench.last, 3)
    bench.signer.before = lambda: bench.open()(next_one) if len(bench.used()) == 3 else None
    bench.sign(next_one)
    assert len(bench.used()) == 4 and bench.last == bench.guard.signed(), f"race: two ask for one body, {other}"
    late, later = after(bench.last, 4), after(bench.last, 5)

    def goes_on() -> None:
        bench.signer.before = None
        bench.open().abandon(late)
        bench.sign(later)

    bench.signer.before = goes_on
    raises(f"race: another one is signed meanwhile, {other}", BodyAbandoned, lambda: bench.guard(late))
    assert is_chain(bench.entries) and bench.guard.signed() == bench.last, f"race: one chain, {other}"


def test_known(room: str) -> None:
    """A directory that ran without a guard, from a missing record and from one without bodies."""
    elsewhere = Bench(room, 3)
    entry, before = elsewhere.last, elsewhere.entries[1]
    for text in (None, "coniks-guard 1\n"):
        with tempfile.TemporaryDirectory() as own:
            bench = Bench(own)
            if text:
                bench.path.write_text(text)
            wrong = body(1, 1, NONCE) + bytes(64)
            refused("known: an entry of no chain", BodyRefused, bench, lambda: bench.open(known=wrong), "no chain")
            no: Callable[[bytes, bytes], bool] = lambda *_: False
            refused("known: a wrong signature", GuardError, bench, lambda: bench.open(known=entry, verify=no), "isn't valid")
            raises("known: too short", ValueError, lambda: bench.open(known=entry[1:]))
            raises("known: with new_directory", ValueError, lambda: bench.open(known=entry, new_directory=True))
            for turn in range(2):
                bench.guard = bench.open(known=entry, verify=bench.signer.verify)
                assert bench.guard.signed() == entry, f"known: it is recorded as signed, {turn}"
            assert bench.guard(entry[:145]) == entry[145:] and not bench.used(), "known: its body has the signature"
            refused("known: another entry", BodyRefused, bench, lambda: bench.open(known=before), "without known")
            bench.entries = [*elsewhere.entries]
            bench.sign(after(entry))
            assert is_chain(bench.entries), "known: the next body"
            refused("known: it stays in the script", BodyRefused, bench, lambda: bench.open(known=entry), "without known")
    with tempfile.TemporaryDirectory() as own:
        bench = Bench(own)
        bench.guard.abandon(after(b""))
        refused("known: a record with an abandoned body", BodyRefused, bench, lambda: bench.open(known=entry), "known")


def test_signatures(room: str) -> None:
    """What isn't a signature is not stored."""
    bench = Bench(room, 1)
    mine = after(bench.last)
    for wrong, error in [(b"", ValueError), (bytes(63), ValueError), (bytes(65), ValueError), ("x" * 64, TypeError)]:
        broken: Callable[[bytes], Any] = lambda _: wrong
        raises(f"signature: {len(wrong)} of {type(wrong).__name__}", error, lambda: Guard(bench.path, broken)(mine))
    unlike = Guard(bench.path, lambda _: bytes(64), verify=bench.signer.verify)
    raises("signature: one that isn't valid", GuardError, lambda: unlike(mine))
    assert bench.guard.asked() == mine and bench.guard.signed() == bench.last, "signature: the body stays open"
    bench.guard = bench.open(verify=bench.signer.verify)
    assert bench.sign(mine) == bench.guard.signed(), "signature: a valid one"
    calls: list[Callable[[Any], object]] = [bench.guard, bench.guard.abandon]
    for call in calls:
        for argument, error in [(mine[1:], ValueError), (mine + b"\0", ValueError), (b"", ValueError), (mine.hex(), TypeError)]:
            raises(f"signature: of {type(argument).__name__} {len(argument)}", error, lambda: call(argument))
    assert bench.guard(memoryview(mine)) == bench.guard(bytearray(mine)) == bench.last[145:], "signature: of any bytes"


def damaged(text: str) -> Iterator[tuple[str, str]]:
    """Texts that are no record, from one that has all lines."""
    first, signed, asked, abandoned = (f"{it}\n" for it in text.splitlines())
    whole = {text[: text.index(it) + len(it)] for it in (first, signed, asked, abandoned)}
    yield from ((f"cut after {it}", text[:it]) for it in range(len(text)) if text[:it] not in whole)
    yield from {
        "another format": text.replace("guard 1", "guard 2"),
        "no first line": signed + asked,
        "signed twice": first + signed + signed + asked,
        "asked twice": first + signed + asked + asked,
        "asked before signed": first + asked + signed,
        "abandoned before asked": first + signed + abandoned + asked,
        "abandoned before signed": first + abandoned + signed,
        "the first line last": signed + asked + first,
        "the first line twice": first + text,
        "an empty line": first + "\n" + signed,
        "an empty line at the end": text + "\n",
        "another line": text + "note 1\n",
        "upper case": first + signed.upper().replace("SIGNED", "signed"),
        "a name in upper case": text.replace("signed", "Signed"),
        "two spaces": text.replace("signed ", "signed  "),
        "a tab": text.replace("signed ", "signed\t"),
        "a space at the end": text.replace("\n", " \n"),
        "a space in front": " " + text,
        "CR LF": text.replace("\n", "\r\n"),
        "a byte order mark": "\ufeff" + text,
        "a digit that isn't ASCII": text.replace("1", "\u0661"),
        "a body in place of an entry": first + "signed " + asked[6:],
        "an entry in place of a body": first + "asked " + signed[7:],
        "no digits": text.replace(signed[7:11], "xyzw"),
        "a zero byte": text + "\0",
        "zero bytes": "\0" * len(text),
        "a text of JSON": '{"signed":""}\n',
    }.items()


def test_texts(room: str) -> None:
    """The worked example of docs/STORED.md, and texts that are no record."""
    bench, text = Bench(room), worked_example("The guard's record")
    bench.path.write_text(text)
    signed, asked, abandoned = (bytes.fromhex(it.split()[1]) for it in text.splitlines()[1:])
    assert (bench.guard.signed(), bench.guard.asked()) == (signed, asked), "record: the worked example"
    policy = worked_example("The policy document")
    assert (
        hashlib.sha256(policy.encode()).digest() == asked[113:] == signed[113:145]
    ), "record: its bodies have the digest of the policy"
    if HAS_NACL:
        [key] = re.findall("signing-key (.*)\n", policy)
        assert VerifyKey(bytes.fromhex(key)).verify(signed[:145], signed[145:]), "record: its signature is valid"
    refused("record: its abandoned body", BodyAbandoned, bench, lambda: bench.guard(abandoned))
    assert bench.text() == text, "record: the text is written as it was read"
    reported = bench.guard(asked)
    wanted = f"coniks-guard 1\nsigned {(asked + reported).hex()}\nabandoned {abandoned.hex()}\n"
    assert bench.text() == wanted, "record: its open body is signed, and the abandoned one after the same entry stays"
    passed, wrong = list[str](), list[str]()
    calls: list[Call] = [bench.open, bench.guard.signed, bench.guard.asked, lambda: bench.guard(asked)]
    calls.append(lambda: bench.guard.abandon(asked))
    for what, other in damaged(text):
        bench.path.write_bytes(other.encode())
        for call in calls:
            try:
                call()
                passed.append(what)
            except RecordFailed as error:
                wrong += [what] * (str(bench.path) not in str(error) or signed.hex() in str(error))
        wrong += [what] * (bench.path.read_bytes() != other.encode() or len(bench.used()) > 1)
    assert not passed, f"record: texts that are no record are refused: {passed[:5]}"
    assert not wrong, f"record: with a clear text, and are left as they are: {wrong[:5]}"
    bench.path.write_bytes(b"\xff\xfe" + text.encode())
    raises("record: bytes that are no text", RecordFailed, bench.guard.signed)


def put_back(bench: Bench, target: Path) -> None:
    """Removes what is in the place of a record, and puts the record back."""
    shutil.rmtree(bench.path) if bench.path.is_dir() and not bench.path.is_symlink() else bench.path.unlink()
    os.rename(target, bench.path)


def test_places(room: str) -> None:
    """What is no place for a record, while a service runs and at its start."""
    bench = Bench(room, 1)
    target, mine, stored = Path(room) / "target", after(bench.last), bench.text()

    def put(mode: int) -> None:
        bench.path.write_text(stored)
        bench.path.chmod(mode)

    places: list[tuple[str, Call, str]] = [
        ("a symbolic link", lambda: bench.path.symlink_to(target), "symbolic link"),
        ("a symbolic link to nothing", lambda: bench.path.symlink_to(Path(room) / "no"), "symbolic link"),
        ("a folder", bench.path.mkdir, "Is a directory"),
        ("a pipe", lambda: os.mkfifo(bench.path), "regular file"),
        ("a file that its group writes", lambda: put(0o664), "chmod go-w"),
        ("a file that all write", lambda: put(0o646), "chmod go-w"),
    ]
    calls: list[Call] = [bench.open, bench.guard.signed, lambda: bench.guard(mine), lambda: bench.guard.abandon(mine)]
    for what, make, word in places:
        os.rename(bench.path, target)
        make()
        for call in calls:
            text = str(raises(f"place: {what}", RecordFailed, call))
            assert word in text, f"place: {what}: its text: {text}"
        assert os.path.lexists(bench.path) and target.read_text() == stored and len(bench.used()) == 1, f"place: {what} stays"
        put_back(bench, target)
    for path, word in [("no/record", "folder is missing"), ("record/record", "Not a directory"), ("", "Is a directory")]:
        text = str(raises(f"place: {path}", RecordFailed, lambda: Guard(f"{room}/{path}", bench.signer)))
        assert word in text, f"place: {path}: its text: {text}"
    relative = Guard(os.path.relpath(bench.path), bench.signer)
    assert str(relative) == str(bench.guard) and relative.signed() == bench.last, "place: a relative path"
    bench.sign(mine)
    assert bench.guard.signed() == bench.last, "place: in the end it goes on"


def test_beside(room: str) -> None:
    """What is in the place of the lock, and of the file that replaces the record."""
    bench = Bench(room, 1)
    lock, new, target = (Path(f"{room}/{it}") for it in ("record.lock", "record.new", "target"))
    for place in (lock, new):
        with suppress(FileNotFoundError):
            place.unlink()
        place.mkdir()
        call: Call = lambda: bench.guard(after(bench.last))
        what = f"can't be locked by {lock}: " if place == lock else "can't be written: "
        refused(f"beside: a folder {place.name}", RecordFailed, bench, call, what, "try again")
        place.rmdir()
    for text in (b"a letter", b"{}"):
        new.write_bytes(text)
        refused("beside: another file", RecordFailed, bench, lambda: bench.guard(after(bench.last)), str(new), "move it away")
        assert new.read_bytes() == text, "beside: it stays"
    for text in (b"", b"con", bytes(999), bench.text().encode()):
        new.write_bytes(text)
        bench.sign(after(bench.last))
        assert not new.exists(), "beside: a rest of a record is replaced"
    lock.unlink()
    lock.symlink_to(target)
    refused("beside: a lock that is a link", RecordFailed, bench, lambda: bench.guard(after(bench.last)), "symbolic link")
    lock.unlink()
    left: list[tuple[str, Call]] = [
        ("a link", lambda: new.symlink_to(target)),
        ("what a process left that was killed", lambda: new.write_text("coniks-guard 1\nsig")),
    ]
    for what, make in left:
        make()
        bench.sign(after(bench.last))
        assert not target.exists() and sorted(os.listdir(room)) == [
            "asked",
            "record",
            "record.lock",
        ], f"beside: {what} named {new.name}"


def test_disks() -> None:
    """A full disk, and one that is read only."""
    with small_disk("64k") as room:
        if not room.is_mount():
            pytest.skip("a full disk needs the right to mount a tmpfs")
        os.mkdir(room / "own")
        bench = Bench(str(room / "own"), 1)
        bench.signer.file = Path(tempfile.gettempdir()) / f"asked-{os.getpid()}"
        mine, ballast = after(bench.last), room / "ballast"
        fill(ballast)
        refused("disk: full", RecordFailed, bench, lambda: bench.guard(mine), "No space left", "try again")
        ballast.unlink()
        bench.signer.before = lambda: fill(ballast)
        raises("disk: full once it is signed", RecordFailed, lambda: bench.guard(mine))
        assert bench.guard.asked() == mine and bench.guard.signed() == bench.last, "disk: the body stays open"
        ballast.unlink()
        bench.signer.before = None
        assert bench.sign(mine) == bench.guard.signed(), "disk: it is signed again"
        subprocess.run(["mount", "-o", "remount,ro", room], check=True)
        refused("disk: read only", RecordFailed, bench, lambda: bench.guard(after(bench.last)), "Read-only file system")
        assert bench.open().signed() == bench.last, "disk: a record that is read only is read"
        bench.signer.file.unlink()


def fill(ballast: Path) -> None:
    with suppress(OSError):
        ballast.write_bytes(bytes(1 << 20))


class InMemory(Guard):
    """A guard whose record is in a list, and changes before it is swapped: what a subclass replaces."""

    def __init__(self, sign: Callable[[bytes], bytes], record: list[Optional[str]], **more: Any) -> None:
        self.record, self.meanwhile = record, list[Call]()
        self._begin(sign, more.get("new_directory", False), more.get("known"), more.get("verify"))

    def __str__(self) -> str:
        return "the record in memory"

    def _read(self) -> Optional[str]:
        return self.record[0]

    def _sync(self) -> None:
        pass

    def _swap(self, before: Optional[str], after: str) -> bool:
        if self.meanwhile:
            self.meanwhile.pop(0)()
        if self.record[0] != before:
            return False
        self.record[0] = after
        return True


def test_wrong_key(room: str) -> None:
    """A signature of another key that was stored without `verify` is replaced by that of the right key, also a second time. A
    provider's `verify` counts for its guard."""
    bench, other = Bench(room, 1), lambda _: bytes(64)
    mine = after(bench.last)
    wrong = Guard(bench.path, other)(mine)
    assert not bench.signer.verify(mine, wrong) and bench.guard(mine) == wrong
    bench.guard.verify_by(bench.signer.verify)
    right = bench.guard(mine)
    assert bench.signer.verify(mine, right) and bench.guard.signed() == mine + right == mine + bench.open()(mine)
    later, guard = after(mine + right), Guard(bench.path, other)
    guard.verify_by(bench.signer.verify)
    raises("wrong key: it stores nothing", GuardError, lambda: guard(later))
    assert bench.guard.signed() == mine + right and bench.guard.asked() == later
    assert bench.signer.verify(later, bench.guard(later))


def test_wrong_key_while_open(room: str) -> None:
    """A wrong signature is not replaced while another body is open, since that one names the entry with the wrong one. Once it is
    abandoned, the next body follows the entry with the right one."""
    bench = Bench(room, 1)
    mine = after(bench.last)
    wrong = Guard(bench.path, lambda _: bytes(64))(mine)
    opened = after(mine + wrong)
    bench.signer.fails = 1
    raises("wrong key: the next body is asked for", TimeoutError, lambda: bench.guard(opened))
    bench.guard.verify_by(bench.signer.verify)
    text = bench.text()
    refusal = raises("wrong key: it is not replaced", BodyRefused, lambda: bench.guard(mine))
    assert "another body is open, of epoch 3" in str(refusal) and bench.text() == text
    bench.guard.abandon(opened)
    right = bench.guard(mine)
    assert bench.signer.verify(mine, right) and bench.guard.signed() == mine + right
    refused("wrong key: the body that named it", BodyAbandoned, bench, lambda: bench.guard(opened), "was abandoned")
    bench.entries.append(mine + right)
    bench.sign(after(bench.last))
    assert is_chain(bench.entries), "wrong key: one chain"


def test_without_library(room: str) -> None:
    """A guard says at once that the library is missing, before it makes a file."""
    words = [sys.executable, "-c", f"import coniks.guard; coniks.guard.Guard({room + '/record'!r}, bytes, new_directory=True)"]
    ran = subprocess.run(words, capture_output=True, text=True, env=os.environ | {"CONIKS_LIBRARY": room + "/none.so"})
    assert ran.returncode and "ImportError: the library can't be loaded" in ran.stderr and not os.listdir(room), ran.stderr


@pytest.mark.parametrize("moment", ["locked", "written"])
def test_removed_lock(room: str, moment: str, monkeypatch: pytest.MonkeyPatch) -> None:
    """A cleaner removes the lock's file, and another guard signs another body, before this one has locked it or just before it renames:
    only one of the bodies is signed."""
    bench = Bench(room, 1)
    other, mine, its = bench.open(), after(bench.last), after(bench.last, 5)
    target, call = (fcntl, "flock") if moment == "locked" else (os, "fsync")
    real, given = getattr(target, call), list[bytes]()

    def away(*words: Any) -> Any:
        monkeypatch.setattr(target, call, real)
        found = real(*words) if moment == "written" else None
        (bench.path.parent / "record.lock").unlink()
        given.append(other(its))
        return real(*words) if moment == "locked" else found

    monkeypatch.setattr(target, call, away)
    raises(f"removed lock: {moment}", BodyRefused, lambda: bench.guard(mine))
    assert given and bench.guard.signed() == its + given[0] and mine not in bench.used()
    assert sorted(it.name for it in bench.path.parent.iterdir()) == ["asked", "record", "record.lock"]


def test_durable(room: str, monkeypatch: pytest.MonkeyPatch) -> None:
    """What `signed` and `asked` return is durable: the folder is synced after the record is read."""
    bench, steps = Bench(room, 1), list[str]()
    read, sync = Guard._read, sync_folder

    def reading(it: Guard) -> Optional[str]:
        steps.append("read")
        return read(it)

    def syncing(path: Any) -> None:
        steps.append("sync")
        sync(path)

    monkeypatch.setattr(Guard, "_read", reading)
    monkeypatch.setattr(guard_module, "sync_folder", syncing)
    assert bench.guard.signed() == bench.last and bench.guard.asked() is None and steps == ["read", "sync"] * 2

    def failing(path: object) -> None:
        raise OSError(5, "Input/output error")

    monkeypatch.setattr(guard_module, "sync_folder", failing)
    for call in (bench.guard.signed, bench.guard.asked):
        refused("durable: a failing disk", RecordFailed, bench, call, "Input/output error")


def test_swaps(room: str) -> None:
    """The record is changed by another guard between the read and the swap."""
    signer, record = Signer(room, Salted()), list[Optional[str]]([None])
    own, other = InMemory(signer, record, new_directory=True), InMemory(signer, record, new_directory=True)
    first = after(b"")
    given: list[bytes] = []
    own.meanwhile = [lambda: None, lambda: given.append(other(first))]
    assert [own(first)] == given and len(lines(signer.file)) == 2, "swap: both ask for one body"
    entry = first + given[0]
    second, third = after(entry, 2), after(entry, 3)
    own.meanwhile = [lambda: given.append(other(second))]
    raises("swap: another body is signed first", BodyRefused, lambda: own(third))
    entry = second + given[1]
    third, fourth = after(entry, 3), after(entry, 4)
    own.meanwhile = [lambda: other.abandon(third)]
    raises("swap: it is abandoned before it is asked for", BodyAbandoned, lambda: own(third))
    own.meanwhile = [lambda: given.append(other(fourth))]
    raises("swap: another one is signed before it is abandoned", BodySigned, lambda: own.abandon(after(entry, 5)))
    stored, fifth = record[0], after(fourth + given[2], 5)
    own.meanwhile = [lambda: None, lambda: record.__setitem__(0, stored)]
    raises("swap: the record goes back while it is signed", BodyRefused, lambda: own(fifth))
    assert own.signed() == other.signed() == fourth + given[2], "swap: the signed entry stays"
    record[0] = None
    raises("swap: new_directory is used up", BodyRefused, lambda: own(first))
