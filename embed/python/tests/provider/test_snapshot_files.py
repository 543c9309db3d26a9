"""The files of a snapshot and of a log whose lines were dropped: which are refused, and what is left on a full disk."""

from __future__ import annotations

import fcntl
import json
import os
import shutil
import tempfile
from contextlib import ExitStack, contextmanager
from hashlib import sha256
from pathlib import Path
from typing import Any, Callable, Iterator, Sequence
from unittest import mock

import pytest

from snapshots import Stage, fill, refused, seen, staged
from stand_ins import HERE, POLICY, Salted, Signer, guarded, index, opened, shown, small_disk, provided
from raising import raises
from coniks import Head, provider
from coniks.provider import Change, DirectoryExists, FileLog, LinesDropped, LogBehind, LogFailed, LogRefused, Overtaken
from coniks.provider import ProgramFailed, Register, SnapshotDiffers, entries


Altered = Iterator[tuple[str, Sequence[bytes]]]


def encoded(members: object) -> bytes:
    return json.dumps(members, separators=(",", ":")).encode()


def flipped(digits: str, at: int) -> str:
    """Digits with another one in one place."""
    return digits[:at] + ("0" if digits[at] != "0" else "1") + digits[at + 1 :]


class Genuine:
    """The lines of a snapshot of one page, and snapshots that differ from it."""

    def __init__(self, lines: Sequence[bytes]) -> None:
        self.lines = [*lines]
        self.header, self.entered, _, self.page, self.last = lines
        self.printed, self.chain = json.loads(self.header), json.loads(self.entered)["entries"]
        self.bindings = json.loads(self.page)["bindings"]

    def headed(self, **more: Any) -> list[bytes]:
        return [encoded({**self.printed, **more}), *self.lines[1:]]

    def chained(self, *listed: str, count: int = 0, restored: object = None) -> list[bytes]:
        restore = restored or (listed[-1] if listed else self.chain[-1])
        header = encoded({**self.printed, "epochs": count or len(listed)})
        return [header, encoded({"entries": listed}), encoded({"cmd": "restore", "entry": restore}), self.page, self.last]

    def bound(self, *listed: Any) -> list[bytes]:
        page = encoded({"cmd": "restoring", "bindings": listed})
        return [encoded({**self.printed, "names": len(listed)}), *self.lines[1:3], page, self.last]

    def in_lines(self) -> Altered:
        lines, last = self.lines, self.last
        yield "nothing", []
        yield "an empty line alone", [b""]
        yield "the header alone", [self.header]
        yield "without its last line", lines[:-1]
        yield "a last line that is cut", [*lines[:-1], last[:-1]]
        for at in range(len(lines)):
            yield f"without line {at}", [*lines[:at], *lines[at + 1 :]]
            yield f"with line {at} twice", [*lines[: at + 1], *lines[at:]]
        for at in range(len(lines) - 1):
            yield f"lines {at} and {at + 1} exchanged", [*lines[:at], lines[at + 1], lines[at], *lines[at + 2 :]]
        yield "a line that goes on", [*lines, b'{"cmd":"latest"}']
        yield "a line of a log", [*lines[:-1], b'{"cmd":"prepare","epoch":99,"ops":[]}', last]
        yield "an open line", [b'{"cmd":"open","nonce":"%064d","policy":"%064d"}' % (0, 0), *lines]
        for junk in [
            b"",
            b"[]",
            b"null",
            b"{",
            b"\xff",
            b"\0",
            b"[" * 100000,
            b'{"cmd":7}',
            b'{"cmd":null}',
            b'{"entries":[]}',
            b"7",
        ]:
            yield f"junk, {junk[:9]!r}", [*lines[:3], junk, *lines[3:]]
            yield f"junk in front, {junk[:9]!r}", [junk, *lines]
        yield "another link", [*lines[:-1], b'{"cmd":"restored","link":"%064d"}' % 0]
        yield "a link of junk", [*lines[:-1], b'{"cmd":"restored","link":"x"}']

    def in_the_chain(self) -> Altered:
        printed, chain = self.printed, self.chain
        for member in ("snapshot", "position", "epochs", "names"):
            for value in (None, "1", -1, 0, 1.0, True, [], 2**70, *(printed[member] + more for more in (-1, 1, 2))):
                if value != printed[member] or type(value) is not int:
                    yield f"{member} {value!r}", self.headed(**{member: value})
        yield "another policy", self.headed(policy="00" * 32)
        yield "another log", self.headed(log=3)
        for listed in [7, "aa", [], [7], ["aa"], [None], [chain[0] + "0"], ["zz" * 209]]:
            yield f"entries {listed!r}"[:40], [self.header, encoded({"entries": listed}), *self.lines[2:]]
        yield "no entry", self.chained(count=1)
        yield "without the first entry", self.chained(*chain[1:])
        yield "without an entry", self.chained(*chain[:1], *chain[2:])
        yield "without the last entry", self.chained(*chain[:-1])
        yield "two entries exchanged", self.chained(*chain[:-2], chain[-1], chain[-2])
        for at in (1, 17, 33, 40, 100, 180, 270, 400):
            yield f"an entry with another digit, {at}", self.chained(flipped(chain[0], at), *chain[1:])
        for at in (1, 17, 33, 40, 100, 270):
            yield f"a last entry with another digit, {at}", self.chained(*chain[:-1], flipped(chain[-1], at))
        for what, restored in [("of another epoch", chain[0]), ("signed otherwise", flipped(chain[-1], 400)), ("of junk", 7)]:
            yield f"an entry to restore {what}", self.chained(*chain, restored=restored)

    def in_bindings(self) -> Altered:
        first, *others = self.bindings
        yield "a binding less", self.bound(*others)
        yield "a binding twice", self.bound(first, *others, first)
        more = {"index": "00" * 32, "key": "aw==", "name": "more", "opening": "00" * 32}
        yield "a binding more", self.bound(first, *others, more)
        for member, value in [("key", "b3RoZXI="), ("name", "other"), ("index", "ab" * 32), ("opening", "ab" * 32)]:
            yield f"a binding with another {member}", self.bound({**first, member: value}, *others)
            yield f"a binding without {member}", self.bound({it: first[it] for it in first if it != member}, *others)
        yield "bindings that are none", [*self.lines[:3], b'{"cmd":"restoring","bindings":7}', self.last]


def test_altered(program: str) -> None:
    """Each altered snapshot is refused, and the log alone still makes the directory."""
    with staged(program) as it:
        fill(it.own, [1, 2, 3, 4], 2)
        it.own.compact(3)
        genuine, chain, requested = it.lines(), it.own.chain(), it.signer.file.read_bytes()
        it.close()
        count, of = 0, Genuine(genuine)
        for what, lines in [*of.in_lines(), *of.in_the_chain(), *of.in_bindings()]:
            it.write(lines)
            it.log = FileLog(it.path)
            # No line of the log is read for these. There is none from position 9 on.
            is_early = what in ("position 6", "position 8", "position 9")
            kinds = (SnapshotDiffers,) if is_early else (SnapshotDiffers, LogFailed, provider.ReplayDiffers)
            refused(f"altered: {what}", kinds, it.start)
            it.log.close()
            count += 1
        assert count > 100, f"altered: many were tried: {count}"
        it.write([line.replace(chain[0].hex().encode(), b"no digits") for line in genuine])
        it.log = FileLog(it.path)
        raises("altered: entries for an auditor", LogFailed, lambda: [*entries(it.log)])
        it.write(of.headed(position=0))
        raises("altered: entries that would be read twice", SnapshotDiffers, lambda: [*entries(it.log)])
        it.log.close()
        assert it.signer.file.read_bytes() == requested, "altered: the signer isn't asked"
        it.write(genuine)
        assert it.again().chain() == chain, "altered: the genuine one"
        it.write(genuine[:-1])
        raises("altered: a restart", SnapshotDiffers, it.own.restart)
        assert it.own.lookup("user-1-0").epoch == 4 and it.own.commit(5, []).epoch == 5, "altered: lookups go on"
        it.own.compact()
        assert it.again().latest().epoch == 5, "altered: another one takes its place"
        it.snapshot.unlink()
        assert len(it.again().chain()) == 5 and it.own.lookup("user-1-0", 1).epoch == 1, "altered: without it the log has all"


def test_signature(program: str) -> None:
    """A snapshot whose entry isn't signed is refused, also if a link of it is the one that the lines have."""
    with staged(program) as it:
        fill(it.own, [1, 2])
        it.own.compact()
        *lines, _ = it.lines()
        entry = it.own.chain()[-1]
        other = entry[:145] + bytes(64)
        it.close()
        text = b"\n".join(lines).replace(entry.hex().encode(), other.hex().encode())
        link = sha256(b"\x53" + other).hexdigest().encode()
        it.write([*text.split(b"\n"), b'{"cmd":"restored","link":"' + link + b'"}'])
        it.log = FileLog(it.path)
        calls: list[tuple[bytes, bytes]] = []

        def verify(body: bytes, signature: bytes) -> bool:
            calls.append((body, signature))
            return it.signer.verify(body, signature)

        raises("signature: a wrong one", SnapshotDiffers, lambda: it.start(verify=verify))
        assert calls == [(other[:145], other[145:])], "signature: it was verified"
        for printed in (1, None, "yes"):
            raises(f"signature: verified as {printed!r}", SnapshotDiffers, lambda: it.start(verify=lambda *_: printed))
        raises("signature: one that fails to be verified", LogFailed, lambda: it.start(verify=lambda *_: 1 // 0))
        raises("signature: nobody verifies it, and the log has another", SnapshotDiffers, lambda: it.start(verify=None))
        found = it.log.snapshot()
        assert found
        it.log.drop_before(found[0])
        # The signer has signed another entry.
        raises("signature: nobody verifies it, and the record has another", provider.LogForked, lambda: it.start(verify=None))


def test_another_directory(program: str) -> None:
    """The snapshot of another directory in the place of one's own: the log has the link of its entry in the line before it. If that
    line was dropped, a start wants the signature verified, a guard, or a head."""
    with staged(program) as it, staged(program) as other:
        for stage in (it, other):
            fill(stage.own, [1, 2])
            stage.own.compact()
        mine, head = it.lines(), Head(2, sha256(b"\x53" + it.own.chain()[-1]).digest())
        it.close()
        it.log = FileLog(it.path)
        it.write(other.lines())
        plain: dict[str, Any] = {"sign": it.signer, "verify": None}
        refused("another directory: its snapshot", SnapshotDiffers, lambda: opened(it.program, it.log, it.signer))
        refused(
            "another directory: its snapshot, not verified", SnapshotDiffers, lambda: opened(it.program, it.log, it.signer, **plain)
        )
        it.write(mine)
        found = it.log.snapshot()
        assert found
        it.log.drop_before(found[0])
        text = refused(
            "another directory: nothing shows it", SnapshotDiffers, lambda: opened(it.program, it.log, it.signer, **plain)
        )
        assert all(word in text for word in ("verify", "guard", "head"))
        known: list[dict[str, Any]] = [{"head": head}, {"verify": it.signer.verify}, {"sign": guarded(it.signer)}]
        for more in known:
            with opened(it.program, it.log, it.signer, **{**plain, **more}) as own:
                assert own.latest().epoch == 2, "another directory: one's own"


def linked(chain: Sequence[bytes]) -> list[bytes]:
    """Entries with the previous links that they would have in one chain."""
    found: list[bytes] = []
    for it in chain:
        link = sha256(b"\x53" + found[-1]).digest() if found else bytes(32)
        found.append(it[:49] + link + it[81:])
    return found


def test_chains(program: str) -> None:
    """Chains that are linked, and aren't good: nobody verifies the last entry's signature here, and its root is right."""
    with staged(program) as it:
        for epoch in (1, 3, 4):
            it.own.commit(epoch, [Register(f"user-{epoch}", b"key")])
        it.own.compact()
        lines, chain = it.lines(), it.own.chain()
        it.own.close()
        settings: dict[str, Any] = {"verify": None, "check_indices": False}

        def start(*altered: bytes) -> None:
            chained = linked(altered)
            hexed = [entry.hex() for entry in chained]
            header = lines[0].replace(b'"epochs":3', b'"epochs":%d' % len(hexed))
            restore = json.dumps({"cmd": "restore", "entry": hexed[-1]}).encode()
            last = b'{"cmd":"restored","link":"%s"}' % sha256(b"\x53" + chained[-1]).hexdigest().encode()
            it.write([header, json.dumps({"entries": hexed}).encode(), restore, *lines[3:-1], last])
            opened(program, it.log, it.signer, **settings).close()

        def put(number: int, at: int, value: bytes) -> list[bytes]:
            """The chain with other bytes at a place of an entry."""
            entry = chain[number]
            return [*chain[:number], entry[:at] + value + entry[at + len(value) :], *chain[number + 1 :]]

        # The genuine one.
        start(*chain)
        for what, altered_ in [
            ("another nonce under version 1", put(1, 81, bytes(32))),
            ("another policy", put(1, 113, bytes(32))),
            ("version 0", put(0, 0, b"\0")),
            ("version 3", put(1, 0, b"\3")),
            ("a version that goes back", put(0, 0, b"\2")),
            ("an epoch that isn't later", put(1, 1, (1).to_bytes(8, "big"))),
            ("epoch 0", put(0, 1, bytes(8))),
            ("an epoch before the first one", put(0, 9, (1).to_bytes(8, "big"))),
            ("another epoch before", put(1, 9, (2).to_bytes(8, "big"))),
            ("without the first one", chain[1:]),
            ("without the second one", [chain[0], chain[2]]),
        ]:
            refused(f"chains: {what}", SnapshotDiffers, lambda: start(*altered_))


def test_older(program: str) -> None:
    """Older genuine snapshots, shorter logs, and those of other directories."""
    with staged(program) as it, staged(program) as other:
        fill(other.own, [1, 2, 3])
        other.own.compact()
        other.close()
        fill(it.own, [1, 2, 3])
        it.own.compact(2)
        older = it.room / "older"
        shutil.copy(it.snapshot, older)
        fill(it.own, [4, 5])
        it.own.compact(4)
        head, whole = Head(5, it.own.latest().link), it.path.read_bytes()
        newer = it.snapshot.read_bytes()
        shutil.copy(older, it.snapshot)
        assert it.again().latest().epoch == 5 and it.own.lookup("user-1-0", 2).epoch == 2, "older: an older snapshot, and all lines"
        it.close()
        lines = whole.splitlines(True)
        it.path.write_bytes(b"".join(lines[:10]))
        assert it.again().latest().link == head.link, "older: a log that lost the last line, which is made again"
        it.close()
        for count, what in [(9, "an epoch"), (5, "all epochs after it")]:
            it.path.write_bytes(b"".join(lines[:count]))
            it.log = FileLog(it.path)
            raises(f"older: an older snapshot, and a log that lost {what}", LogBehind, it.start)
            raises(f"older: it, and a head, {what}", LogBehind, lambda: opened(program, it.log, it.signer, head=head))
            it.log.close()
        it.snapshot.write_bytes(newer)
        for count in (8, 5, 1):
            it.path.write_bytes(b"".join(lines[:count]))
            it.log = FileLog(it.path)
            raised = raises(f"older: a log of {count} lines, which ends before its snapshot", LogFailed, it.start)
            assert "restore" in str(raised), f"older: a log of {count} lines: it says what to restore: {raised}"
            it.log.close()
        it.path.write_bytes(whole)
        shutil.copy(other.snapshot, it.snapshot)
        it.log = FileLog(it.path)
        refused("older: that of another directory", (provider.ReplayDiffers, SnapshotDiffers, ProgramFailed, LogFailed), it.start)
        it.snapshot.write_bytes(newer)
        assert it.again().latest().epoch == 5, "older: what belongs together"
        raises("older: a log that is compacted at an older position", Overtaken, lambda: it.log.compact(5, []))
        assert it.snapshot.read_bytes() == newer, "older: the newer snapshot stays"


def test_put_back(program: str) -> None:
    """While a directory runs, an older snapshot is put in the place of the one whose lines were dropped."""
    with staged(program) as it:
        fill(it.own, [1, 2, 3])
        it.own.compact(1)
        older = it.snapshot.read_bytes()
        it.log.drop_before(it.own.compact(2))
        it.snapshot.write_bytes(older)
        raises("put back: a restart", LinesDropped, it.own.restart)
        raises("put back: lines that it needs", LinesDropped, lambda: it.log.drop_before(3))
        assert it.own.compact() == 7, "put back: another one takes its place"
        assert len(it.again().chain()) == 3, "put back: a start"


def test_kinds(program: str) -> None:
    """The file's rights and kind, and what is left of another process."""
    with staged(program) as it:
        fill(it.own, [1, 2])
        new = it.room / "log.snapshot.new"
        for what, mode in [("a rest", 0o600), ("a rest that others read", 0o666), ("zeros", 0o600)]:
            new.write_bytes(bytes(9999) if what == "zeros" else b'{"snapshot":' + b"x" * 9999)
            new.chmod(mode)
            it.own.compact()
            assert not new.exists() and (it.snapshot.stat().st_mode & 0o777) == 0o600, f"files: {what}"
            it.own.restart()
        for place in (new, it.snapshot):
            saved = place.read_bytes() if place.exists() else None
            for text in (b"a letter", b'{"cmd":"open"}\n', b"{"):
                place.write_bytes(text)
                place.chmod(0o600)
                if text == b"{":
                    it.own.compact()
                    continue
                raised = raises(f"files: another file at {place.name}", LogRefused, it.own.compact)
                assert str(place) in str(raised) and place.read_bytes() == text, f"files: it stays: {raised}"
            assert place == it.snapshot or (saved is None and not new.exists())
        other = it.room / "other"
        other.write_text("kept")
        new.symlink_to(other)
        raises("files: a link in place of the new one", LogRefused, it.own.compact)
        assert other.read_text() == "kept", "files: what it links to is kept"
        new.unlink()
        new.mkdir()
        raises("files: a folder in place of the new one", LogRefused, it.own.compact)
        new.rmdir()
        if os.geteuid() == 0:
            os.chown(it.path, 4321, 4322)
            it.log.drop_before(it.own.compact() - 1)
            owners = {(found.st_uid, found.st_gid) for found in (it.path.stat(), it.snapshot.stat())}
            assert owners == {(4321, 4322)}, f"files: the owner stays: {owners}"
        it.snapshot.chmod(0o640)
        raised = raises("files: a snapshot that others read", LogFailed, it.own.restart)
        assert "chmod 600" in str(raised), f"files: it says how to change it: {raised}"
        it.snapshot.unlink()
        it.snapshot.mkdir()
        raises("files: a folder in place of the snapshot", LogFailed, it.own.restart)
        it.snapshot.rmdir()
        os.mkfifo(it.snapshot, 0o600)
        raises("files: a pipe in place of the snapshot", LogFailed, it.own.restart)
        it.snapshot.unlink()
        assert it.own.compact() == 5, "files: all is right again"


def test_calls(program: str) -> None:
    """Calls of a log at a wrong time, or beside other files."""
    with staged(program) as it:
        fill(it.own, [1, 2])
        raises("calls: a first snapshot at 0", ValueError, lambda: it.log.compact(0, [b"{}"]))
        it.own.compact()
        for position, error in [(-1, Overtaken), (0, Overtaken), (6, ValueError), (99, ValueError)]:
            raises(f"calls: a snapshot at {position}", error, lambda: it.log.compact(position, [b"{}"]))
        moved = it.path.rename(it.room / "moved")
        raises("calls: a log that was moved", LogRefused, it.own.compact)
        moved.rename(it.path)
        assert it.own.compact() == 5, "calls: it is put back"
        it.close()
        for what, call in [("compact", lambda: it.log.compact(5, [])), ("drop_before", lambda: it.log.drop_before(0))]:
            raises(f"calls: {what} of a closed log", LogFailed, call)
        raises("calls: snapshot of a closed log", LogFailed, it.log.snapshot)
        whole = it.path.read_bytes()
        it.path.unlink()
        raises("calls: a new log beside a snapshot", DirectoryExists, lambda: FileLog.create(it.path))
        it.log = FileLog(it.path)
        raises("calls: a new directory beside a snapshot", LogFailed, lambda: it.start(create=True))
        raises("calls: a first line beside a snapshot", DirectoryExists, lambda: it.log.append(0, b'{"cmd":"open"}'))
        assert not it.path.exists(), "calls: nothing is made"
        it.log.close()
        it.path.write_bytes(whole)
        it.path.chmod(0o600)
        assert it.again().latest().epoch == 2, "calls: all is put back"


def test_drops(program: str) -> None:
    """What is left of a file, and what a start makes of it."""
    with staged(program) as it:
        fill(it.own, [1, 2, 3, 4])
        for position in (0, 1, 9):
            raised = raises(f"drops: {position}, without a snapshot", LogRefused, lambda: it.log.drop_before(position))
            assert "compact" in str(raised), f"drops: {position}: it says what to do: {raised}"
        position, chain, before = it.own.compact(3), it.own.chain(), seen(it.own, [3, 4])
        whole = it.path.read_bytes()
        for above in (position + 1, 9, 10, -1):
            raises(f"drops: {above}, which isn't below the snapshot", LogRefused, lambda: it.log.drop_before(above))
        assert it.path.read_bytes() == whole, "drops: nothing is dropped"
        for number in (3, 3, 2, position, position):
            it.log.drop_before(number)
            begin = max(number, 3)
            left = b'{"first":%d}\n' % begin + b"".join(whole.splitlines(True)[begin:])
            assert it.path.read_bytes() == left and (it.path.stat().st_mode & 0o777) == 0o600, f"drops: {number}: the file"
            assert [*it.log.read(position)] == whole.splitlines()[position:], f"drops: {number}: the lines"
            raises(f"drops: {number}: an earlier line", LinesDropped, lambda: it.log.read(begin - 1))
            raises(f"drops: {number}: the file is locked", LogFailed, lambda: FileLog(it.path))
        it.own.commit(5, [Register("after", b"key")])
        calls: list[tuple[str, Callable[[], object]]] = [("as it is", str), ("restart", it.own.restart), ("start", it.again)]
        for how, call in calls:
            call()
            assert it.own.chain()[:4] == chain and [*entries(it.log)] == it.own.chain(), f"drops: {how}: the chain"
            assert seen(it.own, [3, 4]) == before and shown(it.own.lookup("after")) == b"key", f"drops: {how}: lookups"


def test_backups(program: str) -> None:
    """A snapshot that is lost after lines were dropped, and backups that are put back."""
    with staged(program) as it:
        fill(it.own, [1, 2, 3, 4])
        position = it.own.compact(3)
        it.log.drop_before(position)
        it.own.commit(5, [])
        it.close()
        backup, log = it.snapshot.read_bytes(), it.path.read_bytes()
        it.snapshot.unlink()
        it.log = FileLog(it.path)
        raised = raises("backups: the snapshot is lost", LinesDropped, it.start)
        assert f"at least {position}" in str(raised), f"backups: it says which one to restore: {raised}"
        raises("backups: a new directory over the rest", LinesDropped, lambda: it.start(create=True))
        it.log.close()
        raises("backups: the rest is no new log", DirectoryExists, lambda: FileLog.create(it.path))
        it.snapshot.write_bytes(backup)
        it.snapshot.chmod(0o600)
        assert len(it.again().chain()) == 5, "backups: the snapshot is put back"
        it.own.compact()
        it.log.drop_before(11)
        assert it.path.read_bytes() == b'{"first":11}\n', "backups: all lines are dropped"
        it.own.commit(6, [])
        it.close()
        it.snapshot.write_bytes(backup)
        it.log = FileLog(it.path)
        raises("backups: an older snapshot", LinesDropped, it.start)
        raises("backups: its lines", LinesDropped, it.log.snapshot)
        it.log.close()
        it.path.write_bytes(log)
        it.log = FileLog(it.path)
        raises("backups: an older snapshot and an older log: the guard knows", LogBehind, it.start)


def test_beginnings() -> None:
    """First lines of a file that say where it begins."""
    with tempfile.TemporaryDirectory() as room:
        path = Path(room) / "log"
        for text, first in [(b'{"first":1}\n', 1), (b'{"first":18446744073709551615}\n', 2**64 - 1), (b'{"first":7}\nab\nc', 7)]:
            path.write_bytes(text)
            path.chmod(0o600)
            with FileLog(path) as log:
                assert [*log.read(first)] == text.split(b"\n")[1:-1], f"beginnings: {text!r}"
                raises(f"beginnings: {text!r}: a line before", LinesDropped, lambda: log.read(first - 1))
        wrong = [b'{"first":0}\n', b'{"first":01}\n', b'{"first":1}', b'{"first": 1}\n', b'{"first":-1}\n', b'{"first":1.0}\n']
        wrong += [b'{"first":100000000000000000000000}\n', b'{"first":1}\r\n', b' {"first":1}\n', b'{"first":"1"}\n']
        for text in wrong:
            path.write_bytes(text)
            raises(f"beginnings: {text!r}", LogFailed, lambda: FileLog(path))
            assert path.read_bytes() == text, f"beginnings: {text!r}: it is left"


def stored(position: int) -> list[bytes]:
    """Lines of which a log takes only the first and the last one for those of a snapshot."""
    return [b'{"snapshot":1,"position":%d}' % position, b"line", b'{"cmd":"restored","link":"%064d"}' % 0]


@contextmanager
def nine_lines() -> Iterator[tuple[FileLog, Path]]:
    """A log of nine lines, of which the first three were dropped, with a snapshot of position 5."""
    with tempfile.TemporaryDirectory() as room:
        path = Path(room) / "log"
        with FileLog.create(path) as log:
            for number in range(9):
                log.append(number, b'{"cmd":"open"%d' % number)
            log.compact(5, stored(5))
            log.drop_before(3)
            yield log, path


def is_right(path: Path, count: int) -> bool:
    """Whether a log can be opened, has this many lines, and its snapshot is whole and isn't of a position below its first line."""
    with FileLog(path) as log:
        found = log.snapshot()
        lines = [b'{"cmd":"open"%d' % number for number in range(count)]
        return found is not None and [*found[1]] == stored(found[0]) and [*log.read(found[0])] == lines[found[0] :]


def fails_at(what: str, at: int) -> bool:
    """Makes a call of a log, in which one call to the file system fails. Returns whether there are so many."""
    made: list[str] = []

    def failing(name: str, real: Callable[..., Any]) -> Callable[..., Any]:
        def call(*words: Any) -> Any:
            made.append(name)
            if len(made) == at:
                raise OSError(5, "told to fail")
            return real(*words)

        return call

    with nine_lines() as (log, path):
        files, error = [path, path.with_name("log.snapshot")], None
        before = [file.read_bytes() for file in files]
        names = ["open", "pread", "pwrite", "fsync", "ftruncate", "fchmod", "rename"]
        with ExitStack() as patches:
            for name in names:
                patches.enter_context(mock.patch.object(os, name, failing(name, getattr(os, name))))
            try:
                log.compact(7, stored(7)) if what == "compact" else log.drop_before(5)
            except LogFailed as raised:
                error = raised
        is_same, is_last = before == [file.read_bytes() for file in files], len(made) < at
        call = f"{'none' if is_last else made[at - 1]}, {at}"
        assert (error is None) == is_last and (is_same or not isinstance(error, LogRefused)), f"{call}: the error: {error!r}"
        assert sorted(path.parent.iterdir()) == files, f"{call}: no file is left"
        # A log that may be the older one after a failure of the machine takes no line.
        is_unknown = "drop" in what and error and not is_same
        if is_unknown:
            raises(f"{call}: no line is added", LogFailed, lambda: log.append(9, b'{"cmd":"open"9'))
        else:
            log.append(9, b'{"cmd":"open"9')
        log.close()
        assert is_right(path, 9 if is_unknown else 10), f"{call}: it is right"
    return not is_last


@pytest.mark.parametrize("what", ["compact", "drop_before"])
def test_failing_calls(what: str) -> None:
    """Each call to the file system fails in turn: then nothing is changed, or the error says that it may be."""
    at = 1
    while fails_at(what, at):
        at += 1
    assert at > 10, f"there were many: {at}"


def test_beside() -> None:
    """What other calls and processes do while a log stores a snapshot, or drops lines."""

    def during(call: Callable[[], object]) -> Iterator[bytes]:
        """The lines of a snapshot of position 7, and a call after the first one."""
        first, *others = stored(7)
        yield first
        call()
        yield from others

    def files(path: Path) -> list[bytes]:
        return [file.read_bytes() for file in sorted(path.parent.iterdir())]

    with nine_lines() as (log, path):
        before, snapshot = files(path), path.with_name("log.snapshot")
        raises("beside: another call", LogRefused, lambda: log.compact(7, during(lambda: log.compact(7, stored(7)))))
        moved = path.with_name("moved")
        raises("beside: the log is moved", LogRefused, lambda: log.compact(7, during(lambda: path.rename(moved))))
        moved.rename(path)
        assert files(path) == before, "beside: nothing is changed"

        def store() -> None:
            snapshot.write_bytes(b"".join(line + b"\n" for line in stored(9)))

        raises("beside: a later snapshot", Overtaken, lambda: log.compact(7, during(store)))
        assert (log.snapshot() or (0,))[0] == 9 and len(files(path)) == 2, "beside: the later one stays"
        real_lock, new = fcntl.flock, path.with_name("log.snapshot.new")

        def put(file: Any, how: int) -> None:
            new.rename(snapshot)
            store()
            real_lock(file, how)

        other = [stored(9)[0], b"another line", stored(9)[2]]
        with mock.patch.object(fcntl, "flock", put):
            raises("beside: another call stores its file before it is locked", LogRefused, lambda: log.compact(9, other))
        is_stored = [*(log.snapshot() or (9, []))[1]] == stored(9) and len(files(path)) == 2
        assert is_stored, "beside: it isn't overwritten"
        lines, real_mode = path.read_bytes(), os.fchmod

        def append(file: int, mode: int) -> None:
            path.write_bytes(lines + b"more\n")
            real_mode(file, mode)

        with mock.patch.object(os, "fchmod", append):
            raises("beside: the log grows while lines are dropped", LogRefused, lambda: log.drop_before(5))
        assert path.read_bytes() == lines + b"more\n", "beside: what was added stays"
        path.write_bytes(lines)
        if os.geteuid() == 0:
            os.chown(path, 4321, 4322)
            with mock.patch.object(os, "fchown", side_effect=PermissionError(1, "told to fail")):
                raises("beside: the owner can't be changed", LogRefused, lambda: log.drop_before(5))
            assert len(files(path)) == 2, "beside: no file is left that only another one can open"
        real_read = os.pread

        def torn(file: int, size: int, at: int) -> bytes:
            if "snapshot" in os.readlink(f"/proc/self/fd/{file}") and size < 4096:
                raise OSError(5, "told to fail")
            return real_read(file, size, at)

        with mock.patch.object(os, "pread", torn):
            raises("beside: a snapshot that can't be read to its end", LogFailed, lambda: log.drop_before(5))
        for text in (b"\n".join(stored(9)), b"\n".join(stored(9)[:2]) + b"\n"):
            snapshot.write_bytes(text)
            raises(f"beside: a snapshot that is cut, {len(text)} bytes", SnapshotDiffers, lambda: log.drop_before(5))
        assert path.read_bytes() == lines, "beside: its lines stay"
        raises("beside: the log is closed", LogFailed, lambda: log.compact(9, during(log.close)))
        assert snapshot.read_bytes() == text and len(files(path)) == 2, "beside: nothing more is stored"


def test_full_disk(program: str) -> None:
    """A disk that gets full while a snapshot is stored, or the rest of a log."""
    with small_disk("256k") as disk:
        if not os.path.ismount(disk):
            pytest.skip("a full disk needs the right to mount a tmpfs")
        it = Stage(disk, program)
        try:
            fill(it.own, [1, 2], 120)
            it.own.compact(1)
            before, pid = it.snapshot.read_bytes(), it.own.pid
            ballast = disk / "ballast"
            room = os.statvfs(disk)
            ballast.write_bytes(bytes(room.f_bavail * room.f_frsize - 2 * 4096))
            raised = raises("full disk: compact", LogRefused, it.own.compact)
            assert "No space" in str(raised), f"full disk: it says what to repair: {raised}"
            assert it.snapshot.read_bytes() == before and not (disk / "log.snapshot.new").exists(), "full disk: the older one stays"
            assert it.own.pid == pid and it.own.lookup("user-1-0", 1).epoch == 1, "full disk: the child stays"
            it.own.commit(3, [Change("user-1-0", b"small")])
            whole = it.path.read_bytes()
            raises("full disk: drop_before", LogRefused, lambda: it.log.drop_before(3))
            assert it.path.read_bytes() == whole and not (disk / "log.new").exists(), "full disk: the log stays"
            it.own.commit(4, [Change("user-1-0", b"small too")])
            ballast.unlink()
            assert it.own.compact() == 9, "full disk: then there is room"
            it.log.drop_before(9)
            assert it.again().latest().epoch == 4, "full disk: and a start"
        finally:
            it.close()


def test_old_logs(program: str) -> None:
    """A log of the first format stays one. Its header has no `log`."""
    with tempfile.TemporaryDirectory() as room:
        path = Path(room) / "log"
        shutil.copy(HERE / "first_format.jsonl", path)
        path.chmod(0o600)
        signer = Signer(room, Salted())
        policy = bytes.fromhex(json.loads(path.read_bytes().splitlines()[0])["policy"])
        more: dict[str, Any] = {"policy": policy, "verify": None, "check_indices": False, "sign_pending": False}
        with FileLog(path) as log, opened(program, log, signer, **more) as own:
            chain, pending = own.chain(), own.pending
            own.compact()
            header = json.loads((path.with_name("log.snapshot")).read_bytes().splitlines()[0])
            assert "log" not in header and header["epochs"] == len(chain), f"old logs: the header has no log: {header}"
            own.restart(sign_pending=False)
            assert own.chain() == chain and own.pending == pending, "old logs: a start"


def test_openings(program: str) -> None:
    """What a start compares with the `open` line, it compares with the snapshot too."""
    with staged(program, vrf_public_key=bytes(32), nonce=bytes([5]) * 32) as it:
        fill(it.own, [1, 2, 3])
        it.log.drop_before(it.own.compact())
        wrong_: dict[str, Any] = {"nonce": bytes(32), "vrf_public_key": bytes([1]) * 32, "policy": bytes(32)}
        for what, value in wrong_.items():
            it.close()
            it.log = FileLog(it.path)
            raises(f"openings: another {what}", LogFailed, lambda: it.start(**{what: value}))
        assert it.again().latest().epoch == 3, "openings: the right ones"
        it.close()
        it.log = FileLog(it.path)
        settings: dict[str, Any] = {"policy": POLICY, "verify": it.signer.verify, "nonce": bytes([5]) * 32}
        other: Callable[[str], bytes] = lambda name: sha256(name.encode()).digest()
        raises("openings: another VRF", provider.OtherIndex, lambda: provided(program, other, it.signer, it.log, **settings))
        with provided(program, index, it.signer, it.log, **settings) as own:
            assert own.latest().epoch == 3, "openings: the right VRF"


def test_synced(program: str) -> None:
    """What is written is on the disk before it takes the place of something, and the folder before the call returns."""
    with staged(program) as it:
        fill(it.own, [1, 2])
        done: list[str] = []
        real_sync, real_rename = os.fsync, os.rename

        def sync(place: int) -> None:
            done.append("sync " + os.path.basename(os.readlink(f"/proc/self/fd/{place}")))
            real_sync(place)

        def rename(old: str, new: str) -> None:
            done.append("rename " + os.path.basename(old))
            real_rename(old, new)

        with mock.patch.object(os, "fsync", sync), mock.patch.object(os, "rename", rename):
            position = it.own.compact()
            stored, done[:] = [*done], []
            it.log.drop_before(position)
        folder = f"sync {it.room.name}"
        assert stored == ["sync log.snapshot.new", "rename log.snapshot.new", folder], f"synced: a snapshot: {stored}"
        wanted = ["sync log.snapshot", folder, "sync log.new", "rename log.new", folder]
        assert done == wanted, f"synced: a log, after its snapshot: {done}"
        for number in (1, 2, 3, 4):
            count = 0

            def fails(place: int) -> None:
                nonlocal count
                count += 1
                if count == number:
                    raise OSError(5, "told to fail")
                real_sync(place)

            it.own.commit(2 + number, [])
            if number <= 2:
                with mock.patch.object(os, "fsync", fails):
                    error = LogRefused if number == 1 else LogFailed
                    raises(f"synced: sync {number} of a snapshot fails", error, it.own.compact)
            before, text, count = it.own.compact(), it.path.read_bytes(), 0
            with mock.patch.object(os, "fsync", fails):
                error = LogRefused if number < 4 else LogFailed
                raises(f"synced: sync {number} of a log fails", error, lambda: it.log.drop_before(before))
            assert (it.path.read_bytes() == text) == (number < 4), f"synced: sync {number} of a log fails: it stays"
        raises("synced: the log must be opened again", LogFailed, lambda: it.own.commit(7, []))
        assert len(it.again().chain()) == 6 and it.own.commit(7, []).epoch == 7, "synced: it is whole"


def test_links(program: str) -> None:
    """A log and a snapshot behind links are replaced where the links lead to, which may be over another link to another folder."""
    with staged(program) as it, tempfile.TemporaryDirectory() as elsewhere:
        fill(it.own, [1, 2])
        it.close()
        real, stored, between = Path(elsewhere) / "real", Path(elsewhere) / "stored", it.room / "between"
        it.path.rename(real)
        it.path.symlink_to(real)
        it.snapshot.symlink_to(between.name)
        between.symlink_to(stored)
        links = [it.path, it.snapshot, between]
        synced: list[str] = []
        real_sync = os.fsync

        def sync(place: int) -> None:
            synced.append(os.readlink(f"/proc/self/fd/{place}"))
            real_sync(place)

        own = it.again()
        for what, epoch, position in [("nothing", 2, 5), ("a file", 3, 7)]:
            if epoch > 2:
                own.commit(epoch, [])
            with mock.patch.object(os, "fsync", sync):
                own.compact()
                taken, synced[:] = [*synced], []
                it.log.drop_before(position)
            there = [path.is_symlink() for path in links], sorted(path.name for path in Path(elsewhere).iterdir())
            assert there == ([True] * 3, ["real", "stored"]), f"links: to {what}: they stay: {there}"
            assert real.read_bytes() == b'{"first":%d}\n' % position, f"links: to {what}: the log"
            is_there = stored.read_bytes().startswith(b'{"snapshot":1,"position":%d,' % position)
            assert is_there, f"links: to {what}: the snapshot"
            assert taken == [f"{stored}.new", elsewhere], f"links: to {what}: it is on the disk: {taken}"
            wanted = [str(stored), elsewhere, f"{real}.new", elsewhere]
            assert synced == wanted, f"links: to {what}: so is the log: {synced}"
            synced.clear()
        own.commit(4, [])
        assert len(it.again().chain()) == 4, "links: a start"
        before = stored.read_bytes()
        between.unlink()
        between.symlink_to(Path(elsewhere) / "missing" / "stored")
        raises("links: to a folder that is missing", LogRefused, it.own.compact)
        between.unlink()
        between.symlink_to(it.snapshot)
        raises("links: to themselves", LogFailed, it.own.compact)
        between.unlink()
        between.symlink_to(stored)
        assert stored.read_bytes() == before and it.own.compact() == 9, "links: the snapshot stays"


def test_places() -> None:
    """Lines of a file of some mebibytes are read from each position, after each way to open it, and after lines were dropped."""
    sizes = [17, 400_000, 1, 3_000_000, 1_048_576, 90, 1_048_575, 5, 2_000_000, 30, 700_000]
    whole = [b'{"cmd":"open"' + b"%d" % number + b"x" * size for number, size in enumerate(sizes)]
    with tempfile.TemporaryDirectory() as room:
        path = Path(room) / "log"
        log = FileLog.create(path)
        for number, line in enumerate(whole):
            log.append(number, line)
        for first in (0, 1, 4, 5, 10):
            if first:
                reading = log.read(first - 1)
                begun = next(reading)
                log.compact(first, [b'{"snapshot":1,"position":%d}' % first, b'{"cmd":"restored","link":"%064d"}' % 0])
                log.drop_before(first)
                assert [begun, *reading] == whole[first - 1 :], f"places: who has begun to read gets all, {first}"
            for how in ("as it is", "opened again"):
                if how == "opened again":
                    log.close()
                    log = FileLog(path)
                is_read = all([*log.read(at)] == whole[at:] for at in range(first, len(whole) + 1))
                assert is_read, f"places: from {first} on, {how}"
            whole.append(b"more %d" % first * 100_000)
            log.append(len(whole) - 1, whole[-1])
        log.close()


def test_names_of_all_kinds(program: str, tmp_path: Path) -> None:
    """Names that JSON writes in several ways are the same after a snapshot, and in a log from which lines were dropped."""
    names = ["alice", 'ö "\\ \x00\u2028 \U0001f600', "\x7f\u00ad\ufeff\u202e", "/</script>", "x" * 255]
    signer = Signer(str(tmp_path), Salted())
    with FileLog.create(tmp_path / "log") as log, opened(program, log, signer) as own:
        own.commit(1, [Register(it, it.encode()) for it in names])
        log.drop_before(own.compact())
        own.commit(2, [Change(names[1], b"2")])
    with FileLog(tmp_path / "log") as log, opened(program, log, signer) as own:
        assert [shown(own.lookup(it, 1)) for it in names] == [it.encode() for it in names]
        own.commit(3, [Change(names[2], b"3")])
        assert [shown(own.lookup(it)) for it in names] == [names[0].encode(), b"2", b"3", *(it.encode() for it in names[3:])]
