"""What an operator does wrong: another file, an old backup, exchanged keys, two services over one log.

After each mistake the signer was asked for one body per epoch, no lookup contradicts an earlier one, and the error's text says
what to do next.
"""

from __future__ import annotations

import gzip
import json
import os
import shutil
import stat
import subprocess
import tempfile
import threading
import time
from contextlib import ExitStack, suppress
from functools import partial
from pathlib import Path
from typing import Any, Callable, Iterator, Optional
from unittest import mock

import pytest

from stand_ins import POLICY, Salted, Signer, guarded, index, other_index, lines, opened, shown, small_disk, provided
from raising import raises
import coniks
from coniks import provider
from coniks.provider import Change, DirectoryExists, EpochNotLater, EpochSpent, EpochTooFar, FileLog, LogBehind, LogFailed
from coniks.provider import LogForked
from coniks.provider import LogRefused, Lookup, NoDirectory, OtherIndex, Overtaken, ProgramFailed, Provider, ProviderError, Register
from coniks.guard import Guard
from coniks.provider import RecordBehind, ReplayDiffers, RestartNeeded, SignerFailed, entries, Settings


Call = Callable[[], object]


def signals(begun: threading.Event, is_let: threading.Event) -> None:
    """A signer that tells that it was asked, and waits."""
    begun.set()
    is_let.wait(20)


def file_of(own: Provider) -> FileLog:
    assert isinstance(own._log, FileLog)
    return own._log


class Service:
    """A directory with two epochs, and what its clients have seen. `log` is its file."""

    def __init__(self, program: str) -> None:
        self.program, self._rooms = program, ExitStack()
        self.room = Path(self._rooms.enter_context(tempfile.TemporaryDirectory()))
        self.log, self.signer = self.room / "log", Signer(self.room, Salted())
        self.shown: dict[tuple[str, int], Lookup] = {}
        self.own = self.opened(FileLog.create(self.log))
        self.commit(1, Register("alice", b"1"), Register("bob", b"1"))
        self.old = self.log.read_bytes()
        self.commit(2, Change("alice", b"2"))

    def opened(self, log: Optional[FileLog] = None, **more: Any) -> Provider:
        """Starts a provider. Without a log it opens the file."""
        file = self._rooms.enter_context(log or FileLog(self.log))
        with ExitStack() as failing:
            failing.callback(file.close)
            settings: dict[str, Any] = {"index": index, "policy": POLICY, "verify": self.signer.verify, **more}
            own = provided(self.program, settings.pop("index"), settings.pop("sign", self.signer), file, **settings)
            failing.pop_all()
        return self._rooms.enter_context(own)

    def commit(self, epoch: int, *operations: provider.Operation) -> provider.Epoch:
        made = self.own.commit(epoch, operations)
        self.look()
        return made

    def look(self, own: Optional[Provider] = None) -> bool:
        """Looks names up, and compares what is shown with what was shown."""
        own = own or self.own
        latest, is_well = own.latest().epoch, True
        for name in ("alice", "bob", "no"):
            for epoch in range(1, latest + 1):
                with suppress(provider.UnknownEpoch):
                    found = own.lookup(name, epoch)
                    is_well = is_well and self.shown.setdefault((name, epoch), found) == found
        return is_well and latest >= max(epoch for _, epoch in self.shown)

    def stop(self, own: Optional[Provider] = None) -> None:
        """Closes a provider and its log."""
        own = own or self.own
        own.close()
        file_of(own).close()

    def refuses(self, what: str, error: type[ProviderError], call: Call) -> None:
        """A call raises the error, whose text says what to do, and shows no key or opening of the log."""
        raised = raises(what, error, call)
        text = str(raised)
        says_next = any(mark in text for mark in (": ", ", ", ". ")) and len(text) > 30
        assert says_next and "opening" not in text, f"{what}: {raised!r}"

    def is_one_chain(self, what: str) -> None:
        """The signer was asked for one body per epoch."""
        assert self.signer.is_requested_once(), f"{what}: one body for each epoch: {self.signer.requested()}"

    def goes_on(self, what: str) -> None:
        """Lookups go on as before."""
        assert self.look(), f"{what}: lookups go on"

    def close(self) -> None:
        self._rooms.close()


@pytest.fixture
def it(program: str) -> Iterator[Service]:
    service = Service(program)
    yield service
    service.close()


def test_paths(it: Service) -> None:
    """A path that isn't the log's."""
    for what, name in [("a mistyped path", "lgo"), ("another folder", "nowhere/log")]:
        it.refuses(what, NoDirectory, lambda: it.opened(FileLog(it.room / name)))
        assert not (it.room / name).exists(), f"{what}: no file is made"
        it.refuses(f"{what}, read by an auditor", NoDirectory, lambda: list(entries(FileLog(it.room / name))))
    (it.room / "empty").touch(0o600)
    it.refuses("an empty file", NoDirectory, lambda: it.opened(FileLog(it.room / "empty")))
    files = [
        ("a key", os.urandom(36).replace(b"\n", b"k").replace(b"{", b"k")),
        ("a text", b"some\nlines\n"),
        ("zeros", bytes(4096)),
    ]
    files += [("JSON", b'{"cmd":"opener"}\n'), ("a compressed log", gzip.compress(it.old)), ("an empty line", b"\n" + it.old)]
    for what, data in files:
        file = it.room / "file"
        file.write_bytes(data)
        file.chmod(0o600)
        it.refuses(f"{what} for the log", LogFailed, lambda: FileLog(file))
        it.refuses(f"{what} for a new log", LogFailed, lambda: FileLog.create(file))
        assert file.read_bytes() == data, f"{what} for the log: left as it is"
    os.mkfifo(it.room / "pipe", 0o600)
    for what, path in [("a folder", it.room), ("a device", Path("/dev/null")), ("a pipe", it.room / "pipe")]:
        it.refuses(f"{what} for the log", LogFailed, lambda: FileLog(path, mode=0o777))


def test_creating(it: Service) -> None:
    """A directory is made where there is one."""
    size = it.log.stat().st_size
    it.stop()
    it.refuses("create over a directory's file", DirectoryExists, lambda: FileLog.create(it.log))
    it.refuses("create=True over a directory", DirectoryExists, lambda: it.opened(create=True))
    assert it.log.stat().st_size == size, "create over a directory: the file is as it was"
    it.own = it.opened()
    it.goes_on("create over a directory")
    new = it.opened(FileLog(it.room / "new"), create=True)
    assert new.latest().epoch == 0 and stat.S_IMODE((it.room / "new").stat().st_mode) == 0o600, "create=True makes the file"


def test_rights(it: Service) -> None:
    it.stop()
    for mode in (0o640, 0o604, 0o622, 0o700):
        it.log.chmod(mode)
        it.refuses(f"a log with the rights {mode:o}", LogFailed, lambda: FileLog(it.log))
    it.log.chmod(0o640)
    it.own = it.opened(FileLog(it.log, mode=0o640))
    it.goes_on("a log whose rights are allowed")


def test_moved(it: Service) -> None:
    """The file is deleted, moved, or another one has its path, while it is open."""

    def copied() -> None:
        shutil.copy(it.log, it.room / "copy")
        os.replace(it.room / "copy", it.log)

    moves: list[tuple[str, Call]] = [
        ("deleted", it.log.unlink),
        ("moved", lambda: os.rename(it.log, it.room / "elsewhere")),
        ("replaced by a copy", copied),
    ]
    for what, move in moves:
        data = it.log.read_bytes()
        move()
        it.refuses(
            f"a log that was {what}", LogRefused, lambda: it.commit(it.own.latest().epoch + 1, Register(f"new {what}", b"key"))
        )
        it.goes_on(f"a log that was {what}")
        requested = len(it.signer.requested())
        with suppress(ProviderError):
            it.own.restart()
        it.goes_on(f"a log that was {what}, after restart")
        assert len(it.signer.requested()) == requested, f"a log that was {what}: nothing is signed"
        it.stop()
        it.log.write_bytes(data)
        it.log.chmod(0o600)
        it.own = it.opened()
        it.commit(it.own.latest().epoch + 1)
        it.is_one_chain(f"a log that was {what}")
    # As a second provider opens what has the path now, before the first one commits.
    shutil.copy(it.log, it.room / "copy")
    os.replace(it.room / "copy", it.log)
    second = it.opened()
    made = second.commit(second.latest().epoch + 1, [Register("carol", b"second")])
    it.refuses("two providers over one path", LogRefused, lambda: it.own.commit(made.epoch, [Register("carol", b"first")]))
    it.is_one_chain("two providers over one path")
    it.stop(second)
    it.stop()
    it.own = it.opened()
    write = os.pwrite

    def moved_meanwhile(place: int, data: bytes, at: int) -> int:
        os.rename(it.log, it.room / "elsewhere")
        return write(place, data, at)

    epoch = it.own.latest().epoch + 1
    with mock.patch.object(os, "pwrite", moved_meanwhile):
        it.refuses("a log that is moved during an append", LogFailed, lambda: it.own.commit(epoch, []))
    assert epoch not in it.signer.requested(), "a log that is moved during an append: nothing is signed"
    it.goes_on("a log that is moved during an append")
    os.rename(it.room / "elsewhere", it.log)
    it.stop()
    it.own = it.opened()
    it.stop()
    link = it.room / "link"
    shutil.copy(it.log, it.room / "other")
    link.symlink_to(it.log)
    by_link = it.opened(FileLog(link))
    link.unlink()
    link.symlink_to(it.room / "other")
    it.refuses("a link that leads elsewhere", LogRefused, lambda: by_link.commit(99, []))


def test_closed(it: Service) -> None:
    """The log is closed under a provider. A restart can't help, since it has the same log."""
    file_of(it.own).close()
    it.refuses("a closed log: a commit", LogFailed, lambda: it.own.commit(3, []))
    raised = raises("a closed log: the next one", RestartNeeded, lambda: it.own.commit(3, []))
    assert "open" in str(raised) and "a new provider" in str(raised), f"a closed log: what helps: {raised}"
    it.refuses("a closed log: restart", LogFailed, it.own.restart)
    it.goes_on("a closed log")
    it.own = it.opened()
    it.commit(3)
    it.is_one_chain("a closed log")


def test_changed(it: Service) -> None:
    """The file is cut or written while it is open."""
    size = it.log.stat().st_size
    changes: list[tuple[str, Call]] = [
        ("emptied", lambda: os.truncate(it.log, 0)),
        ("cut in a line", lambda: os.truncate(it.log, size - 9)),
        ("cut to its first epoch", lambda: os.truncate(it.log, len(it.old))),
        ("appended to", lambda: os.truncate(it.log, size + 9)),
    ]
    data = it.log.read_bytes()
    for what, change in changes:
        change()
        after = it.log.read_bytes()
        it.refuses(f"a log that was {what}", LogRefused, lambda: it.own.commit(3, [Register("new", b"key")]))
        assert it.log.read_bytes() == after and 3 not in it.signer.requested(), f"a log that was {what}: nothing is written"
        it.goes_on(f"a log that was {what}")
        it.log.write_bytes(data)
    it.commit(3)
    it.is_one_chain("a log that was changed")


def test_backups(it: Service) -> None:
    """An old backup, half a backup, and the log of another directory, while the process runs and at a new start."""
    it.commit(3, Change("bob", b"3"))
    whole, head = it.log.read_bytes(), coniks.Head(3, it.own.latest().link)
    with tempfile.TemporaryDirectory() as room:
        with FileLog.create(Path(room) / "log") as log, opened(it.program, log, Signer(room, Salted())) as other:
            for epoch in (1, 2, 3, 4):
                other.commit(epoch, [Register(f"other {epoch}", b"key")])
        foreign = (Path(room) / "log").read_bytes()
    backups = [("an old backup", it.old), ("half a backup", whole[: len(whole) // 2]), ("another directory's log", foreign)]
    for what, data in backups:
        # The service opens its log again, as after an error of the disk.
        file_of(it.own).close()
        it.log.write_bytes(data)
        file_of(it.own).__init__(it.log)  # type: ignore[misc]
        it.refuses(f"{what}: restart", LogForked, it.own.restart)
        it.refuses(f"{what}: restart again", LogForked, it.own.restart)
        it.refuses(f"{what}: commit", RestartNeeded, lambda: it.own.commit(4, []))
        it.goes_on(what)
        seen = it.own.evidence()
        found = [*entries(it.own._log)]
        assert seen and (seen.known, seen.found) == (it.own.chain(), found), f"{what}: the evidence has both chains"
        bodies = (
            it.own.chain()[len(found)][:145] if len(found) < 3 else it.own.chain()[0][:145],
            None if len(found) < 3 else found[0][:145],
        )
        assert seen and seen.bodies == bodies, f"{what}: the evidence has the bodies"
        pair = (it.own.chain()[0], found[0]) if data == foreign else None
        assert seen and seen.entries == pair, f"{what}: the evidence has two entries of one place"
        assert refuses_link(it.own), f"{what}: evidence is discarded by name alone"
    it.own.discard_evidence(head.link)
    it.own.restart()
    assert it.own.latest().epoch == 4 and it.own.evidence() is None, "a log that is taken after all"
    file_of(it.own).close()
    it.log.write_bytes(foreign[: foreign.rindex(b"\n", 0, -1) + 1])
    file_of(it.own).__init__(it.log)  # type: ignore[misc]
    it.refuses("what was discarded once: a later restart", LogForked, lambda: it.own.restart(sign_pending=False))
    it.stop()
    for what, data in backups:
        it.log.write_bytes(data)
        error = LogForked if data == foreign else LogBehind
        it.refuses(f"{what}: a start with a head", error, lambda: it.opened(head=head))
        assert it.log.read_bytes().startswith(data[: data.rfind(b"\n")]), f"{what}: nothing is written"
    it.log.write_bytes(whole)
    it.own = it.opened(head=head)
    it.goes_on("the whole log with a head")
    it.signer.fails = 1
    it.refuses("a signer that fails", SignerFailed, lambda: it.own.commit(4, [Register("dora", b"key")]))
    whole = it.log.read_bytes()
    file_of(it.own).close()
    it.log.write_bytes(whole[: whole.rindex(b"\n", 0, -1) + 1])
    file_of(it.own).__init__(it.log)  # type: ignore[misc]
    it.refuses("a log that lost a body that may be signed", LogForked, it.own.restart)
    seen = it.own.evidence()
    assert seen and [*it.signer.requested()[4]] == [seen.bodies[0]], "a log that lost a body: the evidence has it"
    file_of(it.own).close()
    it.log.write_bytes(whole)
    file_of(it.own).__init__(it.log)  # type: ignore[misc]
    it.own.restart()
    assert it.own.latest().epoch == 4 and it.own.evidence(), "a log that has the body again"
    # The log is whole, so what is discarded is the evidence alone.
    it.own.discard_evidence(it.own.latest().link)
    it.refuses("no evidence to discard", ProviderError, lambda: it.own.discard_evidence(it.own.latest().link))
    whole = it.log.read_bytes()
    file_of(it.own).close()
    it.log.write_bytes(whole[: whole.rindex(b"\n", 0, -1) + 1])
    file_of(it.own).__init__(it.log)  # type: ignore[misc]
    it.refuses("evidence that was discarded, and another loss", LogForked, lambda: it.own.restart(sign_pending=False))
    it.is_one_chain("backups")


def refuses_link(own: Provider) -> bool:
    try:
        own.discard_evidence(bytes(32))
        return False
    except ValueError:
        return True


def test_keys(it: Service) -> None:
    """Keys that were exchanged."""
    it.stop()
    before, requested = it.log.read_bytes(), len(it.signer.requested())
    it.refuses("another key of the VRF", OtherIndex, lambda: it.opened(index=other_index))
    it.refuses("another policy", LogFailed, lambda: it.opened(policy=bytes(32)))
    it.refuses("another nonce", LogFailed, lambda: it.opened(nonce=bytes(32)))
    assert it.log.read_bytes() == before and len(it.signer.requested()) == requested, "other keys: nothing is written or signed"
    it.own = it.opened(index=other_index, check_indices=False)
    it.refuses("another key of the VRF that is forced", OtherIndex, lambda: it.own.commit(3, [Change("alice", b"3")]))
    it.stop()
    current = [index]
    it.own = it.opened(index=lambda name: current[0](name))
    current[0] = other_index
    it.refuses("a key of the VRF that changes: a commit", OtherIndex, lambda: it.own.commit(3, [Change("alice", b"3")]))
    it.refuses("a key of the VRF that changes: restart", OtherIndex, it.own.restart)
    raised = raises("a key of the VRF that changes: a commit then", RestartNeeded, lambda: it.own.commit(3, []))
    assert "or a new provider with another index" in str(raised), f"a key of the VRF that changes: what helps: {raised}"
    it.refuses("a key of the VRF that changes: a lookup", RestartNeeded, lambda: it.own.lookup("alice"))
    current[0] = index
    it.own.restart()
    it.goes_on("a key of the VRF that is the right one again")
    it.stop()
    # A writer with another key left an update pending.
    it.own = it.opened(index=other_index, check_indices=False)
    it.signer.fails = 1
    it.refuses("an update under another key", SignerFailed, lambda: it.own.commit(4, [Register("frank", b"key")]))
    last, requested = it.own.chain()[-1], len(requested_of(it))
    it.stop()
    it.refuses("a pending update under another key", OtherIndex, it.opened)
    it.own = it.opened(sign_pending=False, sign=guarded(it.signer, known=last))
    it.refuses("a pending update under another key: retry", OtherIndex, it.own.retry)
    it.refuses("a pending update under another key: a later one", OtherIndex, lambda: it.commit(5, Register("frank", b"key")))
    assert len(requested_of(it)) == requested and it.own.pending, "a pending update under another key: nothing is signed"
    it.own.abandon()
    it.commit(5, Register("frank", b"key"))
    assert it.own.lookup("frank").epoch == 5 and it.own.latest().names == 3, "the update is replaced"
    it.is_one_chain("other keys")
    keyed = it.room / "keyed"
    it.stop(it.opened(FileLog.create(keyed), vrf_public_key=b"key 1"))
    it.refuses("another public key of the VRF", LogFailed, lambda: it.opened(FileLog(keyed), vrf_public_key=b"key 2"))
    for key in (b"key 1", None):
        it.stop(it.opened(FileLog(keyed), vrf_public_key=key))
    # By `printf 'key 1' | sha256sum`.
    digest = "227ba5f2c6c9109fe5c44a0696f393379607493a377f522ee27d9a7ae3227d89"
    assert json.loads(keyed.read_text())["vrf"] == digest, "the log has the digest of the VRF's public key"


def test_lost_record(it: Service) -> None:
    """The guard's record is lost, moved, or from a backup: no line is appended for a body that the guard would refuse."""
    entry = it.own.chain()[-1]
    it.stop()
    it.own = it.opened(sign=guarded(it.signer, known=entry))
    it.commit(3)
    path = it.signer.file.with_name("guard")
    old = path.read_bytes()
    latest, log = it.commit(4).entry, it.log.read_bytes()
    it.stop()
    for what, record in [("a record that is lost", None), ("a record from a backup", old)]:
        path.unlink(missing_ok=True)
        if record:
            path.write_bytes(record)
        for again in range(2):
            it.own = it.opened(sign=Guard(path, it.signer, verify=it.signer.verify))
            it.refuses(f"{what}: a commit", RecordBehind, lambda: it.own.commit(5, [Change("alice", b"5")]))
            assert it.log.read_bytes() == log and not it.own.pending, f"{what}: nothing is appended, at start {again}"
            it.goes_on(what)
            it.stop()
    path.unlink()
    it.own = it.opened(sign=guarded(it.signer, known=latest))
    path.rename(path.with_suffix(".away"))
    it.refuses("a record that is moved away: a commit", RecordBehind, lambda: it.own.commit(5, []))
    assert it.log.read_bytes() == log, "a record that is moved away: nothing is appended"
    path.with_suffix(".away").rename(path)
    it.commit(5)
    it.is_one_chain("a lost record")


def test_lost_record_of_pending(it: Service) -> None:
    """The guard's record is lost while an update is pending: it stays so, until another record begins with the latest entry."""
    latest = it.own.chain()[-1]
    it.stop()
    it.own = it.opened(sign=guarded(it.signer, known=latest))
    it.signer.fails = 1
    batch = [Change("alice", b"3")]
    it.refuses("a signer that fails", SignerFailed, lambda: it.own.commit(3, batch))
    it.stop()
    path, log = it.signer.file.with_name("guard"), it.log.read_bytes()
    path.unlink()
    it.own = it.opened(sign=Guard(path, it.signer, verify=it.signer.verify), sign_pending=False)
    calls: dict[str, Call] = {
        "the same commit": lambda: it.own.commit(3, batch),
        "a later commit": lambda: it.own.commit(4, []),
        "a retry": lambda: it.own.retry(),
    }
    for what, call in calls.items():
        it.refuses(f"a record that is lost: {what}", RecordBehind, call)
    assert it.log.read_bytes() == log and it.own.pending, "the update stays pending"
    it.stop()
    it.own = it.opened(sign=guarded(it.signer, known=latest))
    it.commit(4)
    it.is_one_chain("a lost record of a pending update")


def test_signers(it: Service) -> None:
    """Signers that do what they must not."""
    calls: list[tuple[str, Call]] = [
        ("commits", lambda: it.own.commit(9, [])),
        ("retries", lambda: it.own.retry()),
        ("restarts", lambda: it.own.restart()),
        ("closes", lambda: it.own.close()),
    ]
    for what, call in calls:
        it.signer.before = call
        it.refuses(f"a signer that {what}", SignerFailed, lambda: it.own.commit(3, []) if not it.own.pending else it.own.retry())
    it.signer.before = None
    it.stop()
    it.own = it.opened()
    assert it.own.latest().epoch == 3, "a start installs what was pending"
    signed = it.own.chain()[-1][145:]
    keys, it.signer.keys = it.signer.keys, Salted()
    setattr(it.signer.keys, "sign", lambda body: signed)
    it.refuses("the signature of another epoch", SignerFailed, lambda: it.own.commit(4, []))
    it.signer.keys = keys
    assert it.own.retry().epoch == 4, "the right signature"
    is_let, hangs = threading.Event(), threading.Event()
    it.signer.before = partial(signals, hangs, is_let)
    failed: list[BaseException] = []

    def commits() -> None:
        try:
            epoch = it.own.latest().epoch + 1
            it.own.commit(epoch, [Register(f"eve {epoch}", b"key")])
        except ProviderError as error:
            failed.append(error)

    thread = threading.Thread(target=commits)
    thread.start()
    hangs.wait(20)
    started = time.monotonic()
    it.own.close(0.5)
    assert time.monotonic() - started < 5, "close doesn't wait for a signer that hangs"
    file_of(it.own).close()
    is_let.set()
    thread.join(20)
    it.signer.before = None
    assert [type(error) for error in failed] == [provider.Closed], f"what it signs then is not installed: {failed}"
    it.own = it.opened()
    assert shown(it.own.lookup("eve 5")) == b"key", "a start asks for the same body"
    # A line that is being appended is not left behind: the caller closes the log next.
    log = file_of(it.own)
    append, appended = log.append, [0]

    def slow_append(position: int, line: bytes) -> None:
        is_appending.set()
        time.sleep(0.5)
        append(position, line)
        appended[0] += 1

    is_appending = threading.Event()
    with mock.patch.object(log, "append", slow_append):
        thread = threading.Thread(target=commits)
        thread.start()
        is_appending.wait(20)
        it.own.close(0)
    log.close()
    thread.join(20)
    assert appended == [1] and not log._is_bad, f"close waits for an append: {appended}"
    it.own = it.opened()
    # A signer that returns in time is waited for.
    epoch, begun = it.own.latest().epoch + 1, threading.Event()
    failed.clear()
    it.signer.before = lambda: begun.set() or time.sleep(0.3)  # type: ignore[func-returns-value]
    thread = threading.Thread(target=commits)
    thread.start()
    begun.wait(20)
    it.own.close()
    thread.join(20)
    it.signer.before = None
    assert not failed and it.own._host.known.latest.epoch == epoch, f"close waits for a signer: {failed}"
    file_of(it.own).close()
    it.own = it.opened()
    assert it.own.latest().epoch == epoch, "what it signed in time is installed"
    it.is_one_chain("signers")


def test_refusals(it: Service) -> None:
    """A log that refuses a line, and whose next lines it takes."""
    log = file_of(it.own)

    def refuses(*_: object) -> None:
        raise LogRefused("the log is told to refuse: try again")

    it.signer.fails = 1
    it.refuses("a pending update", SignerFailed, lambda: it.own.commit(3, [Register("carol", b"3")]))
    with mock.patch.object(log, "append", refuses):
        it.refuses("a later update that isn't logged", LogRefused, lambda: it.own.commit(4, [Register("carol", b"4")]))
    assert it.own.retry().epoch == 3 and shown(it.own.lookup("carol")) == b"3", "the pending update is still that of the log"
    append = log.append

    def refuses_install(position: int, line: bytes) -> None:
        if b'"cmd":"install"' in line:
            refuses()
        append(position, line)

    mine = [Register("dora", b"4")]
    with mock.patch.object(log, "append", refuses_install):
        for call in (lambda: it.own.commit(4, mine), it.own.retry, lambda: it.own.commit(4, mine), lambda: it.own.commit(5, [])):
            it.refuses("an epoch that isn't logged", LogRefused, call)
            it.goes_on("an epoch that isn't logged")
            assert it.own.latest().epoch == 3 and shown(it.own.lookup("dora")) is None, "an epoch that isn't logged is not shown"
    it.commit(5, Change("dora", b"5"))
    assert [entry[8] for entry in entries(log)] == [1, 2, 3, 4, 5], "the next commit logs it first"
    assert [entry[8] for entry in requested_of(it)].count(4) == 1, "the signer was asked once for it"
    it.is_one_chain("refusals")


def requested_of(it: Service) -> list[bytes]:
    return [bytes.fromhex(line) for line in lines(it.signer.file)]


def test_numbers(it: Service) -> None:
    """A clock that was set back, and mistyped numbers."""
    it.refuses("a clock that was set back", EpochNotLater, lambda: it.own.commit(1, [Register("new", b"key")]))
    it.refuses("the number of the latest epoch", EpochNotLater, lambda: it.own.commit(2, [Register("new", b"key")]))
    it.refuses("the largest number", EpochTooFar, lambda: it.own.commit((1 << 64) - 1, []))
    it.signer.fails = 1
    it.refuses("a signer that fails", SignerFailed, lambda: it.own.commit(4, [Register("new", b"key")]))
    it.refuses("the same number for other operations", EpochSpent, lambda: it.own.commit(4, [Register("new", b"other")]))
    it.refuses("a number before the pending one", EpochSpent, lambda: it.own.commit(3, [Register("new", b"key")]))
    it.own.retry()
    it.goes_on("numbers")
    it.is_one_chain("numbers")


def test_services(it: Service) -> None:
    """Two services over one log, and a process that forks."""
    it.refuses("a second service over the file", LogFailed, it.opened)
    log = it.own._log
    second = it._rooms.enter_context(opened(it.program, log, it.signer))
    made = second.commit(3, [Register("carol", b"second")])
    it.refuses("two providers over one open log", Overtaken, lambda: it.own.commit(3, [Register("carol", b"first")]))
    it.goes_on("two providers over one open log")
    it.own.restart()
    assert it.own.lookup("carol").entry == made.entry, "the slower one restarts"
    # Another service installs an update that this one left pending, and goes on.
    it.signer.fails = 1
    it.refuses("an update that stays pending", SignerFailed, lambda: it.own.commit(4, [Register("dora", b"4")]))
    second.restart(sign_pending=False)
    second.commit(5, [Change("dora", b"5")])
    it.refuses("an update that another service installed", Overtaken, lambda: it.own.commit(6, []))
    it.own.restart()
    both = [shown(it.own.lookup("dora", epoch)) for epoch in (4, 5)]
    assert both == [b"4", b"5"] and it.own.evidence() is None, "an update that another service installed: restart"
    is_committing, may_go = threading.Event(), threading.Event()
    it.signer.before = partial(signals, is_committing, may_go)
    thread = threading.Thread(target=lambda: it.own.commit(6, []))
    thread.start()
    is_committing.wait(20)
    forked = os.fork()
    if not forked:
        calls: list[Call] = [it.own.latest, lambda: it.own.lookup("alice"), lambda: it.own.commit(7, []), it.own.restart]
        closed = 0
        for call in calls:
            try:
                call()
            except provider.Closed:
                closed += 1
        it.own.close()
        os._exit(closed)
    may_go.set()
    thread.join(20)
    it.signer.before = None
    assert os.waitstatus_to_exitcode(os.waitpid(forked, 0)[1]) == 4, "a process that forks while it commits"
    it.goes_on("a process that forked")
    it.is_one_chain("two services")


def test_programs(it: Service) -> None:
    """Another program, or another version of it."""
    it.stop()
    before = it.log.read_bytes()
    programs = [
        ("a program that isn't there", ["/nowhere"]),
        ("a file that is no program", [str(it.log)]),
        ("another program", ["/bin/cat"]),
        ("a program that ends", ["/bin/true"]),
        ("a program that prints too much", ["/bin/sh", "-c", "exec yes {}"]),
        ("wrong options", [it.program, "--wrong"]),
    ]
    for what, words in programs:
        with FileLog(it.log) as log:
            it.refuses(what, ProgramFailed, lambda: Provider(Settings(words, index, POLICY), it.signer, log))
    assert it.log.read_bytes() == before, "other programs: the log is as it was"
    it.own = it.opened()
    it.goes_on("the right program")


def test_edits(it: Service) -> None:
    """A log that was edited."""
    it.stop()
    lines = it.log.read_bytes().splitlines(keepends=True)
    deep = b'{"cmd":"open","deep":' + b"[" * 100_000 + b"]" * 100_000 + b"}\n"
    edits: list[tuple[str, type[ProviderError], list[bytes]]] = [
        ("an edited key", ReplayDiffers, [lines[0], lines[1].replace(b'"key":"MQ=="', b'"key":"Mg=="', 1), *lines[2:]]),
        ("a line less", LogFailed, [*lines[:2], *lines[3:]]),
        ("lines in another order", ReplayDiffers, [lines[0], lines[3], lines[4], lines[1], lines[2]]),
        ("two logs in one", ReplayDiffers, lines + lines),
        ("a line twice", ReplayDiffers, [*lines[:3], lines[2], *lines[3:]]),
        ("a line nested deeply", LogFailed, [deep]),
        ("a line that isn't UTF-8", LogFailed, [*lines, b'{"cmd":"prepare","name":"\xff"}\n']),
        ("a line of another tool", LogFailed, [*lines, b"hello\n"]),
        ("a lookup in the log", LogFailed, [*lines, b'{"cmd":"latest"}\n']),
        ("no signature", LogFailed, [*lines[:2], lines[2].replace(b"signature", b"signatures"), *lines[3:]]),
    ]
    for what, error, wanted in edits:
        it.log.write_bytes(b"".join(wanted))
        kinds = (error,) if error is ReplayDiffers else (LogFailed, ReplayDiffers)
        try:
            it.opened()
            pytest.fail(f"{what}: opened")
        except ProviderError as raised:
            assert (
                isinstance(raised, kinds) and b"MQ==" not in str(raised).encode() and ":" in str(raised)
            ), f"{what}: {repr(raised)}"
    it.log.write_bytes(b"".join(lines))
    it.own = it.opened()
    it.goes_on("the log as it was")
    it.is_one_chain("edits")


def test_disks(it: Service) -> None:
    """A disk that is mounted read-only while the service runs."""
    with small_disk("256k") as room:
        if not room.is_mount():
            return
        own = it.opened(FileLog(room / "log"), create=True)
        own.commit(1, [Register("alice", b"key")])
        subprocess.run(["mount", "-o", "remount,ro", str(room)], capture_output=True)
        with suppress(ProviderError):
            own.commit(2, [])
        subprocess.run(["mount", "-o", "remount,rw", str(room)], capture_output=True)
        assert own.commit(3, []).epoch == 3 and own.lookup("alice").epoch == 3, "a disk that was read-only"
        it.stop(own)
