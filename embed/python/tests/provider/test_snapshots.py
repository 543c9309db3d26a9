"""Snapshots of a directory: what a start, a restart and a lookup find after `compact`, and what goes on meanwhile."""

from __future__ import annotations

import json
import os
import sys
import tempfile
import threading
import time
from hashlib import sha256
from pathlib import Path
from typing import Any, Callable, Iterator, Optional, Sequence
from unittest import mock

import pytest

from stand_ins import HERE, POLICY, Salted, Signer, audited, children_of, kill_child, opened, shown
from lying import SLOW
from raising import raises
from snapshots import Stage, fill, refused, seen, staged
from coniks import _engine, provider
from coniks._snapshot_lines import grouped, lines_of
from coniks.provider import Change, FileLog, LinesDropped, LogFailed, LogRefused, Policy, ProgramFailed, ProviderError, Register
from coniks.provider import SignerFailed, SnapshotDiffers, UnknownEpoch, entries


# The clock of a policy whose proofs are kept.
START, PERIOD = 1767225600, 3600


def wrong(lines: Sequence[bytes], chain: Sequence[bytes], names: int, position: int) -> str:
    """What isn't as docs/STORED.md defines the lines of a snapshot; empty if all is."""
    printed = [json.loads(it) for it in lines]
    header, last = printed[0], printed[-1]
    if header.items() < {"snapshot": 1, "position": position, "epochs": len(chain), "names": names, "log": 2}.items():
        return "the header"
    if header["policy"] != POLICY.hex() or len(header["nonce"]) != 64 or b'"cmd"' in lines[0]:
        return "what the open line said"
    groups = [it["entries"] for it in printed if "entries" in it]
    if [bytes.fromhex(it) for group in groups for it in group] != [*chain] or not all(1 <= len(it) <= 1000 for it in groups):
        return "the entries"
    kinds = [it.get("cmd") or next(iter(it)) for it in printed]
    if kinds != sorted(kinds, key=["snapshot", "entries", "replaced", "restore", "restoring", "restored"].index):
        return "the order of the lines"
    bindings = [it["bindings"] for it in printed if it.get("cmd") == "restoring"]
    indices = [it["index"] for page in bindings for it in page]
    if indices != sorted(indices) or len({*indices}) != names or not all(1 <= len(it) <= 4096 for it in bindings):
        return "the bindings"
    if [it["entry"] for it in printed if it.get("cmd") == "restore"] != [chain[-1].hex()]:
        return "the entry to restore"
    is_last = last == {"cmd": "restored", "link": sha256(b"\x53" + chain[-1]).hexdigest()}
    return "" if is_last and kinds.count("restored") == kinds.count("snapshot") == 1 else "the last line"


def test_same(program: str) -> None:
    """The directory is the same before and after, and after each kind of start; older epochs are gone, and their entries aren't."""
    epochs = [1, 4, 5, 9, 12, 13]
    with staged(program) as it:
        fill(it.own, epochs)
        for at in (4, 4, 5, 12, 13):
            stored = [epoch for epoch in epochs if epoch >= at]
            before, chain, latest, pid = seen(it.own, stored), it.own.chain(), it.own.latest(), it.own.pid
            names = it.own.lookups([f"user-{epoch}-{number}" for epoch in epochs for number in range(5)], at)
            count = 1 + sum(shown(found) is not None for found in names if isinstance(found, provider.Lookup))
            position = it.own.compact(at)
            what = f"same at {at}"
            assert position == 1 + 2 * (1 + epochs.index(at)), f"{what}: the position: {position}"
            printed = wrong(it.lines(), chain[: 1 + epochs.index(at)], count, position)
            assert not printed, f"{what}: the lines are as defined: {printed}"
            assert it.own.pid != pid, f"{what}: another child"
            for how in ("compact", "a start", "a restart", "a child that ended"):
                if how == "a start":
                    it.again()
                elif how == "a restart":
                    it.own.restart()
                elif how == "a child that ended":
                    kill_child(it.own)
                assert seen(it.own, stored) == before, f"{what}, {how}: lookups"
                assert it.own.chain() == chain == [*entries(it.log)], f"{what}, {how}: the chain"
                assert it.own.catch_up(0) == b"".join(chain), f"{what}, {how}: a catch-up has all"
                found = it.own.latest()
                assert found.names == latest.names and found.link == latest.link, f"{what}, {how}: the latest"
                for epoch in [epoch for epoch in epochs if epoch < at]:
                    raises(f"{what}, {how}: epoch {epoch} is gone", UnknownEpoch, lambda: it.own.lookup("user-1-0", epoch))
                    raises(f"{what}, {how}: so is its history", UnknownEpoch, lambda: it.own.history("user-1-0", b"", epoch, 13))
                assert len(it.own.history("user-1-0", b"", at, 13)) > 0, f"{what}, {how}: a history from there"
        it.own.commit(14, [Change("user-1-0", b"last")], bytes(32))
        assert shown(it.own.lookup("user-1-0")) == b"last" and it.own.chain()[:-1] == chain, "same: the next epoch"
        assert audited(entries(it.log), it.signer.keys, False), "same: the chain is audited"


def test_pages(program: str) -> None:
    """Bindings of many pages, small and large ones."""
    with staged(program) as it:
        for epoch in range(1, 4):
            it.own.commit(epoch, [Register(f"user-{epoch}-{number}", b"key") for number in range(900)])
        it.own.commit(4, [Register(f"large-{number}", bytes([number]) * 16384) for number in range(40)])
        before, chain = it.own.lookups([f"user-1-{number}" for number in range(900)]), it.own.chain()
        it.own.compact()
        printed, sizes = wrong(it.lines(), chain, 2740, 9), [len(line) for line in it.lines()]
        assert not printed, f"pages: the lines are as defined: {printed}"
        assert len(sizes) > 10 and max(sizes) < 1 << 20, f"pages: they are of some size: {sizes}"
        assert it.again().lookups([f"user-1-{number}" for number in range(900)]) == before, "pages: the lookups"


@pytest.mark.parametrize("count, sizes", [(0, []), (1, [1]), (1000, [1000]), (1001, [1000, 1]), (2001, [1000, 1000, 1])])
def test_groups(count: int, sizes: list[int]) -> None:
    """More entries than a line has."""
    values = [number.to_bytes(2, "big") for number in range(count)]
    listed = [json.loads(line)["entries"] for line in grouped("entries", values)]
    assert [bytes.fromhex(it) for group in listed for it in group] == values, "the entries"
    assert [len(group) for group in listed] == sizes, "their sizes"


def test_epochs(program: str) -> None:
    """Which epochs can be taken."""
    with staged(program) as it:
        raises("epochs: none is there", UnknownEpoch, it.own.compact)
        it.own.commit(3, [])
        assert it.own.compact() == 3 and it.again().latest().names == 0, "epochs: one without names"
        fill(it.own, [5, 6])
        it.own.compact(5)
        for epoch, error in [(3, UnknownEpoch), (4, UnknownEpoch), (7, UnknownEpoch), (-1, ValueError), ("5", TypeError)]:
            raises(f"epochs: {epoch!r}", error, lambda: it.own.compact(epoch))  # type: ignore[arg-type]
        assert b'"position":5' in it.lines()[0] and it.own.latest().epoch == 6, "epochs: the snapshot stays"

        def signs() -> None:
            it.own.compact()

        it.signer.before = signs
        raises("epochs: the signer can't", SignerFailed, lambda: it.own.commit(9, []))


def policy_of(stored: Optional[int], has_clock: bool = True) -> Policy:
    start, period = (START, PERIOD) if has_clock else (None, None)
    return Policy("keys.example.com", bytes(32), epoch_start=start, epoch_period=period, proofs_kept=stored)


def test_promises(program: str) -> None:
    """The policy decides which epochs stay. Epoch n begins n - 1 periods after the start."""
    for what, policy in [("for ever", policy_of(None)), ("without a clock", policy_of(1, False))]:
        with staged(program, policy=policy) as it:
            it.own.commit(1, [], force=True)
            raised = raises(f"promises: proofs kept {what}", ProviderError, it.own.compact)
            assert raised and "proofs" in str(raised) and not it.snapshot.exists(), f"promises: proofs kept {what}: it says why"
    with staged(program, policy=policy_of(0, False)) as it:
        fill(it.own, [1, 2])
        assert it.own.compact() == 5, "promises: none, and no clock"
    with staged(program, policy=policy_of(2 * PERIOD)) as it:
        for epoch in (1, 2, 5, 6):
            with mock.patch("time.time", lambda: START + (epoch - 1) * PERIOD + 1.0):
                it.own.commit(epoch, [Register(f"user-{epoch}", b"key")])
        # Epoch 2 is the latest one until 5 begins, so its proofs are kept until 2 periods after that.
        for late, first in [(2 * PERIOD - 1.0, 2), (2 * PERIOD, 5), (3 * PERIOD - 0.5, 5), (3 * PERIOD, 6), (99 * PERIOD, 6)]:
            with mock.patch("time.time", lambda: START + 4 * PERIOD + late):
                later = next((epoch for epoch in (5, 6) if epoch > first), None)
                if later:
                    raises(f"promises: {late} s after epoch 5 began, epoch {later}", ProviderError, lambda: it.own.compact(later))
                it.own.compact()
            assert it.own.lookup("user-1", first).epoch == first, f"promises: {late} s after epoch 5 began, the first is {first}"
            before = {2: 1, 5: 2, 6: 5}[first]
            raises(
                f"promises: {late} s after epoch 5 began, {before} is gone",
                UnknownEpoch,
                lambda: it.own.lookup("user-1", before),
            )


def test_pending(program: str) -> None:
    """An update that is pending survives, and so does what is known of abandoned ones."""
    with staged(program) as it:
        fill(it.own, [1, 2])
        it.signer.fails = 1
        made = [Register("late", b"key")]
        raises("pending: a signer that fails", SignerFailed, lambda: it.own.commit(3, made))
        pending = it.own.pending
        it.own.compact()
        assert it.own.pending == pending and it.own.latest().epoch == 2, "pending: it is there"
        assert it.own.commit(3, made).entry[:145] == (pending and pending.body), "pending: it is installed"
        it.signer.fails = 1
        raises("pending: a signer that fails again", SignerFailed, lambda: it.own.commit(4, [Register("given up", b"key")]))
        gone = it.own.pending
        assert gone
        it.own.abandon()
        it.own.compact()
        raises("pending: an abandoned one stays so", SignerFailed, it.own.retry)
        it.own.commit(5, [Register("instead", b"key")])
        it.own.compact(3)
        assert not any(b'"replaced"' in line for line in it.lines()), "pending: a body that is replaced later isn't in it"
        assert it.again().latest().epoch == 5 and it.own._host.known.replaced == [gone.body], "pending: a start from there"
        it.own.compact()
        replaced = [json.loads(line)["replaced"] for line in it.lines() if b'"replaced"' in line]
        assert replaced == [[gone.body.hex()]], f"pending: the snapshot has the replaced body: {replaced}"
        it.own.compact(5)
        it.again(sign_pending=False)
        assert it.own.pending is None and it.own.latest().epoch == 5, "pending: nothing is, after a start"
        record = Recorded(it.own.chain()[-1], gone.body)
        with mock.patch.object(it, "signer", it.signer):
            it.close()
            it.log = FileLog(it.path)
            it.own = opened(program, it.log, it.signer, record)
        assert it.own.latest().epoch == 5, "pending: a record that still asks for the replaced body is the log's"


def give_up(it: Stage, epoch: int) -> bytes:
    """Abandons the update of an epoch, and has another one replace it. Returns the body of the first."""
    it.signer.fails = 1
    raises("replaced: a signer that fails", SignerFailed, lambda: it.own.commit(epoch, []))
    gone = it.own.pending
    assert gone
    it.own.abandon()
    it.own.commit(epoch + 1, [])
    return gone.body


def test_replaced(program: str) -> None:
    """A replaced body that a snapshot has is in the next one, whatever epochs it names: a start doesn't compare these."""
    with staged(program) as it:
        fill(it.own, [1])
        first, other = give_up(it, 2), b"\xff" * 145
        it.own.compact()
        it.write([line.replace(first.hex().encode(), other.hex().encode()) for line in it.lines()])
        it.again()
        last = give_up(it, 4)
        for epoch, wanted in [(3, [other]), (5, [other, last])]:
            it.own.compact(epoch)
            found = [bytes.fromhex(body) for line in it.lines() for body in json.loads(line).get("replaced", [])]
            assert found == wanted, f"replaced: the snapshot of epoch {epoch} has them: {found}"

        def changed(ask: Any, opening: Any, point: Any, chain: Any, replaced: Sequence[bytes], link: bytes) -> Iterator[bytes]:
            return lines_of(ask, opening, point, chain, [first] * len(replaced), link)

        def opened_otherwise(ask: Any, opening: Any, *others: Any) -> Iterator[bytes]:
            return lines_of(ask, {**opening, "nonce": "00" * 32}, *others)

        for what, call in [("other bodies", changed), ("another nonce", opened_otherwise)]:
            with mock.patch.object(_engine, "lines_of", call):
                raises(f"replaced: {what} in the lines", SnapshotDiffers, it.own.compact)
        assert it.again()._host.known.replaced == wanted and it.own.latest().epoch == 5, "replaced: a start"


class Recorded:
    """A signer that says what its record has."""

    def __init__(self, signed: bytes, requested: bytes) -> None:
        self._has = signed, requested

    def __call__(self, body: bytes) -> bytes:
        raise TimeoutError("the signer is told to fail")

    def signed(self) -> bytes:
        return self._has[0]

    def requested(self) -> bytes:
        return self._has[1]


@pytest.mark.parametrize(
    "mode, error",
    [
        ("lacks", SnapshotDiffers),
        ("repeats", SnapshotDiffers),
        ("rebinds", SnapshotDiffers),
        ("babbles", SnapshotDiffers),
        ("never ends", ProgramFailed),
        ("links", ProgramFailed),
        ("counts", ProgramFailed),
        ("counts later", SnapshotDiffers),
        ("builds", SnapshotDiffers),
        ("salts", SnapshotDiffers),
        ("knows none", ProgramFailed),
    ],
)
def test_lies(program: str, mode: str, error: type[ProviderError]) -> None:
    """A program that prints something else: its child stays, and so does the older snapshot."""
    with staged(program) as it:
        fill(it.own, [1, 2])
        it.own.compact(1)
        it.snapshot.rename(it.room / "first")
        it.program = [sys.executable, str(HERE / "lying.py"), mode, program]
        own = it.again()
        (it.room / "first").rename(it.snapshot)
        fails(it)
        before, pid, there = it.snapshot.read_bytes(), own.pid, seen(own, [1, 2])
        children = {*children_of(os.getpid())}
        raises("a snapshot", error, lambda: own.compact(2))
        assert {*children_of(os.getpid())} == children, "the second child has ended"
        assert it.snapshot.read_bytes() == before and not (it.room / "log.snapshot.new").exists(), "the snapshot stays"
        assert own.pid == pid and seen(own, [1, 2]) == there, "the child stays"
        own.retry()
        it.program = program
        assert it.again().latest().epoch == 9, "a start takes the older one"


class Delayed:
    """A log whose `compact` calls something while the lines of a snapshot are read."""

    def __init__(self, log: FileLog, number: int, call: Callable[[], object]) -> None:
        self._log, self._number, self._call = log, number, call

    def __getattr__(self, name: str) -> Any:
        return getattr(self._log, name)

    def compact(self, position: int, lines: Iterator[bytes]) -> None:
        def reported() -> Iterator[bytes]:
            for number, line in enumerate(lines):
                if number == self._number:
                    self._number = -1
                    self._call()
                yield line

        self._log.compact(position, reported())


MEANWHILE: dict[str, Callable[[Stage], object]] = {
    "a commit": lambda it: it.own.commit(9, [Register("meanwhile", b"key")]),
    "a lookup": lambda it: it.own.lookup("user-1-0", 1),
    "a restart": lambda it: it.own.restart(),
    "the child ends": lambda it: kill_child(it.own),
    "a signer that fails": lambda it: fails(it),
}


@pytest.mark.parametrize("what", MEANWHILE)
@pytest.mark.parametrize("number", range(4))
def test_meanwhile(program: str, number: int, what: str) -> None:
    """What goes on while a line of a snapshot is taken: commits, lookups, ends of children and restarts."""
    with staged(program) as it:
        fill(it.own, [1, 2, 3])
        it.own._log = Delayed(it.log, number, lambda: in_thread(lambda: MEANWHILE[what](it)))
        try:
            it.own.compact(2)
            is_taken = True
        except ProgramFailed:
            is_taken = "child" in what
            it.own.compact(2)
        assert is_taken and b'"position":5' in it.lines()[0], "the snapshot is stored"
        chain, pending = it.own.chain(), it.own.pending
        assert len(chain) == (4 if "commit" in what else 3), "what was there is there"
        assert bool(pending) == ("signer" in what), "what is pending is"
        raises("the first epoch is gone", UnknownEpoch, lambda: it.own.lookup("user-1-0", 1))
        assert it.again(sign_pending=False).chain() == chain and it.own.pending == pending, "a start"


def test_late(program: str) -> None:
    """A commit after another child has read the log for the last time without waiting."""
    with staged(program) as it:
        fill(it.own, [1, 2])
        count, real = 0, _engine.Engine.follow

        def follow(engine: _engine.Engine, position: int) -> None:
            nonlocal count
            real(engine, position)
            count += 1
            if count == 3:
                in_thread(lambda: it.own.commit(9, [Register("late", b"key")]))

        with mock.patch.object(_engine.Engine, "follow", follow):
            it.own.compact(2)
        assert shown(it.own.lookup("late")) == b"key" and count == 4, f"late: it is there: {count}"
        assert len(it.again().chain()) == 3, "late: a start"


def test_removed(program: str) -> None:
    """The new snapshot is removed, or another file is put there, while it is written."""
    with staged(program) as it:
        fill(it.own, [1, 2])
        it.own.compact()
        before, new = it.snapshot.read_bytes(), it.room / "log.snapshot.new"

        def exchange() -> None:
            new.unlink()
            new.write_bytes(b"other")

        calls: list[tuple[str, Callable[[], object]]] = [("removed", new.unlink), ("exchanged", exchange)]
        for what, call in calls:
            it.own.commit(it.own.latest().epoch + 1, [])
            it.own._log = Delayed(it.log, 2, call)
            raises(f"removed: the new one is {what}", LogRefused, it.own.compact)
            assert it.snapshot.read_bytes() == before, f"removed: the older one stays, {what}"
            assert new.exists() == (call is exchange), f"removed: another one isn't removed, {what}"
        it.own._log = it.log
        raises("removed: another file is at its place", LogRefused, it.own.compact)
        assert new.read_bytes() == b"other", "removed: it stays"
        new.unlink()
        assert it.own.compact() == 9 and it.again().latest().epoch == 4, "removed: then one is stored"


def fails(it: Stage) -> None:
    it.signer.fails = 1
    try:
        it.own.commit(9, [Register("late", b"key")])
    except SignerFailed:
        pass


def in_thread(call: Callable[[], object]) -> None:
    """Makes a call in another thread, and waits for it."""
    thread = threading.Thread(target=call)
    thread.start()
    thread.join()


def test_ends(program: str) -> None:
    """The directory is closed while a snapshot is taken, two are taken at once, and logs that store none."""
    with staged(program) as it:
        fill(it.own, [1, 2])

        def close() -> None:
            threading.Thread(target=it.own.close).start()
            it.own._host._thread.join(10)

        it.own._log = Delayed(it.log, 3, close)
        raises("ends: closed meanwhile", provider.Closed, it.own.compact)
        it.own.close()
        assert not it.snapshot.exists() and it.again().latest().epoch == 2, "ends: nothing is stored, and the log is whole"
        threads = [threading.Thread(target=it.own.compact) for _ in range(5)]
        for thread in threads:
            thread.start()
        for thread in threads:
            thread.join()
        assert it.own.compact() == 5 and it.again().latest().epoch == 2, "ends: five at once"
        pid, first = it.own.pid or 0, it.own._host.known
        it.own.compact()
        raises("ends: the first child isn't asked again", ProgramFailed, lambda: first.ask(b'{"cmd":"latest"}'))
        assert not Path(f"/proc/{pid}").exists() and it.own.pid != pid, "ends: the first child has ended"
        with mock.patch.object(it.log, "append", side_effect=LogFailed("told to fail")):
            raises("ends: a log that fails", LogFailed, lambda: it.own.commit(3, []))
        raises("ends: a directory that needs a restart", provider.RestartNeeded, it.own.compact)
        it.own.restart()
        it.own.compact()
        it.own.close()
        raises("ends: a closed directory", provider.Closed, it.own.compact)
        it.again()
        with mock.patch.object(it.log, "compact", side_effect=OSError(5, "told to fail")):
            raised = raises("ends: a log that raises another error", LogFailed, it.own.compact)
            assert "can't be stored: told to fail. " in str(raised), f"ends: it names the cause: {raised}"
    with tempfile.TemporaryDirectory() as room:
        signer = Signer(room, Salted())
        with opened(program, Bare(), signer, create=True) as own:
            own.commit(1, [])
            raised = raises("ends: a log that stores none", ProviderError, own.compact)
            assert "FileLog" in str(raised), f"ends: it says what to add: {raised}"


class Slow:
    """A log that takes some time for a snapshot, and says when it begins and ends."""

    def __init__(self, log: FileLog) -> None:
        self._log, self.has_begun, self.has_ended = log, threading.Event(), False

    def __getattr__(self, name: str) -> Any:
        return getattr(self._log, name)

    def compact(self, position: int, lines: Iterator[bytes]) -> None:
        whole = [*lines]
        self.has_begun.set()
        time.sleep(0.3)
        self._log.compact(position, whole)
        self.has_ended = True


def test_closed(program: str) -> None:
    """A directory that is closed waits for a snapshot that is being stored, so that the log can be closed then."""
    with staged(program) as it:
        fill(it.own, [1, 2])
        slow = it.own._log = Slow(it.log)
        thread = threading.Thread(target=it.own.compact)
        thread.start()
        slow.has_begun.wait()
        it.own.close()
        assert slow.has_ended and it.snapshot.exists(), "closed: the snapshot is stored"
        thread.join()
        assert it.again().latest().epoch == 2, "closed: a start"


class Stale:
    """A log whose `snapshot` returns another one at its first call, as if it were replaced then."""

    def __init__(self, log: FileLog, position: int, lines: Sequence[bytes]) -> None:
        self._log, self._first = log, [(position, iter(lines))]

    def __getattr__(self, name: str) -> Any:
        return getattr(self._log, name)

    def snapshot(self) -> Any:
        return self._first.pop() if self._first else self._log.snapshot()


def test_stale(program: str) -> None:
    """Another process stores a snapshot, and drops lines, while a start reads the older one."""
    with staged(program) as it:
        fill(it.own, [1, 2, 3, 4])
        position = it.own.compact(2)
        lines = it.lines()
        for count in range(1, len(lines)):
            log = Stale(it.log, position, lines[:count])
            refused(f"stale: a snapshot of {count} lines", SnapshotDiffers, lambda: opened(program, log, it.signer))
        it.log.drop_before(it.own.compact(4))
        with opened(program, Stale(it.log, position, lines), it.signer) as own:
            assert own.chain() == it.own.chain() and own.lookup("user-1-0", 4).epoch == 4, "stale: the newer one is read"

        def ends() -> Iterator[bytes]:
            yield from lines[:3]
            raise LinesDropped("another snapshot took its place")

        with opened(program, Stale(it.log, position, ends()), it.signer) as own:  # type: ignore[arg-type]
            assert own.chain() == it.own.chain(), "stale: one that ends while it is read"
        with mock.patch.object(it.log, "read", side_effect=LinesDropped("told to fail")) as read:
            raises("stale: no newer one", LinesDropped, it.own.restart)
        # For the line before it, which was dropped, and for those after it.
        assert read.call_count == 2, f"stale: the same one isn't read again: {read.call_count}"


def test_slow(program: str) -> None:
    """The program may take its timeout for each 4,096 names that it restores."""
    with staged(program) as it:
        for epoch in (1, 2):
            it.own.commit(epoch, [Register(f"user-{epoch}-{number}", b"key") for number in range(2100)])
        it.own.compact()
        it.program = [sys.executable, str(HERE / "lying.py"), "slow", program]
        it.close()
        it.log = FileLog(it.path)
        # It may take more than one, and less than two.
        assert it.start(timeout=0.95 * SLOW).latest().names == 4200, "slow: a start"
        it.close()
        it.log = FileLog(it.path)
        raises("slow: too slow", ProgramFailed, lambda: it.start(timeout=0.45 * SLOW))


def test_refused_lines(program: str) -> None:
    """The log refuses the line of an epoch that the child has installed, and then a snapshot is taken."""
    with staged(program) as it:
        fill(it.own, [1, 2])
        real = it.log.append

        def refuses(position: int, line: bytes) -> None:
            if b'"install"' in line:
                raise LogRefused("told to refuse: go on")
            real(position, line)

        with mock.patch.object(it.log, "append", refuses):
            raises("refused lines: a commit", LogRefused, lambda: it.own.commit(3, [Register("late", b"key")]))
            assert it.own.compact() == 5 and it.own.latest().epoch == 2 and it.own.pending, "refused lines: a snapshot"
        assert it.own.retry().epoch == 3 and it.signer.is_requested_once(), "refused lines: the same body"
        assert it.again().chain() == it.own.chain() and shown(it.own.lookup("late")) == b"key", "refused lines: a start"


class Bare:
    """A log in memory that stores no snapshots."""

    def __init__(self) -> None:
        self.lines: list[bytes] = []

    def append(self, position: int, line: bytes) -> None:
        self.lines.append(line)

    def read(self, position: int) -> Iterator[bytes]:
        return iter(self.lines[position:])
