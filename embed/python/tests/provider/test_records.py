"""What a start, a restart and a promotion find in the signer's record, and which heads they take."""

from __future__ import annotations

import tempfile
from contextlib import contextmanager
from typing import Any, Callable, Iterator, Optional
from unittest import mock

from bodies import is_evidence
from memory_log import MemoryLog
from one_chain import Stage, staged
from stand_ins import POLICY, index, opened, replicated
from raising import raises
from coniks import Head
from coniks.guard import RecordFailed
from coniks.provider import LogBehind, LogForked, NoDirectory, Provider, Register, RestartNeeded, SignerFailed
from coniks.provider import entries, Settings
from coniks.replica import Replica


Entry = Optional[bytes]


class Recorded:
    """A signer that says what its record has."""

    def __init__(self, signed: Entry = None, asked: Entry = None) -> None:
        self.has, self.calls = (signed, asked), 0

    def __call__(self, body: bytes) -> bytes:
        self.calls += 1
        raise TimeoutError("the signer is told to fail")

    def signed(self) -> Entry:
        return self.has[0]

    def asked(self) -> Entry:
        return self.has[1]


def changed(entry: bytes, epoch: int, before: int, root: int = 7) -> bytes:
    """An entry with other numbers and another root."""
    return entry[:1] + epoch.to_bytes(8, "big") + before.to_bytes(8, "big") + bytes([root]) * 32 + entry[49:]


class Past(Stage):
    """A directory with the epochs 1 and 3. Epoch 4 was abandoned, and 5 is pending."""

    def __init__(self, room: str, program: str) -> None:
        super().__init__(room, program)
        self.provider.commit(3, [Register("third", b"key")])
        self.fails("", 4)
        self.provider.abandon()
        self.fails("", 5)
        self.one, self.three = entries(self.log)
        assert self.provider.pending
        [self.four], self.five = self.given_up(), self.provider.pending.body

    def replica(self, **more: Any) -> Replica:
        return replicated(MemoryLog(self.lines), self.program, index, **self.more, **more)


@contextmanager
def past(program: str) -> Iterator[Past]:
    with tempfile.TemporaryDirectory() as room:
        stage = Past(room, program)
        try:
            yield stage
        finally:
            stage.close()


Case = tuple[str, Entry, Entry, Optional[type[LogForked]], Optional[tuple[bytes, bytes]]]


def cases(it: Past) -> Iterator[Case]:
    """What a record may have: the signed entry, the body asked for, the error and its two entries."""
    yield "nothing", None, None, None, None
    yield "the latest entry", it.three, None, None, None
    yield "an entry before, as an old record has", it.one, None, None, None
    yield "the pending update, asked for", it.three, it.five, None, None
    yield "the pending update, signed", it.five + bytes(64), None, None, None
    yield "an abandoned update, asked for", it.three, it.four, None, None
    yield "an installed update, asked for", it.one, it.three[:145], None, None
    later, skipping, second, third = (changed(it.three, *of) for of in [(7, 3), (8, 1), (2, 1), (3, 1)])
    yield "a later epoch", later, None, LogBehind, None
    yield "a later epoch that overlaps", skipping, None, LogBehind, (skipping, it.three)
    yield "another body of the pending epoch", changed(it.three, 5, 3), None, LogBehind, None
    yield "another body of the latest epoch", third, None, LogForked, (third, it.three)
    yield "an epoch in a gap", second, None, LogForked, (second, it.three)
    yield "another signature of the latest body", it.three[:145] + bytes(64), None, LogForked, None
    yield "a body that the log lost", it.three, later[:145], LogBehind, None
    yield "a first body that the log lost", None, changed(it.one, 1, 0)[:145], LogBehind, None


def test_starts(program: str) -> None:
    with past(program) as stage:
        size = len(stage.lines.all)
        for what, signed, asked, error, pair in cases(stage):
            signer = Recorded(signed, asked)
            start: Callable[[], Provider] = lambda: opened(
                program, MemoryLog(stage.lines), stage.signer, signer, sign_pending=False, workers=1
            )
            if error is None:
                with start() as own:
                    assert own.latest().epoch == 3 and own.pending and own.evidence() is None, f"record at a start: {what}"
            else:
                raised = raises(f"record at a start: {what}", error, start, entries=pair)
                assert raised and ": " in str(raised), f"record at a start: {what}: it says what to do: {raised}"
            assert len(stage.lines.all) == size and not signer.calls, f"record at a start: {what}: nothing is added or asked"
        pairs = [pair for *_, pair in cases(stage) if pair]
        assert pairs and all(is_evidence(one[:145], other[:145]) for one, other in pairs), "record: the entries are evidence"


def test_restarts(program: str) -> None:
    with past(program) as stage:
        signer = Recorded()
        with opened(program, stage.log, stage.signer, signer, sign_pending=False, workers=1) as own:
            for what, signed, asked, error, pair in cases(stage):
                signer.has, chain = (signed, asked), own.chain()
                restart: Callable[[], None] = lambda: own.restart(sign_pending=False)
                if error is None:
                    restart()
                    assert own.chain() == chain, f"record at a restart: {what}"
                    continue
                raises(f"record at a restart: {what}", error, restart, entries=pair)
                seen = own.evidence()
                assert seen and seen.entries == pair and seen.known == chain, f"record at a restart: {what}: the evidence"
                assert own.lookup("third").epoch == 3 and own.chain() == chain, f"record at a restart: {what}: lookups go on"
                raises(f"record at a restart: {what}: commit", RestartNeeded, lambda: own.commit(9, []))
                signer.has = (None, None)
                restart()
                own.discard_evidence(own.latest().link)
                assert own.evidence() is None and own.pending, f"record at a restart: {what}: a record that is whole again"


def test_promotions(program: str) -> None:
    with past(program) as stage:
        stage.provider.close()
        for what, signed, asked, error, pair in cases(stage):
            signer, replica = Recorded(signed, asked), stage.replica()
            promote: Callable[[], Provider] = lambda: replica.promote(signer, sign_pending=False)
            if error is not None:
                raises(f"record at a promotion: {what}", error, promote, entries=pair)
                seen = replica.evidence()
                assert seen and seen.entries == pair, f"record at a promotion: {what}: the evidence"
                replica.follow()
                assert replica.lookup("third").epoch == 3, f"record at a promotion: {what}: the replica goes on"
                signer.has = (None, None)
            with promote() as own:
                assert (
                    own.pending and own.pending.body == stage.five and not signer.calls
                ), f"record at a promotion: {what}: promoted"
        with stage.replica().promote(stage.guard, verify=stage.signer.verify) as own:
            assert own.commit(6, []).epoch == 6 and stage.epochs() == [1, 3, 5, 6], "record: a promotion by the guard"
        assert stage.is_one_chain(), "record: one chain"


class Later(MemoryLog):
    """A log to which another process appends while it is read, after its lines were taken."""

    another: Callable[[], object] = staticmethod(lambda: None)

    def read(self, position: int) -> Iterator[bytes]:
        lines = [*super().read(position)]
        self.another()
        return iter(lines)


def test_order(program: str) -> None:
    """The record is read before the log, to which another process may append meanwhile."""
    with staged(program) as stage:
        other, log = stage.provider, Later(stage.lines)

        def commits() -> None:
            log.another = lambda: None
            other.commit(other.latest().epoch + 1, [])

        def armed() -> None:
            log.another = commits

        armed()
        own = opened(program, log, stage.signer, stage.guard, workers=1)
        assert own.latest().epoch == 1 and other.latest().epoch == 2, "order: a start beside a commit"
        armed()
        own.restart()
        assert own.latest().epoch == 2 and other.latest().epoch == 3, "order: a restart beside a commit"
        own.close()
        replica = Replica(Settings(program, index, POLICY, workers=1), log)
        replica.follow()
        with mock.patch.object(log, "wait", return_value=0):
            armed()
            with replica.promote(stage.guard, verify=stage.signer.verify) as new:
                assert new.latest().epoch in (3, 4) and other.latest().epoch == 4, "order: a promotion beside a commit"
        assert stage.is_one_chain(), "order: one chain"


def test_unreadable(program: str) -> None:
    """A record that can't be read, and signers whose record has something else."""
    with past(program) as stage:
        own, size, asked = stage.provider, len(stage.lines.all), len(stage.bodies())
        replica, record = stage.replica(), stage.signer.file.with_name("guard")
        guard, text = stage.guard, record.read_text()
        record.write_text("coniks-guard 9\n")
        calls: list[tuple[str, Callable[[], object]]] = [
            ("a start", lambda: opened(program, MemoryLog(stage.lines), stage.signer, guard)),
            ("a restart", own.restart),
            ("a promotion", lambda: replica.promote(guard)),
        ]
        for what, call in calls:
            raised = raises(f"unreadable: {what}", SignerFailed, call)
            assert raised and isinstance(raised.__cause__, RecordFailed), f"unreadable: {what}: its cause"
        for signed, body in [(bytes(208), None), ("text", None), (None, bytes(144))]:
            wrong = Recorded(signed, body)  # type: ignore[arg-type]
            raises(f"unreadable: {signed!r:.9}, {body!r:.9}", SignerFailed, lambda: replica.promote(wrong))
        assert (
            own.lookup("third").epoch == replica.lookup("third").epoch == 3 and not replica.evidence()
        ), "unreadable: lookups go on"
        assert len(stage.lines.all) == size and len(stage.bodies()) == asked, "unreadable: nothing is added or asked"
        record.write_text(text)
        assert own.commit(6, []).epoch == 6 and stage.is_one_chain(), "unreadable: the record again"
        replica.close()


def test_backups(program: str) -> None:
    """An old backup of the log under a guard, and a second directory under its key."""
    with past(program) as stage:
        stage.provider.retry()
        stage.provider.close()
        whole, asked = list(stage.lines.all), len(stage.bodies())
        for size in range(1, len(whole) + 1):
            stage.lines.replace(whole[:size])
            try:
                with opened(program, MemoryLog(stage.lines), stage.signer, stage.guard, workers=1) as own:
                    # What the last two lines have is in the guard's record: the body and its signature.
                    is_well = size >= len(whole) - 1 and own.latest().epoch == 5
            except LogBehind:
                is_well = size < len(whole) - 1 and len(stage.lines.all) == size
            assert is_well and len(stage.bodies()) == asked, f"backups: the first {size} lines"
        stage.lines.replace([])
        raises(
            "backups: a second directory under the key",
            LogBehind,
            lambda: opened(program, MemoryLog(stage.lines), stage.signer, stage.guard, create=True),
        )
        assert stage.lines.all == [], "backups: a second directory: nothing is written"
        raises("backups: no log", NoDirectory, lambda: opened(program, MemoryLog(stage.lines), stage.signer, stage.guard))


def test_lost(program: str) -> None:
    """A log that lost what the guard was asked for: the operator restores it, or has the guard abandon that body."""
    with staged(program) as stage:
        stage.fails("lost")
        stage.provider.close()
        whole = list(stage.lines.all)
        stage.lines.replace(whole[:-1])
        raised = raises("lost: a start", LogBehind, lambda: opened(program, MemoryLog(stage.lines), stage.signer, stage.guard))
        assert "restore" in str(raised) and "abandon" in str(raised), "lost: it names both ways"
        asked = stage.guard.asked()
        assert asked
        stage.guard.abandon(asked)
        with opened(program, MemoryLog(stage.lines), stage.signer, stage.guard, workers=1) as own:
            assert own.commit(3, []).epoch == 3 and [it[8] for it in own.chain()] == [1, 3], "lost: the directory goes on"
        stage.lines.replace(whole)
        raises("lost: the older log then", LogBehind, lambda: opened(program, MemoryLog(stage.lines), stage.signer, stage.guard))


def test_heads(program: str) -> None:
    with past(program) as stage:
        own, last = stage.provider, stage.provider.latest()
        right, old = Head(last.epoch, last.link), Head(1, stage.first.link)
        wrong: list[tuple[str, Head, type[LogForked]]] = [
            ("a later head", Head(9, bytes(32)), LogBehind),
            ("another link", Head(3, bytes(32)), LogForked),
            ("a number without an epoch", Head(2, last.link), LogForked),
        ]
        replica = stage.replica(head=right)
        calls: list[tuple[str, Callable[[Head], object]]] = [
            ("a start", lambda head: opened(program, MemoryLog(stage.lines), stage.signer, stage.guard, head=head)),
            ("a replica", lambda head: stage.replica(head=head)),
            ("follow", lambda head: replica.follow(head=head)),
            ("a promotion", lambda head: replica.promote(stage.guard, head=head)),
            ("a restart", lambda head: own.restart(sign_pending=False, head=head)),
        ]
        size = len(stage.lines.all)
        for where, call in calls:
            for what, head, error in wrong:
                raises(f"heads: {what} at {where}", error, lambda: call(head))
        assert own.lookup("third").epoch == replica.lookup("third").epoch == 3, "heads: lookups go on"
        assert len(stage.lines.all) == size and replica.lag().error is None, "heads: nothing is added, and the replica goes on"
        raises("heads: a commit after a restart that was refused", RestartNeeded, lambda: own.commit(6, []))
        for head in (right, old):
            own.restart(sign_pending=False, head=head)
            replica.follow(head=head)
        raises("heads: a restart of a replica", LogBehind, lambda: replica.restart(head=wrong[0][1]))
        raises("heads: then the replica follows after a restart", RestartNeeded, replica.follow)
        replica.restart(head=right)
        own.close()
        with replica.promote(stage.guard, verify=stage.signer.verify, head=right) as new:
            assert new.latest().epoch == 5 and stage.is_one_chain(), "heads: the right one at a promotion"
