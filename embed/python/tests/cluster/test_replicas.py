"""What a replica must do, one by one."""

from __future__ import annotations

import gc
import tempfile
import time
from concurrent.futures import ThreadPoolExecutor
from contextlib import ExitStack
from typing import Iterator
from unittest import mock

import pytest

pytest.importorskip("psycopg")

from database import Database, soon
from stand_ins import POLICY, Salted, Signer, audited, index, kill_child, opened
from raising import raises
from coniks.postgres import PostgresLog
from coniks._engine import Engine
from coniks.provider import Change, Closed, EpochNotLater, LogFailed, NoDirectory, Overtaken, Provider, Register
from coniks.provider import ReplayDiffers, RestartNeeded, SignerFailed, entries, Settings
from coniks.replica import Replica


class Pair(ExitStack):
    """A provider and a replica, each with its own connections to one table."""

    def __init__(self, program: str, database: Database, table: str) -> None:
        super().__init__()
        self.signer = Signer(self.enter_context(tempfile.TemporaryDirectory()), Salted())
        self.written, self.log = (self.enter_context(it(database.conninfo, table)) for it in (PostgresLog.create, PostgresLog))
        self.cut = f"SELECT pg_terminate_backend(pid) FROM pg_stat_activity WHERE application_name = '{table}'"
        self.database = database
        self.own = self.enter_context(opened(program, self.written, self.signer))
        self.replica = self.enter_context(Replica(Settings(program, index, POLICY), self.log))

    def lead(self) -> Provider:
        return self.enter_context(self.replica.promote(self.signer, verify=self.signer.verify))


@pytest.fixture
def pair(program: str, database: Database, request: pytest.FixtureRequest) -> Iterator[Pair]:
    with Pair(program, database, request.node.name) as pair:
        yield pair


def test_following(pair: Pair) -> None:
    own, replica = pair.own, pair.replica
    for epoch in (1, 2):
        own.commit(epoch, [Register(f"user-{epoch}", b"key")])
    assert soon(lambda: replica.latest() == own.latest()), "replica: it follows"
    requested = [(name, epoch) for name in ("user-1", "user-2", "no") for epoch in (1, 2)]
    assert [own.lookup(*it) for it in requested] == [
        replica.lookup(*it) for it in requested
    ], "replica: the answers are the provider's"
    assert own.chain() == replica.chain() == [*entries(pair.log)], "replica: so is the chain"
    assert replica.chain(1) == own.chain()[1:] and audited(own.chain(), Salted(), False), "replica: from an epoch on"
    assert soon(lambda: replica.lag().lines == 0 and replica.lag().seconds < 2 and not replica.lag().error), "replica: no lag"
    with mock.patch.dict(pair.log._sql, listen=pair.log._sql["count"]):
        pair.database.execute(pair.cut)
        own.commit(3, [])
        assert soon(lambda: replica.latest().epoch == 3), "replica: it follows without a notification"
        own.commit(4, [])
    with ThreadPoolExecutor(4) as pool:
        list(pool.map(lambda _: replica.follow(), range(8)))
    assert replica.latest().epoch == 4 and replica.chain() == own.chain(), "replica: calls that read the same lines"


def test_promotion(pair: Pair) -> None:
    own, replica, signer, log = pair.own, pair.replica, pair.signer, pair.log
    own.commit(4, [Register("user-1", b"key")])
    assert soon(lambda: replica.latest().epoch == 4), "promotion: the replica follows"
    with mock.patch.dict(log._sql, read=b"no query"):
        own.commit(5, [])
        is_reported = soon(lambda: replica.lag().lines == 2 and isinstance(replica.lag().error, LogFailed))
        time.sleep(0.3)
        assert is_reported, "replica: a log that can't be read"
        assert replica.lag().seconds > 0.3 and replica.lookup("user-1").epoch == 4, "replica: the lag grows, and lookups go on"
        raises("replica: a promotion without the log", LogFailed, pair.lead)
    assert soon(lambda: replica.latest().epoch == 5), "replica: it follows again"
    position = own._host.known.position
    own.commit(6, [])
    with mock.patch.object(log, "read", wraps=log.read) as read:
        new = pair.lead()
        assert min(it.args[0] for it in read.call_args_list) >= position, "promotion: only what wasn't read is replayed"
    assert new.commit(7, [Register("seven", b"key")]).epoch == new.lookup("seven").epoch, "promotion: the last lines are read"
    raises("promotion: the replica is closed", Closed, replica.latest)
    raises("promotion: the old provider", Overtaken, lambda: own.commit(7, [Register("other", b"key")]))
    raises("promotion: the old provider's next commit", RestartNeeded, lambda: own.commit(8, []))
    assert own.lookup("user-1").epoch == own.latest().epoch == 6, "promotion: the old provider's lookups go on"
    assert signer.is_requested_once() and {*signer.requested()} == {4, 5, 6, 7}, "promotion: one body for each epoch"
    new.restart()
    assert new.latest().names == 2 and new.chain() == [*entries(log)], "promotion: a restart"


def test_pending(pair: Pair) -> None:
    """A provider stops between `prepare` and the signer, and goes on once a replica was promoted."""
    append, signer = pair.written.append, pair.signer

    def take(position: int, line: bytes) -> None:
        append(position, line)
        signer.fails = 1
        raises("pending: a signer that fails", SignerFailed, pair.lead)
        # What is left of that promotion must not end the replica.
        gc.collect()
        assert pair.replica.latest().epoch == 0 and signer.requested().keys() == {1}, "pending: the replica goes on"
        new = pair.lead()
        assert new.pending is None and new.lookup("alice").entry == next(entries(pair.log)), "pending: it is installed"
        assert signer.is_requested_once() and len([*pair.log.read(0)]) == 3, "pending: one body"
        raises("pending: its number is spent", EpochNotLater, lambda: new.commit(1, []), latest=1)

    with mock.patch.object(pair.written, "append", take):
        raises("pending: the old provider", Overtaken, lambda: pair.own.commit(1, [Register("alice", b"key")]))


def test_wrong(pair: Pair) -> None:
    """Lines that a replica's child doesn't answer so."""
    own, replica, take = pair.own, pair.replica, Engine.take
    own.commit(1, [Register("alice", b"key")])
    replica.follow()
    for epoch, what, old in [(2, "body", b'"body":"01'), (3, "link", b'"link":"')]:
        with mock.patch.object(Engine, "take", lambda engine, line: take(engine, line.replace(old, old + b"f"))):
            own.commit(epoch, [Change("alice", b"%d" % epoch)])
            assert soon(lambda: isinstance(replica.lag().error, ReplayDiffers)), f"replica: another {what} stops it"
            raised = raises(f"replica: follow then, another {what}", RestartNeeded, replica.follow)
            assert raised and isinstance(raised.__cause__, ReplayDiffers), f"replica: the cause, another {what}"
            raises(f"replica: restart then, another {what}", ReplayDiffers, replica.restart)
            assert replica.lookup("alice") == own.lookup("alice", epoch - 1), f"replica: lookups go on, another {what}"
        replica.restart()
        assert replica.lookup("alice") == own.lookup("alice"), f"replica: a restart after another {what}"
        assert soon(lambda: replica.lag().error is None), f"replica: no error then, another {what}"


def test_children(pair: Pair) -> None:
    """The child of a replica ends: it is started again without a call, and follows."""
    own, replica = pair.own, pair.replica
    own.commit(1, [Register("alice", b"key")])
    for epoch in (2, 3):
        before = replica.pid
        kill_child(replica)
        own.commit(epoch, [])
        assert soon(lambda: replica.latest().epoch == epoch), f"replica: a child that ended follows, epoch {epoch}"
        assert replica.pid != before and replica.lookup("alice") == own.lookup(
            "alice"
        ), f"replica: another child looks up, epoch {epoch}"


def test_opening(program: str, database: Database, pair: Pair) -> None:
    """A log under another policy, and one that isn't there."""
    pair.own.commit(1, [])
    with PostgresLog(database.conninfo, "empty") as empty:
        raises("another policy", LogFailed, lambda: Replica(Settings(program, index, bytes(32)), pair.log))
        raises("no log", NoDirectory, lambda: Replica(Settings(program, index, POLICY), empty))
