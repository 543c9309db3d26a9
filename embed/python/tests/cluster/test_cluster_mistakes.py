"""What an operator of several machines does wrong: a dropped or restored table, missing rights, exchanged keys, two promotions.

After each mistake the signer was asked for one body per epoch, no lookup contradicts an earlier one, and the error's text says
what to do next.
"""

from __future__ import annotations

import tempfile
import time
from typing import Iterator

import pytest

pytest.importorskip("psycopg")

from clusters import ENDS, PATIENCE, Call, Cluster
from database import Database, soon
from stand_ins import POLICY, Salted, Signer, guarded, index, opened, other_index, shown
from coniks import Head
from coniks.postgres import PostgresLog
from coniks.provider import LogBehind, LogFailed, LogForked, LogRefused, NoDirectory, OtherIndex, Overtaken, Provider
from coniks.provider import Register, ReplayDiffers, RestartNeeded, entries, Settings
from coniks.replica import Replica


@pytest.fixture
def it(program: str, database: Database, request: pytest.FixtureRequest) -> Iterator[Cluster]:
    with Cluster(program, database, request.node.name) as cluster:
        yield cluster


def test_dropped(it: Cluster) -> None:
    """The table is dropped, and made again empty, while the service runs."""
    it.execute("DROP TABLE {table}")
    it.refuses("a dropped table: commit", LogRefused, lambda: it.own.commit(3, []))
    it.refuses("a dropped table: restart", NoDirectory, it.own.restart)
    it.goes_on("a dropped table")
    it.refuses("a dropped table: a new start", NoDirectory, lambda: it.writer(it.log()))
    it.refuses("a dropped table: a new replica", NoDirectory, it.follower)
    PostgresLog.create(it.database.conninfo, it.table).close()
    it.refuses("an empty table: commit", RestartNeeded, lambda: it.own.commit(3, []))
    it.refuses("an empty table: restart", NoDirectory, it.own.restart)
    it.refuses("an empty table: a new start", NoDirectory, lambda: it.writer(it.log()))
    it.stops("an empty table", LogForked)
    it.goes_on("an empty table")


def test_places(it: Cluster) -> None:
    """Another table, schema or database."""
    it.execute("CREATE SCHEMA other", "CREATE DATABASE empty")
    elsewhere = it.database.conninfo.replace("dbname=postgres", "dbname=empty")
    for what, conninfo, table in [
        ("another table", "", "typo"),
        ("another schema", "", f"other.{it.table}"),
        ("another database", elsewhere, ""),
    ]:
        it.refuses(f"{what}: a writer", NoDirectory, lambda: it.writer(it.log(conninfo, table)))
        it.refuses(f"{what}: an auditor", NoDirectory, lambda: [*entries(it.log(conninfo, table))])
    assert not it.database.execute("SELECT to_regclass('typo')")[0][0], "another table: none is made"
    for table in ("Upper", "per%cent", "ünïcode", "a.b.c", "x" * 64, "", "sp ace", 'quo"te'):
        it.refuses(f"a table named {table[:10]!r}", LogFailed, lambda: PostgresLog(it.database.conninfo, table))
    it.refuses("a connection string that can't be read", LogFailed, lambda: PostgresLog("host=secret what", it.table))
    it.goes_on("other places")


def test_restored(it: Cluster) -> None:
    """An old dump is restored, and somebody goes on from it."""
    it.execute("CREATE TABLE old AS SELECT * FROM {table} WHERE position < 3")
    it.own.commit(3, [Register("carol", b"3")])
    assert soon(lambda: it.replica.latest().epoch == 3), "an old dump: the replica follows"
    it.look()
    it.execute("DELETE FROM {table} WHERE position >= 3")
    it.stops("an old dump", LogForked)
    it.refuses("an old dump: commit", LogFailed, lambda: it.own.commit(4, []))
    it.refuses("an old dump: restart", LogForked, it.own.restart)
    it.refuses("an old dump: restart again", LogForked, it.own.restart)
    it.refuses("an old dump: the replica's restart", LogForked, it.replica.restart)
    assert len(it.own.chain()) == len(it.replica.chain()) == 3, "an old dump: the chain is still there"
    ends = [seen.entries for seen in (it.own.evidence(), it.replica.evidence()) if seen]
    assert ends == [None, None], "an old dump: no two entries are evidence"
    it.goes_on("an old dump")
    # A second signer, which keeps no record, signs for a directory that goes on from the dump.
    forger = Signer(it.enter_context(tempfile.TemporaryDirectory()), it.signer.keys)
    with it.log() as log, opened(it.program, log, forger) as other:
        other.commit(2, [Register("mallory", b"2")])
        other.commit(4, [])
        forged = other.chain()
    it.refuses("a fork: restart", LogForked, it.own.restart)
    it.refuses("a fork: the replica's restart", LogForked, it.replica.restart)
    for what, directory in [("the writer", it.own), ("the replica", it.replica)]:
        seen, chain = directory.evidence(), directory.chain()
        assert seen and (seen.known, seen.found) == (chain, forged), f"a fork: {what} has both chains"
        assert seen and seen.bodies == (chain[1][:145], forged[1][:145]), f"a fork: {what} has both bodies"
        assert seen and seen.entries == (chain[1], forged[1]), f"a fork: {what} has both entries"
    it.goes_on("a fork")
    assert shown(it.replica.lookup("carol")) == shown(it.own.lookup("carol")) == b"3", "a fork: a name is never shown as absent"
    it.replica.discard_evidence(it.replica.latest().link)
    it.replica.restart()
    assert it.replica.chain() == forged and it.replica.evidence() is None, "a fork that is taken after all"


def test_guarded(it: Cluster) -> None:
    """An old dump under a guard: no process that starts or takes over goes on from it."""
    guard = guarded(it.signer, known=it.own.chain()[-1])
    it.own = it.writer(it.log(), sign=guard)
    made = it.own.commit(3, [Register("carol", b"3")])
    assert soon(lambda: it.replica.latest().epoch == 3), "an old dump and a guard: the replica follows"
    it.look()
    it.execute("CREATE TABLE {table}_later AS SELECT * FROM {table} WHERE position > 4", "DELETE FROM {table} WHERE position > 4")
    it.refuses("an old dump and a guard: a start", LogBehind, lambda: it.writer(it.log(), sign=guard))
    it.refuses("an old dump and a guard: restart", LogBehind, it.own.restart)
    behind, head = it.follower(), Head(3, made.link)
    it.refuses("an old dump and a guard: promotion", LogBehind, lambda: behind.promote(guard))
    it.refuses("an old dump and a head: promotion", LogBehind, lambda: behind.promote(it.signer, head=head))
    it.refuses("an old dump and a head: follow", LogBehind, lambda: behind.follow(head=head))
    it.refuses("an old dump and a head: a new replica", LogBehind, lambda: it.follower(head=head))
    assert behind.lookup("bob").epoch == 2 and behind.lag().error is None, "an old dump and a guard: the replica goes on"
    it.goes_on("an old dump and a guard")
    it.execute("INSERT INTO {table} SELECT * FROM {table}_later")
    assert soon(lambda: behind.latest().epoch == 3), "the whole log and a guard: the replica follows"
    behind.follow(head=head)
    new = it.enter_context(behind.promote(guard, verify=it.signer.verify, head=head))
    assert new.commit(4, []).epoch == 4 and guard.signed() == new.chain()[-1], "the whole log and a guard: promotion"
    it.own.restart()
    it.replica.restart()
    it.goes_on("the whole log and a guard")


def test_swapped(it: Cluster) -> None:
    """A table of another directory gets the name, between two epochs. First one that has as many lines."""
    forger = Signer(it.enter_context(tempfile.TemporaryDirectory()), it.signer.keys)
    it.execute("CREATE TABLE kept AS SELECT * FROM {table}", "DELETE FROM {table} WHERE position > 2")
    with it.log() as log, opened(it.program, log, forger) as other:
        other.commit(2, [Register("mallory", b"2")])
    it.refuses("another epoch in the place of this one: commit", Overtaken, lambda: it.own.commit(3, []))
    it.refuses("another epoch in the place of this one: restart", LogForked, it.own.restart)
    it.execute("DELETE FROM {table} WHERE position > 2", "INSERT INTO {table} SELECT * FROM kept WHERE position > 2")
    it.own.restart()
    it.replica.restart()
    it.goes_on("another epoch in the place of this one")
    with PostgresLog.create(it.database.conninfo, "swapped") as log, opened(it.program, log, forger) as other:
        for epoch in (1, 2, 3):
            other.commit(epoch, [Register(f"other-{epoch}", b"key")])
    it.execute("ALTER TABLE {table} RENAME TO mine", "ALTER TABLE swapped RENAME TO {table}")
    it.stops("a table of another directory", ReplayDiffers)
    it.refuses("a table of another directory: commit", (Overtaken, LogFailed), lambda: it.own.commit(3, []))
    it.refuses("a table of another directory: restart", LogForked, it.own.restart)
    it.goes_on("a table of another directory")
    it.execute("ALTER TABLE {table} RENAME TO swapped", "ALTER TABLE mine RENAME TO {table}")
    it.own.restart()
    it.replica.restart()
    it.own.commit(3, [])
    assert soon(lambda: it.replica.latest().epoch == 3) and it.replica.lag().error is None, "the right table again"
    assert it.replica.evidence() and it.own.evidence(), "the right table again: the evidence is kept"
    it.goes_on("the right table again")


def test_rights(it: Cluster) -> None:
    """A role without rights, and settings that change while the service runs."""
    it.execute("CREATE ROLE reader LOGIN", "GRANT SELECT ON {table}, {table}_snapshot TO reader")
    reading = it.database.conninfo.replace("user=postgres", "user=reader")
    it.refuses("a role without rights: a writer", LogRefused, lambda: it.writer(it.log(reading)))
    with Replica(Settings(it.program, index, POLICY), it.log(reading)) as replica:
        it.refuses("a role without rights: promotion", LogRefused, lambda: replica.promote(it.signer))
        it.own.commit(3, [])
        assert soon(lambda: replica.latest().epoch == 3), "a role without rights: the replica goes on"
    for setting, value in [("default_transaction_read_only", "on"), ("synchronous_commit", "off")]:
        it.execute(f"ALTER SYSTEM SET {setting} = {value}", "SELECT pg_reload_conf()")
        epoch = it.own.latest().epoch + 1
        # A session reads the setting some time after the reload.
        committed: list[int] = []
        assert soon(lambda: is_refused(it.own, committed)), f"{setting}: commits are refused"
        it.goes_on(f"{setting} is {value}")
        it.execute(f"ALTER SYSTEM RESET {setting}", "SELECT pg_reload_conf()")
        assert soon(lambda: not is_refused(it.own, committed)), f"{setting}: the next commit follows"
        assert it.own.latest().epoch >= epoch and [*entries(it.log())] == it.own.chain(), f"{setting}: nothing is lost"


def is_refused(own: Provider, committed: list[int]) -> bool:
    try:
        committed.append(own.commit(own.latest().epoch + 1, []).epoch)
        return False
    except LogRefused:
        return True


def test_keys(it: Cluster) -> None:
    """A replica or a standby with another key of the VRF."""
    it.refuses("a replica with another key", OtherIndex, lambda: it.follower(index=other_index))
    current = [index]
    standby = it.follower(index=lambda name: current[0](name))
    current[0] = other_index
    it.refuses("a standby whose key changes", OtherIndex, lambda: standby.promote(it.signer))
    current[0] = index
    it.own.commit(3, [])
    new = it.enter_context(standby.promote(it.signer))
    assert new.commit(4, []).epoch == 4, "the right key again"
    signer = Signer(it.enter_context(tempfile.TemporaryDirectory()), Salted())
    log = it.enter_context(PostgresLog.create(it.database.conninfo, "fresh"))
    own = it.enter_context(opened(it.program, log, signer))
    with Replica(Settings(it.program, other_index, POLICY), it.log(table="fresh")) as replica:
        own.commit(1, [Register("alice", b"1")])
        assert soon(lambda: isinstance(replica.lag().error, OtherIndex)), "a replica with another key, of a new directory"
        it.refuses("a replica with another key: a lookup", RestartNeeded, lambda: replica.lookup("alice"))
    it.goes_on("other keys")


def test_promotions(it: Cluster) -> None:
    """A replica is promoted twice, and two replicas at once."""
    second = it.follower()
    new = it.replica.promote(it.signer, verify=it.signer.verify)
    it.enter_context(new)
    assert it.replica.promote(it.signer) is new, "a promotion that is repeated"
    other = it.enter_context(second.promote(it.signer, verify=it.signer.verify))
    made = new.commit(3, [Register("carol", b"new")])
    it.refuses("two promotions: the slower one", Overtaken, lambda: other.commit(3, [Register("carol", b"other")]))
    it.refuses("two promotions: the old writer", Overtaken, lambda: it.own.commit(3, [Register("carol", b"own")]))
    it.refuses("two promotions: the old writer again", RestartNeeded, lambda: it.own.commit(4, []))
    it.own.restart()
    it.replica = it.follower()
    assert it.own.chain() == it.replica.chain() == new.chain() and new.chain()[-1] == made.entry, "two promotions: one chain"
    it.goes_on("two promotions")


def test_absent(it: Cluster) -> None:
    """PostgreSQL is stopped, and then killed, for longer than a call waits."""
    calls: list[tuple[str, Call]] = [
        ("lookup", lambda: it.own.lookup("alice")),
        ("latest", lambda: it.own.latest()),
        ("the replica's lookup", lambda: it.replica.lookup("alice")),
    ]
    for how, away, back in [("stopped", it.database.stop, it.database.go_on), ("killed", it.database.kill, it.database.start)]:
        epoch, it.signer.fails = it.own.latest().epoch + 1, 0
        away()
        try:
            it.refuses(f"PostgreSQL is {how}: commit", LogFailed, lambda: it.own.commit(epoch, []))
            for what, call in calls:
                start = time.monotonic()
                assert call() and time.monotonic() - start < PATIENCE, f"PostgreSQL is {how}: {what}"
            it.refuses(f"PostgreSQL is {how}: restart", LogFailed, it.own.restart)
            it.refuses(f"PostgreSQL is {how}: follow", LogFailed, it.replica.follow)
            it.refuses(f"PostgreSQL is {how}: promotion", LogFailed, lambda: it.replica.promote(it.signer))
            it.refuses(f"PostgreSQL is {how}: a new log", LogFailed, it.log)
            start = time.monotonic()
            closing = it.own
            closing.close()
            closing._log.close()  # type: ignore[attr-defined]
            assert time.monotonic() - start < ENDS, f"PostgreSQL is {how}: close"
        finally:
            back()
        it.own = it.writer(it.log())
        made = it.own.commit(epoch + 1, [])
        assert soon(lambda: it.replica.latest().epoch == made.epoch), f"PostgreSQL was {how}: the replica follows"
        it.goes_on(f"PostgreSQL was {how}")
