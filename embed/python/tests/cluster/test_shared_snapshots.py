"""Snapshots in a log that several machines share: the second table, replicas that start from it or lag behind it, and an operator's
mistakes."""

from __future__ import annotations

import json
import os
import subprocess
import threading
from contextlib import suppress
from typing import Any, Iterable, Iterator
from unittest import mock

import pytest

pytest.importorskip("psycopg")

import psycopg
from clusters import Cluster
from database import Database, soon
from log_calls import CANCEL, changes, commits_once_waited_for, commits_wait, says
from stand_ins import HERE, POLICY, children_of, index, kill_child, shown
from raising import raises
from coniks._engine import Engine
from coniks.postgres import PostgresLog
from coniks.provider import Change, DirectoryExists, LinesDropped, LogFailed, LogForked, LogRefused, Overtaken, ProviderError
from coniks.provider import Register, RestartNeeded, SnapshotDiffers, UnknownEpoch, entries, Settings
from coniks.replica import Replica


def header(position: int) -> bytes:
    return b'{"snapshot":1,"position":%d}' % position


def breaks() -> Iterator[bytes]:
    """Lines whose source fails."""
    yield header(2)
    raise TimeoutError("told to fail")


def test_rows_are_checked(program: str, database: Database) -> None:
    """The commands of CLUSTER.md print what the directory has, without a snapshot, with one, and once rows were dropped. A row that
    is altered is named."""
    page = (HERE.parents[3] / "docs" / "CLUSTER.md").read_text("utf-8").partition("--replay` reads the rows")[2]
    block = [it for it in page.partition("## ")[0].splitlines() if it.startswith("    ")]
    commands = "\n".join(block).replace("coniks_log", "checked").replace("./provider", program)

    def reported() -> Any:
        words = ["bash", "-c", f"set -o pipefail; database='{database.conninfo}'\n{commands}"]
        return json.loads(subprocess.run(words, stdout=subprocess.PIPE, stderr=subprocess.DEVNULL, check=False).stdout)

    with Cluster(program, database, "checked") as it:
        log, latest = it.log(), it.own.latest()
        wanted: dict[str, Any] = {
            "epoch": latest.epoch,
            "link": latest.link.hex(),
            "names": 2,
            "nodes": latest.nodes,
            "ok": "replay",
            "position": 5,
        }
        assert reported() == wanted, "without a snapshot, whose table is missing"
        position = it.own.compact()
        assert reported() == {**wanted, "nodes": it.own.latest().nodes}, "with a snapshot"
        it.own.commit(3, [Register("carol \\ \n\t ö", b"key")])
        log.drop_before(position)
        latest = it.own.latest()
        wanted = {"epoch": 3, "link": latest.link.hex(), "names": 3, "nodes": latest.nodes, "ok": "replay", "position": 7}
        assert reported() == wanted, "once rows were dropped"
        database.execute("UPDATE checked SET line = convert_to(replace(convert_from(line, 'UTF8'), 'carol', 'clara'), 'UTF8')")
        [(before,)] = database.execute("SELECT count(*) FROM checked_snapshot")
        [(first,)] = database.execute("SELECT min(position) FROM checked")
        line = before + 1 + position - first
        assert reported() == {"line": line, "refused": {"fault": "ReplayDiffers"}}, "a row that is altered"


def test_table(database: Database) -> None:
    """What is stored, replaced, refused and dropped."""
    with PostgresLog.create(database.conninfo, "stored") as log, PostgresLog(database.conninfo, "stored") as other:
        assert log.snapshot() is None, "table: none is stored"
        for number in range(8):
            log.append(number, b"%d" % number)
        for position in (0, 3, 8, 20):
            says(f"table: {position} can't be dropped", LogRefused, lambda: log.drop_before(position), "compact")
        for position in (0, 9):
            raises(
                f"table: no snapshot has the position {position}",
                ValueError,
                lambda: log.compact(position, [header(position)]),
            )
        log.compact(3, [header(3), *[b"old %d" % it for it in range(100)]])
        position, lines = other.snapshot() or (0, iter(()))
        assert position == 3 and [*lines] == [header(3), *(b"old %d" % it for it in range(100))], "table: it is read"
        _, lines = other.snapshot() or (0, iter(()))
        begun = [next(lines) for _ in range(5)]
        raises("table: lines that fail", TimeoutError, lambda: log.compact(5, breaks()))
        assert (other.snapshot() or (0,))[0] == 3 and len(begun) == 5, "table: the older one stays"
        log.compact(5, [header(5), *[b"new %d" % it for it in range(100)]])
        raises("table: it is replaced while it is read", LinesDropped, lambda: [*lines])
        # A reader that has read all lines, and doesn't know it yet.
        log.compact(5, [header(5), *[b"%d" % it for it in range(31)]])
        _, lines = other.snapshot() or (0, iter(()))
        begun = [next(lines) for _ in range(32)]
        log.compact(5, [header(5), b"other"])
        raises("table: it is replaced at the end", LinesDropped, lambda: [*lines])
        raises("table: a position that goes back", Overtaken, lambda: other.compact(4, [header(4)]))
        raises("table: a position that isn't there", ValueError, lambda: log.compact(9, [header(9)]))
        log.compact(5, [header(5), *[b"%d" % it for it in range(40)]])
        database.execute("CREATE TABLE kept AS SELECT * FROM stored_snapshot;DELETE FROM stored_snapshot WHERE line = '20'")
        for _ in range(2):
            _, lines = other.snapshot() or (0, iter(()))
            says("table: a row that is missing", LogFailed, lambda: [*lines], "lacks row", "from a standby or a backup")
        database.execute("DELETE FROM stored_snapshot;INSERT INTO stored_snapshot SELECT * FROM kept;DROP TABLE kept")
        assert len([*(other.snapshot() or (0, []))[1]]) == 41, "table: a row that is restored"
        log.compact(5, [header(5), b"same"])
        position, lines = other.snapshot() or (0, iter(()))
        assert position == 5 and [*lines] == [header(5), b"same"], "table: the same position again"
        for position in (-1, 6, 8):
            says(f"table: {position} stays", LogRefused, lambda: log.drop_before(position), "position 5", "compact")
        assert len([*other.read(0)]) == 8, "table: nothing is dropped"
        for position in (3, 2, 5, 5):
            log.drop_before(position)
        assert [*other.read(5)] == [b"5", b"6", b"7"] and other.wait(0, 0) == 8, "table: the lines from there on"
        says("table: a dropped line", LinesDropped, lambda: [*other.read(2)], "at least 4")
        log.append(8, b"8")
        for position in (0, 1, 3, 4):
            raises(f"table: an append at {position}", Overtaken, lambda: other.append(position, b'{"cmd":"open"}'))
        raises("table: a position that is taken", Overtaken, lambda: other.append(8, b"other"))
        other.append(9, b"9")
        log.compact(10, [header(10)])
        log.drop_before(10)
        assert [*other.read(10)] == [] and other.wait(0, 0) == 10, "table: all lines"
        log.append(10, b"10")
        database.execute("DELETE FROM stored WHERE position > 8")
        says("table: a log that lost lines", LogFailed, log.snapshot, "position 10", "restore")
        database.execute("DROP TABLE stored")
        says("table: a log that is missing", LogFailed, log.snapshot, "restore")
        raises("table: a new log beside a snapshot", DirectoryExists, lambda: PostgresLog.create(database.conninfo, "stored"))
        database.execute("DROP TABLE IF EXISTS stored, stored_snapshot")


def test_names(database: Database) -> None:
    database.execute("CREATE SCHEMA IF NOT EXISTS keys")
    for name, is_well in [("a" * 54, True), ("a" * 55, False), (f"keys.{'b' * 54}", True), (f"keys.{'b' * 55}", False)]:
        with PostgresLog.create(database.conninfo, name) as log:
            log.append(0, b"line")
            if is_well:
                log.compact(1, [header(1)])
                assert (log.snapshot() or (0,))[0] == 1, f"names: {len(name)} characters"
            else:
                says(f"names: {len(name)} characters", LogRefused, lambda: log.compact(1, [header(1)]), "too long")
                assert log.snapshot() is None, f"names: {len(name)} characters: none is stored"


def test_rights(database: Database) -> None:
    """Each right that is missing is named, and the advice helps. A log of an older version has no second table."""
    database.execute("CREATE ROLE store LOGIN;CREATE ROLE look LOGIN")
    with PostgresLog.create(database.conninfo, "rights") as log:
        log.append(0, b"line")
        log.append(1, b"line")
    database.execute("DROP TABLE rights_snapshot;GRANT SELECT, INSERT ON rights TO store;GRANT SELECT ON rights TO look")
    storing, looking = (database.conninfo.replace("user=postgres", f"user={it}") for it in ("store", "look"))
    with PostgresLog(storing, "rights") as log, PostgresLog(looking, "rights") as look:
        assert log.snapshot() is None and look.snapshot() is None, "rights: an older log has none"
        text = says("rights: to make the table", LogRefused, lambda: log.compact(1, [header(1)]), "GRANT CREATE ON SCHEMA")
        database.execute(text[text.index("GRANT") :])
        log.compact(1, [header(1)])
        assert (log.snapshot() or (0,))[0] == 1, "rights: the owner's"
        text = says("rights: to read it", LogFailed, look.snapshot, "GRANT SELECT ON rights_snapshot TO look")
        database.execute(text[text.index("GRANT") :])
        assert (look.snapshot() or (0,))[0] == 1, "rights: to read it: the advice helps"
        says("rights: a reader can't store one", LogRefused, lambda: look.compact(1, [header(1)]), "rights_snapshot TO look")
        text = says("rights: to drop lines", LogRefused, lambda: log.drop_before(1), "GRANT DELETE ON rights TO store")
        database.execute(text[text.index("GRANT") :])
        log.drop_before(1)
        database.execute("ALTER TABLE rights_snapshot OWNER TO postgres;REVOKE ALL ON rights_snapshot FROM store")
        text = says("rights: to store", LogRefused, lambda: log.compact(2, [header(2)]), "GRANT SELECT, INSERT, DELETE")
        database.execute(text[text.index("GRANT") :])
        log.compact(2, [header(2)])
        assert (look.snapshot() or (0,))[0] == 2, "rights: to store: the advice helps"
    for change, back in [
        ("SET UNLOGGED", "SET LOGGED"),
        ("ENABLE ROW LEVEL SECURITY", "DISABLE ROW LEVEL SECURITY"),
        ("DROP CONSTRAINT rights_snapshot_pkey", "ADD PRIMARY KEY (number)"),
        ("ADD more text", "DROP more"),
    ]:
        database.execute(f"ALTER TABLE rights_snapshot {change}")
        with PostgresLog(database.conninfo, "rights") as log:
            for what, call in [("read", log.snapshot), ("store", lambda: log.compact(2, [header(2)]))]:
                says(f"rights: {change}: {what}", (LogFailed if what == "read" else LogRefused), call, "rights_snapshot")
        database.execute(f"ALTER TABLE rights_snapshot {back}")
    database.execute("CREATE RULE none AS ON INSERT TO rights_snapshot DO INSTEAD NOTHING")
    with PostgresLog(database.conninfo, "rights") as log:
        says("rights: a rule", LogRefused, lambda: log.compact(2, [header(2)]), "rules")


def test_changed_tables(database: Database) -> None:
    """A table that changes while a snapshot waits for it is refused. While one is stored, none of these changes can be made."""
    with PostgresLog.create(database.conninfo, "changed") as log:
        log.append(0, b"line")
        log.compact(1, [header(1), b"old"])
        for change, back, word in changes("changed_snapshot", "number"):

            def change_meanwhile() -> Iterator[bytes]:
                yield header(1)
                raises(
                    f"changed: while one is stored: {change}",
                    psycopg.errors.LockNotAvailable,
                    lambda: database.execute(f"SET lock_timeout = 10;{change}"),
                )
                yield b"new"

            with commits_once_waited_for(database, change):
                says(f"changed: {change}", LogRefused, lambda: log.compact(1, [header(1), b"lost"]), "changed_snapshot", word)
            database.execute(back)
            assert [*(log.snapshot() or (0, []))[1]] != [header(1), b"lost"], f"changed: the older one stays: {change}"
            log.compact(1, change_meanwhile())
            assert [*(log.snapshot() or (0, []))[1]] == [header(1), b"new"], f"changed: one is stored: {change}"


def test_standby(database: Database) -> None:
    """A synchronous standby is named that isn't there, and the wait for it is cancelled in the server."""
    raised: list[BaseException] = []

    def compact() -> None:
        try:
            log.compact(1, [header(1), b"new"])
        except LogFailed as error:
            raised.append(error)

    with PostgresLog.create(database.conninfo, "standby", patience=60) as log:
        log.append(0, b"line")
        log.compact(1, [header(1), b"old"])
        database.execute("ALTER SYSTEM SET synchronous_standby_names = 'standby'")
        database.execute("SELECT pg_reload_conf()")
        assert soon(lambda: commits_wait(database)), "standby: PostgreSQL waits for it"
        thread = threading.Thread(target=compact)
        thread.start()
        waits = "SELECT pid FROM pg_stat_activity WHERE wait_event = 'SyncRep' AND application_name = 'standby'"
        assert soon(lambda: len(database.execute(waits)) == 1) and thread.is_alive(), "standby: a snapshot waits"
        database.execute(CANCEL)
        thread.join()
        database.execute("ALTER SYSTEM RESET synchronous_standby_names")
        database.execute("SELECT pg_reload_conf()")
        is_either = [type(it) for it in raised] == [LogFailed] and "cancelled" in str(raised[0])
        assert is_either, f"standby: either may be stored: {raised}"
        assert soon(lambda: not commits_wait(database)), "standby: PostgreSQL waits no more"
        log.compact(1, [header(1)])
        assert [*(log.snapshot() or (0, []))[1]] == [header(1)], "standby: then one is stored"


def grow(it: Cluster, epochs: Iterable[int]) -> None:
    for epoch in epochs:
        it.own.commit(epoch, [Register(f"user-{epoch}", b"key"), Change("alice", b"%d" % epoch)])


def is_same(it: Cluster, replica: Replica, first: int) -> bool:
    """Whether a replica has the latest epoch, the chain, and the same lookups from an epoch on."""
    requested = [(name, epoch) for name in ("alice", "bob", "no") for epoch in range(first, it.own.latest().epoch + 1)]
    is_there = soon(lambda: replica.latest().link == it.own.latest().link)
    return is_there and replica.chain() == it.own.chain() and all(it.own.lookup(*of) == replica.lookup(*of) for of in requested)


@pytest.fixture
def it(program: str, database: Database, request: pytest.FixtureRequest) -> Iterator[Cluster]:
    with Cluster(program, database, request.node.name) as cluster:
        yield cluster


def test_follows(it: Cluster, program: str, database: Database) -> None:
    """Replicas follow the log over a snapshot, compact by themselves, and start from it."""
    it.refuses("no snapshot: the replica", ProviderError, it.replica.compact)
    grow(it, range(3, 8))
    position = it.own.compact(5)
    assert is_same(it, it.replica, 5) and it.replica.lookup("alice", 1).epoch == 1, "a replica follows, and keeps its epochs"
    pid = it.replica.pid
    it.replica.compact()
    assert it.replica.pid != pid and is_same(it, it.replica, 5), "a replica compacts"
    raises("mistake: its first epochs are gone", UnknownEpoch, lambda: it.replica.lookup("alice", 4))
    pid = it.replica.pid
    it.replica.compact()
    assert it.replica.pid == pid, "a replica has nothing to forget"
    grow(it, [8])
    it.own._log.drop_before(position)  # type: ignore[attr-defined]
    late = it.follower(verify=it.signer.verify)
    assert is_same(it, late, 5) and late.lag().error is None, "a new replica starts from the snapshot"
    it.refuses("a new replica that takes no signature", ProviderError, lambda: it.follower(verify=lambda *_: False))
    kill_child(late)
    assert is_same(it, late, 5), "its child is started again"
    grow(it, [9])
    assert is_same(it, late, 5) and is_same(it, it.replica, 5), "both follow"
    it.goes_on("followed")
    it.close()
    with PostgresLog(database.conninfo, it.table) as log:
        assert len([*entries(log)]) == 9, "the chain of a log whose lines were dropped"
        with Replica(Settings(program, index, POLICY), log) as replica:
            assert replica.latest().epoch == 9, "a replica of it"


def test_lags(it: Cluster) -> None:
    """A replica that hasn't read the lines that were dropped starts from the snapshot by itself."""
    log = it.replica._log
    with mock.patch.object(log, "read", side_effect=LogFailed("told to fail")):
        grow(it, range(3, 6))
        it.own._log.drop_before(it.own.compact())  # type: ignore[attr-defined]
        grow(it, [6])
        assert it.replica.latest().epoch == 2 and shown(it.replica.lookup("alice")) == b"2", "the replica lags"
    it.replica.follow()
    assert is_same(it, it.replica, 5), "a replica that lagged"
    assert soon(lambda: it.replica.lag().error is None), f"a replica that lagged has no error: {it.replica.lag()}"
    it.goes_on("lagged")


def test_compacts_late(it: Cluster) -> None:
    """A replica compacts that lags behind the log, or whose second child lacks lines that the writer has dropped meanwhile."""
    grow(it, range(3, 6))
    position = it.own.compact(3)
    log, real = it.replica._log, it.replica._log.read

    def read(first: int) -> Iterator[bytes]:
        # The second child has read the snapshot, and goes on from there.
        if first == position and it.own.lookup("alice").epoch == 5:
            grow(it, [6])
            it.own._log.drop_before(it.own.compact())  # type: ignore[attr-defined]
        return real(first)

    with mock.patch.object(log, "read", read):
        it.replica.compact()
    is_there = is_same(it, it.replica, 6) and it.own.latest().epoch == 6
    assert is_there, "a replica that compacts while lines are dropped"
    raises("mistake: it has the later snapshot", UnknownEpoch, lambda: it.replica.lookup("alice", 5))
    # Its own thread has no part in this.
    with mock.patch.object(it.replica, "follow", return_value=None):
        grow(it, [7, 8])
        it.own.compact()
        assert it.replica.latest().epoch == 6, "the replica lags"
        it.replica.compact()
        assert it.replica.latest() == it.own.latest(), "a replica that lagged compacts"
    raises("mistake: it has the latest snapshot", UnknownEpoch, lambda: it.replica.lookup("alice", 7))
    grow(it, [9])
    it.own.compact()
    children, pid = {*children_of(os.getpid())}, it.replica.pid
    with mock.patch.object(Engine, "check_same", side_effect=SnapshotDiffers("told to fail: go on")):
        it.refuses("a replica whose second child differs", SnapshotDiffers, it.replica.compact)
    is_first = it.replica.pid == pid and {*children_of(os.getpid())} == children
    assert is_first, "a replica whose second child differs goes on with the first"
    is_there = is_same(it, it.replica, 9) and it.replica.lag().error is None
    assert is_there, "a replica that compacts late goes on"


def test_takes_over(it: Cluster) -> None:
    """A standby is promoted while the writer compacts, and compacts; the overtaken writer can't go back."""
    grow(it, range(3, 6))
    old, gone = it.own, it.own.latest().epoch
    new = it.enter_context(it.replica.promote(it.signer, verify=it.signer.verify))
    made = new.commit(6, [Change("alice", b"6")])
    position = new.compact()
    with mock.patch.object(it.signer, "verify", return_value=False):
        again = it.enter_context(it.follower().promote(it.signer, verify=it.signer.verify))
        it.refuses("a promotion's verifier is that of later starts", SnapshotDiffers, again.restart)
    it.refuses("an overtaken writer compacts", Overtaken, old.compact)
    assert old.lookup("alice").epoch == gone and old.latest().epoch == gone, "an overtaken writer: its lookups go on"
    new._log.drop_before(position)  # type: ignore[attr-defined]
    it.refuses("an overtaken writer commits", Overtaken, lambda: old.commit(6, []))
    assert new.lookup("alice").entry == made.entry and new.commit(7, []).epoch == 7, "the new writer goes on"
    it.own = new
    it.replica = it.follower()
    assert is_same(it, it.replica, 6), "its replica"


def test_overtaken(it: Cluster) -> None:
    """A writer is overtaken in the middle of a compaction."""
    grow(it, range(3, 6))
    table, replica = it.own._log, it.replica

    class Late:
        """A log that is overtaken before the last line is stored."""

        def __getattr__(self, name: str) -> object:
            return getattr(table, name)

        def compact(self, position: int, lines: Iterable[bytes]) -> None:
            whole = list(lines)
            it.own = it.enter_context(replica.promote(it.signer, verify=it.signer.verify))
            it.own.commit(6, [])
            it.own.compact()
            table.compact(position, whole)  # type: ignore[attr-defined]

    old, old._log = it.own, Late()  # type: ignore[assignment]
    it.refuses("overtaken while it compacts", Overtaken, old.compact)
    found = it.log().snapshot()
    assert found and b'"epochs":6' in next(found[1]), "the later snapshot stays"
    it.replica = it.follower()
    assert is_same(it, it.replica, 6), "a replica starts from it"


def test_absent(it: Cluster) -> None:
    """PostgreSQL is stopped, killed or cut off while a snapshot is taken: the older one stays, and all goes on."""
    grow(it, range(3, 6))
    it.own.compact(3)
    table = it.own._log

    class Struck:
        def __init__(self, strike: object) -> None:
            self._strike = strike

        def __getattr__(self, name: str) -> object:
            return getattr(table, name)

        def compact(self, position: int, lines: Iterable[bytes]) -> None:
            def reported() -> Iterator[bytes]:
                for number, line in enumerate(lines):
                    if number == 2:
                        self._strike()  # type: ignore[operator]
                    yield line

            table.compact(position, reported())  # type: ignore[attr-defined]

    def nothing() -> None:
        pass

    cut = "SELECT pg_terminate_backend(pid) FROM pg_stat_activity WHERE application_name = '{table}'"
    for how, strike, back in [
        ("stopped", it.database.stop, it.database.go_on),
        ("killed", it.database.kill, it.database.start),
        ("cut off", lambda: it.execute(cut), nothing),
    ]:
        it.own._log = Struck(strike)  # type: ignore[assignment]
        try:
            it.refuses(f"{how} while a snapshot is stored", LogFailed, lambda: it.own.compact(4))
            assert it.own.lookup("alice").epoch == it.own.latest().epoch, f"{how}: lookups go on"
        finally:
            back()
        it.own._log = table
        found = it.log().snapshot()
        assert found and b'"epochs":3' in next(found[1]), f"{how}: the older one stays"
        with suppress(ProviderError):
            it.own.restart()
        it.own.restart()
        it.own.commit(it.own.latest().epoch + 1, [])
        assert is_same(it, it.replica, 4), f"{how}: the replica follows"
    it.own.compact()
    assert (it.log().snapshot() or (0,))[0] > 0, "then one is stored"
    it.goes_on("absent")


def test_restored(it: Cluster) -> None:
    """Tables that are restored from different backups."""
    grow(it, range(3, 6))
    it.own.compact(3)
    it.execute("CREATE TABLE older AS TABLE {table}_snapshot", "CREATE TABLE lines AS TABLE {table}")
    it.own._log.drop_before(it.own.compact())  # type: ignore[attr-defined]
    grow(it, [6])
    it.execute("TRUNCATE {table}_snapshot", "INSERT INTO {table}_snapshot TABLE older")
    it.refuses("an older snapshot, and dropped lines", LinesDropped, it.own.restart)
    it.refuses("the same for a replica", LinesDropped, it.follower)
    assert it.own.lookup("alice").epoch == 6 and is_same(it, it.replica, 5), "lookups go on"
    it.execute("TRUNCATE {table}_snapshot")
    it.refuses("no snapshot, and dropped lines", LinesDropped, it.own.restart)
    it.execute("INSERT INTO {table}_snapshot TABLE older", "TRUNCATE {table}", "INSERT INTO {table} TABLE lines")
    it.refuses("older ones of both, a restart", LogForked, it.own.restart)
    known, seen = it.own.chain(), it.own.evidence()
    assert seen and [seen.known, seen.found] == [known, known[:5]] and len(known) == 6, "older ones of both: the evidence"
    assert it.own.lookup("alice").epoch == 6, "older ones of both: lookups go on"
    it.refuses("older ones of both, compact", RestartNeeded, it.own.compact)
    it.execute("DROP TABLE older, lines")
