"""What a log in PostgreSQL must do, one by one."""

from __future__ import annotations

import signal
import threading
import time
from concurrent.futures import ThreadPoolExecutor
from contextlib import suppress
from typing import Any, Callable
from unittest import mock

import pytest

pytest.importorskip("psycopg")

from database import Database, soon
from log_calls import CANCEL, commits_wait, lines, lost, says
from raising import raises
from coniks._session import Session
from coniks.postgres import PostgresLog
from coniks.provider import DirectoryExists, LogFailed, LogRefused, NoDirectory, Overtaken


# The processes of PostgreSQL that wait for a standby.
WAITS = "SELECT pid FROM pg_stat_activity WHERE wait_event = 'SyncRep' AND application_name = 'coniks_log'"
SIGNALLED = WAITS.replace("coniks_log", "signalled")


def notified_early(log: PostgresLog, append: Callable[[], object]) -> Any:
    """While this is entered, a line is appended after the first query. Its notification comes with the rows of the next one."""
    rows, left = log._rows, [append]

    def queried(session: Session, *query: Any) -> Any:
        found = rows(session, *query)
        if left:
            left.pop()()
            rows(session, *query)
        return found

    return mock.patch.object(log, "_rows", queried)


def test_names(database: Database) -> None:
    for name in ["odd name", "Keys", "tést", "a.b.c", "a%s", 'a"b', "1a", "", "a.", "a\n", "a" * 64, f"keys.{'a' * 59}"]:
        says(f"names: {name!r}", LogFailed, lambda: PostgresLog(database.conninfo, name), "schema.name", "63")
    database.execute("CREATE SCHEMA keys")
    longest = [f"keys.{'a' * 57}{it}" for it in "bc"]
    for name in ["order", "keys.order", *longest]:
        with PostgresLog.create(database.conninfo, name) as log:
            log.append(0, name.encode())
            assert [*log.read(0)] == [name.encode()] and log.wait(0, 0) == 1, f"names: {name}"
            assert str(log) == f"table {name} of database postgres at {database.folder}", f"names: the text of {name}: {str(log)}"
    for text in ["hunter2", "passwrd=hunter2", "connect_timeout=hunter2", "dbname=postgresql://keys:hunter2@db/keys", "'hunter2"]:
        says(f"names: the connection string {text}", LogFailed, lambda: PostgresLog(text), "psql")
    for text in ["sslmode=hunter2", "port=hunter2", f"{database.conninfo} password=hunter2 dbname=no"]:
        says(f"names: the connection string {text}", LogFailed, lambda: PostgresLog(text), "can't be opened")
    raises("names: no patience", ValueError, lambda: PostgresLog(database.conninfo, patience=0))


def test_creation(database: Database) -> None:
    log = PostgresLog(database.conninfo, "later")
    names = "table later", "database postgres", str(database.folder), "PostgresLog.create"
    for turn in ("missing", "dropped"):
        says(f"creation: a read, {turn}", NoDirectory, lambda: [*log.read(0)], *names)
        says(f"creation: a wait, {turn}", NoDirectory, lambda: log.wait(0, 1), *names)
        says(f"creation: an append, {turn}", LogRefused, lambda: log.append(1, b"hunter2"), "line 1", "later")
        assert database.execute("SELECT to_regclass('later') IS NULL") == [(True,)], f"creation: nothing makes it, {turn}"
        log.check_writable()
        log.append(0, b"zero")
        log.append(1, b"one")
        assert [*log.read(0)] == [b"zero", b"one"] and not log.is_new, f"creation: the first append does, {turn}"
        database.execute("DROP TABLE later")
    for number in range(2):
        with PostgresLog.create(database.conninfo, "later") as new:
            assert new.is_new and [*new.read(0)] == [] and new.wait(0, 0) == 0, f"creation: a log without lines, {number}"
    log.append(0, b"zero")
    start = time.monotonic()
    threading.Timer(0.2, log.append, (1, b"one")).start()
    with mock.patch.object(log, "_rows", wraps=log._rows) as rows:
        assert log.wait(2, 0.6) == 2 and 0.6 <= time.monotonic() - start < 5, "creation: a wait goes on after another line"
    assert rows.call_count < 10, f"creation: it looks only when it is notified: {rows.call_count}"
    says("creation: one with lines", DirectoryExists, lambda: PostgresLog.create(database.conninfo, "later"), "table later")
    log.close()


def test_opens(database: Database) -> None:
    """Several logs are made at once, or opened over a table that isn't there yet. One of them takes the first position."""

    def at_once(number: int) -> bool:
        barrier = threading.Barrier(8)

        def opens(own: int) -> bytes:
            barrier.wait()
            opened = (PostgresLog, PostgresLog.create)[number % 2]
            with suppress(Overtaken, DirectoryExists), opened(database.conninfo, f"new_{number}") as log:
                log.append(0, b"%d" % own)
                return b"%d" % own
            return b""

        with ThreadPoolExecutor(8) as pool:
            won = [it for it in pool.map(opens, range(8)) if it]
        with PostgresLog(database.conninfo, f"new_{number}") as log:
            return len(won) == 1 and [*log.read(0)] == won

    assert all([at_once(it) for it in range(30)]), "log: eight that are opened at once, thirty times"


def check_appends(mine: PostgresLog, other: PostgresLog, third: PostgresLog) -> None:
    mine.append(0, b"first")
    raises("log: a position that is taken", Overtaken, lambda: other.append(0, b"second"))
    raises("log: a position that is taken by the same line", Overtaken, lambda: other.append(0, b"first"))
    says("log: a position too far", LogRefused, lambda: mine.append(2, b"hunter2"), "no line before")
    raises("log: a line with a newline", ValueError, lambda: mine.append(1, b"a\nb"))
    for number in range(1, 100):
        (mine, other)[number % 2].append(number, b"%d" % number)
    for number in range(3):
        third.append(number, bytes(3_000_000))
    assert [*mine.read(0)] == [b"first", *(b"%d" % it for it in range(1, 100))] == [*other.read(0)], "log: the lines are read"
    assert [*mine.read(98)] == [b"98", b"99"] and [*mine.read(100)] == [], "log: from a position on"
    assert [*third.read(0)] == 3 * [bytes(3_000_000)], "log: another table"
    pages = [len(it._do("read", it._pool, it._read, 0)) for it in (mine, third)]
    assert pages == [32, 2], f"log: a page has 32 lines, or less than 4 MiB and one more: {pages}"
    with lost(mine, mine._insert):
        mine.append(100, b"same")
    assert [*mine.read(100)] == [b"same"], "log: a connection that is lost after the commit"
    with lost(mine, lambda *_: None):
        mine.append(101, b"same")
    assert [*mine.read(101)] == [b"same"], "log: a connection that is lost before"
    with lost(mine, lambda *_: other.append(102, b"same")):
        raises("log: a connection that is lost, and the position", Overtaken, lambda: mine.append(102, b"same"))


def check_waits(database: Database, mine: PostgresLog, other: PostgresLog) -> None:
    threading.Timer(0.2, lambda: mine.append(103, b"notified")).start()
    start = time.monotonic()
    assert mine.wait(103, 10) == 104 and time.monotonic() - start < 8, "log: a waiting reader is notified"
    start = time.monotonic()
    assert mine.wait(104, 0.1) == 104 and 0.1 <= time.monotonic() - start < 8, "log: a reader waits no longer"
    with notified_early(mine, lambda: other.append(104, b"early")):
        start = time.monotonic()
        assert mine.wait(104, 10) == 105 and time.monotonic() - start < 8, "log: a line is notified before the wait"
    database.execute("SELECT pg_terminate_backend(pid) FROM pg_stat_activity WHERE application_name = 'coniks_log'")
    assert mine.wait(0, 5) == 105 and [*mine.read(103)] == [b"notified", b"early"], "log: connections that were cut"
    mine.append(105, b"after")
    database.execute("DELETE FROM coniks_log WHERE position = 50")
    reader = mine.read(49)
    assert next(reader) == b"49", "log: a line before a missing one"
    says("log: a missing line", LogFailed, lambda: next(reader), "lacks line 50", "restore")
    raises("log: nothing is appended in its place", LogRefused, lambda: mine.append(51, b""))
    mine.check_writable()
    database.kill()
    # A session that has ended is noticed before a line is sent in it.
    assert soon(lambda: mine._pool._sessions[0].arrives(0)), "log: a session that has ended"
    says(
        "log: an append without PostgreSQL",
        LogRefused,
        lambda: mine.append(106, b"hunter2"),
        "isn't stored",
        "connection to server",
        seconds=8,
    )
    raises("log: a read without PostgreSQL", LogFailed, lambda: [*mine.read(0)])
    raises("log: a wait without PostgreSQL", LogFailed, lambda: mine.wait(0, 1))
    raises("log: an open without PostgreSQL", LogFailed, lambda: PostgresLog(database.conninfo))
    trying = threading.Thread(target=other.append, args=(106, b"later"))
    trying.start()
    time.sleep(0.5)
    database.start()
    trying.join()
    assert [*mine.read(105)] == [b"after", b"later"], "log: an append that waits for PostgreSQL"


def check_standby(database: Database, mine: PostgresLog, other: PostgresLog) -> None:
    """A synchronous standby is named that isn't there. What was committed without it is neither acknowledged nor read."""
    log = PostgresLog.create(database.conninfo, "signalled", patience=60)
    database.execute("ALTER SYSTEM SET synchronous_standby_names = 'standby'")
    database.execute("SELECT pg_reload_conf()")
    # The processes of PostgreSQL read it one after another.
    assert soon(lambda: commits_wait(database)), "standby: PostgreSQL waits for it"
    read: list[bytes] = []
    waiting = [threading.Thread(target=other.append, args=(107, b"cut"))]
    waiting.append(threading.Thread(target=lambda: read.extend(other.read(107))))
    waiting[0].start()
    assert soon(lambda: len(database.execute(WAITS)) == 1), "standby: an append waits"
    says("standby: another append at its position", LogRefused, lambda: mine.append(107, b"hunter2"), "55P03")
    database.execute(WAITS.replace("pid", "pg_terminate_backend(pid)"))
    assert soon(lambda: database.execute("SELECT 1 FROM coniks_log WHERE position = 107")), "standby: the row is there"
    for number in range(3):
        # The first one is cut, and tried again. The others are cancelled, and wait again.
        assert soon(lambda: len(database.execute(WAITS)) == 1) and waiting[0].is_alive(), f"standby: it waits again, {number}"
        database.execute(CANCEL)
    waiting[1].start()
    assert soon(lambda: len(database.execute(WAITS)) == 2), "standby: both wait"
    database.execute(CANCEL)
    assert soon(lambda: len(database.execute(WAITS)) == 2), "standby: both wait again"
    waiting.append(threading.Thread(target=log.append, args=(0, b"zero")))
    waiting[2].start()
    assert soon(lambda: len(database.execute(SIGNALLED)) == 1) and not lines(database, "signalled"), "standby: a new append waits"
    database.execute(CANCEL)
    waits = soon(lambda: lines(database, "signalled") and len(database.execute(SIGNALLED)) == 1)
    assert waits and waiting[2].is_alive(), "standby: one that is cancelled waits again"
    assert all(it.is_alive() for it in waiting) and not read, "standby: none returns"
    check_signal(database, log)
    database.execute("ALTER SYSTEM RESET synchronous_standby_names")
    database.execute("SELECT pg_reload_conf()")
    for it in waiting:
        it.join()
    log.close()
    assert read == [b"cut"], "standby: the line is read"
    with mock.patch.object(other, "_rows", wraps=other._rows) as rows:
        read = [*other.read(107)]
    queries = [it.args[1] for it in rows.call_args_list]
    assert queries == ["read", "replicated", "read"], "standby: a read waits after its rows, and only then"


def check_signal(database: Database, log: PostgresLog) -> None:
    """An append that waits for a standby ends by an interrupt, as by Ctrl-C. Its commit isn't cancelled in the server."""
    was = signal.signal(signal.SIGALRM, signal.default_int_handler)
    signal.setitimer(signal.ITIMER_REAL, 1)
    try:
        log.append(1, b"one")
        pytest.fail("standby: an append that is interrupted")
    except KeyboardInterrupt:
        time.sleep(0.1)
        waits = len(database.execute(SIGNALLED))
        assert waits == 2 and lines(database, "signalled") == 1, f"standby: an append that is interrupted: {waits}"
    signal.signal(signal.SIGALRM, was)


def test_calls(database: Database) -> None:
    """Appends, reads and waits of two logs over one table."""
    database.execute("CREATE SCHEMA several")
    mine, other = (PostgresLog(database.conninfo, patience=it) for it in (3, 60))
    with mine, other, PostgresLog(database.conninfo, "several.third") as third:
        check_appends(mine, other, third)
        check_waits(database, mine, other)
        check_standby(database, mine, other)
