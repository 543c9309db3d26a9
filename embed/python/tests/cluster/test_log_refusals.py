"""Which tables, settings, roles and servers a log in PostgreSQL refuses, which errors say that a line isn't stored, and what it
tells about each."""

from __future__ import annotations

import os
import shutil
import threading
from pathlib import Path
from typing import Any
from unittest import mock

import pytest

pytest.importorskip("psycopg")

import psycopg
from database import USER, Database, soon
from stand_ins import small_disk
from raising import raises
from log_calls import changes, commits_once_waited_for, lines, lost, requested, says
from coniks.postgres import PostgresLog
from coniks.provider import LogFailed, LogRefused, Overtaken


COLUMNS = "position bigint PRIMARY KEY, line bytea NOT NULL, token bytea NOT NULL"
# Tables, and a word of the error that each one raises, none if it is fit.
TABLES = [
    (f"CREATE TABLE t ({COLUMNS})", ""),
    ("CREATE TABLE t (line bytea NOT NULL, token bytea NOT NULL, old int, position bigint PRIMARY KEY);ALTER TABLE t DROP old", ""),
    ("CREATE VIEW t AS SELECT 0::bigint AS position, ''::bytea AS line, ''::bytea AS token", "ordinary"),
    (f"CREATE TABLE t ({COLUMNS}) PARTITION BY RANGE (position)", "ordinary"),
    (f"CREATE TABLE t ({COLUMNS});CREATE TABLE child () INHERITS (t)", "inherit"),
    (f"CREATE UNLOGGED TABLE t ({COLUMNS})", "SET LOGGED"),
    ("CREATE TABLE t (position bigint PRIMARY KEY, line bytea NOT NULL)", "ADD token bytea"),
    ("CREATE TABLE t (position bigint PRIMARY KEY, line bytea NOT NULL, token bytea)", "NOT NULL"),
    ("CREATE TABLE t (position bigint PRIMARY KEY, line text NOT NULL, token bytea NOT NULL)", "line bytea"),
    ("CREATE TABLE t (position int PRIMARY KEY, line bytea NOT NULL, token bytea NOT NULL)", "position bigint"),
    (f"CREATE TABLE t ({COLUMNS}, more int)", "columns"),
    ("CREATE TABLE t (position bigint NOT NULL, line bytea NOT NULL, token bytea NOT NULL)", "ADD PRIMARY KEY"),
    ("CREATE TABLE t (position bigint UNIQUE NOT NULL, line bytea NOT NULL, token bytea NOT NULL)", "primary key"),
    (f"CREATE TABLE t ({COLUMNS});ALTER TABLE t DROP CONSTRAINT t_pkey, ADD PRIMARY KEY (position, token)", "primary"),
    (f"CREATE TABLE t ({COLUMNS});ALTER TABLE t DROP CONSTRAINT t_pkey, ADD PRIMARY KEY (position) INCLUDE (line)", "primary"),
    (f"CREATE TABLE t ({COLUMNS.replace('KEY', 'KEY DEFERRABLE')})", "deferrable"),
    (f"CREATE TABLE t ({COLUMNS});ALTER TABLE t ENABLE ROW LEVEL SECURITY", "DISABLE ROW LEVEL SECURITY"),
    (f"CREATE TABLE t ({COLUMNS});CREATE RULE none AS ON INSERT TO t DO INSTEAD NOTHING", "DROP RULE"),
    (
        f"CREATE TABLE t ({COLUMNS});CREATE TRIGGER same BEFORE UPDATE ON t EXECUTE FUNCTION suppress_redundant_updates_trigger()",
        "DROP TRIGGER",
    ),
]
# The states of errors after which a line is certainly not stored, and of those after which it may be.
CERTAIN = "22001 23502 23514 25006 40001 40P01 42501 42P01 53100 53200 53400 54000 55000 55P03 58030 P0001 XX000".split()
UNSURE = "08006 40003 57014 57P01 57P03".split()
# A table whose inserts fail with the state in another table. The texts show the line, as those of a careless function do.
FAILING = [
    "CREATE TABLE state (code text)",
    "INSERT INTO state VALUES ('')",
    """CREATE FUNCTION is_well(line bytea) RETURNS bool LANGUAGE plpgsql AS $$ DECLARE state text; BEGIN
        SELECT code INTO state FROM state;
        IF state <> '' THEN RAISE EXCEPTION USING ERRCODE = state, DETAIL = line::text,
            MESSAGE = CASE WHEN state LIKE '22%' OR state LIKE 'P0%' THEN line::text ELSE 'no ' || state END; END IF;
        RETURN state = ''; END $$""",
    f"CREATE TABLE t ({COLUMNS}, CHECK (is_well(line)), CHECK (line <> 'hunter2'))",
]


def has_reloaded(database: Database, log: PostgresLog, setting: str, value: str = "") -> bool:
    """Changes a setting of the running server, or resets it. Returns whether the log's session has the new value."""
    database.execute(f"ALTER SYSTEM SET {setting} = {value}" if value else f"ALTER SYSTEM RESET {setting}")
    database.execute("SELECT pg_reload_conf()")
    query = f"SELECT setting = {value and repr(value) or 'boot_val'} FROM pg_settings WHERE name = '{setting}'"
    return soon(lambda: requested(log, query))


def test_tables(database: Database) -> None:
    for made, word in TABLES:
        database.execute(made)
        if word:
            says(f"tables: {made}", LogFailed, lambda: PostgresLog(database.conninfo, "t"), "table t", word)
        else:
            with PostgresLog(database.conninfo, "t") as log:
                log.append(0, b"zero")
                assert [*log.read(0)] == [b"zero"], f"tables: {made}"
        database.execute("DROP VIEW t" if "VIEW" in made else "DROP TABLE t CASCADE")
    database.execute("CREATE TABLE t (position bigint PRIMARY KEY, line bytea NOT NULL);INSERT INTO t VALUES (0, 'zero')")
    text = says("tables: an older layout", LogFailed, lambda: PostgresLog(database.conninfo, "t"), "older")
    database.execute(text[text.index("ALTER TABLE") :])
    with PostgresLog(database.conninfo, "t") as log:
        log.append(1, b"one")
        assert [*log.read(0)] == [b"zero", b"one"], "tables: an older layout, after its advice"
        database.execute("CREATE TRIGGER same BEFORE UPDATE ON t EXECUTE FUNCTION suppress_redundant_updates_trigger()")
        says("tables: one that changed", LogRefused, log.check_writable, "DROP TRIGGER")
    late = [
        (f"CREATE UNLOGGED TABLE late ({COLUMNS})", "SET LOGGED"),
        ("CREATE TABLE late (position bigint PRIMARY KEY, line bytea NOT NULL)", "older layout"),
        ("CREATE VIEW late AS SELECT 0::bigint AS position, ''::bytea AS line, ''::bytea AS token", "ordinary"),
    ]
    for made, word in late:
        with PostgresLog(database.conninfo, "late") as log:
            database.execute(made)
            says(f"tables: after the log was opened: {made}", LogRefused, lambda: log.append(0, b"hunter2"), word)
        database.execute("DROP VIEW late" if "VIEW" in made else "DROP TABLE late")
    temporary = PostgresLog(f"{database.conninfo} options='-c search_path=pg_temp'", "other")
    says("tables: a temporary one", LogRefused, lambda: temporary.append(0, b"hunter2"), "temporary")
    temporary.close()
    database.execute("DROP TABLE t")


@pytest.mark.parametrize("count", [1, 12], ids=["new", "prepared"])
def test_changed_tables(database: Database, count: int) -> None:
    """A table that changes under a writer, whose session has appended some lines: before an append, and while one waits for it."""
    with PostgresLog.create(database.conninfo, "t") as log:
        stored = list[bytes]()

        def append_some() -> None:
            for _ in range(count):
                log.append(len(stored), b"%d" % len(stored))
                stored.append(b"%d" % len(stored))

        renamed = ("ALTER TABLE t RENAME line TO other", "ALTER TABLE t RENAME other TO line", "columns")
        for change, back, word in [*changes("t", "position"), renamed]:
            append_some()
            database.execute(change)
            says(f"changed: {change}", LogRefused, lambda: log.append(len(stored), b"hunter2"), "table t", word)
            database.execute(back)
            # Another table may inherit from one in which a row is stored at the same time, and that row stays.
            if word != "NO INHERIT":
                append_some()
                with commits_once_waited_for(database, change):
                    says(f"changed meanwhile: {change}", LogRefused, lambda: log.append(len(stored), b"hunter2"), word)
                database.execute(back)
            assert [*log.read(0)] == stored, f"changed: no line is lost: {change}"
    database.execute("DROP TABLE t, t_snapshot")


def test_settings(database: Database) -> None:
    """Settings by which lines could be lost, at an opening and while a session is open."""
    log = PostgresLog.create(database.conninfo, "t")
    log.append(0, b"zero")
    for setting in ("fsync", "full_page_writes", "synchronous_commit"):
        assert has_reloaded(database, log, setting, "off"), f"settings: {setting} is switched off"
        says(f"settings: an append without {setting}", LogRefused, lambda: log.append(1, b"hunter2"), f"{setting} is off")
        says(f"settings: an opening without {setting}", LogFailed, lambda: PostgresLog(database.conninfo), setting)
        says(f"settings: check_writable without {setting}", LogRefused, log.check_writable, setting)
        assert (
            has_reloaded(database, log, setting) and lines(database) == 1
        ), f"settings: {setting} is on again, and nothing is stored"
    log.append(1, b"one")
    local = f"{database.conninfo} options='-c synchronous_commit=local'"
    with PostgresLog(local, "t") as other:
        other.append(2, b"two")
        assert has_reloaded(database, other, "synchronous_standby_names", "standby"), "settings: a standby is named"
        says(
            "settings: an append that waits for no standby",
            LogRefused,
            lambda: other.append(3, b""),
            "synchronous_commit is local",
        )
        says("settings: an opening that waits for no standby", LogFailed, lambda: PostgresLog(local, "t"), "is local")
    assert has_reloaded(database, log, "synchronous_standby_names"), "settings: no standby is named"
    log.append(3, b"three")
    options = "-c statement_timeout=50 -c default_transaction_isolation=serializable -c client_min_messages=error -c idle_session_timeout=200"
    with PostgresLog(f"{database.conninfo} options='{options}'", "t", patience=4) as other:
        shown = [
            "statement_timeout",
            "idle_session_timeout",
            "lock_timeout",
            "default_transaction_isolation",
            "client_min_messages",
        ]
        for pool in ("_pool", "_listening"):
            found = [requested(other, f"SHOW {it}", pool) for it in shown]
            assert found == ["0", "0", "2s", "read committed", "warning"], f"settings: those of a session, {pool}: {found}"
    log.close()
    database.execute("DROP TABLE t")


def test_rights(database: Database) -> None:
    database.execute('CREATE ROLE "odd reader" LOGIN;CREATE SCHEMA closed;CREATE TABLE t (%s)' % COLUMNS)
    conninfo = f"{database.conninfo} user='odd reader'"
    with PostgresLog(conninfo, "t") as log:
        says("rights: a read without a right", LogFailed, lambda: [*log.read(0)], "42501", "grant")
        says("rights: an append without a right", LogRefused, lambda: log.append(0, b"hunter2"), "42501", "grant")
        for right in ("", "SELECT", "INSERT"):
            database.execute(f'GRANT {right} ON t TO "odd reader"' if right else "")
            text = says(
                f"rights: only {right or 'none'}", LogRefused, log.check_writable, 'GRANT SELECT, INSERT ON t TO "odd reader"'
            )
            database.execute('REVOKE ALL ON t FROM "odd reader"')
        database.execute(text[text.index("GRANT") :])
        log.check_writable()
        log.append(0, b"zero")
        database.execute(
            'REVOKE ALL ON t FROM "odd reader";GRANT SELECT (position, line, token), INSERT (position, line, token) ON t TO "odd reader"'
        )
        log.check_writable()
        log.append(1, b"one")
        assert [*log.read(0)] == [b"zero", b"one"], "rights: those of the advice, and of the columns"
    with PostgresLog(conninfo, "made") as log:
        text = says("rights: to make the table", LogRefused, log.check_writable, "GRANT CREATE ON SCHEMA public")
        says("rights: an append that would make it", LogRefused, lambda: log.append(0, b"hunter2"), "42501")
        database.execute(text[text.index("GRANT") :])
        log.check_writable()
        log.append(0, b"zero")
    with PostgresLog(conninfo, "no.made") as log:
        says("rights: a schema that is missing", LogRefused, log.check_writable, "CREATE SCHEMA no")
        says("rights: an append in a missing schema", LogRefused, lambda: log.append(0, b"hunter2"), "3F000")
    says("rights: to use the schema", LogFailed, lambda: PostgresLog(conninfo, "closed.t"), "42501", "USAGE")
    database.execute('ALTER ROLE "odd reader" SET default_transaction_read_only = on')
    with PostgresLog(conninfo, "t") as log:
        text = says("rights: read only", LogRefused, log.check_writable, "default_transaction_read_only")
        says("rights: an append that is read only", LogRefused, lambda: log.append(2, b"hunter2"), "25006")
        assert [*log.read(0)] == [b"zero", b"one"] and log.wait(0, 0) == 2, "rights: a read that is read only"
    database.execute(text[text.index("ALTER") :])
    with PostgresLog(conninfo, "t") as log:
        log.check_writable()
        log.append(2, b"two")
        check_recovery(database, log)
    database.execute("DROP TABLE t;DROP TABLE made")


def check_recovery(database: Database, log: PostgresLog) -> None:
    """The server is started again as a standby, and then as the primary."""
    sign = database.folder / "data/standby.signal"
    database.kill()
    sign.touch()
    database.start()
    for what, error, call in [
        ("check_writable", LogRefused, log.check_writable),
        ("an append", LogRefused, lambda: log.append(3, b"hunter2")),
        ("a read", LogFailed, lambda: [*log.read(0)]),
        ("a wait", LogFailed, lambda: log.wait(0, 1)),
        ("an opening", LogFailed, lambda: PostgresLog(database.conninfo, "t")),
    ]:
        says(f"standby: {what} at one", error, call, "a standby", "target_session_attrs")
    database.kill()
    sign.unlink()
    database.start()
    log.append(3, b"three")
    assert [*log.read(2)] == [b"two", b"three"], "standby: the primary again"


def fail(database: Database, code: str) -> None:
    """Lets each insert fail with a state, or none of them."""
    database.execute(f"UPDATE state SET code = '{code}'")


def test_refusals(database: Database) -> None:
    """Errors of PostgreSQL at an append, which a constraint raises with a chosen state."""
    for query in FAILING:
        database.execute(query)
    log, hasty = PostgresLog(database.conninfo, "t"), PostgresLog(database.conninfo, "t", patience=2)
    for code in CERTAIN:
        fail(database, code)
        says(f"refusals: {code} is certain", LogRefused, lambda: log.append(0, b"hunter2"), code, "isn't stored")
    for code in UNSURE:
        fail(database, code)
        says(f"refusals: {code} isn't certain", LogFailed, lambda: hasty.append(0, b"hunter2"), code, "or not")
    threading.Timer(0.3, fail, [database, ""]).start()
    log.append(0, b"later")
    assert [*log.read(0)] == [b"later"], "refusals: an append is tried again"
    hasty._pool.shrink()
    with mock.patch.object(hasty._pool, "_check", side_effect=psycopg.OperationalError("lost")):
        says("refusals: a session that is lost at once", LogRefused, lambda: hasty.append(2, b""), "isn't stored: lost")
    check_constraints(database, log)
    log.close()
    hasty.close()
    with small_disk("8m") as folder:
        if folder.is_mount():
            shutil.chown(folder, USER, USER)
            check_full_disk(database, folder)
    database.execute("DROP TABLE t;DROP TABLE state")


def check_constraints(database: Database, log: PostgresLog) -> None:
    """Constraints that a table may have beside the primary key, the last one after a try that may be stored."""

    def insert_then_fail(*words: Any) -> None:
        log._insert(*words)
        fail(database, "53100")

    says("refusals: a constraint, and no row is shown", LogRefused, lambda: log.append(1, b"hunter2"), "23514", "constraint")
    database.execute("ALTER TABLE t ADD UNIQUE (line)")
    says("refusals: another unique column", LogRefused, lambda: log.append(1, b"later"), "23505", "t_line_key")
    with lost(log, insert_then_fail):
        says("refusals: after a try that may be stored", LogFailed, lambda: log.append(1, b"one"), "53100", "or not")
    assert [*log.read(0)] == [b"later", b"one"], "refusals: as that one is"


def check_full_disk(database: Database, folder: Path) -> None:
    """The disk of the table is full, and that of the write-ahead log isn't."""
    database.execute(f"CREATE TABLESPACE small LOCATION '{folder}'")
    database.execute(f"CREATE TABLE small ({COLUMNS}) TABLESPACE small")
    with PostgresLog(database.conninfo, "small") as log:
        log.append(0, b"zero")
        says(
            "refusals: a full disk",
            LogRefused,
            lambda: log.append(1, os.urandom(9_000_000).replace(b"\n", b"")),
            "53100",
            "more of it",
        )
        log.append(1, b"one")
        assert [*log.read(0)] == [b"zero", b"one"], "refusals: a full disk, and a smaller line"
    database.execute("DROP TABLE small")
    database.execute("DROP TABLESPACE small")


def test_locks(database: Database) -> None:
    log = PostgresLog.create(database.conninfo, "t", patience=4)
    with psycopg.connect(database.conninfo) as other:
        other.execute("LOCK TABLE t")
        says(
            "locks: an append to a locked table",
            LogRefused,
            lambda: log.append(0, b"hunter2"),
            "55P03",
            "pg_locks",
            seconds=8,
        )
        says("locks: a read of a locked table", LogFailed, lambda: [*log.read(0)], "55P03", seconds=8)
        other.rollback()
        other.execute("INSERT INTO t VALUES (0, 'zero', '')")
        says("locks: another one appends", LogRefused, lambda: log.append(0, b"hunter2"), "55P03", seconds=8)
        with lost(log, lambda *_: None):
            says("locks: a try that may be stored has it", LogFailed, lambda: log.append(0, b""), "55P03", "or not", seconds=8)
        other.rollback()
        with PostgresLog.create(database.conninfo, "u", patience=6) as patient, lost(patient, lambda *_: None):
            other.execute("INSERT INTO u VALUES (0, 'zero', '')")
            ending = threading.Timer(3.5, other.rollback)
            ending.start()
            patient.append(0, b"mine")
            ending.join()
            assert [*patient.read(0)] == [b"mine"], "locks: a try that may be stored has it, until it ends"
        other.execute("INSERT INTO t VALUES (1, 'one', '')")
    raises("locks: the other one has appended", Overtaken, lambda: log.append(1, b"none"))
    log.close()
    database.execute("DROP TABLE t;DROP TABLE u")
