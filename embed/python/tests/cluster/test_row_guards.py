"""What a guard in PostgreSQL must do: two guards over one row, which tables and settings are refused, and when its calls end."""

from __future__ import annotations

import os
import random
import tempfile
import threading
import time
from concurrent.futures import ThreadPoolExecutor
from contextlib import ExitStack, suppress
from pathlib import Path
from typing import Any, Callable, Optional
from unittest import mock

import pytest

pytest.importorskip("psycopg")

import psycopg
from bodies import after, is_chain
from database import Database, soon
from guard_ends import Asker, restless, what_is_wrong
from interrupts import interrupted_apart
from log_calls import changes, says
from stand_ins import Salted, Signer, lines
from coniks._session import Session
from coniks.guard import BodyAbandoned, BodyRefused, BodySigned, GuardError, RecordFailed
from coniks.postgres import PostgresGuard


COLUMNS = "key text PRIMARY KEY, record text NOT NULL"
# Tables, and a word of the error that each one raises, none if it is fit.
TABLES = [
    (f"CREATE TABLE g ({COLUMNS})", ""),
    (f"CREATE UNLOGGED TABLE g ({COLUMNS})", "SET LOGGED"),
    ("CREATE VIEW g AS SELECT ''::text AS key, ''::text AS record", "ordinary"),
    ("CREATE TABLE g (key text PRIMARY KEY, record text)", "key text and record text"),
    ("CREATE TABLE g (key text PRIMARY KEY, record bytea NOT NULL)", "key text and record text"),
    (f"CREATE TABLE g ({COLUMNS}, more int)", "columns"),
    ("CREATE TABLE g (key text NOT NULL, record text NOT NULL)", "ADD PRIMARY KEY (key)"),
    (f"CREATE TABLE g ({COLUMNS});ALTER TABLE g ENABLE ROW LEVEL SECURITY", "DISABLE ROW LEVEL SECURITY"),
    (f"CREATE TABLE g ({COLUMNS});CREATE RULE none AS ON UPDATE TO g DO INSTEAD NOTHING", "DROP RULE"),
    (
        f"CREATE TABLE g ({COLUMNS});CREATE TRIGGER same BEFORE UPDATE ON g EXECUTE FUNCTION suppress_redundant_updates_trigger()",
        "DROP TRIGGER",
    ),
]
SESSIONS = "SELECT count(*) FROM pg_stat_activity WHERE application_name = 'coniks_guard'"
# Seconds that a call waits for PostgreSQL, and in which it must end while PostgreSQL doesn't answer.
HASTY, ENDS = 3, 6


class Row(ExitStack):
    """A row with a record, guards over it, and the entries that were given out."""

    def __init__(self, database: Database, key: str, count: int = 1, patience: float = 10) -> None:
        super().__init__()
        self.database, self.key, self.entries = database, key, list[bytes]()
        self.room = Path(self.enter_context(tempfile.TemporaryDirectory()))
        self.signer = Signer(self.room, Salted())
        self.guard = self.open(create=True, new_directory=True, patience=patience)
        for _ in range(count):
            self.sign(after(self.last))
        self.other = self.open(patience=patience)

    @property
    def last(self) -> bytes:
        return self.entries[-1] if self.entries else b""

    def open(self, **more: Any) -> PostgresGuard:
        return self.enter_context(PostgresGuard(self.database.conninfo, self.key, self.signer, **more))

    def sign(self, asked: bytes, guard: Optional[PostgresGuard] = None) -> bytes:
        self.entries.append(asked + (guard or self.guard)(asked))
        return self.last

    def used(self) -> int:
        return len(lines(self.signer.file))

    def text(self) -> str:
        [(text,)] = self.database.execute(f"SELECT convert_to(record, 'SQL_ASCII') FROM coniks_guard WHERE key = '{self.key}'")
        return bytes(text).decode()


def test_names(database: Database) -> None:
    sign = Salted().sign
    says("row: no table", RecordFailed, lambda: PostgresGuard(database.conninfo, "k", sign), "coniks_guard", "create=True")
    assert database.execute("SELECT to_regclass('coniks_guard') IS NULL") == [(True,)], "row: none is made"
    for table in ("odd name", "Keys", "", "a" * 64, "a.b.c"):
        says(
            f"row: a table named {table[:9]!r}",
            RecordFailed,
            lambda: PostgresGuard(database.conninfo, "k", sign, table=table),
            "schema.name",
        )
    for key in ("", "a b", "a" * 256, "\u00e4", "a\n", "a\0"):
        says(f"row: a key {key[:5]!r}", ValueError, lambda: PostgresGuard(database.conninfo, key, sign), "255")
    says("row: no patience", ValueError, lambda: PostgresGuard(database.conninfo, "k", sign, patience=0), "patience")
    for text in ("passwrd=hunter2", "dbname=postgresql://keys:hunter2@db/keys"):
        says(f"row: the connection string {text}", RecordFailed, lambda: PostgresGuard(text, "k", sign), "psql")
    database.execute("CREATE SCHEMA apart")
    for table in ("order", "apart.order"):
        first = after(b"")
        with PostgresGuard(database.conninfo, "a'b\"%s", sign, table=table, create=True, new_directory=True) as guard:
            entry = first + guard(first)
            assert guard.signed() == entry and str(guard).startswith(
                f"the record a'b\"%s in table {table} of"
            ), f"row: the table {table}"
        with PostgresGuard(database.conninfo, "other", sign, table=table, create=True) as guard:
            assert guard.signed() is None and guard.asked() is None, f"row: another key in the table {table}"


def test_rows(database: Database) -> None:
    """What a guard over a file does, over a row."""
    with Row(database, "rows", 3) as row:
        last, mine, other = row.last, after(row.last, 4, b"mine"), after(row.last, 5, b"other")
        assert row.text() == f"coniks-guard 1\nsigned {last.hex()}\n" and row.other.signed() == last, "row: it is signed"
        assert row.other(last[:145]) == last[145:] and row.used() == 3, "row: the stored signature"
        old = after(row.entries[0], 9)
        says(
            "row: an old backup",
            BodyRefused,
            lambda: row.other(old),
            "follows epoch 1",
            "the record rows in table coniks_guard",
        )
        says("row: new_directory stays", BodyRefused, lambda: row.open(new_directory=True), "without new_directory")
        row.signer.fails = 1
        with suppress(TimeoutError):
            row.guard(mine)
        assert row.other.asked() == mine, "row: it is open"
        says("row: a second service", BodyRefused, lambda: row.other(other), "another body is open")
        row.other.abandon(mine)
        says("row: it is abandoned", BodyAbandoned, lambda: row.guard(mine), "later epoch")
        row.signer.before = lambda: row.other.abandon(other)
        says("row: abandoned while it is signed", BodyAbandoned, lambda: row.guard(other), "later epoch")
        row.signer.before = None
        row.sign(after(last, 6), row.other)
        says("row: it can't be abandoned then", BodySigned, lambda: row.guard.abandon(row.last[:145]), "is signed")
        assert is_chain(row.entries) and row.guard.signed() == row.last, "row: one chain"
        database.execute("CREATE TABLE kept AS SELECT * FROM coniks_guard")
        row.sign(after(row.last))
        row.sign(after(row.last))
        database.execute("DELETE FROM coniks_guard;INSERT INTO coniks_guard SELECT * FROM kept;DROP TABLE kept")
        says("row: a restored table", BodyRefused, lambda: row.guard(after(row.last)), "the record is from an old backup")
        for wrong in ("", "coniks-guard 1", "coniks-guard 1\r\n", "coniks-guard 1\n\xff"):
            with psycopg.connect(database.conninfo) as connection:
                connection.execute("UPDATE coniks_guard SET record = %s WHERE key = 'rows'", [wrong])
            says(f"row: the record {wrong!r}", RecordFailed, lambda: row.guard(after(row.last)), "put back the latest one")
        database.execute("DELETE FROM coniks_guard WHERE key = 'rows'")
        says("row: a lost row", BodyRefused, lambda: row.guard(after(row.last)), "nothing is recorded")
        says("row: a lost row, and a first body", BodyRefused, lambda: row.guard(after(b"")), "new_directory=True")
        with row.open(known=row.last) as again:
            assert again.signed() == row.last and row.sign(after(row.last), again) == row.guard.signed(), "row: a known entry"


def test_changed_tables(database: Database) -> None:
    """A table that changes under a guard: before a body is recorded, and before its signature is."""
    with Row(database, "changed", 1) as row:
        for change, back, word in changes("coniks_guard", "key"):
            body, used = after(row.last), row.used()
            new = row.enter_context(
                PostgresGuard(database.conninfo, f"{word} {used}".replace(" ", "-"), Salted().sign, new_directory=True)
            )
            database.execute(change)
            says(f"row: {change}", RecordFailed, lambda: row.guard(body), word)
            says(f"row: a first record: {change}", RecordFailed, lambda: new(after(b"")), word)
            database.execute(back)
            assert row.used() == used and row.other.asked() is None, f"row: nothing is signed, or recorded: {change}"
            row.signer.before = lambda: database.execute(change)
            says(f"row: the signature: {change}", RecordFailed, lambda: row.guard(body), word)
            row.signer.before = None
            database.execute(back)
            assert row.other.asked() == body, f"row: the body stays open: {change}"
            row.sign(body)
        assert is_chain(row.entries), "row: one chain"


def test_races(database: Database, seconds: float = 3) -> None:
    """Four guards of one row, in four threads, of which some sessions are cut."""
    with Row(database, "races", 1) as row:
        broken, until = list[str](), time.monotonic() + seconds
        row.signer.before = restless(random.Random(3))

        def asks(number: int) -> None:
            asker = Asker(row.room, row.open(patience=30), random.Random(number))
            try:
                while time.monotonic() < until:
                    asker.step()
            except Exception as error:
                broken.append(repr(error))

        with ThreadPoolExecutor(4) as pool:
            asking = [pool.submit(asks, it) for it in range(4)]
            while time.monotonic() < until:
                time.sleep(0.1)
                database.execute(SESSIONS.replace("count(*)", "pg_terminate_backend(pid)") + " AND random() < 0.5")
            for it in asking:
                it.result()
        wrong, count = what_is_wrong(row.room, row.signer, row.guard), len({*lines(row.room / "given")})
        assert not wrong and count > 5, f"row: four guards race: one chain: {(wrong, count)}"
        assert not broken, f"row: four guards race: no other error: {broken[:3]}"


def test_firsts(database: Database) -> None:
    """Eight guards of a new directory begin at once, with bodies of their own. One of these is signed."""

    def begins(turn: int) -> list[bytes]:
        barrier = threading.Barrier(8)

        def one(number: int) -> bytes:
            mine = after(b"", 1, b"%d" % number)
            with PostgresGuard(
                database.conninfo, f"first-{turn}", Salted().sign, create=True, new_directory=True, table=f"first_{turn}"
            ) as guard:
                barrier.wait()
                with suppress(BodyRefused):
                    return mine + guard(mine)
            return b""

        with ThreadPoolExecutor(8) as pool:
            return [it for it in pool.map(one, range(8)) if it]

    given = [begins(it) for it in range(10)]
    assert all(len(it) == 1 for it in given), f"row: eight begin at once, ten times: {[len(it) for it in given]}"


def test_lost(database: Database) -> None:
    """A connection that is lost before or after a commit. The record is swapped once."""
    with Row(database, "lost") as row:
        for what, is_stored in [("before", False), ("after", True)]:
            for number in (1, 2):
                store, left = row.guard._store, [number]

                def stores(*words: Any) -> bool:
                    left[0] -= 1
                    if left[0]:
                        return store(*words)
                    if is_stored:
                        store(*words)
                    raise psycopg.OperationalError("lost")

                with mock.patch.object(row.guard, "_store", stores):
                    row.sign(after(row.last))
                assert row.other.signed() == row.last and left[0] < 0, f"row: a connection lost {what} swap {number}"
        used = row.used()
        assert is_chain(row.entries) and used == len(row.entries), f"row: one chain after lost connections: {used}"


def test_tables(database: Database) -> None:
    sign = Salted().sign
    for made, word in TABLES:
        database.execute(made)
        call: Callable[[], PostgresGuard] = lambda: PostgresGuard(database.conninfo, "k", sign, table="g")
        if word:
            says(f"row: {made}", RecordFailed, call, "table g", word)
        else:
            with call() as guard:
                guard.abandon(after(b""))
                assert guard.signed() is None, f"row: {made}"
        database.execute("DROP VIEW g" if "VIEW" in made else "DROP TABLE g CASCADE")
    with Row(database, "settings") as row:
        mine = after(row.last)
        for setting in ("fsync", "full_page_writes", "synchronous_commit"):
            row.guard.signed()
            change(database, row, setting, "off")
            says(f"row: without {setting}", RecordFailed, lambda: row.guard(mine), f"{setting} is off")
            says(f"row: an opening without {setting}", RecordFailed, row.open, f"{setting} is off")
            assert row.used() == 1 and "asked" not in row.text(), f"row: without {setting}, no key is used"
            change(database, row, setting)
        row.sign(mine)
        database.execute("CREATE ROLE weak LOGIN;GRANT SELECT, INSERT ON coniks_guard TO weak")
        weak = PostgresGuard(f"{database.conninfo} user=weak", "settings", row.signer)
        says("row: a role without a right", RecordFailed, lambda: weak(after(row.last)), "42501", "UPDATE")
        assert row.used() == 2, "row: which uses no key"
        weak.close()


def change(database: Database, row: Row, setting: str, value: str = "") -> None:
    """Changes a setting of the running server, or resets it, and waits until the session of a guard has it."""
    database.execute(f"ALTER SYSTEM SET {setting} = {value}" if value else f"ALTER SYSTEM RESET {setting}")
    database.execute("SELECT pg_reload_conf()")
    query = f"SELECT setting = {value and repr(value) or 'boot_val'} FROM pg_settings WHERE name = '{setting}'"

    def found(session: Session) -> bool:
        return bool(session.execute(query).fetchall()[0][0])

    def has_it() -> bool:
        # A session that is new and has the setting is refused.
        with suppress(RecordFailed):
            return row.guard._do("asked", found)
        return bool(value)

    soon(has_it)


def test_standby(database: Database) -> None:
    """A synchronous standby is named that isn't there. No body is signed, and none is given out, before the standby has it."""
    with Row(database, "standby", patience=30) as row:
        mine, given = after(row.last), list[bytes]()
        change(database, row, "synchronous_standby_names", "standby")
        waits = SESSIONS + " AND wait_event = 'SyncRep'"
        asking = threading.Thread(target=lambda: given.append(row.guard(mine)))
        asking.start()
        assert soon(lambda: database.execute(waits) == [(1,)]) and row.used() == 1, "row: a standby that isn't there"
        for what in ("cancel", "terminate"):
            database.execute(waits.replace("count(*)", f"pg_{what}_backend(pid)"))
            assert soon(lambda: database.execute(waits) == [(1,)]) and row.used() == 1, f"row: a wait that is ended by {what}"
        says("row: the other guard waits too", RecordFailed, lambda: row.open(patience=HASTY)(mine), seconds=2 * ENDS)
        assert not given and row.used() == 1, "row: nothing is given out meanwhile"
        database.execute("ALTER SYSTEM RESET synchronous_standby_names;")
        database.execute("SELECT pg_reload_conf()")
        asking.join(20)
        assert len(given) == 1 and row.other.signed() == mine + given[0] and row.used() == 2, "row: it is signed in the end"


def test_stop(database: Database) -> None:
    """The server is stopped, killed and started again. Each call ends."""
    with Row(database, "stop", patience=HASTY) as row:
        mine = after(row.last)
        waiting, patient = row.open(patience=60), row.open(patience=60)
        database.stop()
        ends = threading.Thread(
            target=says,
            args=("row: a call under way", RecordFailed, lambda: waiting(mine), "closed"),
            kwargs={"seconds": 40},
        )
        ends.start()
        calls: list[tuple[str, Callable[[], object]]] = [
            ("a body", lambda: row.guard(mine)),
            ("an abandoned body", lambda: row.guard.abandon(mine)),
            ("the signed entry", row.guard.signed),
            ("an opening", lambda: row.open(patience=HASTY)),
        ]
        try:
            for what, call in calls:
                says(f"row: a stopped server: {what}", RecordFailed, call, "in time", seconds=ENDS)
            waiting.close()
            ends.join(20)
            assert not ends.is_alive() and row.used() == 1, "row: a close ends the call"
        finally:
            database.go_on()
        database.kill()
        for what, call in calls:
            says(f"row: a killed server: {what}", RecordFailed, call, "connection to server", seconds=ENDS)
        signing = threading.Thread(target=row.sign, args=(mine, patient))
        signing.start()
        time.sleep(0.5)
        database.start()
        signing.join(20)
        assert row.used() == 2 and patient.signed() == row.last == mine + row.last[145:], "row: it waits for the server"
        row.guard.close()
        for what, call in calls[:3]:
            says(f"row: a closed guard: {what}", RecordFailed, call, "the guard is closed")
        says("row: a call that was under way ended", RecordFailed, waiting.signed, "the guard is closed")


def test_fork(database: Database) -> None:
    with Row(database, "fork") as row:
        mine = after(row.last)
        child = os.fork()
        if not child:
            status = 1
            try:
                row.guard(mine)
            except RecordFailed as error:
                if "forked" in str(error):
                    with PostgresGuard(database.conninfo, "fork", row.signer) as own:
                        own(mine)
                    status = 0
            finally:
                os._exit(status)
        assert os.waitpid(child, 0)[1] == 0, "row: a forked process opens a guard of its own"
        assert row.sign(mine) == row.guard.signed() and row.used() == 2, "row: the parent's goes on"


def test_interrupts(database: Database) -> None:
    """An interrupt at some bytecodes, each in a new session and in one that is kept."""
    with Row(database, "interrupts") as row:
        number, count, wrong = 0, 1, ""
        while count and not wrong:
            number += 13
            mine = after(row.last, 0, b"%d" % number)
            if number % 2:
                row.guard._pool.shrink()
            count = interrupted_apart(lambda: row.guard(mine), number)
            try:
                row.sign(mine)
            except GuardError as error:
                wrong = f"bytecode {number}: {error}"
        assert not wrong and number > 1000, f"row: interrupts: {(number, wrong)}"
        assert is_chain(row.entries) and row.other.signed() == row.last, "row: interrupts: one chain"
    assert soon(lambda: database.execute(SESSIONS) == [(0,)], 5), f"row: no session is left: {database.execute(SESSIONS)}"
