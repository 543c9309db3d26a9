"""Calls of a log in PostgreSQL, and what their errors say."""

from __future__ import annotations

import threading
import time
import traceback
from contextlib import contextmanager
from typing import Any, Callable, Iterator
from unittest import mock

import psycopg
from database import Database, soon
from raising import raises
from coniks._session import Session
from coniks.postgres import PostgresLog


# Cancels what waits for a standby.
CANCEL = "SELECT pg_cancel_backend(pid) FROM pg_stat_activity WHERE wait_event = 'SyncRep'"

# Changes of a table with a primary key by which its rows could be lost, what undoes each, and what the error says.
CHANGES = [
    ("ALTER TABLE {table} SET UNLOGGED", "ALTER TABLE {table} SET LOGGED", "SET LOGGED"),
    ("ALTER TABLE {table} DROP CONSTRAINT {table}_pkey", "ALTER TABLE {table} ADD PRIMARY KEY ({key})", "ADD PRIMARY KEY"),
    ("ALTER TABLE {table} ADD more int", "ALTER TABLE {table} DROP more", "columns"),
    (
        "ALTER TABLE {table} ENABLE ROW LEVEL SECURITY",
        "ALTER TABLE {table} DISABLE ROW LEVEL SECURITY",
        "DISABLE ROW LEVEL SECURITY",
    ),
    ("CREATE TABLE {table}_child () INHERITS ({table})", "DROP TABLE {table}_child", "NO INHERIT"),
    ("CREATE RULE loses AS ON INSERT TO {table} DO INSTEAD NOTHING", "DROP RULE loses ON {table}", "DROP RULE"),
    ("CREATE RULE loses AS ON UPDATE TO {table} DO ALSO NOTHING", "DROP RULE loses ON {table}", "DROP RULE"),
    (
        """CREATE FUNCTION lose() RETURNS trigger LANGUAGE plpgsql AS
            $$ BEGIN EXECUTE format('DELETE FROM %I', TG_TABLE_NAME); RETURN NULL; END $$;
            CREATE TRIGGER loses AFTER INSERT OR UPDATE ON {table} FOR EACH ROW EXECUTE FUNCTION lose()""",
        "DROP FUNCTION lose CASCADE",
        "DROP TRIGGER",
    ),
]


def says(what: str, error: type[Exception], call: Callable[[], object], *words: str, seconds: float = 5) -> str:
    """Checks that a call raises an error in time whose text has these words. Nothing that is printed with it shows the secret
    `hunter2`. Returns the text."""
    start = time.monotonic()
    raised = raises(what, error, call)
    took, text = time.monotonic() - start, str(raised)
    whole = "".join(traceback.format_exception(None, raised, None)) + repr(raised and raised.__context__)
    assert took < seconds, f"{what}: {took:.1f} s"
    assert all(it in text for it in words), f"{what}: {text}"
    assert not any(it in whole for it in ("hunter2", b"hunter2".hex())), what
    # This frame and the error refer to each other.
    del raised
    return text


def requested(log: PostgresLog, query: str, pool: str = "_pool") -> Any:
    """The first value of a query in the session that the log's next call takes."""

    def first(session: Session) -> Any:
        return session.execute(query).fetchall()[0][0]

    return log._do("asked", getattr(log, pool), first)


def lines(database: Database, table: str = "t") -> int:
    return int(database.execute(f"SELECT count(*) FROM {table}")[0][0])


def changes(table: str, key: str) -> Iterator[tuple[str, str, str]]:
    """`CHANGES` of a table."""
    for change, back, word in CHANGES:
        yield change.format(table=table), back.format(table=table, key=key), word


@contextmanager
def commits_once_waited_for(database: Database, change: str) -> Iterator[None]:
    """Makes a change in a transaction, which is committed once a call waits for its lock."""
    with psycopg.connect(database.conninfo) as other:
        other.execute(change)

        def commit() -> None:
            if soon(lambda: database.execute("SELECT 1 FROM pg_locks WHERE NOT granted"), 3):
                other.commit()
            else:
                other.rollback()

        commits = threading.Thread(target=commit)
        commits.start()
        try:
            yield
        finally:
            commits.join()


def commits_wait(database: Database) -> bool:
    """Whether a commit waits for a standby. One that does is cancelled."""
    commit = threading.Thread(target=database.execute, args=("SELECT pg_logical_emit_message(true, '', '')",))
    commit.start()
    waits = False
    while commit.is_alive():
        waits = bool(database.execute(CANCEL)) or waits
    return waits


def lost(log: PostgresLog, call: Callable[..., object]) -> Any:
    """While this is entered, the next insert calls a function and then loses the connection."""

    def insert(*words: Any) -> None:
        inserts.side_effect = None
        call(*words)
        raise psycopg.OperationalError("lost")

    inserts = mock.Mock(wraps=log._insert, side_effect=insert)
    return mock.patch.object(log, "_insert", inserts)
