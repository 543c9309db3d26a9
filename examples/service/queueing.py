"""Accepted operations that wait for their epoch, in a table beside the log: a file of SQLite, or a table in the log's database. What
was stored there outlives the process and the machine's failure."""

from __future__ import annotations

import asyncio
import os
import re
import sqlite3
from collections import deque
from concurrent.futures import Future, ThreadPoolExecutor
from contextlib import suppress
from dataclasses import astuple, dataclass, fields
from typing import Any, Callable, Collection, Mapping, Optional, Sequence, TypeVar

Result = TypeVar("Result")


class QueueFailed(Exception):
    """The queue can't be read or written."""


@dataclass(frozen=True)
class Row:
    """An operation that waits: its number, its kind and what it binds, the key that the name had at the epoch by which it was judged,
    None if it had none, and the epoch whose batch has it, None before that."""

    number: str
    op: str
    name: str
    key: bytes
    opening: bytes
    present: Optional[bytes]
    judged: int
    epoch: Optional[int] = None


_COLUMNS = ", ".join(it.name for it in fields(Row))
_SQL = {
    "create": """CREATE TABLE IF NOT EXISTS {table} (position {position}, number TEXT NOT NULL UNIQUE, op TEXT NOT NULL,
        name TEXT NOT NULL UNIQUE, key {bytes} NOT NULL, opening {bytes} NOT NULL, present {bytes}, judged BIGINT NOT NULL,
        epoch BIGINT)""",
    "put": f"INSERT INTO {{table}} ({_COLUMNS}) VALUES ({', '.join('?' for _ in fields(Row))}) ON CONFLICT DO NOTHING",
    "mark": "UPDATE {table} SET epoch = ? WHERE number = ?",
    "drop": "DELETE FROM {table} WHERE number = ?",
    "numbers": "SELECT number FROM {table}",
    "rows": f"SELECT {_COLUMNS} FROM {{table}} ORDER BY position",
}


@dataclass(frozen=True)
class Table:
    """Where the rows are. `sql` has the statements. `connect` returns a connection (PEP 249) whose commits are durable, after it has
    made the table if there is none, and `error` is what connections raise."""

    place: str
    sql: Mapping[str, str]
    connect: Callable[[], Any]
    error: type[Exception]

    def __str__(self) -> str:
        return self.place


def in_file(path: str, name: str) -> Table:
    """A table in a file of SQLite with mode 0600. The process that has the log open has the file."""
    sql = _statements(name, position="INTEGER PRIMARY KEY", bytes="BLOB")

    def connect() -> sqlite3.Connection:
        os.close(os.open(path, os.O_RDWR | os.O_CREAT | os.O_CLOEXEC, 0o600))
        connection = sqlite3.connect(path, check_same_thread=False)
        # The end of the journal is synced, so that a commit outlives a power failure.
        connection.execute("PRAGMA journal_mode = TRUNCATE")
        connection.execute("PRAGMA synchronous = FULL")
        connection.execute(sql["create"])
        connection.commit()
        folder = os.open(os.path.dirname(os.path.abspath(path)), os.O_RDONLY | os.O_DIRECTORY | os.O_CLOEXEC)
        try:
            os.fsync(folder)
        finally:
            os.close(folder)
        return connection

    return Table(f"the file {path}", sql, connect, sqlite3.Error)


def in_postgres(conninfo: str, name: str) -> Table:
    """A table in the log's database, whose settings the log checks."""
    import psycopg

    texts = _statements(name, position="BIGINT GENERATED ALWAYS AS IDENTITY PRIMARY KEY", bytes="BYTEA")
    sql = {it: text.replace("?", "%s") for it, text in texts.items()}

    def connect() -> Any:
        connection = psycopg.connect(conninfo, connect_timeout=5, client_encoding="utf8")
        # A process that stands still in the midst of a transaction holds no other one up.
        connection.execute("SET lock_timeout = '5s'")
        connection.execute("SET idle_in_transaction_session_timeout = '5s'")
        connection.execute(sql["create"])
        connection.commit()
        return connection

    return Table(f"table {name} of the log's database", sql, connect, psycopg.Error)


def _statements(table: str, **words: str) -> dict[str, str]:
    return {it: text.format(table=table, **words) for it, text in _SQL.items()}


class Queue:
    """The rows of a directory, in the order in which they were stored. A name has one row. Rows that come together are stored together.

    The calls return futures of the event loop, which raise `QueueFailed`. One thread makes them, in their order.
    """

    def __init__(self, table: Table):
        """Opens the table. Raises `QueueFailed`."""
        self._table = table
        self._connection: Any = None
        # Rows that are to be stored, each with whether it is.
        self._new: deque[tuple[Row, Future[bool]]] = deque()
        self._thread = ThreadPoolExecutor(1, "queue")
        self._do("opened", lambda cursor: None)

    def put(self, row: Row) -> asyncio.Future[bool]:
        """Stores a row. Returns whether it did: not if its name has another one."""
        stored = Future[bool]()
        self._new.append((row, stored))
        self._thread.submit(self._store)
        return asyncio.wrap_future(stored)

    def _store(self) -> None:
        """Stores all rows that are to be stored."""
        taken = list[tuple[Row, Future[bool]]]()
        with suppress(IndexError):
            while True:
                taken.append(self._new.popleft())
        try:
            reported = self._do("written", lambda cursor: [self._put(cursor, row) for row, _ in taken]) if taken else []
        except Exception as error:
            for _, stored in taken:
                stored.set_exception(error)
        else:
            for (_, stored), is_stored in zip(taken, reported):
                stored.set_result(is_stored)

    def _put(self, cursor: Any, row: Row) -> bool:
        return bool(cursor.execute(self._table.sql["put"], astuple(row)).rowcount)

    def mark(self, numbers: Collection[str], epoch: int) -> asyncio.Future[None]:
        """Notes that rows are the batch of an epoch."""
        return self._run("written", lambda cursor: _each(cursor, self._table.sql["mark"], [(epoch, it) for it in numbers]))

    def drop(self, numbers: Collection[str]) -> asyncio.Future[None]:
        """Drops rows, whose operations are decided."""
        return self._run("written", lambda cursor: _each(cursor, self._table.sql["drop"], [(it,) for it in numbers]))

    def others(self, known: set[str]) -> asyncio.Future[list[Row]]:
        """The rows without some numbers."""

        def found(cursor: Any) -> list[Row]:
            if {number for [number] in cursor.execute(self._table.sql["numbers"])} <= known:
                return []
            return [row for it in cursor.execute(self._table.sql["rows"]) if (row := Row(*it)).number not in known]

        return self._run("read", found)

    def _run(self, done: str, call: Callable[[Any], Result]) -> asyncio.Future[Result]:
        return asyncio.get_running_loop().run_in_executor(self._thread, self._do, done, call)

    def _do(self, done: str, call: Callable[[Any], Result]) -> Result:
        """Makes a call in a transaction. After an error the next one is made in another connection."""
        try:
            if self._connection is None:
                self._connection = self._table.connect()
            result = call(self._connection.cursor())
            self._connection.commit()
            return result
        except (self._table.error, OSError) as error:
            self._disconnect()
            raise QueueFailed(
                f"{self._table} can't be {done}: {_cause(error)}. Repair that; if you move it away, the operations in it are lost"
            ) from None

    def _disconnect(self) -> None:
        connection, self._connection = self._connection, None
        if connection:
            with suppress(self._table.error):
                connection.close()

    def close(self) -> None:
        """Ends the thread after its calls, and closes the table."""
        self._thread.shutdown()
        self._disconnect()


def _each(cursor: Any, statement: str, rows: Sequence[tuple[Any, ...]]) -> None:
    if rows:
        cursor.executemany(statement, rows)


def _cause(error: Exception) -> str:
    """What an error says without the values of a row."""
    reply = getattr(getattr(error, "diag", None), "message_primary", None) or str(error)
    return re.sub(r"\s+", " ", reply)
