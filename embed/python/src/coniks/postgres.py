"""A log in PostgreSQL, which the providers and replicas of several machines share, and a guard. They need psycopg 3.1.

    log = PostgresLog("host=/run/postgresql dbname=keys")
    guard = PostgresGuard("host=/run/postgresql dbname=guards", "keys.example.com", sign)

Each line is a row of one table, whose primary key is the position. So PostgreSQL decides which of two writers gets a position.
An append returns once its row is committed, and PostgreSQL must keep what it committed: a session and an append are refused if the
settings or the table let rows be lost. A second table, `TABLE_snapshot`, has the snapshot. docs/CLUSTER.md has what else a service needs.
"""

from __future__ import annotations

import secrets
import time
from contextlib import suppress
from typing import Any, Callable, Iterable, Iterator, Optional, TypeVar

import psycopg
from psycopg.errors import DuplicateObject, DuplicateTable, UndefinedTable, UniqueViolation

from ._postgres_guard import PostgresGuard
from ._postgres_snapshot import SnapshotTable
from ._session import LOCKED, Failure, Pool, Session, reason
from ._tables import BAD_NAME, CANCELLED, COLUMNS, REFUSED, Wrong, first_wrong, is_name, is_unfit, queries, refuse, state, unfit
from .faults import DirectoryExists, LinesDropped, LogFailed, LogRefused, NoDirectory, Overtaken
from .log import Closing

__all__ = ["PostgresGuard", "PostgresLog"]

Answer = TypeVar("Answer")
_Self = TypeVar("_Self", bound="PostgresLog")

_UNFIT = unfit(
    {"position": "bigint", "line": "bytea", "token": "bytea"},
    (
        f"c.oid IS NOT NULL AND NOT EXISTS (SELECT {COLUMNS} AND attname = 'token')",
        "it lacks the column token, as tables of an older layout do: ALTER TABLE {table} ADD token bytea NOT NULL DEFAULT ''",
    ),
)
_UNWRITABLE: list[Wrong] = [
    (
        "current_setting('transaction_read_only') = 'on'",
        "transactions are read only: ALTER ROLE {role} SET default_transaction_read_only = off",
    ),
    ("c.oid IS NULL AND {namespace} IS NULL", "its schema is missing: CREATE SCHEMA {schema} AUTHORIZATION {role}"),
    (
        "c.oid IS NULL AND NOT has_schema_privilege({namespace}, 'CREATE')",
        "it is missing, and the role can't create it: GRANT CREATE ON SCHEMA {schema} TO {role}",
    ),
    (
        f"""EXISTS (SELECT {COLUMNS} AND NOT (has_column_privilege(c.oid, attnum, 'SELECT')
            AND has_column_privilege(c.oid, attnum, 'INSERT')))""",
        "the role can't append to it: GRANT SELECT, INSERT ON {table} TO {role}",
    ),
]
_SQL = {
    "state": state(_UNFIT),
    "rights": first_wrong(_UNWRITABLE),
    "create": """CREATE TABLE IF NOT EXISTS {table}
        (position bigint PRIMARY KEY CHECK (position >= 0), line bytea NOT NULL, token bytea NOT NULL)""",
    # Without the row before, none is inserted: positions have no gap, and no line follows one that this process hasn't seen. The
    # first one is inserted only if there is no other, since rows may have been dropped.
    "append": f"""INSERT INTO {{table}} (position, line, token)
        SELECT %(position)s::bigint, %(line)b::bytea, %(token)b::bytea
        WHERE (CASE %(position)s::bigint WHEN 0 THEN NOT EXISTS (SELECT FROM {{table}} WHERE position > 0)
            ELSE EXISTS (SELECT FROM {{table}}
                WHERE position = %(position)s::bigint - 1 AND token = coalesce(%(before)b::bytea, token)) END)
        AND NOT {is_unfit(_UNFIT)} RETURNING pg_notify({{name}}, position::text)""",
    "is_mine": "SELECT token = %(token)b::bytea FROM {table} WHERE position = %(position)s::bigint",
    # At most 4 MiB, or one row.
    "read": """SELECT position, line, token FROM (SELECT *, sum(octet_length(line)) OVER (ORDER BY position) AS size
        FROM {table} WHERE position >= %(position)s ORDER BY position LIMIT 32) AS page
        WHERE size - octet_length(line) < 4194304 ORDER BY position""",
    "first": "SELECT min(position) FROM {table}",
    "count": "SELECT coalesce(max(position) + 1, 0) FROM {table}",
    "listen": "LISTEN {channel}",
    # Its commit waits until a synchronous standby has all rows seen before. One can be seen too early, if the session that
    # waited to commit it was cut, or PostgreSQL was restarted.
    "replicated": "SELECT pg_logical_emit_message(true, {name}, '')",
}


class PostgresLog(Closing):
    """A log in a table of PostgreSQL. Several processes have it open, and each position is taken once.

    `conninfo` is libpq's connection string. `table` is `name` or `schema.name`. It also names the channel by which waiting
    replicas are notified, so use the same text everywhere. Opening makes no table: `create` does, or an append at position 0.
    `TABLE_snapshot` is made with it, or by the first `compact`.

    Each call ends after `patience` seconds, and `wait` after as many more as it waits. An append tries to reach PostgreSQL again
    meanwhile. All calls can be used from several threads. An exception of a signal handler ends a call, and harms no later one.
    The table contains keys, and the openings that blind the commitments.
    """

    def __init__(self, conninfo: str, table: str = "coniks_log", *, patience: float = 10):
        if not patience > 0:
            raise ValueError("the patience must be a number of seconds above 0")
        if not is_name(table):
            raise LogFailed(BAD_NAME)
        self.is_new, self._table, self._patience = False, table, patience
        # The position and the token of the last row that was read or appended.
        self._seen = (-1, b"")
        self._sql, self._stored = queries(_SQL, table, patience), SnapshotTable(table, patience)
        self._pool = Pool(conninfo, table, self._check)
        # A replica waits in a session of its own, which listens.
        self._listening = Pool(conninfo, table, self._check, is_listening=True)
        self._do("opened", self._pool, lambda _: None)

    @classmethod
    def create(cls: type[_Self], conninfo: str, table: str = "coniks_log", *, patience: float = 10) -> _Self:
        """Opens a log for a new directory, and makes the table if there is none. Raises `DirectoryExists` if it has lines."""
        log = cls(conninfo, table, patience=patience)
        try:
            log._do("made", log._pool, log._make)
        except BaseException:
            log.close()
            raise
        log.is_new = True
        return log

    def __str__(self) -> str:
        return f"table {self._table} of {self._pool.place}"

    def _rows(self, session: Session, query: str, row: Optional[dict[str, Any]] = None) -> list[Any]:
        return session.execute(self._sql[query], row, binary=True).fetchall()

    def _do(
        self,
        done: str,
        pool: Pool,
        call: Callable[..., Answer],
        *arguments: Any,
        seconds: float = 0,
        refused: type[LogFailed] = LogFailed,
    ) -> Answer:
        """Returns what a call returns. After a lost connection it is called once more."""
        until, tries = time.monotonic() + seconds + self._patience, 2
        while True:
            try:
                return pool.run(until, call, *arguments)
            except Failure as error:
                failure = error.with_traceback(None)
            tries -= 1
            if not failure.is_lost or not tries or time.monotonic() >= until:
                break
            pool.shrink()
        if failure.state == UndefinedTable.sqlstate:
            raise NoDirectory(f"there is no {self}: check its name, or make a directory with PostgresLog.create")
        kind = refused if failure.is_certain and not failure.is_lost else LogFailed
        raise kind(f"{self} can't be {done}: {failure}")

    def _check(self, session: Session, query: str = "state", wrong: list[Wrong] = _UNFIT) -> None:
        refuse(self._rows(session, query), wrong, self._table)

    def check_writable(self) -> None:
        """Raises `LogRefused` if an append could not succeed: if the role lacks a right, at a standby, or if transactions are read
        only."""
        self._do("written", self._pool, self._check_rights, refused=LogRefused)

    def _check_rights(self, session: Session) -> None:
        self._check(session)
        self._check(session, "rights", _UNWRITABLE)

    def _make(self, session: Session) -> None:
        """Makes the table if there is none. Requires that it has no line."""
        try:
            [(count,)] = self._rows(session, "count")
        except UndefinedTable:
            self._create(session)
            count = 0
        if count:
            raise DirectoryExists(f"{self} has lines: open it with PostgresLog, or name another table")
        if self._stored.header(session):
            raise DirectoryExists(f"{self} has no lines, and there is a snapshot of it: restore it, or name another table")

    def _create(self, session: Session) -> None:
        # Another process may create it at the same time. Which of these errors is raised depends on how far it is.
        with suppress(UniqueViolation, DuplicateTable, DuplicateObject):
            session.execute(self._sql["create"])
        self._stored.create(session)
        self._check(session)

    def append(self, position: int, line: bytes) -> None:
        """Stores a line. If the connection is lost, the row's token tells whether this append or another one took the position.
        Raises `LogRefused` if it is certain that the line isn't stored and won't be, and `LogFailed` if it may be."""
        if b"\n" in line:
            raise ValueError("a line has no newline")
        last, token = self._seen
        before = token if last == position - 1 else None
        row: dict[str, Any] = {"position": position, "line": line, "token": secrets.token_bytes(16), "before": before}
        until, is_certain, causes = time.monotonic() + self._patience, True, dict[str, bool]()
        while True:
            try:
                self._pool.run(until, self._insert, row)
                return self._note(position, row["token"])
            except Failure as error:
                failure = error.with_traceback(None)
            causes[str(failure)] = True
            is_certain = is_certain and failure.is_certain
            # An earlier try may have the lock.
            is_worth_it = failure.is_lost or (failure.state == LOCKED and not is_certain)
            if not is_worth_it or time.monotonic() >= until:
                break
            self._pool.shrink()
            time.sleep(max(0.0, min(0.05, until - time.monotonic())))
        why = "; then ".join(causes)
        if is_certain:
            raise LogRefused(f"{self} didn't take line {position}, so it isn't stored: {why}")
        raise LogFailed(f"{self} may have line {position} or not, so read it again: {why}")

    def _note(self, position: int, token: bytes) -> None:
        """Notes the last row that was read or appended."""
        if position >= self._seen[0]:
            self._seen = (position, token)

    def _insert(self, session: Session, row: dict[str, Any]) -> None:
        """Inserts a row. If PostgreSQL still commits an earlier try, this one waits for it."""
        try:
            return self._write(session, row)
        except UniqueViolation as error:
            why = reason(error)
        found = self._rows(session, "is_mine", row)
        if not found:
            raise Failure(why)
        if found != [(True,)]:
            raise Overtaken(f"another provider has appended line {row['position']} to {self}: close this one, or open a replica")
        self._replicate(session)

    def _write(self, session: Session, row: dict[str, Any]) -> None:
        session.warned.clear()
        try:
            rows = self._rows(session, "append", row)
        except UndefinedTable:
            if row["position"] != 0:
                raise
            self._create(session)
            rows = self._rows(session, "append", row)
        except REFUSED:
            self._check(session)
            raise
        if not rows:
            self._check(session)
            before = {"position": row["position"] - 1, "token": row["before"]}
            first = self._rows(session, "first")[0][0]
            if first is not None and first >= row["position"]:
                raise Overtaken(f"another provider has gone on in {self}, and dropped line {row['position']}: open a replica")
            if row["before"] is not None and self._rows(session, "is_mine", before) == [(False,)]:
                raise Overtaken(f"line {before['position']} of {self} isn't the one that this process has seen: restart")
            raise Failure("it has no line before that: read it again")
        if session.warned:
            # As after a lost connection: the next try finds its row, and waits for the standby.
            raise psycopg.OperationalError(CANCELLED)

    def _replicate(self, session: Session) -> None:
        """Waits until a synchronous standby has all rows seen before. A wait that is cancelled in the server, which then warns, is
        repeated."""
        while True:
            session.warned.clear()
            self._rows(session, "replicated")
            if not session.warned:
                return
            if time.monotonic() >= session.until:
                raise psycopg.OperationalError(CANCELLED)

    def read(self, position: int) -> Iterator[bytes]:
        """Returns the lines from a position on. Raises `NoDirectory` if there is no table, `LinesDropped` if the log begins after
        that position, and another `LogFailed` if a line is missing before a later one."""
        while rows := self._do("read", self._pool, self._read, position):
            for number, line, token in rows:
                if number != position:
                    raise self._lacks(position, number)
                self._note(number, token)
                yield line
                position += 1

    def _read(self, session: Session, position: int) -> list[Any]:
        if rows := self._rows(session, "read", {"position": position}):
            self._replicate(session)
        return rows

    def _lacks(self, position: int, number: int) -> LogFailed:
        """The error of a log that lacks a line before another one."""
        if self._do("read", self._pool, self._rows, "first") == [(number,)]:
            return LinesDropped(
                f"{self} begins at line {number}, and line {position} was dropped or lost: "
                f"restore a snapshot whose position is at least {number}, or the lines"
            )
        return LogFailed(f"{self} lacks line {position} before line {number}: restore it from a standby or a backup")

    def snapshot(self) -> Optional[tuple[int, Iterator[bytes]]]:
        """Returns the position of the stored snapshot and its lines, or None if there is none."""
        found = self._do("read", self._pool, self._read_header)
        if found is None:
            return None
        position, number, first, count = found
        if position > count:
            raise LogFailed(
                f"{self} has {count} lines, and its snapshot has the position {position}: "
                "restore its last lines from a standby or a backup"
            )
        if position < first:
            raise LinesDropped(
                f"{self} begins at line {first}, and its snapshot has the position {position}: "
                "restore a later snapshot, or the lines"
            )
        return position, self._snapshot_lines(number)

    def _read_header(self, session: Session) -> Optional[tuple[int, int, int, int]]:
        if found := self._stored.stored(session):
            self._replicate(session)
        return found

    def _snapshot_lines(self, first: int) -> Iterator[bytes]:
        number = first
        while rows := self._do("read", self._pool, self._stored.page, number):
            for found, line in rows:
                if found != number:
                    raise self._lacks_row(first, number)
                yield line
                number += 1

    def _lacks_row(self, first: int, number: int) -> LogFailed:
        """The error of a snapshot that lacks a row before another one."""
        header = self._do("read", self._pool, self._stored.header)
        if header and header[0] == first:
            return LogFailed(
                f"the snapshot of {self} lacks row {number} before a later one: "
                "restore its table from a standby or a backup, or empty it if the log still has all its lines"
            )
        return LinesDropped(f"another snapshot of {self} took the place of the one that was read: read it again")

    def compact(self, position: int, lines: Iterable[bytes]) -> None:
        """Stores a snapshot in one transaction. Raises `LogRefused` if it is certain that the older one stays, and `LogFailed` if
        either may be stored."""
        self._once("written", self._stored.store, position, lines)

    def drop_before(self, position: int) -> None:
        """Drops the lines below a position, at most that of the snapshot, but not the one just before it. Back up the database
        first."""
        self._once("written", self._stored.drop, position)

    def _once(self, done: str, call: Callable[..., object], *arguments: Any) -> None:
        """Makes a call that can't be repeated."""
        try:
            self._pool.run(time.monotonic() + self._patience, call, *arguments)
            return
        except Failure as error:
            failure = error.with_traceback(None)
        if failure.state == UndefinedTable.sqlstate:
            raise NoDirectory(f"there is no {self}: check its name, or make a directory with PostgresLog.create")
        kind = LogRefused if failure.is_certain else LogFailed
        raise kind(f"{self} can't be {done}: {failure}")

    def wait(self, position: int, seconds: float) -> int:
        """Waits until the log has a line at this position, at most some seconds. Returns how many lines it has."""
        until = time.monotonic() + seconds
        return self._do("read", self._listening, self._wait, position, until, seconds=seconds)

    def _wait(self, session: Session, position: int, until: float) -> int:
        session.execute(self._sql["listen"])
        while True:
            session.noted.clear()
            count = int(self._rows(session, "count")[0][0])
            if count > position or time.monotonic() >= until:
                return count
            if not session.noted:
                session.arrives(until)

    def close(self) -> None:
        """Closes the log. Calls that are under way in other threads end with `LogFailed`, as later ones do."""
        self._pool.close()
        self._listening.close()
