"""A guard whose record is in PostgreSQL. `coniks.postgres` exports it."""

from __future__ import annotations

import re
import time
from contextlib import suppress
from typing import Any, Callable, Optional, TypeVar

import psycopg
from psycopg.errors import DuplicateObject, DuplicateTable, UndefinedTable, UniqueViolation

from ._session import Failure, Pool, Session
from ._tables import BAD_NAME, CANCELLED, REFUSED, is_name, is_unfit, queries, refuse, state, unfit
from .faults import LogFailed
from .guard import Guard, RecordFailed
from .log import Closing

Answer = TypeVar("Answer")

_UNFIT = unfit({"key": "text", "record": "text"})
_SQL = {
    "state": state(_UNFIT),
    "create": "CREATE TABLE IF NOT EXISTS {table} (key text PRIMARY KEY, record text NOT NULL)",
    # Its bytes: a record that was changed by hand may be no text.
    "read": "SELECT convert_to(record, 'SQL_ASCII') FROM {table} WHERE key = %(key)s::text",
    "insert": f"""INSERT INTO {{table}} (key, record) SELECT %(key)s::text, %(after)s::text WHERE NOT {is_unfit(_UNFIT)}
        ON CONFLICT DO NOTHING RETURNING true""",
    # No record gets the text again that it had before, so a try that PostgreSQL executes late changes nothing.
    "update": f"""UPDATE {{table}} SET record = %(after)s::text
        WHERE key = %(key)s::text AND record = %(before)s::text AND NOT {is_unfit(_UNFIT)} RETURNING true""",
}


class PostgresGuard(Guard, Closing):
    """A guard over a row of a table in PostgreSQL. The services of several machines share it.

    `database` is libpq's connection string, `key` the name of the record: 1 to 255 printable ASCII characters without space, the
    same for all services of one signing key. `table` is `name` or `schema.name`. Opening makes no table, unless `create` is true.
    Each read and each write of the record ends after `patience` seconds.

    Use another database than the log's, or at least another backup: a guard restored together with the log refuses nothing.
    """

    def __init__(
        self,
        database: str,
        key: str,
        sign: Callable[[bytes], bytes],
        *,
        new_directory: bool = False,
        known: Optional[bytes] = None,
        verify: Optional[Callable[[bytes, bytes], bool]] = None,
        table: str = "coniks_guard",
        create: bool = False,
        patience: float = 10,
    ):
        """Reads the record, as `Guard` does. Raises `RecordFailed` if PostgreSQL could lose it."""
        if not patience > 0:
            raise ValueError("the patience must be a number of seconds above 0")
        if not re.fullmatch("[!-~]{1,255}", key):
            raise ValueError("the key of a record has 1 to 255 printable ASCII characters without space")
        if not is_name(table):
            raise RecordFailed(BAD_NAME)
        self._key, self._table, self._patience = key, table, patience
        self._sql = queries(_SQL, table, patience)
        try:
            self._pool = Pool(database, table, self._check, owner="the guard")
        except LogFailed as error:
            raise RecordFailed(str(error)) from None
        try:
            if create:
                self._do("made", self._create)
            self._begin(sign, new_directory, known, verify)
        except BaseException:
            self.close()
            raise

    def __str__(self) -> str:
        return f"the record {self._key} in table {self._table} of {self._pool.place}"

    def close(self) -> None:
        """Closes the guard. Calls that are under way in other threads end with `RecordFailed`, as later ones do."""
        self._pool.close()

    def _rows(self, session: Session, query: str, row: Optional[dict[str, Any]] = None) -> list[Any]:
        return session.execute(self._sql[query], row, binary=True).fetchall()

    def _check(self, session: Session) -> None:
        refuse(self._rows(session, "state"), _UNFIT, self._table)

    def _do(self, done: str, call: Callable[..., Answer], *arguments: Any) -> Answer:
        """Returns what a call returns. After a lost connection it is called again."""
        until = time.monotonic() + self._patience
        while True:
            try:
                return self._pool.run(until, call, *arguments)
            except LogFailed as error:
                raise RecordFailed(str(error)) from None
            except Failure as error:
                failure = error.with_traceback(None)
            if not failure.is_lost or time.monotonic() >= until:
                break
            self._pool.shrink()
            time.sleep(max(0.0, min(0.05, until - time.monotonic())))
        if failure.state == UndefinedTable.sqlstate:
            raise RecordFailed(f"{self} is missing with its table: check its name, or make the table with create=True")
        raise RecordFailed(f"{self} can't be {done}: {failure}")

    def _create(self, session: Session) -> None:
        # Another process may create it at the same time. Which of these errors is raised depends on how far it is.
        with suppress(UniqueViolation, DuplicateTable, DuplicateObject):
            session.execute(self._sql["create"])
        self._check(session)

    def _read(self) -> Optional[str]:
        rows = self._do("read", self._rows, "read", {"key": self._key})
        return rows[0][0].decode("latin-1") if rows else None

    def _sync(self) -> None:
        """A row that another session sees is durable."""

    def _swap(self, before: Optional[str], after: str) -> bool:
        return self._do("written", self._store, {"key": self._key, "before": before, "after": after})

    def _store(self, session: Session, row: dict[str, Any]) -> bool:
        session.warned.clear()
        try:
            rows = self._rows(session, "insert" if row["before"] is None else "update", row)
        except REFUSED:
            self._check(session)
            raise
        if session.warned:
            # As after a lost connection: the guard finds what this try has stored, stores it again, and waits for the standby.
            raise psycopg.OperationalError(CANCELLED)
        if not rows:
            self._check(session)
        return bool(rows)
