"""The snapshot of a log in PostgreSQL, which is in a second table. `coniks.postgres` has the log."""

from __future__ import annotations

import time
from contextlib import suppress
from typing import Any, Iterable, Optional

import psycopg
from psycopg.errors import DuplicateObject, DuplicateTable, UniqueViolation

from ._session import Failure, Session, reason
from ._snapshot_lines import position_of
from ._tables import CANCELLED, COLUMNS, IS_UNSAFE, Wrong, first_wrong, queries, refuse, unfit
from .faults import LogRefused, Overtaken

_UNFIT = unfit({"number": "bigint", "line": "bytea"})
_UNREADABLE: list[Wrong] = [
    ("c.oid IS NOT NULL AND NOT has_table_privilege(c.oid, 'SELECT')", "the role can't read it: GRANT SELECT ON {table} TO {role}")
]
_UNWRITABLE: list[Wrong] = [
    (
        "c.oid IS NULL AND NOT has_schema_privilege({namespace}, 'CREATE')",
        "it is missing, and the role can't create it: GRANT CREATE ON SCHEMA {schema} TO {role}",
    ),
    (
        f"""c.oid IS NOT NULL AND NOT (has_table_privilege(c.oid, 'DELETE')
            AND (SELECT bool_and(has_column_privilege(c.oid, attnum, 'INSERT')) {COLUMNS}))""",
        "the role can't store a snapshot: GRANT SELECT, INSERT, DELETE ON {table} TO {role}",
    ),
]
_UNDROPPABLE: list[Wrong] = [
    (
        "c.oid IS NOT NULL AND NOT has_table_privilege(c.oid, 'DELETE')",
        "the role can't drop lines: GRANT DELETE ON {table} TO {role}",
    )
]
_SQL = {
    "fit": first_wrong(_UNFIT),
    "readable": first_wrong(_UNREADABLE),
    "writable": first_wrong(_UNWRITABLE),
    "create": "CREATE TABLE IF NOT EXISTS {table} (number bigint PRIMARY KEY, line bytea NOT NULL)",
    "is_there": "SELECT to_regclass({name}) IS NOT NULL",
    # One snapshot is stored at a time. Others read the old one meanwhile. What would make the table unfit waits for the lock.
    "lock": "LOCK TABLE {table} IN SHARE ROW EXCLUSIVE MODE",
    "header": "SELECT number, line FROM {table} ORDER BY number LIMIT 1",
    # A number is left out, so that a reader notices a snapshot that took the place of the one that it reads.
    "next": "SELECT coalesce(max(number) + 2, 0) FROM {table}",
    "insert": f"""INSERT INTO {{table}} (number, line) SELECT %(number)s::bigint, %(line)b::bytea
        WHERE NOT ({IS_UNSAFE}) RETURNING true""",
    "forget": "DELETE FROM {table} WHERE number < %(number)s",
    # At most 4 MiB, or one row.
    "page": """SELECT number, line FROM (SELECT *, sum(octet_length(line)) OVER (ORDER BY number) AS size
        FROM {table} WHERE number >= %(number)s ORDER BY number LIMIT 32) AS page
        WHERE size - octet_length(line) < 4194304 ORDER BY number""",
}
_LOG_SQL = {
    "is_there": _SQL["is_there"],
    "bounds": "SELECT coalesce(min(position), 0), coalesce(max(position) + 1, 0) FROM {table}",
    "droppable": first_wrong(_UNDROPPABLE),
    # The row before the position stays, since an append looks for the row before its own.
    "drop": "DELETE FROM {table} WHERE position < %(position)s::bigint - 1",
}
# The longest name, without a schema, to which PostgreSQL can add that of the second table.
_LONGEST = 63 - len("_snapshot")


class SnapshotTable:
    """The table `TABLE_snapshot` beside a log's `TABLE`. The calls are made in a session of the log."""

    def __init__(self, table: str, patience: float):
        self._log, self._table, self._patience = table, f"{table}_snapshot", patience
        self.is_named = len(table.split(".")[-1]) <= _LONGEST
        self._sql, self._log_sql = queries(_SQL, self._table, patience), queries(_LOG_SQL, table, patience)

    def _rows(self, session: Session, query: bytes, row: Optional[dict[str, Any]] = None) -> list[Any]:
        return session.execute(query, row, binary=True).fetchall()

    def _check(self, session: Session, query: str, wrong: list[Wrong]) -> None:
        try:
            refuse(self._rows(session, self._sql[query]), wrong, self._table)
        except Failure as failure:
            raise Failure(f"the table {self._table}: {failure}") from None

    def create(self, session: Session) -> None:
        """Makes the table if there is none."""
        if self.is_named:
            # Another process may create it at the same time. Which of these errors is raised depends on how far it is.
            with suppress(UniqueViolation, DuplicateTable, DuplicateObject):
                session.execute(self._sql["create"])

    def header(self, session: Session) -> Optional[tuple[int, bytes]]:
        """The first row, None if no snapshot is stored."""
        if not self.is_named:
            return None
        self._check(session, "fit", _UNFIT)
        self._check(session, "readable", _UNREADABLE)
        if self._rows(session, self._sql["is_there"]) != [(True,)]:
            return None
        rows = self._rows(session, self._sql["header"])
        return rows[0] if rows else None

    def stored(self, session: Session) -> Optional[tuple[int, int, int, int]]:
        """The position of the snapshot, the number of its first row, and the log's first position and number of lines; None if
        no snapshot is stored."""
        found = self.header(session)
        if found is None:
            return None
        if self._rows(session, self._log_sql["is_there"]) != [(True,)]:
            raise Failure("it is missing, and its snapshot is there: restore it")
        [(first, count)] = self._rows(session, self._log_sql["bounds"])
        return (position_of(found[1], f"table {self._log}"), found[0], int(first), int(count))

    def page(self, session: Session, number: int) -> list[Any]:
        return self._rows(session, self._sql["page"], {"number": number})

    def store(self, session: Session, position: int, lines: Iterable[bytes]) -> None:
        """Stores a snapshot in one transaction. Each statement of it ends after the patience."""
        if not self.is_named:
            raise Failure(f"its name is too long for a second table beside it: use one of at most {_LONGEST} characters")
        self._check(session, "writable", _UNWRITABLE)
        self.create(session)
        failure = None
        try:
            session.execute(b"BEGIN")
            self._replace(session, position, lines)
        except psycopg.Error as error:
            failure = Failure(reason(error), error.sqlstate or "")
        # The session is closed then, and so nothing is committed. Not above, where the error of psycopg would be its context.
        if failure:
            raise failure
        session.warned.clear()
        session.execute(b"COMMIT")
        if session.warned:
            raise psycopg.OperationalError(CANCELLED)

    def _replace(self, session: Session, position: int, lines: Iterable[bytes]) -> None:
        session.execute(self._sql["lock"])
        self._check(session, "fit", _UNFIT)
        self._check_later(session, position)
        [(first,)] = self._rows(session, self._sql["next"])
        for number, line in enumerate(lines, first):
            session.until = time.monotonic() + self._patience
            if not self._rows(session, self._sql["insert"], {"number": number, "line": line}):
                self._check(session, "fit", _UNFIT)
                raise Failure("its settings were changed meanwhile: call again")
        session.until = time.monotonic() + self._patience
        session.execute(self._sql["forget"], {"number": first})

    def _check_later(self, session: Session, position: int) -> None:
        """Raises `Overtaken` if a later snapshot is stored."""
        rows = self._rows(session, self._sql["header"])
        before = position_of(rows[0][1], f"table {self._log}") if rows else 0
        [(first, count)] = self._rows(session, self._log_sql["bounds"])
        if before > position:
            raise Overtaken(
                f"table {self._log} has a snapshot of position {before}, which another provider has stored, "
                f"and {position} is before that: close this one, or open a replica"
            )
        if not max(1, first) <= position <= count:
            raise ValueError(f"position {position} isn't one of a snapshot of the log")

    def drop(self, session: Session, position: int) -> None:
        """Drops the lines of the log below a position."""
        found = self.stored(session)
        if found is None:
            raise LogRefused(
                f"table {self._log} has no snapshot, so no line may go: call the provider's compact, and back the snapshot up"
            )
        if not 0 <= position <= found[0]:
            raise LogRefused(
                f"the snapshot of table {self._log} has the position {found[0]}, so the lines from there on stay: "
                f"call compact before you drop those below {position}"
            )
        refuse(self._rows(session, self._log_sql["droppable"]), _UNDROPPABLE, self._log)
        session.execute(self._log_sql["drop"], {"position": position})
