"""Tables of PostgreSQL for `coniks.postgres`: how they are named, and which of them and which sessions are refused."""

from __future__ import annotations

import re
from typing import Any, Mapping

from psycopg.errors import DatatypeMismatch, FeatureNotSupported, ObjectNotInPrerequisiteState, RaiseException, UndefinedColumn

from ._session import Failure

__all__ = [
    "BAD_NAME",
    "CANCELLED",
    "COLUMNS",
    "IS_UNSAFE",
    "REFUSED",
    "Wrong",
    "first_wrong",
    "is_name",
    "is_unfit",
    "queries",
    "refuse",
    "state",
    "unfit",
]

# A condition of a query, and what to do if it is true. `c` is the table's row of pg_class, if there is a table.
Wrong = tuple[str, str]

BAD_NAME = "a table is named `name` or `schema.name`, by at most 63 of the characters a to z, 0 to 9 and _: choose such a name"
CANCELLED = "the wait of a commit for a synchronous standby was cancelled: let nothing cancel it"
COLUMNS = "FROM pg_attribute WHERE attrelid = c.oid AND attnum > 0 AND NOT attisdropped"
_TABLE = "FROM (VALUES (1)) AS one LEFT JOIN pg_class AS c ON c.oid = to_regclass({name})"
# Errors of a statement that stores a row in a view, or in a table with other columns, rules or triggers.
REFUSED = (DatatypeMismatch, FeatureNotSupported, ObjectNotInPrerequisiteState, RaiseException, UndefinedColumn)
_UNSAFE: list[Wrong] = [
    ("current_setting('fsync') <> 'on'", "fsync is off, so a crash loses what was committed: set it to on and reload"),
    ("current_setting('full_page_writes') <> 'on'", "full_page_writes is off, so a crash can tear rows: set it to on and reload"),
    (
        "current_setting('synchronous_commit') = 'off'",
        "synchronous_commit is off, so a crash loses what was committed: ALTER ROLE {role} SET synchronous_commit = on",
    ),
    (
        "current_setting('synchronous_commit') = 'local' AND current_setting('synchronous_standby_names') <> ''",
        "synchronous_commit is local, so a synchronous standby can lack rows: ALTER ROLE {role} SET synchronous_commit = on",
    ),
]
IS_UNSAFE = " OR ".join(it for it, _ in _UNSAFE)


def unfit(columns: Mapping[str, str], *more: Wrong) -> list[Wrong]:
    """Returns what makes a session unfit, or a table that must have these columns. The first one is its primary key."""
    key = next(iter(columns))
    *first, last = (f"{name} {kind}" for name, kind in columns.items())
    attributes = ", ".join(f"{name} {kind} t" for name, kind in sorted(columns.items()))
    return [
        ("pg_is_in_recovery()", "the server is a standby: connect to the primary, as target_session_attrs=read-write does"),
        *_UNSAFE,
        ("c.relkind <> 'r'", "it is no ordinary table: name another one"),
        (
            "EXISTS (SELECT FROM pg_inherits WHERE inhparent = c.oid)",
            "tables inherit from it, whose rows count as its own: ALTER TABLE .. NO INHERIT {table}",
        ),
        ("c.relpersistence <> 'p'", "it is unlogged or temporary, so a crash empties it: ALTER TABLE {table} SET LOGGED"),
        *more,
        (
            f"""(SELECT string_agg(concat_ws(' ', attname, format_type(atttypid, atttypmod), attnotnull), ', ' ORDER BY attname)
                {COLUMNS}) <> '{attributes}'""",
            f"its columns must be {', '.join(first)} and {last}, each NOT NULL: name another table",
        ),
        (
            f"""c.oid IS NOT NULL AND NOT EXISTS (SELECT FROM pg_index WHERE indrelid = c.oid AND indisprimary AND indisvalid
                AND indimmediate AND indnatts = 1 AND indkey[0] = (SELECT attnum {COLUMNS} AND attname = '{key}'))""",
            f"its primary key must be ({key}), valid and not deferrable: ALTER TABLE {{table}} ADD PRIMARY KEY ({key})",
        ),
        ("c.relrowsecurity", "it has row-level security, which hides rows: ALTER TABLE {table} DISABLE ROW LEVEL SECURITY"),
        ("EXISTS (SELECT FROM pg_rewrite WHERE ev_class = c.oid)", "it has rules, which can drop rows: DROP RULE .. ON {table}"),
        (
            "EXISTS (SELECT FROM pg_trigger WHERE tgrelid = c.oid AND NOT tgisinternal)",
            "it has triggers, which can change rows: DROP TRIGGER .. ON {table}",
        ),
    ]


def first_wrong(wrong: list[Wrong], more: str = "") -> str:
    """Returns a query for the number of the first condition that is true, the names in the texts, and more columns."""
    cases = " ".join(f"WHEN {it} THEN {number}" for number, (it, _) in enumerate(wrong))
    return f"SELECT CASE {cases} END, quote_ident(current_user), {{schema}}{more} {_TABLE}"


def is_unfit(wrong: list[Wrong]) -> str:
    """Returns the condition that one of these is true, for a statement that stores a row. It sees each change of the table that was
    committed before: the statement locks the table, and then takes its snapshot."""
    return f"EXISTS (SELECT {_TABLE} WHERE {' OR '.join(it for it, _ in wrong)})"


def state(wrong: list[Wrong]) -> str:
    """Returns the query that a new session begins with. It also sets the session: no statement is cancelled, only a wait for a
    lock ends. The server warns if a commit's wait for a standby was cancelled."""
    return first_wrong(
        wrong,
        """, set_config('lock_timeout', '{lock}', false), (SELECT count(set_config(name, '0', false))
        FROM pg_settings WHERE name IN ('statement_timeout', 'transaction_timeout', 'idle_session_timeout',
            'idle_in_transaction_session_timeout')),
        set_config('client_min_messages', 'warning', false), set_config('default_transaction_isolation', 'read committed', false)""",
    )


def is_name(table: str) -> bool:
    return len(table) <= 63 and bool(re.fullmatch(r"[a-z_][a-z0-9_]*(\.[a-z_][a-z0-9_]*)?", table))


def queries(texts: Mapping[str, str], table: str, patience: float) -> dict[str, bytes]:
    """Returns the queries on a table, for calls that end after some seconds."""
    first, *second = table.split(".")
    schema = f"'{first}'" if second else "quote_ident(current_schema())"
    names = {
        "table": ".".join(f'"{it}"' for it in [first, *second]),
        "name": f"'{table}'",
        "channel": f'"{table}"',
        "schema": f"coalesce({schema}, 'public')",
        "namespace": f"to_regnamespace({schema})::oid",
        # A wait for a lock ends before the call does. So the call learns that nothing is stored.
        "lock": max(1, int(min(patience * 500, 2**31 - 1))),
    }
    return {it: text.format(**names).encode() for it, text in texts.items()}


def refuse(rows: list[Any], wrong: list[Wrong], table: str) -> None:
    """Raises `Failure` if a query of `first_wrong` has found something wrong."""
    [(number, role, schema, *_)] = rows
    if number is not None:
        raise Failure(wrong[number][1].format(table=table, role=role, schema=schema))
