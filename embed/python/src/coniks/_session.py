"""Sessions of PostgreSQL for `coniks.postgres`. Each wait has an end, and an exception at any bytecode leaves no session unusable."""

from __future__ import annotations

import os
import select
import time
from contextlib import suppress
from functools import partial
from typing import Any, Callable, Generator, Optional, TypeVar

import psycopg
from psycopg import generators
from psycopg.abc import RV, PQGen
from psycopg.conninfo import conninfo_to_dict, make_conninfo
from psycopg.pq import TransactionStatus
from psycopg.waiting import Ready, Wait

from .faults import LogFailed

__all__ = ["Failure", "LOCKED", "Pool", "Session", "reason"]

Answer = TypeVar("Answer")
Wanted = TypeVar("Wanted")
_EVENTS = {Wait.R: select.POLLIN, Wait.W: select.POLLOUT, Wait.RW: select.POLLIN | select.POLLOUT}
# After this many seconds a waiting thread looks whether the pool was closed.
_LOOK_SECONDS = 0.1
# How many seconds a host may take to open a session, if the connection string doesn't say so.
_REACH_SECONDS = 5
# How many sessions a pool keeps.
_STORED = 4

# How those errors of libpq begin that show no option but host, port, user and database: of libpq 14 and later, and of older ones.
_HARMLESS = ("connection to server", "could not translate host name", "could not connect to server", "FATAL")
# After these errors a statement may be committed: a lost connection, an unknown completion, a cancel, a shutdown or crash.
_UNSURE = ("08", "40003", "57014", "57P0")
LOCKED = "55P03"
_ADVICE = {
    "25006": "connect to the primary, as a role whose default_transaction_read_only is off",
    "3F000": "create that schema",
    "42501": "grant this role SELECT and INSERT on the table, UPDATE too if a guard uses it, and USAGE on its schema",
    "42P01": "restore the table, or make a directory with PostgresLog.create",
    "53": "give the server more of it, then call again",
    LOCKED: "end the session that has the lock, which pg_locks shows, then call again",
}


class Failure(Exception):
    """Why a try failed. `is_certain` if it stored nothing and won't, `is_lost` if a try in another session may succeed. The text
    has no data of a row."""

    def __init__(self, text: str, state: str = "", is_certain: bool = True, is_lost: bool = False):
        super().__init__(text)
        self.state, self.is_certain, self.is_lost = state, is_certain, is_lost


def reason(error: psycopg.Error) -> str:
    """Returns what an error says, without data of a row or of the connection string. The details of a server's errors have rows,
    and so may the texts of data errors and of functions. Errors of libpq may show the value of an option."""
    state = error.sqlstate
    if state:
        reply = None if state[:2] in ("22", "P0") else error.diag.message_primary
        advice = next((it for of, it in _ADVICE.items() if state.startswith(of)), "the server's log has more")
        return f"{reply or type(error).__name__} ({state}): {advice}"
    text = str(error)
    if error.pgconn:
        text = error.pgconn.error_message.decode("utf-8", "replace")
        if not text.startswith(_HARMLESS):
            text = "libpq refuses an option of the connection string: try it with psql"
    return " ".join(text.split())


def _reported(error: psycopg.Error, is_begun: bool, is_idle: bool) -> tuple[str, str, bool, bool]:
    """Returns the parts of a `Failure`, by whether the call was begun and whether its transaction is over."""
    state = error.sqlstate or ""
    is_refused = bool(state) and is_idle and not state.startswith(_UNSURE)
    is_lost = not is_refused and isinstance(error, (psycopg.OperationalError, psycopg.InterfaceError))
    return reason(error), state, is_refused or not is_begun, is_lost


class _Life:
    """What has a pool, and whether that is closed. The pool's sessions share it."""

    def __init__(self, owner: str):
        self.owner, self.is_closed = owner, False

    def over(self) -> LogFailed:
        return LogFailed.final(f"{self.owner} is closed: open it again")


def _ready(socket: int, wants: Wait, until: float, life: _Life) -> Optional[Ready]:
    """Waits until a socket is ready, and returns for what. Returns None if it isn't in time."""
    poll = select.poll()
    poll.register(socket, _EVENTS[wants])
    while not life.is_closed:
        left = until - time.monotonic()
        if found := poll.poll(max(0.0, min(left, _LOOK_SECONDS)) * 1000):
            is_readable, is_writable = found[0][1] & ~select.POLLOUT, found[0][1] & ~select.POLLIN
            return Ready.RW if is_readable and is_writable else Ready.R if is_readable else Ready.W
        if left <= 0:
            return None
    raise life.over()


def _stored(steps: Generator[Wanted, Ready, Answer], stored: list[Answer]) -> Generator[Wanted, Ready, None]:
    """Keeps what a generator returns. Otherwise the exception at its end has it, which may refer to itself by its traceback."""
    stored.append((yield from steps))


class Session(psycopg.Connection[Any]):
    """A connection on which no wait goes on after `until`, or after its pool was closed. `noted` has the notifications that came,
    `warned` the SQLSTATE of each warning."""

    life: _Life
    until: float
    noted: list[Any]
    warned: list[Optional[str]]
    is_checked = False

    def wait(self, gen: PQGen[RV], *_: Any, **__: Any) -> RV:
        """Runs a query. After an interrupt psycopg's own method cancels it in the server, and a commit that waits for a standby then
        returns as if the standby had it. This one leaves the query alone."""
        answer: list[RV] = []
        steps = _stored(gen, answer)
        try:
            wants = next(steps)
            while True:
                ready = _ready(self.pgconn.socket, wants, self.until, self.life)
                if ready is None:
                    raise psycopg.OperationalError("PostgreSQL didn't answer in time: see whether it is overloaded or stopped")
                wants = steps.send(ready)
        except StopIteration:
            return answer[0]

    def arrives(self, until: float) -> bool:
        """Waits until the server sends something, and returns whether it did in time."""
        return _ready(self.pgconn.socket, Wait.R, until, self.life) is not None


def _note(warned: list[Optional[str]], notice: psycopg.errors.Diagnostic) -> None:
    if notice.severity_nonlocalized == "WARNING":
        warned.append(notice.sqlstate)


def _opened(conninfo: str, until: float, life: _Life) -> Session:
    """Opens a session. psycopg limits each step of that, and this all of them together."""
    opened: list[Any] = []
    steps = _stored(generators.connect(conninfo), opened)
    try:
        socket, wants = next(steps)
        while True:
            ready = _ready(socket, wants, until, life)
            if ready is None:
                raise psycopg.OperationalError("PostgreSQL opened no session in time: see whether it is overloaded or stopped")
            socket, wants = steps.send(ready)
    except StopIteration:
        session = Session(opened.pop())
    finally:
        # Closes a connection that is half open.
        steps.close()
    session.life, session.until, session.autocommit = life, until, True
    # Nothing here refers back to the session, so that one that is dropped is closed at once.
    session.noted, session.warned = [], []
    session.add_notify_handler(session.noted.append)
    session.add_notice_handler(partial(_note, session.warned))
    return session


def _hosts(conninfo: str, name: str) -> tuple[list[str], float, str]:
    """Returns a connection string for each host, the seconds that each may take, and a name of the place. libpq by itself goes on
    to the next host only after one that refuses, not after one that is silent."""
    named: dict[str, Any] = {}
    lists: dict[str, list[str]] = {}
    reach: Optional[float] = None
    with suppress(psycopg.Error, ValueError):
        named = {"application_name": name, "client_encoding": "utf8", **conninfo_to_dict(conninfo)}
        lists = {it: str(named.get(it) or os.environ.get(f"PG{it.upper()}", "")).split(",") for it in ("host", "hostaddr", "port")}
        seconds = int(named.pop("connect_timeout", _REACH_SECONDS))
        reach = seconds if seconds > 0 else float("inf")
    # libpq takes a string within the string as the name of a database, and shows it.
    if reach is None or "://" in named.get("dbname", ""):
        raise LogFailed("the connection string isn't one of libpq, as host=db.example dbname=keys is: try it with psql")
    place = f"database {named.get('dbname') or 'of the role'} at {named.get('host') or named.get('hostaddr') or 'the usual host'}"
    count = max(len(it) for it in lists.values())
    parts = [{it: of[number % len(of)] for it, of in lists.items()} for number in range(count)] if count > 1 else [{}]
    return [make_conninfo(**{**named, **it}) for it in parts], reach, place


class Pool:
    """Sessions that are in no call. A call takes one out, and puts it back only after success; else it is closed. There is no lock
    that an exception of a signal handler could leave held.

    `check` is called with a new session. Sessions of a pool that listens get notifications while they are in no call. `owner` is
    what has the pool, as errors name it.
    """

    def __init__(
        self,
        conninfo: str,
        name: str,
        check: Callable[[Session], object],
        is_listening: bool = False,
        owner: str = "the log",
    ):
        self._hosts, self._reach, self.place = _hosts(conninfo, name)
        self._check, self._is_listening, self._owner, self._life = check, is_listening, os.getpid(), _Life(owner)
        self._sessions: list[Session] = []

    def run(self, until: float, call: Callable[..., Answer], *arguments: Any) -> Answer:
        """Returns what a call returns in a session. Raises `Failure` after an error of psycopg."""
        if os.getpid() != self._owner:
            raise LogFailed.final(
                f"{self._life.owner} was opened by the process that this one was forked from: open it in this one"
            )
        if self._life.is_closed:
            raise self._life.over()
        session, is_begun = self._taken(until), False
        reported: Optional[tuple[str, str, bool, bool]] = None
        try:
            if not session.is_checked:
                self._check(session)
                session.is_checked = True
            is_begun = True
            answer = call(session, *arguments)
        except BaseException as error:
            if isinstance(error, psycopg.Error):
                reported = _reported(error, is_begun, session.pgconn.transaction_status == TransactionStatus.IDLE)
            session.close()
            if not reported:
                raise
        # Not above, where the error of psycopg would be its context, which may show a row.
        if reported:
            raise Failure(*reported)
        self._sessions.append(session)
        self.shrink(0 if self._life.is_closed else _STORED)
        return answer

    def _taken(self, until: float) -> Session:
        """Takes a session of the pool, or opens one. A session to which the server sent something meanwhile is about to end."""
        while self._sessions:
            with suppress(IndexError):
                session = self._sessions.pop()
                session.until = until
                if self._is_listening or not session.arrives(0):
                    return session
                session.close()
        reasons = []
        for number, conninfo in enumerate(self._hosts):
            # Each host gets an equal part of the time that is left.
            now = time.monotonic()
            share = (until - now) / (len(self._hosts) - number)
            try:
                session = _opened(conninfo, now + min(self._reach, share), self._life)
            except psycopg.Error as error:
                reasons.append(reason(error))
                continue
            session.until = until
            database, host = (it.decode("utf-8", "replace") for it in (session.pgconn.db, session.pgconn.host))
            self.place = f"database {database} at {host}"
            return session
        raise Failure("; ".join(reasons), is_lost=True)

    def shrink(self, size: int = 0) -> None:
        """Closes sessions until `size` are left."""
        with suppress(IndexError):
            while len(self._sessions) > size:
                self._sessions.pop(0).close()

    def close(self) -> None:
        """Ends each call that is under way, and each later one, with `LogFailed`. Does nothing in a forked process, whose parent
        has the sessions."""
        if os.getpid() == self._owner:
            self._life.is_closed = True
            self.shrink()
