"""When calls of a log in PostgreSQL end: a server that is stopped, a silent host, a log that is closed, a forked process, and an
interrupt at any bytecode."""

from __future__ import annotations

import gc
import os
import random
import signal
import socket
import sys
import tempfile
import threading
import time
from concurrent.futures import ThreadPoolExecutor
from contextlib import contextmanager, suppress
from typing import Callable, Iterator

import pytest

pytest.importorskip("psycopg")

from database import Database, soon
from interrupts import Interrupt, interrupted_apart
from log_calls import lines, requested, says
from raising import raises
from coniks.postgres import PostgresLog
from coniks.provider import LogFailed, LogRefused, Overtaken


SESSIONS = "SELECT count(*) FROM pg_stat_activity WHERE application_name = 't'"
# Seconds that a call waits for PostgreSQL, and in which it must end while PostgreSQL doesn't answer.
HASTY, ENDS = 3, 6


def test_stop(database: Database) -> None:
    """The server accepts connections and queries, and answers none."""
    PostgresLog.create(database.conninfo, "t").close()
    log, hasty, patient = (PostgresLog(database.conninfo, "t", patience=it) for it in (HASTY, HASTY, 60))
    log.append(0, b"zero")
    assert log.wait(0, 0) == 1 == len([*hasty.read(0)]), "stop: it answers before"
    waits = threading.Thread(
        target=says,
        args=("stop: an append under way", LogFailed, lambda: patient.append(1, bytes(3_000_000)), "closed"),
        kwargs={"seconds": 50},
    )
    database.stop()
    waits.start()
    try:
        says("stop: an append", LogFailed, lambda: log.append(1, b"one"), "in time", "or not", seconds=ENDS)
        says("stop: one that gets no session", LogRefused, lambda: log.append(1, b"two"), "session in time", seconds=ENDS)
        says("stop: a read", LogFailed, lambda: [*hasty.read(0)], "in time", seconds=ENDS)
        says("stop: a wait", LogFailed, lambda: log.wait(1, 0.5), "in time", seconds=0.5 + ENDS)
        says("stop: check_writable", LogFailed, hasty.check_writable, "in time", seconds=ENDS)
        says("stop: an opening", LogFailed, lambda: PostgresLog(database.conninfo, "t", patience=HASTY), "in time", seconds=ENDS)
        start = time.monotonic()
        for it in (patient, hasty):
            it.close()
        assert time.monotonic() - start < HASTY, f"stop: a close: {time.monotonic() - start}"
        waits.join(20)
        assert not waits.is_alive(), "stop: what a close ends"
    finally:
        database.go_on()
    # The queries were sent: the server executes each, and one has the position.
    assert soon(lambda: lines(database) == 2), "stop: the line of a call that ended may appear"
    raises("stop: the position is taken then", Overtaken, lambda: log.append(1, b"three"))
    log.append(2, b"four")
    assert [len([*log.read(0)]), [*log.read(2)]] == [3, [b"four"]], "stop: none is stored twice"
    log.close()
    database.execute("DROP TABLE t")


@contextmanager
def silent() -> Iterator[str]:
    """A host that accepts connections. It answers the first one by a byte now and then, of a message that is never complete."""

    def talk() -> None:
        with suppress(OSError), server.accept()[0] as taken:
            for it in b"E\0\0\x4e\x20" + bytes(20000):
                time.sleep(0.1)
                taken.send(bytes([it]))

    with tempfile.TemporaryDirectory() as folder, socket.socket(socket.AF_UNIX) as server:
        server.bind(f"{folder}/.s.PGSQL.5432")
        server.listen()
        threading.Thread(target=talk, daemon=True).start()
        yield folder


def test_hosts(database: Database) -> None:
    with silent() as host:
        conninfo = f"host={host} dbname=keys password=hunter2"
        for what in ("that never answers whole", "that never answers"):
            says(f"hosts: one {what}", LogFailed, lambda: PostgresLog(conninfo, patience=HASTY), "session in time", seconds=ENDS)
        several = f"{database.conninfo} host={host},{database.folder} target_session_attrs=read-write"
        start = time.monotonic()
        with PostgresLog(several, "t", patience=ENDS) as log:
            took = time.monotonic() - start
            assert str(log).endswith(f"at {database.folder}") and took < ENDS, (
                "hosts: the next one is tried",
                f"{took:.1f} s: {log}",
            )
        with PostgresLog(f"{database.conninfo} host=/no,{database.folder}", "t") as log:
            assert str(log).endswith(f"at {database.folder}"), f"hosts: one that refuses: {log}"
        start = time.monotonic()
        with PostgresLog(f"{several} connect_timeout=1", "t", patience=60) as log:
            assert time.monotonic() - start < 5, f"hosts: after connect_timeout: {time.monotonic() - start}"


def test_closes(database: Database) -> None:
    log, other = PostgresLog.create(database.conninfo, "t"), PostgresLog(database.conninfo, "t")
    log.append(0, b"zero")
    log.wait(0, 0)
    with ThreadPoolExecutor(8) as pool:
        list(pool.map(requested, [log] * 8, ["SELECT pg_sleep(0.2)"] * 8))
    assert len(log._pool._sessions) == 4, "close: four sessions are kept"
    reader = log.read(0)
    waits = threading.Thread(target=says, args=("close: a wait under way", LogFailed, lambda: other.wait(1, 60), "closed"))
    waits.start()
    assert soon(lambda: database.execute(SESSIONS)[0][0] >= 3), "close: there are sessions"
    for _ in range(2):
        log.close()
        other.close()
    waits.join(2)
    assert not waits.is_alive(), "close: no wait goes on"
    for what, call in {
        "an append": lambda: log.append(1, b""),
        "a read": lambda: next(reader),
        "a wait": lambda: log.wait(0, 1),
        "check_writable": log.check_writable,
    }.items():
        says(f"close: {what} after it", LogFailed, call, "the log is closed")
    assert soon(lambda: database.execute(SESSIONS) == [(0,)]), "close: no session is left"
    database.execute("DROP TABLE t")


def is_refused(log: PostgresLog) -> bool:
    """Whether each call of a log is refused that was opened before a fork."""
    calls: list[Callable[[], object]] = [
        lambda: log.append(1, b""),
        lambda: [*log.read(0)],
        lambda: log.wait(0, 0),
        log.check_writable,
    ]
    for call in calls:
        try:
            call()
            return False
        except LogFailed as error:
            if "forked" not in str(error):
                return False
    log.close()
    return True


def test_forks(database: Database) -> None:
    with PostgresLog.create(database.conninfo, "t") as log:
        log.append(0, b"zero")
        log.wait(0, 0)
        sessions = [requested(log, "SELECT pg_backend_pid()", it) for it in ("_pool", "_listening")]
        child = os.fork()
        if not child:
            status = 1
            try:
                if is_refused(log):
                    with PostgresLog(database.conninfo, "t") as own:
                        own.append(1, b"one")
                        status = 0
            finally:
                os._exit(status)
        assert os.waitpid(child, 0)[1] == 0, "fork: the child uses no session of its parent"
        assert [*log.read(0)] == [b"zero", b"one"], "fork: it opens the log"
        log.append(2, b"two")
        assert [
            requested(log, "SELECT pg_backend_pid()", it) for it in ("_pool", "_listening")
        ] == sessions, "fork: the parent's go on"
    database.execute("DROP TABLE t")


class Stage:
    """A log whose calls are interrupted, and the lines that it has."""

    def __init__(self, database: Database, chance: random.Random) -> None:
        self.conninfo, self.chance, self._count = database.conninfo, chance, 0
        PostgresLog.create(self.conninfo, "t").close()
        self.open()
        self.log.append(0, b"zero")
        self.there = [b"zero"]

    def open(self) -> None:
        self.log = PostgresLog(self.conninfo, "t", patience=5)
        # A check that is faster, since most calls open a session.
        self.log._sql["state"] = b"SELECT NULL, '', ''"

    def line(self) -> bytes:
        self._count += 1
        return b"line %d" % self._count

    def append(self) -> None:
        """Appends a line in a new session."""
        self.log._pool.shrink()
        self.log.append(len(self.there), line := self.line())
        self.there.append(line)

    def goes_on(self) -> bool:
        """Whether the next calls end in time and succeed. The line of an interrupted append may be there."""
        start = time.monotonic()
        try:
            self.log.append(len(self.there), line := self.line())
        except Overtaken:
            self.there.append(next(self.log.read(len(self.there))))
            self.log.append(len(self.there), line)
        self.there.append(line)
        return [*self.log.read(len(self.there) - 1)] == [line] and time.monotonic() - start < 5


def test_interrupts(database: Database) -> None:
    """Interrupts calls at each of their bytecodes in turn, or at some of them and again soon after."""
    stage = Stage(database, random.Random(20261127))
    calls: list[tuple[str, int, Callable[[], object]]] = [
        ("an append", 1, stage.append),
        ("an append, twice", 9, stage.append),
        ("a read", 1, lambda: next(stage.log.read(len(stage.there) - 1))),
        ("a wait", 3, lambda: stage.log.wait(0, 0)),
        ("a close", 1, lambda: stage.log.close()),
    ]
    # A session that is dropped is closed at once: it isn't garbage that refers to itself.
    gc.disable()
    for what, step, call in calls:
        number = count = 1
        while count:
            count = interrupted_apart(call, number, *([stage.chance.randrange(1, 30)] if step > 1 else []))
            number += step
            if what == "a close":
                stage.log.close()
                stage.open()
            if not stage.goes_on():
                break
        assert not count and number > 50, f"interrupts: {what}, at each bytecode: {number}"
    assert soon(lambda: database.execute(SESSIONS)[0][0] <= 2, 5), f"interrupts: no session is left: {database.execute(SESSIONS)}"
    assert [*stage.log.read(0)] == stage.there and len({*stage.there}) == len(stage.there), "interrupts: each line is there once"
    gc.enable()
    check_timers(stage)
    stage.log.close()
    database.execute("DROP TABLE t")


def check_timers(stage: Stage) -> None:
    """A timer's handler raises at random moments of appends, also in psycopg, which may then drop what it has half made."""

    def strikes(*_: object) -> None:
        raise Interrupt()

    count, was, hook, sys.unraisablehook = 0, signal.signal(signal.SIGALRM, strikes), sys.unraisablehook, lambda _: None
    rounds = 0
    # On a fast machine most appends are over before the timer.
    while rounds < 200 or (count <= 20 and rounds < 2000):
        rounds += 1
        try:
            signal.setitimer(signal.ITIMER_REAL, stage.chance.uniform(1e-4, 6e-3))
            stage.append()
            signal.setitimer(signal.ITIMER_REAL, 0)
        except Interrupt:
            count += 1
        if not stage.goes_on():
            break
    signal.signal(signal.SIGALRM, was)
    sys.unraisablehook = hook
    assert (
        [*stage.log.read(0)] == stage.there and len({*stage.there}) == len(stage.there) and count > 20
    ), f"timers: {rounds} appends: {count}"
