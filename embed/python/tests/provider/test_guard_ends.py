"""Stops a guard at each of its steps: by an error or an interrupt at each call of the disk, by an interrupt at each bytecode, by
other threads and processes, and by kills.

After each stop the record is read again, as it is or as a failure of the machine would leave it. The entries that were given out
must be of one chain, without a body that was abandoned.
"""

from __future__ import annotations

import errno
import fcntl
import os
import random
import signal
import stat
import subprocess
import sys
import tempfile
import threading
import time
from contextlib import ExitStack, contextmanager, suppress
from functools import partial
from pathlib import Path
from typing import Any, Callable, Iterator, Optional, cast
from unittest import mock

import pytest

from bodies import Bench, after, bench_in, is_chain
from interrupts import Injected, Interrupt
from stand_ins import HAS_NACL, HERE, lines
from steps import Stop
from raising import raises
from guard_ends import Asker, KINDS, NOTHING, restless, what_is_wrong
from coniks import guard as module
from coniks import _files
from coniks.guard import BodyRefused, GuardError, RecordFailed


# After this number of kills a record ends and a new one begins.
KILLS_OF_ROOM = 20
# The calls of the disk that a guard makes.
CALLS = ("open", "fsync", "replace", "unlink", "flock")
Error = Callable[[], BaseException]


class Disk:
    """Knows what a failure of the machine would leave of a file: what was synced under its name, once the folder was, and nothing
    after a rename of what wasn't synced. It syncs nothing itself. One of the calls fails, before or after it is made."""

    def __init__(self, path: Path) -> None:
        self.path, self.stored = path, path.read_text()
        self._synced: dict[int, str] = {}
        self._left, self._is_after, self._error = 0, False, cast(Error, Stop)

    def _sync(self, file: int) -> Any:
        found = os.fstat(file)
        if not stat.S_ISDIR(found.st_mode):
            self._synced[found.st_ino] = Path(f"/proc/self/fd/{file}").read_text()
        elif self.path.exists():
            self.stored = self._left_of(self.path)

    def _left_of(self, path: Path) -> str:
        return self._synced.get(path.stat().st_ino, "")

    def call(self, name: str, real: Callable[..., Any], *arguments: Any) -> Any:
        self._left -= 1
        if not self._left and not self._is_after:
            raise self._error()
        returned: Any = None
        try:
            if name == "fsync":
                real = self._sync
            if name == "replace" and self._left_of(Path(arguments[0])) != Path(arguments[0]).read_text():
                self.stored = ""
            returned = real(*arguments)
        except OSError:
            if self._left:
                raise
        if not self._left:
            if name == "open" and returned is not None:
                os.close(returned)
            raise self._error()
        return returned

    @contextmanager
    def failing(self, number: int = 0, is_after: bool = False, error: Error = Stop) -> Iterator[None]:
        """While this is entered, the guard's call with this number fails."""
        self._left, self._is_after, self._error = number, is_after, error
        with ExitStack() as stack:
            for owner, name in [(module, "os"), (_files, "os"), (module, "fcntl")]:
                stack.enter_context(mock.patch.object(owner, name, Calls(self, getattr(owner, name))))
            yield

    def has_failed(self) -> bool:
        return self._left <= 0


class Calls:
    """The calls of a module, of which some are a disk's."""

    def __init__(self, disk: Disk, real: Any) -> None:
        self._disk, self._real = disk, real

    def __getattr__(self, name: str) -> Any:
        real = getattr(self._real, name)
        return partial(self._disk.call, name, real) if name in CALLS else real


def stopped(bench: Bench, disk: Disk, mine: bytes, number: int, is_after: bool, error: Error) -> tuple[bool, list[str]]:
    """Asks for a body, stops the guard at a call of the disk, and asks again. Returns whether it was stopped, and what is wrong."""
    wrong, unsafe, other = list[str](), list[bytes](), after(bench.last, 0, b"other")
    bench.signer.before = lambda: None if f"\nasked {mine.hex()}\n" in disk.stored else unsafe.append(mine)
    raised: Optional[BaseException] = None
    with disk.failing(number, is_after, error):
        try:
            bench.sign(mine)
        except (GuardError, Stop) as it:
            raised = it
    has_failed = disk.has_failed()
    if has_failed != bool(raised) or (raised and type(raised) is not (Stop if error is Stop else RecordFailed)):
        wrong.append(f"call {number}: raised {raised!r}")
    if number % 2:
        # The machine fails: what was not synced is lost.
        bench.path.write_text(disk.stored)
    with disk.failing():
        if mine in bench.used():
            try:
                bench.open()(other)
                wrong.append(f"call {number}: another body is signed")
            except BodyRefused:
                pass
        if raised:
            bench.sign(mine)
    if unsafe or f"\nsigned {bench.last.hex()}\n" not in disk.stored:
        wrong.append(f"call {number}: the record isn't durable")
    return has_failed, wrong


ERRORS: dict[str, Error] = {
    "an error": lambda: OSError(errno.EIO, "told to fail"),
    "a full disk": lambda: OSError(errno.ENOSPC, "told to be full"),
    "an interrupt": Stop,
}


@pytest.mark.parametrize("is_after", [False, True])
@pytest.mark.parametrize("name", ERRORS)
def test_steps(name: str, is_after: bool) -> None:
    """Each call of the disk fails once, before it is made or after, and the machine fails or doesn't."""
    with tempfile.TemporaryDirectory() as room:
        bench = Bench(room, 1)
        disk, number, wrong, has_failed = Disk(bench.path), 0, list[str](), True
        while has_failed:
            number += 1
            mine = after(bench.last, 0, b"%d" % number)
            has_failed, printed = stopped(bench, disk, mine, number, is_after, ERRORS[name])
            wrong += printed
        assert not wrong and number > 15, (number, wrong[:3])
        assert is_chain(bench.entries) and bench.guard.signed() == bench.last


@pytest.mark.parametrize("name", ERRORS)
def test_abandoned(name: str) -> None:
    """An `abandon` is stopped at each call. Once it returned, a failure of the machine doesn't bring the body back."""
    with tempfile.TemporaryDirectory() as room:
        bench = Bench(room, 1)
        disk, number, wrong, has_failed = Disk(bench.path), 0, list[str](), True
        while has_failed:
            number += 1
            mine = after(bench.last, number + 1)
            with suppress(RecordFailed, Stop), disk.failing(number, number % 3 == 0, ERRORS[name]):
                bench.guard.abandon(mine)
            has_failed = disk.has_failed()
            with disk.failing():
                bench.open().abandon(mine)
            if f"\nabandoned {mine.hex()}\n" not in disk.stored:
                wrong.append(f"call {number}")
        assert not wrong and number > 5, (number, wrong[:3])


def interrupted(bench: Bench, mine: bytes, number: int, is_abandoned: bool) -> bool:
    """Interrupts a call at a bytecode. The next call goes on while somebody still has the exception, and so its frames. Returns
    whether it was interrupted."""
    raised: Optional[BaseException] = None
    with Injected(number) as injected:
        try:
            bench.guard.abandon(mine) if is_abandoned else bench.guard(mine)
        except Interrupt as it:
            raised = it
    if is_abandoned:
        bench.open().abandon(mine)
        mine = after(bench.last, int.from_bytes(mine[1:9], "big") + 1)
    if not is_abandoned or number % 10 == 0:
        bench.sign(mine)
    del raised
    return injected.raised > 0


@pytest.mark.interrupts
@pytest.mark.parametrize("is_abandoned", [False, True])
def test_interrupts(is_abandoned: bool) -> None:
    with tempfile.TemporaryDirectory() as room, mock.patch.object(os, "fsync"), mock.patch.object(module, "_LOCK_SECONDS", 1):
        bench, number, wrong, is_raised = bench_in(room, str(is_abandoned)), 0, "", True
        while is_raised and not wrong:
            number += 1
            mine = after(bench.last, int.from_bytes(bench.last[1:9], "big") + number, b"%d" % number)
            try:
                is_raised = interrupted(bench, mine, number, is_abandoned)
            except GuardError as error:
                wrong = f"bytecode {number}: {error}"
        assert not wrong and number > 200, (number, wrong)
        assert is_chain(bench.entries) and bench.guard.signed() == bench.last


def test_lock() -> None:
    """A lock that isn't given back, and one that a forked process has too."""
    with tempfile.TemporaryDirectory() as room:
        bench = Bench(room, 1)
        mine = after(bench.last)
        with open(f"{bench.path}.lock", "rb") as lock, mock.patch.object(module, "_LOCK_SECONDS", 0.2):
            fcntl.flock(lock, fcntl.LOCK_EX)
            start = time.monotonic()
            text = str(raises("lock: a process that doesn't go on", RecordFailed, lambda: bench.guard(mine)))
            assert "is locked" in text and time.monotonic() - start < 5, f"lock: its text, in time: {text}"
            assert bench.guard.signed() == bench.last and len(bench.used()) == 1, "lock: a read needs none"
        children, replace = list[int](), os.replace

        def forks(*arguments: Any) -> None:
            replace(*arguments)
            children.append(os.fork())
            if not children[-1]:
                time.sleep(60)
                os._exit(0)

        with mock.patch.object(os, "replace", forks), mock.patch.object(module, "_LOCK_SECONDS", 5):
            bench.sign(mine)
            assert bench.sign(after(bench.last)) == bench.guard.signed(), "lock: a forked process doesn't keep it"
        for it in children:
            os.kill(it, signal.SIGKILL)
            os.waitpid(it, 0)


def test_threads(seconds: float = 2, patience: float = 60) -> None:
    """Six threads over one record, of which three share a guard. On a busy machine they go on until some entries are given."""
    with tempfile.TemporaryDirectory() as folder:
        room, begun, broken = Path(folder), time.monotonic(), list[str]()
        bench = Bench(folder, 1)
        bench.signer.before = restless(random.Random(1))

        def is_over() -> bool:
            took = time.monotonic() - begun
            return took > patience or (took > seconds and len({*lines(room / "given")}) > 5)

        def asks(number: int) -> None:
            asker = Asker(room, bench.guard if number % 2 else bench.open(), random.Random(number))
            try:
                while not is_over():
                    asker.step()
            except Exception as error:
                broken.append(repr(error))

        threads = [threading.Thread(target=asks, args=[it]) for it in range(6)]
        for it in threads:
            it.start()
        for it in threads:
            it.join()
        wrong, count = what_is_wrong(room, bench.signer, bench.open()), len({*lines(room / "given")})
        assert not wrong and count > 5, f"threads: one chain: {(wrong, count)}"
        assert not broken, f"threads: no other error: {broken[:3]}"


def one_kill(chance: random.Random, room: Path, kind: str) -> str:
    """Starts two processes over the record, and kills both at random moments. Returns what is wrong."""
    words = [sys.executable, str(HERE / "guard_ends.py"), str(room), kind]
    with open(room / "said", "ab") as printed, ExitStack() as stack:
        processes = [
            stack.enter_context(subprocess.Popen([*words, str(chance.randrange(1 << 30))], stdout=subprocess.PIPE, stderr=printed))
            for _ in range(2)
        ]
        for it in processes:
            assert it.stdout
            it.stdout.readline()
        for it in processes:
            time.sleep(chance.uniform(0, 0.15))
            it.kill()
        ended = [it.wait() for it in processes]
    return "" if ended == [-signal.SIGKILL] * 2 else (room / "said").read_text()[-2000:]


@pytest.mark.kills
def test_kills(pytestconfig: pytest.Config, say: Callable[[str], None], seed: int = 20261128) -> None:
    chance, given, abandoned, used = random.Random(seed), 0, 0, 0
    count = 2 * int(pytestconfig.getoption("kills"))
    for done in range(0, count, KILLS_OF_ROOM):
        kind = "ed25519" if HAS_NACL and done // KILLS_OF_ROOM % 2 == 0 else "salted"
        with tempfile.TemporaryDirectory() as folder:
            room, bench = Path(folder), Bench(folder, 1, KINDS[kind]())
            for number in range(done, min(count, done + KILLS_OF_ROOM)):
                printed = one_kill(chance, room, kind)
                assert not printed, f"kill {number}, {kind}: both ran until they were killed: {printed}"
                wrong = what_is_wrong(room, bench.signer, bench.open())
                # Both may have been killed before their first call.
                assert wrong in ("", NOTHING), f"kill {number}, {kind}: one chain: {wrong}"
            given, used = given + len({*lines(room / "given")}), used + len(bench.used())
            abandoned += len({*lines(room / "abandoned")})
    assert given and abandoned, "kills: bodies were signed and abandoned"
    say(f"{count} kills of two processes over one record: {used} signatures, {given} entries, {abandoned} abandoned")
