"""Interrupts calls of `coniks.provider` at each bytecode, once and twice in a row, and by timers.

After each interrupt every call must end, the log must open, and what was acknowledged must be there. A signal handler that
raises does so in the main thread, between two bytecodes: here the exception is raised before each one in turn.
"""

from __future__ import annotations

import errno
import os
import random
import signal
import tempfile
import threading
import time
from contextlib import suppress
from functools import partial
from pathlib import Path
from typing import Callable
from unittest import mock

import pytest

from stand_ins import Salted, Signer, guarded, opened
from interrupts import Interrupt, interrupted
from coniks.provider import FileLog, LogFailed, Overtaken, Register, SignerFailed, entries


# A call that takes longer doesn't end.
SECONDS = 20
SEED = 20261127
pytestmark = pytest.mark.interrupts


def ends(call: Callable[[], object]) -> bool:
    """Whether a call returns in time, in a thread of its own."""
    has_returned: list[bool] = []

    def calls() -> None:
        call()
        has_returned.append(True)

    thread = threading.Thread(target=calls, daemon=True)
    thread.start()
    thread.join(SECONDS)
    return bool(has_returned)


class Stage:
    """A directory whose calls are interrupted."""

    def __init__(self, room: str, program: str, children: int = 1) -> None:
        self.path, self.program, self.signer = Path(room) / "log", program, Signer(room, Salted())
        self.log, self.children = FileLog(self.path), children
        self.own = opened(program, self.log, self.signer, guarded(self.signer), create=True, children=children)
        self.epoch, self.there, self.position = 0, list[bytes](), 0

    def compact(self) -> None:
        self.position = self.own.compact()

    def commit(self) -> None:
        self.epoch += 1
        self.there.append(self.own.commit(self.epoch, [Register(f"user-{self.epoch}", b"key")]).entry)

    def leave(self) -> None:
        """Leaves an update pending, since the signer fails."""
        self.epoch += 1
        self.signer.fails = 1
        with suppress(SignerFailed):
            self.own.commit(self.epoch, [Register(f"given-up-{self.epoch}", b"key")])

    def goes_on(self) -> bool:
        """Whether the next calls return, and show what was acknowledged."""
        return ends(self.commit) and ends(self._look) and {*self.there} <= {*self.own.chain()}

    def _look(self) -> None:
        assert self.own.lookup(f"user-{self.epoch}").entry == self.there[-1]

    def is_whole(self) -> bool:
        """Whether a start from the file has what was acknowledged, and one body was signed for each epoch."""
        self.close()
        guard, more = guarded(self.signer), {"children": self.children}
        with FileLog(self.path) as self.log, opened(self.program, self.log, self.signer, guard, **more) as self.own:
            return {*self.there} <= {*self.own.chain()} == {*entries(self.log)} and self.signer.is_requested_once()

    def close(self) -> None:
        self.own.close()
        self.log.close()


CALLS: dict[str, Callable[[Stage], object]] = {
    "commit": Stage.commit,
    "lookup": lambda stage: stage.own.lookup("user-1"),
    "lookups": lambda stage: stage.own.lookups(["user-1", "no"]),
    "restart": lambda stage: stage.own.restart(),
    # The update is left by another thread, which isn't interrupted.
    "abandon": lambda stage: ends(stage.leave) and stage.own.abandon(),  # type: ignore[func-returns-value]
    "latest and chain": lambda stage: (stage.own.latest(), stage.own.chain()),
    "compact": lambda stage: stage.own.compact(),
    # The snapshot is taken by another thread, which isn't interrupted.
    "drop_before": lambda stage: ends(stage.compact) and stage.log.drop_before(stage.position),  # type: ignore[func-returns-value]
}


@pytest.mark.parametrize("children", [1, 2])
@pytest.mark.parametrize("is_twice", [False, True])
@pytest.mark.parametrize("what", CALLS)
def test_call(program: str, what: str, is_twice: bool, children: int) -> None:
    """Interrupts a call at each of its bytecodes in turn, once or again soon after, and then goes on."""
    chance, number = random.Random(f"{SEED} {what}"), 0
    with tempfile.TemporaryDirectory() as room:
        stage = Stage(room, program, children)
        stage.commit()
        call = partial(CALLS[what], stage)
        while True:
            number += 1
            again = [chance.randrange(1, 30)] if is_twice else []
            if not interrupted(call, number, *again)[0]:
                break
            assert stage.goes_on(), f"at bytecode {number} and {again} after it"
        assert number > 50, "at each of its bytecodes"
        assert stage.is_whole(), "what was acknowledged is there"
        stage.close()


@pytest.mark.parametrize("times", [1, 2])
@pytest.mark.parametrize("fails", [False, True])
def test_append(fails: bool, times: int) -> None:
    """Interrupts an append at each bytecode, also one whose sync fails. The log then opens, with each line that was
    acknowledged, and nothing else but the interrupted one."""
    first, real, chance = b'{"cmd":"open"}', os.fsync, random.Random(SEED)

    def sync(place: int) -> None:
        # The sync after the line fails, that of the undoing doesn't.
        synced.append(place)
        if fails and len(synced) == 1:
            raise OSError(errno.EIO, "told to fail")
        real(place)

    synced: list[int] = []
    with tempfile.TemporaryDirectory() as room:
        path, there, number, is_raised = Path(room) / "log", [first], 0, 1
        with FileLog.create(path) as log:
            log.append(0, first)
        while is_raised:
            number += 1
            line, synced[:] = b"interrupted %d" % number * 40, []
            with FileLog(path) as log:
                with mock.patch.object(os, "fsync", sync):
                    numbers = [number, chance.randrange(1, 30)][:times]
                    is_raised, acknowledged = interrupted(lambda: log.append(len(there), line), *numbers)
                # A shorter line over the front of the other one would be neither.
                try:
                    log.append(len(there), b"short")
                    there.append(b"short")
                except Overtaken:
                    there.append(line)
                except LogFailed:
                    pass
            with FileLog(path) as log:
                seen = list(log.read(0))
            assert seen in ([*there], [*there, line]) and (not acknowledged or line in seen), f"at bytecode {number}"
            there = seen
        assert number > 50, "at each of its bytecodes"


@pytest.mark.parametrize("children", [1, 2])
def test_timers(program: str, children: int, rounds: int = 300) -> None:
    """A timer's handler raises at random moments of calls, once or again and again."""
    chance = random.Random(SEED)
    with tempfile.TemporaryDirectory() as room:
        stage, was = Stage(room, program, children), signal.getsignal(signal.SIGALRM)
        stage.commit()
        count, is_well, is_armed = 0, True, [False]

        def raises(*_: object) -> None:
            if is_armed[0]:
                raise Interrupt()

        signal.signal(signal.SIGALRM, raises)
        for turn in range(rounds):
            call = CALLS[chance.choice(["commit", "lookup", "lookups"])]
            try:
                try:
                    is_armed[0] = True
                    signal.setitimer(signal.ITIMER_REAL, chance.uniform(1e-6, 2e-3), 2e-4 * (turn % 2))
                    call(stage)
                    time.sleep(0.003)
                finally:
                    # No handler runs before this is done: Python calls one at calls and jumps.
                    is_armed[0] = False
            except Interrupt:
                count += 1
            signal.setitimer(signal.ITIMER_REAL, 0)
            if turn % 5 == 0 and not stage.goes_on():
                is_well = False
                break
        signal.signal(signal.SIGALRM, was)
        assert is_well and count > rounds / 2 and stage.goes_on() and stage.is_whole(), f"timers: {rounds} rounds: {count}"
