"""Threads that make calls for others. Python runs signal handlers in the main thread alone, so no interrupt stops one halfway."""

from __future__ import annotations

import threading
import time
from contextlib import suppress
from queue import Empty, SimpleQueue
from typing import Any, Callable, Optional, TypeVar

from .faults import Closed

Result = TypeVar("Result")
# How many seconds of Python a thread runs before it lets others run, and how long it sleeps then: any sleep lets one run that waits.
_TURN, _SLEEP = 0.0005, 0.00001


class Worker:
    """A thread that makes the calls that others ask for, one after another. A caller that is interrupted only stops waiting.

    `idle` is called each second in which nothing is asked. Callers and the thread share nothing but queues, whose operations
    are single calls in C: an exception at any bytecode of a caller leaves no lock behind.
    """

    def __init__(self, idle: Optional[Callable[[], object]] = None):
        self._jobs: SimpleQueue[Any] = SimpleQueue()
        self._idle, self._is_over = idle, False
        self._thread = threading.Thread(target=self._run, daemon=True)
        self._thread.start()

    def begin(self, work: Callable[[], object], reply: SimpleQueue[Any]) -> None:
        """Has the thread make a call that answers by itself. If the thread has ended, the reply is `Closed`."""
        self._jobs.put((work, reply, False))
        if self._is_over:
            self._refuse()

    def call(self, work: Callable[[], Result]) -> Result:
        """Returns what a call returns, or raises what it raises."""
        reply: SimpleQueue[Any] = SimpleQueue()
        self._jobs.put((work, reply, True))
        if self._is_over:
            self._refuse()
        is_well, result = reply.get()
        if not is_well:
            raise result
        return result  # type: ignore[no-any-return]

    def stop(self) -> None:
        """Ends the thread after the call that it makes. Later ones raise `Closed`."""
        self._jobs.put(None)

    def join(self, seconds: float) -> bool:
        """Waits for the thread to end, at most some seconds. Returns whether it has."""
        self._thread.join(seconds)
        return not self._thread.is_alive()

    def is_this_thread(self) -> bool:
        # The number of a thread that has ended is used again.
        return threading.current_thread() is self._thread

    def _run(self) -> None:
        while True:
            try:
                job = self._jobs.get(timeout=1 if self._idle else None)
            except Empty:
                # Nobody waits for what it returns, and an error must not end the thread.
                with suppress(Exception):
                    assert self._idle
                    self._idle()
                continue
            if job is None:
                break
            work, reply, is_answered = job
            try:
                result = work()
                if is_answered:
                    reply.put((True, result))
            except BaseException as error:
                reply.put((False, error))
            del job, work, reply
        # Whoever asks from here on sees that the thread is over, and refuses the job itself.
        self._is_over = True
        self._refuse()

    def _refuse(self) -> None:
        """Refuses what is asked and will not be done."""
        while True:
            try:
                job = self._jobs.get_nowait()
            except Empty:
                return
            if job is not None:
                job[1].put((False, Closed("the directory is closed")))


class Turn:
    """Lets other threads run from time to time during a long computation. Otherwise each of them waits 5 ms whenever it needs
    Python, and a lookup needs it several times."""

    def __init__(self) -> None:
        self._end = time.monotonic() + _TURN

    def pause(self) -> None:
        """Sleeps for a moment if the turn is over."""
        if time.monotonic() >= self._end:
            time.sleep(_SLEEP)
            self._end = time.monotonic() + _TURN
