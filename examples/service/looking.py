"""Lookups at the latest epoch. Those that come while others are made are made together, by one thread."""

from __future__ import annotations

import asyncio
import threading
from contextlib import suppress
from queue import Empty, SimpleQueue
from typing import NamedTuple, Optional, Sequence, Union

from connections import LONGEST
from holding import Holder
from outside import KeyFailed

# The most lookups that are made together.
_MOST = 64
Reply = asyncio.Future[bytes]


class _Requested(NamedTuple):
    """A name with its VRF proof, and where its reply goes."""

    name: str
    proof: bytes
    reply: Reply


# The names of a turn of the event loop, and what gives them an error if they have no reply in time.
_Turn = tuple[asyncio.AbstractEventLoop, list[_Requested], asyncio.TimerHandle]


class Looker:
    """Makes the replies for names at the latest epoch. Those that are requested in one turn of the event loop, or while others are made,
    are made together. The thread begins with the first one."""

    def __init__(self, holder: Holder):
        self._holder = holder
        # What is requested in this turn of the loop, and what was in those before.
        self._turn: list[_Requested] = []
        self._turns: SimpleQueue[_Turn] = SimpleQueue()
        self._thread: Optional[threading.Thread] = None

    async def reply(self, name: str) -> bytes:
        """The reply for a name. A VRF proof that is not kept is made by another thread, so that no lookup waits for one that is slow."""
        keys, loop = self._holder.keys, asyncio.get_running_loop()
        if (proof := keys.stored_proof(name)) is None:
            async with asyncio.timeout(LONGEST):
                proof = await asyncio.to_thread(keys.proof, name)
        reply: Reply = loop.create_future()
        if not self._turn:
            loop.call_soon(self._ask, loop)
        self._turn.append(_Requested(name, proof, reply))
        return await reply

    def _ask(self, loop: asyncio.AbstractEventLoop) -> None:
        """Hands over what was requested in this turn. What has no reply in time gets an error."""
        for at in range(0, len(self._turn), _MOST):
            requested = self._turn[at : at + _MOST]
            self._turns.put((loop, requested, loop.call_later(LONGEST, _answer, requested, [TimeoutError()] * len(requested))))
        self._turn = []
        if self._thread is None:
            self._thread = threading.Thread(target=self._run, daemon=True, name="lookups")
            self._thread.start()

    def _run(self) -> None:
        while True:
            loop, requested, late = self._turns.get()
            timers = [late]
            with suppress(Empty):
                while len(requested) < _MOST:
                    _, more, late = self._turns.get_nowait()
                    requested, timers = requested + more, [*timers, late]
            made = self._made(requested)
            # A loop that has ended needs no reply.
            with suppress(RuntimeError):
                loop.call_soon_threadsafe(_answer, requested, made, timers)

    def _made(self, requested: Sequence[_Requested]) -> Sequence[Union[bytes, Exception]]:
        try:
            return self._holder.directory.replies([(it.name, it.proof) for it in requested])
        except KeyFailed as error:
            # One name had no index any more, and the others must not fail with it.
            return [error] if len(requested) == 1 else [found for it in requested for found in self._made([it])]
        except Exception as error:
            return [error] * len(requested)


def _answer(
    requested: Sequence[_Requested], made: Sequence[Union[bytes, Exception]], timers: Sequence[asyncio.TimerHandle] = ()
) -> None:
    """Gives whoever still waits its reply."""
    for timer in timers:
        timer.cancel()
    for it, found in zip(requested, made):
        if it.reply.done():
            continue
        if isinstance(found, Exception):
            it.reply.set_exception(found)
        else:
            it.reply.set_result(found)
