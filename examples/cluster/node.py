"""A process with a provider or a replica, which is called through a pipe. A service has its own way."""

from __future__ import annotations

import multiprocessing
import threading
from contextlib import ExitStack, suppress
from typing import Any, Callable, Optional

from coniks.postgres import PostgresLog
from coniks.provider import Directory, Overtaken, Provider, ProviderError, Settings
from coniks.replica import Replica

SPAWN = multiprocessing.get_context("spawn")
MakeLog = Callable[[], PostgresLog]


class Node:
    """The side that calls the process, from several threads. `keys` has `policy`, `nonce`, `index`, `verify`, and `signer()`, which
    opens what signs in the process that it is called in."""

    def __init__(self, make_log: MakeLog, program: str, keys: Any, is_writer: bool = False, replica: type[Replica] = Replica):
        self.pipe, other = SPAWN.Pipe()
        self.process = SPAWN.Process(target=serve, args=(other, make_log, program, keys, is_writer, replica), daemon=True)
        self.process.start()
        other.close()
        self.is_writer, self._lock = is_writer, threading.Lock()

    def call(self, call: str, *arguments: Any) -> Any:
        """What a method of the directory returns or raises; `lead` promotes a replica. Waits while the process is stopped, and
        raises `EOFError` or `OSError` if it ended."""
        with self._lock:
            self.pipe.send((call, *arguments))
            answer, self.is_writer = self.pipe.recv()
        if isinstance(answer, Exception):
            raise answer
        return answer

    def kill(self) -> None:
        self.process.kill()
        self.process.join()


def serve(pipe: Any, make_log: MakeLog, program: str, keys: Any, is_writer: bool, replica: type[Replica]) -> None:
    """Answers calls. The first one opens the log and the directory, or returns why it can't; once it was overtaken, the next one opens
    a replica."""
    settings = Settings(program, keys.index, keys.policy, nonce=keys.nonce, verify=keys.verify)
    log: Optional[PostgresLog] = None
    opened: Optional[Directory] = None
    with suppress(EOFError), ExitStack() as room:
        while True:
            (call, *arguments), answer = pipe.recv(), None
            try:
                log = log or room.enter_context(make_log())
                if not opened and is_writer:
                    opened = Provider(settings, keys.signer(), log)
                opened = opened or replica(settings, log)
                if call != "lead":
                    answer = getattr(opened, call)(*arguments)
                elif isinstance(opened, Replica):
                    opened, is_writer = opened.promote(keys.signer(), verify=keys.verify), True
            except ProviderError as error:
                answer = error
                if isinstance(error, Overtaken):
                    if opened:
                        opened.close()
                    opened, is_writer = None, False
            pipe.send((answer, is_writer))
