"""Keys in other processes, such as one in front of an HSM. docs/LINES.md ("Keys in other processes") defines what is asked of them."""

from __future__ import annotations

import json
import re
import socket
import threading
import time
from collections import deque
from contextlib import contextmanager, suppress
from typing import Any, Iterator

# The seconds after which a request is given up, and the most bytes of a reply.
SECONDS, LONGEST = 10.0, 4096
# The most connections that are kept for the next requests.
_STORED = 8


class KeyFailed(Exception):
    """A process that has a key did not do what it was asked to."""


class _Closed(Exception):
    """The process has closed the connection before it replied."""


class _Connection:
    """A connection on which requests and replies take turns. It is used no more after an error."""

    def __init__(self, path: str, until: float):
        self._socket = socket.socket(socket.AF_UNIX)
        try:
            self._wait(until)
            self._socket.connect(path)
        except BaseException:
            self.close()
            raise

    def _wait(self, until: float) -> None:
        if (left := until - time.monotonic()) <= 0:
            raise TimeoutError
        self._socket.settimeout(left)

    def is_quiet(self) -> bool:
        """Whether the process has neither closed the connection nor sent what nobody asked for."""
        self._socket.settimeout(0)
        try:
            self._socket.recv(1)
        except OSError as error:
            return isinstance(error, BlockingIOError)
        return False

    def ask(self, line: bytes, until: float) -> bytes:
        """The line that a request gets as its reply."""
        received = b""
        try:
            self._wait(until)
            self._socket.sendall(line)
            while b"\n" not in received and len(received) < LONGEST:
                self._wait(until)
                if not (more := self._socket.recv(LONGEST - len(received))):
                    raise _Closed
                received += more
        except (BrokenPipeError, ConnectionResetError):
            raise _Closed from None
        if received.find(b"\n") != len(received) - 1:
            raise ValueError("its reply is longer than a line may be, or has more than one")
        return received

    def close(self) -> None:
        self._socket.close()


class Outside:
    """A process with a key, which is asked over a Unix socket. All calls can be used from several threads, and each ends within
    `seconds`. Raises `KeyFailed`."""

    def __init__(self, path: str, seconds: float = SECONDS):
        self._path, self._seconds = path, seconds
        self._stored: deque[_Connection] = deque()
        # Whether the last call had no reply in time, and what one call at a time has until the next reply.
        self._is_silent, self._turn = False, threading.Lock()

    def __str__(self) -> str:
        return f"the process at {self._path}"

    def ask(self, member: str, size: int, **members: str) -> bytes:
        """The bytes of a member of the reply to a request, as many as are expected. Nothing of them is verified."""
        with self._turns():
            try:
                reply = self._requested(json.dumps(members, ensure_ascii=False).encode() + b"\n")
                return _value_of(reply, member, size)
            except TimeoutError:
                self._is_silent = True
                raise KeyFailed(f"{self} did not reply in {self._seconds:g} seconds: see why it hangs") from None
            except _Closed:
                raise KeyFailed(f"{self} closed the connection before it replied: see its errors") from None
            except OSError as error:
                raise KeyFailed(f"{self} can't be asked: {error.strerror}. Start it, or name its socket") from error
            except ValueError as error:
                raise KeyFailed(f"{self} did not do it: {error}") from None

    @contextmanager
    def _turns(self) -> Iterator[None]:
        """Lets one call at a time wait for a process that is silent. The others end at once, so that it holds up one thread."""
        if not self._is_silent:
            yield
            return
        if not self._turn.acquire(blocking=False):
            raise KeyFailed(f"{self} does not reply, and another request waits for it: see why it hangs")
        try:
            yield
        finally:
            self._turn.release()

    def _requested(self, line: bytes) -> bytes:
        """The reply to a line. One that finds a connection closed, as after a restart of the process, is sent once more."""
        until = time.monotonic() + self._seconds
        connection, is_new = self._taken(until)
        try:
            reply = self._reply(connection, line, until)
        except _Closed:
            if is_new:
                raise
            reply = self._reply(_Connection(self._path, until), line, until)
        self._is_silent = False
        return reply

    def _taken(self, until: float) -> tuple[_Connection, bool]:
        """A connection, and whether it is a new one."""
        with suppress(IndexError):
            while True:
                stored = self._stored.pop()
                if stored.is_quiet():
                    return stored, False
                stored.close()
        return _Connection(self._path, until), True

    def _reply(self, connection: _Connection, line: bytes, until: float) -> bytes:
        try:
            reply = connection.ask(line, until)
        except BaseException:
            connection.close()
            raise
        if len(self._stored) < _STORED:
            self._stored.append(connection)
        else:
            connection.close()
        return reply

    def close(self) -> None:
        """Closes the connections that are kept."""
        while self._stored:
            self._stored.pop().close()


def _value_of(reply: bytes, member: str, size: int) -> bytes:
    """The bytes of a member of a reply. Raises ValueError."""
    try:
        members: Any = json.loads(reply.decode())
    except (ValueError, RecursionError):
        members = None
    if not isinstance(members, dict):
        raise ValueError("its reply is no JSON object")
    if isinstance(why := members.get("error"), str):
        raise ValueError(f"it says {why!r}")
    if not isinstance(digits := members.get(member), str) or not re.fullmatch(f"[0-9a-f]{{{2 * size}}}", digits):
        raise ValueError(f"its reply has no member {member} of {2 * size} hexadecimal digits")
    return bytes.fromhex(digits)
