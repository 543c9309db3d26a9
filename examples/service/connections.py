"""Bounds what strangers can take of the service: connections, the time until a request is whole, the bytes that wait, and requests a
second."""

from __future__ import annotations

import asyncio
import socket
import time
from collections import Counter
from contextlib import suppress
from dataclasses import dataclass, field
from functools import cached_property, lru_cache
from ipaddress import IPv4Address, IPv6Address, IPv6Network, ip_address
from typing import Any, Callable, Optional, Sequence

from aiohttp import web
from problems import Problem

# The most seconds that a request takes.
LONGEST = 30
# How long a connection stays that sent too much, so that it may take its reply.
_LINGER = 1.0
# The requests that may wait for the reply to the one before.
_AHEAD = 2
# The connections that may wait to be taken, and the most that are taken before others have their turn.
_BACKLOG, _AT_ONCE = 1024, 64
# The seconds over which requests are counted, and how many of them are worked on at once.
_WINDOW, _BURST = 4, 16
# One address has a part of all connections, and at least some.
_PART, _LEAST = 20, 16
# Addresses of IPv6 that stand for one of IPv4, which is in their last four bytes (RFC 6052).
_NAT64 = IPv6Network("64:ff9b::/96")


@dataclass(frozen=True)
class Bounds:
    """What a service allows. Times are in seconds, sizes in bytes.

    A connection has `patience` from its start, and from each reply, until it has sent the head of the next request and taken the
    reply. `body` is the longest body. A request has at most twice as many bytes, with its head and the borders of its chunks. Anyone
    may look names up at the latest `recent` epochs, and their owners at all. Each address may make `rate` requests a second, and has a
    part of the `connections`. Those of a proxy are the proxy's to bound, and its requests count for the last address that it adds to
    `X-Forwarded-For`.
    """

    connections: int = 2000
    patience: float = 15
    recent: int = 8
    rate: float = 50
    is_behind_proxy: bool = False
    body: int = 32768
    open: set[Connection] = field(default_factory=set)
    # How many of them each network has.
    counts: Counter[str] = field(default_factory=Counter)

    @cached_property
    def requests(self) -> Rate:
        """The requests of each address."""
        return Rate(self.rate)

    def admits(self, network: str) -> bool:
        """Whether a network may have another connection."""
        if len(self.open) >= self.connections:
            return False
        most = max(_LEAST, self.connections // _PART)
        return self.is_behind_proxy or (self.counts[network] < most and not self.requests.is_spent(network))

    def address_of(self, request: web.BaseRequest) -> str:
        """The address for which a request counts."""
        proxied = request.headers.getall("X-Forwarded-For", [""])[-1] if self.is_behind_proxy else ""
        return proxied.rpartition(",")[2].strip() or request.remote or ""


class Connection(web.RequestHandler):
    """A connection of aiohttp that ends when it is beyond the bounds."""

    def __init__(self, bounds: Bounds, server: Any, **settings: Any):
        super().__init__(server, **settings)
        self._bounds, self._size, self._is_over, self._network = bounds, 0, False, ""
        # When it is to end, and what looks then whether that is still so.
        self._deadline = 0.0
        self._timer: Optional[asyncio.TimerHandle] = None

    def connection_made(self, transport: asyncio.BaseTransport) -> None:
        assert isinstance(transport, asyncio.Transport)
        self._network = network_of((transport.get_extra_info("peername") or [""])[0])
        # Others came since it was taken.
        if not self._bounds.admits(self._network):
            return transport.abort()
        self._bounds.open.add(self)
        self._bounds.counts[self._network] += 1
        super().connection_made(transport)
        self._end_after(self._bounds.patience)

    def connection_lost(self, error: Optional[BaseException]) -> None:
        if self in self._bounds.open:
            self._bounds.open.remove(self)
            self._bounds.counts[self._network] -= 1
            if not self._bounds.counts[self._network]:
                del self._bounds.counts[self._network]
            super().connection_lost(error)
        if self._timer:
            self._timer.cancel()

    def data_received(self, data: bytes) -> None:
        if self._is_over or self not in self._bounds.open:
            return
        room = 2 * self._bounds.body - self._size
        self._size += len(data)
        super().data_received(data[:room])
        is_over = len(data) > room or len(self._messages) > _AHEAD
        while len(self._messages) > _AHEAD:
            self._messages.pop()
        if is_over:
            # The reply that refuses it may be under way.
            self._end_after(_LINGER)
            self._is_over = True
            if self.transport:
                self.transport.pause_reading()

    async def start(self) -> None:
        """Works on the requests. aiohttp ends by an error if the host of a target is no text."""
        try:
            await super().start()
        except UnicodeError:
            self._bounds.requests.note(self._network)
            if self.transport:
                self.transport.write(b"HTTP/1.1 400 Bad Request\r\nContent-Length: 0\r\nConnection: close\r\n\r\n")
                self.transport.close()

    def handle_error(self, request: web.BaseRequest, status: int = 500, *more: Any) -> web.StreamResponse:
        """The reply to what no handler has seen. aiohttp ends by an error if a header that it reads is no text."""
        if status == 400:
            # It is no HTTP, so it has no header.
            self._bounds.requests.note(self._network)
        return super().handle_error(request, 400 if any(isinstance(it, UnicodeError) for it in more) else status, *more)

    def begun(self) -> None:
        """Notes that a request is worked on, which has a limit of its own."""
        self._end_after(2 * LONGEST)

    def replied(self) -> None:
        """Notes that a reply is made."""
        self._size = 0
        self._end_after(self._bounds.patience)

    def _end_after(self, seconds: float) -> None:
        """Ends the connection later, unless this is called again before. One that sent too much ends in any case."""
        if self._is_over or not self.transport or self.transport.is_closing():
            return
        self._deadline = asyncio.get_running_loop().time() + seconds
        # A timer for each request would cost more than one that looks too early now and then.
        if self._timer is None or self._deadline < self._timer.when():
            self._look_later()

    def _look_later(self) -> None:
        if self._timer:
            self._timer.cancel()
        self._timer = asyncio.get_running_loop().call_at(self._deadline, self._look)

    def _look(self) -> None:
        """Ends the connection if its time is over."""
        if self.transport and asyncio.get_running_loop().time() >= self._deadline:
            self.transport.abort()
        elif self.transport:
            self._look_later()


class Listening:
    """Takes connections at hosts. One that is not admitted costs no more than its closing."""

    def __init__(self, bounds: Bounds, hosts: Sequence[str], port: int, make: Callable[[], Connection]):
        self._bounds, self._make, self._made = bounds, make, set[asyncio.Task[Any]]()
        self._loop, self._sockets = asyncio.get_running_loop(), list[socket.socket]()
        for host in hosts:
            for family, *_, at in socket.getaddrinfo(host or None, port, type=socket.SOCK_STREAM, flags=socket.AI_PASSIVE):
                self._sockets.append(socket.create_server(at, family=family, backlog=_BACKLOG))
                self._begin(self._sockets[-1])

    def close(self) -> None:
        for it in self._sockets:
            self._loop.remove_reader(it)
            it.close()

    def _begin(self, listening: socket.socket) -> None:
        if listening.fileno() >= 0:
            listening.setblocking(False)
            # A connection that ended before another one came is noted first.
            self._loop.add_reader(listening, self._loop.call_soon, self._take, listening)

    def _take(self, listening: socket.socket) -> None:
        if listening.fileno() < 0:
            # It was closed in this turn of the loop.
            return
        for _ in range(_AT_ONCE):
            try:
                taken, address = listening.accept()
            except (BlockingIOError, ConnectionAbortedError):
                return
            except OSError:
                # There is no room for another file. The connections that end make some.
                self._loop.remove_reader(listening)
                self._loop.call_later(1, self._begin, listening)
                return
            if not self._bounds.admits(network_of(address[0])):
                taken.close()
                continue
            taken.setblocking(False)
            task = self._loop.create_task(self._loop.connect_accepted_socket(self._make, taken))
            self._made.add(task)
            task.add_done_callback(self._made.discard)


class Rate:
    """How many requests each address may make, whatever they are."""

    def __init__(self, a_second: float, clock: Callable[[], float] = time.monotonic):
        self._a_second, self._most, self._clock = a_second, a_second * _WINDOW, clock
        self._window, self._counts = 0.0, Counter[str]()
        # When the last request of a network has its turn.
        self._turns = dict[str, float]()

    def count(self, address: str) -> float:
        """Counts a request. Returns in how many seconds it has its turn. Raises `Problem` if it is one too many."""
        past = self._pass()
        network = network_of(address)
        self._counts[network] += 1
        if self._counts[network] > self._most:
            raise Problem(429, "TooOften", "too many requests from this address", _WINDOW - past)
        self._turns[network] = max(self._turns.get(network, 0), self._idle()) + 1 / self._a_second
        return max(0, self._turns[network] - self._clock())

    def note(self, address: str) -> None:
        """Counts a request that is refused in any case."""
        with suppress(Problem):
            self.count(address)

    def is_spent(self, network: str) -> bool:
        """Whether a network has made twice as many requests as it may."""
        self._pass()
        return self._counts[network] > 2 * self._most

    def _pass(self) -> float:
        """Begins to count anew if the window is over. Returns the seconds of the window that are past."""
        window, past = divmod(self._clock(), _WINDOW)
        if window != self._window:
            self._window, self._counts = window, Counter()
            self._turns = {network: turn for network, turn in self._turns.items() if turn > self._idle()}
        return past

    def _idle(self) -> float:
        """When the last turn was of a network that has all its requests at once again."""
        return self._clock() - _BURST / self._a_second


@lru_cache(4096)
def network_of(address: str) -> str:
    """The network that counts as one: an address of IPv4, also in the form of IPv6, or a /64. What is no address counts as one too."""
    try:
        it = ip_address(address)
    except ValueError:
        return ""
    if isinstance(it, IPv6Address):
        old = it.ipv4_mapped or it.sixtofour or (IPv4Address(int(it) % 2**32) if it in _NAT64 else None)
        return str(old or IPv6Network((int(it), 64), strict=False))
    return str(it)


def is_here(address: str) -> bool:
    """Whether an address is one of this host."""
    with suppress(ValueError):
        return ip_address(address).is_loopback
    return False
