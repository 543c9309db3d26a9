"""Attacks that keep a service busy, and honest users beside them, who look names up at a fixed rate."""

from __future__ import annotations

import asyncio
import os
import random
import resource
import time
from contextlib import suppress
from typing import NamedTuple, Sequence

import aiohttp

# The lookups of all honest users in a second, their addresses, and that of the attacker.
LOOKUPS, USERS, ATTACKER = 50, [f"127.0.0.{it}" for it in range(2, 7)], "127.0.0.7"
FAR = 2**64 - 1
# The seconds between two readings of the clock of the honest users.
_PAUSE = 0.005
_LONG = b"x" * 65536
_HEAD = b" HTTP/1.1\r\nHost: a\r\n"
_BODY = b'{"op":"register","name":"mallory","key":"a2V5"}'
_POST = b"POST /v1/operations" + _HEAD + b"Content-Type: application/json\r\nAuthorization: Bearer mallory\r\n"


class Attack(NamedTuple):
    """How many connections one address opens at once, and what each sends: a request again and again, or with a second part a request
    whose body is that again and again, or what is no whole request."""

    connections: int
    parts: Sequence[bytes]
    is_whole: bool = True


def gets(target: str) -> list[bytes]:
    return [b"GET " + target.encode() + _HEAD + b"\r\n"]


ATTACKS = {
    "bad tokens": Attack(50, [_POST + b"Content-Length: %d\r\n\r\n" % len(_BODY) + _BODY]),
    "half-open requests": Attack(2000, [b"GET /v1/head" + _HEAD], is_whole=False),
    "endless bodies": Attack(50, [_POST + b"Transfer-Encoding: chunked\r\n\r\nFFFFFFF\r\n", _LONG]),
    "entries of the future": Attack(50, gets(f"/v1/entries?after={FAR}")),
    "unknown routes": Attack(50, gets("/nothing")),
    "no HTTP": Attack(50, [b"\x16\x03\x01" * 20 + b"\r\n\r\n"]),
    "histories": Attack(20, gets("/v1/history?name=name0&first=1&last=1000")),
}


def become_attacker() -> None:
    """Makes this process one that attacks. As one on another machine, it takes no processor time that the service and its users need."""
    os.nice(19)
    hard = resource.getrlimit(resource.RLIMIT_NOFILE)[1]
    resource.setrlimit(resource.RLIMIT_NOFILE, (hard, hard))


def attack(port: int, attack: Attack, seconds: float) -> int:
    """Attacks a service from one address. Returns how many connections were opened."""
    return asyncio.run(_attack(port, attack, time.monotonic() + seconds))


async def _attack(port: int, attack: Attack, end: float) -> int:
    return sum(await asyncio.gather(*(_again(port, attack, end) for _ in range(attack.connections))))


async def _again(port: int, attack: Attack, end: float) -> int:
    """Opens one connection after another."""
    opened = 0
    while time.monotonic() < end:
        with suppress(OSError, asyncio.IncompleteReadError, asyncio.TimeoutError):
            reader, writer = await asyncio.open_connection("127.0.0.1", port, local_addr=(ATTACKER, 0))
            opened += 1
            try:
                await asyncio.wait_for(_send(reader, writer, attack), end - time.monotonic())
            finally:
                writer.transport.abort()
        # One that is refused at once leaves others their turn.
        await asyncio.sleep(0.001)
    return opened


async def _send(reader: asyncio.StreamReader, writer: asyncio.StreamWriter, attack: Attack) -> None:
    while True:
        writer.write(attack.parts[0])
        while attack.parts[1:]:
            writer.write(attack.parts[1])
            await writer.drain()
        if not attack.is_whole:
            await reader.read()
            return
        head = await reader.readuntil(b"\r\n\r\n")
        length = [it for it in head.lower().split(b"\r\n") if it.startswith(b"content-length:")]
        await reader.readexactly(int(length[0].partition(b":")[2]) if length else 0)


def honest(port: int, names: int, seconds: float) -> list[float]:
    """Looks names up as the honest users do, each time by a new connection. Returns the seconds from when each was due to its reply,
    without those in which this process stood still as well. One without a reply in five seconds counts as five.
    """
    return asyncio.run(_honest(port, names, time.monotonic(), seconds))


async def _honest(port: int, names: int, start: float, seconds: float) -> list[float]:
    count, clock = int(LOOKUPS * seconds), _Clock()
    users = (_user(port, names, start, range(it, count, len(USERS)), clock) for it in range(len(USERS)))
    task = asyncio.ensure_future(clock.run())
    try:
        return sum(await asyncio.gather(*users), [])
    finally:
        task.cancel()


class _Clock:
    """Notices when this process stands still, because its machine is busy with something else than the service."""

    def __init__(self) -> None:
        # When a pause ended, and by how much it was too long.
        self._late = list[tuple[float, float]]()

    async def run(self) -> None:
        while True:
            due = time.monotonic() + _PAUSE
            await asyncio.sleep(_PAUSE)
            if (late := time.monotonic() - due) > _PAUSE:
                self._late.append((due + late, late))

    def stood_still(self, start: float, end: float) -> float:
        """For how long it stood still between two times."""
        return sum(max(0, min(end, ended) - max(start, ended - late)) for ended, late in self._late)


async def _user(port: int, names: int, start: float, turns: range, clock: _Clock) -> list[float]:
    address, draw = USERS[turns.start], random.Random(turns.start)
    connector = aiohttp.TCPConnector(local_addr=(address, 0), force_close=True)
    timeout = aiohttp.ClientTimeout(total=5)
    async with aiohttp.ClientSession(f"http://127.0.0.1:{port}", connector=connector, timeout=timeout) as session:

        async def look_up(turn: int) -> float:
            due = start + turn / LOOKUPS
            await asyncio.sleep(max(0, due - time.monotonic()))
            with suppress(aiohttp.ClientError, asyncio.TimeoutError, OSError):
                async with session.get(f"/v1/lookup?name=name{draw.randrange(names)}") as found:
                    await found.read()
                    if found.status == 200:
                        end = time.monotonic()
                        return end - due - clock.stood_still(due, end)
            return 5

        return [await look_up(it) for it in turns]
