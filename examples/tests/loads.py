"""Load for a service: clients that change keys, and clients that look names up and verify each reply by the package's client."""

from __future__ import annotations

import asyncio
import base64
import hashlib
import itertools
import random
import time
from collections import defaultdict
from dataclasses import dataclass
from http.client import HTTPConnection, HTTPException
from typing import Any, Callable, Iterable, NamedTuple, Optional, Sequence
from urllib.parse import quote

import aiohttp
from coniks import Policy
from coniks.client import Client, Found


@dataclass(frozen=True)
class Plan:
    """For how many seconds there is load, over how many names, how many operations and lookups begin in a second, in how many
    processes there are lookups, how often the service and PostgreSQL are killed, and how many replicas are asked in its place."""

    seconds: float
    names: int
    operations: int
    lookups: int
    readers: int
    kills: int
    replicas: int = 0
    period: int = 2

    @property
    def all_names(self) -> list[str]:
        return [f"name{it}" for it in range(self.names)]


class Operation(NamedTuple):
    """An operation, the epoch of its receipt, None if it has none, and whether the service said that it is stored. One that has neither
    may be lost, or not."""

    name: str
    key: bytes
    epoch: Optional[int]
    is_accepted: bool


class Seen(NamedTuple):
    """A verified lookup: what it shows of the name, the hash of its reply, and the seconds from when it was due."""

    name: str
    shown: Found
    reply: bytes
    seconds: float


class Reader:
    """A client with one connection, which verifies all that it is sent."""

    def __init__(self, port: int):
        self._connection = HTTPConnection("127.0.0.1", port, timeout=60)
        policy = Policy.read(self.got("/v1/policy"))
        self._client = Client(policy.signing_key, policy.vrf_key, policy)

    def got(self, target: str) -> bytes:
        """The body of a reply with status 200. Raises `OSError` or `HTTPException` if there is none."""
        try:
            self._connection.request("GET", target)
            reply = self._connection.getresponse()
            body = reply.read()
        except (OSError, HTTPException):
            self._connection.close()
            raise
        if reply.status != 200:
            raise HTTPException(f"status {reply.status}: {body[:300]!r}")
        return body

    def look_up(self, name: str, due: float, epoch: Optional[int] = None) -> Seen:
        """Looks a name up. Raises `Refusal` if the reply, or the chain that it belongs to, is a wrong one."""
        body = self.got(f"/v1/lookup?name={quote(name, safe='')}" + (f"&epoch={epoch}" if epoch else ""))
        seconds, at = time.monotonic() - due, int.from_bytes(body[2:10], "big")
        assert epoch in (None, at)
        while (head := self._client.head()) is None or head.epoch < at:
            self._client.feed(self.got(f"/v1/entries?after={head.epoch if head else 0}"))
        return Seen(name, self._client.lookup(name, body, at), hashlib.sha256(body).digest(), seconds)


def read(port: int, plan: Plan, number: int) -> tuple[list[Seen], int]:
    """Looks random names up in a process of its own. Returns what it has seen, and how many requests had no reply."""
    draw, names, reader = random.Random(number), plan.all_names, Reader(port)
    every, seen, failed = plan.readers / plan.lookups, list[Seen](), 0
    due = start = time.monotonic()
    while time.monotonic() < start + plan.seconds:
        due += every
        time.sleep(max(0, due - time.monotonic()))
        try:
            seen.append(reader.look_up(draw.choice(names), due))
        except (OSError, HTTPException):
            # Those that were due meanwhile are not made up for.
            failed += 1
            time.sleep(0.05)
            due = time.monotonic()
    return seen, failed


def write(port: int, plan: Plan, op: str, names: Iterable[str], every: float) -> list[Operation]:
    """Begins an operation for each of some names, one after another, in a process of its own."""
    return asyncio.run(_write(f"http://127.0.0.1:{port}", op, names, every))


async def _write(url: str, op: str, names: Iterable[str], every: float) -> list[Operation]:
    free: dict[str, asyncio.Lock] = defaultdict(asyncio.Lock)
    start, made = time.monotonic(), list[asyncio.Task[Operation]]()
    timeout = aiohttp.ClientTimeout(total=60)
    async with aiohttp.ClientSession(url, connector=aiohttp.TCPConnector(limit=0), timeout=timeout) as session:
        for number, name in enumerate(names):
            await asyncio.sleep(max(0, start + number * every - time.monotonic()))
            made.append(asyncio.create_task(_operate(session, free[name], op, name, b"%d of %b" % (number, name.encode()))))
        return [await it for it in made]


async def _operate(session: aiohttp.ClientSession, free: asyncio.Lock, op: str, name: str, key: bytes) -> Operation:
    """Makes one operation. Those of one name are made one after another."""
    body, is_accepted = {"op": op, "name": name, "key": base64.b64encode(key).decode()}, False
    token = {"Authorization": "Bearer one token"}
    async with free:
        try:
            async with session.post("/v1/operations", json=body, headers=token) as found:
                printed = await found.json(content_type=None)
                is_accepted = found.status in (200, 202)
                while found.status == 202:
                    found = await session.get(found.headers["Location"], headers={"Prefer": "wait=20"})
                    printed = await found.json(content_type=None)
        except (OSError, aiohttp.ClientError, asyncio.TimeoutError, ValueError):
            return Operation(name, key, None, is_accepted)
        return Operation(name, key, printed["epoch"] if found.status == 200 else None, is_accepted)


def changes(plan: Plan) -> list[str]:
    """The names of the operations of a plan: all in turn."""
    return list(itertools.islice(itertools.cycle(plan.all_names), int(plan.seconds * plan.operations)))


def check_keys(operations: Sequence[Operation], seen: Sequence[Seen]) -> None:
    """Checks each key that was seen: it is that of the name's last operation with a receipt at that epoch or before, or that of an
    operation after it without a receipt. And one name and epoch have one reply."""
    of_name: dict[str, list[Operation]] = defaultdict(list)
    for it in operations:
        of_name[it.name].append(it)
    replies: dict[tuple[str, int], bytes] = {}
    for look in seen:
        ordered, shown = of_name[look.name], look.shown
        stored = max(at for at, it in enumerate(ordered) if it.epoch is not None and it.epoch <= shown.epoch)
        allowed = {ordered[stored].key} | {it.key for it in ordered[stored:] if it.epoch is None}
        assert shown.key in allowed, (look, ordered)
        assert replies.setdefault((look.name, shown.epoch), look.reply) == look.reply, look


def check_receipts(port: int, operations: Sequence[Operation]) -> None:
    """Checks that each operation with a receipt is in the directory: its key is that of its epoch."""
    reader = Reader(port)
    for it in operations:
        assert it.epoch is None or reader.look_up(it.name, time.monotonic(), it.epoch).shown.key == it.key, it


def check_accepted(port: int, operations: Sequence[Operation]) -> None:
    """Checks that each operation that the service said is stored was committed: a name's key is that of the last one, or of one after it
    of which nothing is known."""
    reader, of_name = Reader(port), dict[str, list[Operation]]()
    for it in operations:
        of_name.setdefault(it.name, []).append(it)
    for name, ordered in of_name.items():
        last = max(at for at, it in enumerate(ordered) if it.is_accepted)
        assert reader.look_up(name, time.monotonic()).shown.key in {it.key for it in ordered[last:]}, ordered[last:]


def percentile(numbers: Iterable[float], of_hundred: float) -> float:
    ordered = sorted(numbers)
    return ordered[min(len(ordered) - 1, int(len(ordered) * of_hundred / 100))]


def soon(call: Callable[[], Any], seconds: float = 60) -> Any:
    """Makes a call again until it raises nothing."""
    end = time.monotonic() + seconds
    while True:
        try:
            return call()
        except (OSError, HTTPException):
            if time.monotonic() > end:
                raise
            time.sleep(0.05)
