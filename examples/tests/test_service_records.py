"""That examples/service commits no two records of one number for a name, whenever their owner sends them."""

from __future__ import annotations

import asyncio
import random
import time
from concurrent.futures import ThreadPoolExecutor
from contextlib import suppress
from pathlib import Path
from typing import Any, Callable, Sequence

import pytest

pytest.importorskip("aiohttp")
pytest.importorskip("nacl.signing")

from authorising import Request
from coniks.provider import Change, Register
from coniks.vouching import Change as Found
from coniks.vouching import Place, Span, first, following, is_allowed, judged
from collecting import Collector, Judged, shown_key
from holders import made
from nacl.signing import SigningKey
from problems import Problem

# Names, each with its owner, and how often an owner sends two records of one number.
NAMES, ROUNDS = 100, 10


class Racing:
    """Owners who send two next records of their names at random moments, while epochs end some ten times a second."""

    def __init__(self, holder: Any, monkeypatch: pytest.MonkeyPatch):
        self.holder, self.policy, self.clock = holder, holder.keys.policy, 1
        self.owners = {f"name{it}": SigningKey(it.to_bytes(32, "big")) for it in range(NAMES)}
        self.collector = Collector(holder, self.authorise)
        monkeypatch.setattr(type(holder.provider), "epoch_now", lambda _: self.clock)

    def authorise(self, request: Request) -> bool:
        """The rule of records, by someone who takes his time."""
        time.sleep(random.uniform(0, 0.06))
        return request.operation is None or is_allowed(
            Place.of(self.policy, request.name), request.present, request.operation.key, request.epoch
        )

    def keys_of(self, name: str, epochs: Sequence[int]) -> list[bytes]:
        """The keys of a name at those of some epochs that have one."""
        shown = [shown_key(self.holder.provider.lookup(name, it)) for it in epochs]
        return [it for it in shown if it]

    async def send(self, name: str, key: bytes) -> bool:
        """Whether a record is stored that was sent at a random moment."""
        await asyncio.sleep(random.uniform(0, 0.15))
        with suppress(Problem):
            requested = await self.collector.take(Change(name, key), {})
            return isinstance(await requested.outcome, bytes)
        return False

    async def both(self, name: str) -> int:
        """How many of two records of one number are stored."""
        place, owner = Place.of(self.policy, name), self.owners[name]
        [present] = self.keys_of(name, [self.holder.provider.latest().epoch])
        return sum(await asyncio.gather(*(self.send(name, following(place, owner, present, key)) for key in (b"one", b"other"))))

    async def epochs(self) -> None:
        """Ends an epoch some ten times a second."""
        while True:
            self.clock += 1
            await self.collector.commit()
            await asyncio.sleep(0.05)

    async def run(self) -> list[int]:
        asyncio.get_running_loop().set_default_executor(ThreadPoolExecutor(2 * NAMES))
        records = {name: first(Place.of(self.policy, name), owner, b"first") for name, owner in self.owners.items()}
        ending = asyncio.create_task(self.epochs())
        registered = [await self.collector.take(Register(*it), {}) for it in records.items()]
        await asyncio.gather(*(it.outcome for it in registered))
        stored = [await asyncio.gather(*(self.both(it) for it in self.owners)) for _ in range(ROUNDS)]
        ending.cancel()
        await asyncio.gather(ending, return_exceptions=True)
        return [it for its in stored for it in its]


def test_two_records_of_one_number(
    program: str, tmp_path: Path, monkeypatch: pytest.MonkeyPatch, say: Callable[[str], None]
) -> None:
    """Two records of one number never follow each other in the log, and one of both is stored."""
    with made(program, tmp_path) as holder:
        racing = Racing(holder, monkeypatch)
        stored = asyncio.run(racing.run())
        assert len(stored) == NAMES * ROUNDS and set(stored) == {1} and racing.collector.failures == 0
        epochs = [int.from_bytes(it[1:9], "big") for it in holder.provider.chain()]
        say(f"records: {len(stored)} races in {len(epochs)} epochs")
        for name in racing.owners:
            keys = racing.keys_of(name, epochs)
            place, spans = Place.of(racing.policy, name), [Span(it, it, it + 1) for it in range(len(keys))]
            found = {judged(place, *it) for it in zip(keys, keys[1:], spans)}
            assert found == {Found.SAME, Found.VOUCHED}, name


def test_judged_again(program: str, tmp_path: Path, monkeypatch: pytest.MonkeyPatch) -> None:
    """An operation that was judged by a key that has changed is refused when its batch is made, and the others are committed."""
    with made(program, tmp_path, operations=[Register("alice", b"1"), Register("bob", b"1")]) as holder:
        collector = Collector(holder, lambda request: request.present != b"2")

        async def story() -> list[Any]:
            late = [Judged(Change(it, b"3"), {}, b"1", 1) for it in ("alice", "bob")]
            holder.provider.commit(2, [Change("alice", b"2")])
            monkeypatch.setattr(type(holder.provider), "epoch_now", lambda _: 3)
            requested = [await collector.collect(it) for it in late]
            await collector.commit()
            return [it.outcome.result() for it in requested]

        alice, bob = asyncio.run(story())
        assert isinstance(alice, Problem) and (alice.status, alice.fault) == (403, "Forbidden")
        assert bob == holder.provider.chain()[-1] and holder.provider.latest().epoch == 3
        assert [shown_key(holder.provider.lookup(it)) for it in ("alice", "bob")] == [b"2", b"3"]
