"""Measures the lookups of one replica and of three at once, the processors that they use, the time of a takeover, and lookups while
PostgreSQL is stopped."""

from __future__ import annotations

import os
import random
import statistics
import sys
import tempfile
import time
from collections import Counter
from concurrent.futures import ThreadPoolExecutor
from functools import partial
from pathlib import Path
from threading import Event, Thread
from typing import Sequence
from unittest import mock

from coniks.postgres import PostgresLog
from coniks.provider import Provider, ProviderError, Register, Settings
from coniks.replica import Replica
from database import Database
from node import Node
from stand_ins import KEY, POLICY, Salted, Signer, index

BATCH = 4096


class Measured(Replica):
    def rate(self, call: str, names: int, seconds: float) -> list[float]:
        """Lookups a second, and how many processors Python and the child use meanwhile."""
        chance, count, start = random.Random(), 0, self._clocks()
        while time.monotonic() < start[0] + seconds:
            requested = [f"user-{chance.randrange(names)}" for _ in range(500)]
            count += len(self.lookups(requested) if call == "lookups" else [self.lookup(it) for it in requested])
        took, own, child = (now - then for now, then in zip(self._clocks(), start))
        return [count / took, own / took, child / took]

    def _clocks(self) -> list[float]:
        """The time, and the processor time of this process and of its child, whose clock has this number on Linux."""
        return [time.monotonic(), time.process_time(), time.clock_gettime(~(self.pid or 0) << 3 | 2)]


def rates(nodes: Sequence[Node], call: str, names: int, seconds: float) -> list[float]:
    """The sums of what some replicas do at once."""
    with ThreadPoolExecutor() as pool:
        made = [pool.submit(it.call, "rate", call, names, seconds) for it in nodes]
        return [sum(it) for it in zip(*(it.result() for it in made))]


def measure_lookups(conninfo: str, program: str, names: int, seconds: float, rounds: int) -> None:
    nodes = [Node(partial(PostgresLog, conninfo), program, Signer, replica=Measured) for _ in range(3)]
    for it in nodes:
        it.call("latest")
    for call in ("lookup", "lookups"):
        found = [[rates(nodes[:count], call, names, seconds) for count in (1, 3)] for _ in range(rounds)]
        for what, of in zip(["one replica", "three"], zip(*found)):
            rate, own, child = map(statistics.median, zip(*of))
            print(f"{call}: {rate:.0f} a second of {what}, on {own:.2f} processors in Python and {child:.2f} in children")
        ratio = statistics.median(three[0] / one[0] for one, three in found)
        print(f"{call}: three make {ratio:.2f} times as many, load {os.getloadavg()[0]:.1f}", flush=True)
    for it in nodes:
        it.kill()


def measure_takeover(log: PostgresLog, program: str, own: Provider, behind: int) -> Provider:
    start = time.monotonic()
    replica = Replica(Settings(program, index, POLICY), log)
    replayed, first = time.monotonic() - start, own.latest().epoch + 1
    with mock.patch.object(log, "read", return_value=[]):
        for epoch in range(first, first + behind):
            own.commit(epoch, [Register(f"user-{epoch}-{it}", KEY) for it in range(BATCH)])
    start = time.monotonic()
    new = replica.promote(Salted().sign)
    took = time.monotonic() - start
    print(f"takeover: {took:.3f} s by a standby that lacks {behind} batches of {BATCH} names; a replay of all {replayed:.2f} s")
    own.close()
    return new


def paced(own: Provider, names: int, seconds: float, rate: int = 200) -> list[float]:
    """The times of lookups, of which `rate` are begun each second."""
    chance, start, took = random.Random(), time.monotonic(), list[float]()
    for number in range(int(seconds * rate)):
        time.sleep(max(0, start + number / rate - time.monotonic()))
        begun = time.monotonic()
        own.lookup(f"user-{chance.randrange(names)}")
        took.append(time.monotonic() - begun)
    return took


def measure_outage(database: Database, own: Provider, names: int, seconds: float) -> None:
    """Lookups while PostgreSQL answers nothing and a commit is tried each second, and those of before."""
    reported = Counter[str]()

    def commits() -> None:
        while not is_over.wait(1):
            try:
                own.commit(own.latest().epoch + 1, [])
            except ProviderError as error:
                reported[type(error).__name__] += 1

    for what, is_away in [("before", False), ("while PostgreSQL is stopped", True)]:
        is_over, committing = Event(), Thread(target=commits)
        if is_away:
            database.stop()
        committing.start()
        took = sorted(paced(own, names, seconds))
        is_over.set()
        committing.join()
        median, most = took[len(took) // 2] * 1e3, took[len(took) * 99 // 100] * 1e3
        print(
            f"{what}: {len(took)} lookups in {seconds:.0f} s, none failed, p50 {median:.2f} ms, p99 {most:.2f} ms, commits: {dict(reported)}"
        )
    database.go_on()


def main(program: str, names: int = 100_000, seconds: float = 3, rounds: int = 5, outage: float = 30) -> int:
    with tempfile.TemporaryDirectory() as folder, Database(Path(folder)) as database, PostgresLog.create(database.conninfo) as log:
        own = Provider(Settings(program, index, POLICY), Salted().sign, log)
        for epoch, first in enumerate(range(0, names, BATCH), 1):
            own.commit(epoch, [Register(f"user-{it}", KEY) for it in range(first, min(names, first + BATCH))])
        measure_lookups(database.conninfo, program, names, seconds, rounds)
        for behind in (0, 1, 10):
            own = measure_takeover(log, program, own, behind)
        measure_outage(database, own, names, outage)
        own.close()
    return 0


if __name__ == "__main__":
    sys.exit(main(sys.argv[1], *map(int, sys.argv[2:])))
