"""examples/service under load while it is killed, and PostgreSQL under it: no operation that was accepted is lost, and no reply is wrong.

    scripts/pytest examples/tests/test_service_load.py --load 120    10,000 names, 200 operations and 1,000 lookups a second

One process of the service may reply to fewer lookups than that: `--lookups N` asks for N, and `--replicas 2 --readers 3` has three
processes ask two replicas.
"""

from __future__ import annotations

import multiprocessing
import tempfile
import time
from concurrent.futures import ProcessPoolExecutor
from contextlib import ExitStack
from pathlib import Path
from typing import Callable, Iterator, NamedTuple, Optional, Sequence

import pytest

pytest.importorskip("aiohttp")
pytest.importorskip("nacl.signing")

import tools
from loads import Plan, changes, check_accepted, check_keys, check_receipts, percentile, read, write
from services import Running, until

Kill = Callable[[], None]


class Loaded(NamedTuple):
    """What is under load, and how PostgreSQL is killed, None if it isn't here."""

    service: Running
    replicas: Sequence[Running]
    kill: Optional[Kill]


@pytest.fixture
def plan(request: pytest.FixtureRequest) -> Plan:
    """The whole load for `--load` seconds, or a short one."""
    seconds, lookups, readers, replicas = (request.config.getoption(it) for it in ("load", "lookups", "readers", "replicas"))
    return Plan(seconds, 10_000, 200, lookups, readers, 3, replicas) if seconds else Plan(8, 200, 50, 100, 1, 1, period=1)


@pytest.fixture
def loaded(packages: None, library: None, program: str, plan: Plan, tmp_path: Path) -> Iterator[Loaded]:
    """A service over PostgreSQL, its replicas, and how PostgreSQL is killed; over files if PostgreSQL isn't here."""
    place: tuple[str, ...] = ()
    kill: Optional[Kill] = None
    with ExitStack() as opened:
        if tools.has("PostgreSQL") and tools.has("psycopg"):
            from database import Database

            database = opened.enter_context(Database(Path(opened.enter_context(tempfile.TemporaryDirectory()))))
            place = ("--database", "--log", database.conninfo, "--guard", database.conninfo)

            def kill() -> None:
                database.kill()
                database.start()

        service, *replicas = (Running(tmp_path, program, plan.period, place) for _ in range(1 + plan.replicas))
        service.make()
        start(service)
        for it in replicas:
            start(it, "--replica")
        yield Loaded(service, replicas, kill)
        for it in [service, *replicas]:
            it.process.kill()
            it.process.wait()


def start(service: Running, *more: str) -> None:
    service.start("--rate", "1000000", "--connections", "100000", "--recent", "1000000", *more, port=service.port)


@pytest.mark.kills
@pytest.mark.postgres
def test_load(loaded: Loaded, plan: Plan, say: Callable[[str], None]) -> None:
    service, replicas, kill_database = loaded
    ports = [it.port for it in replicas or [service]]
    with ProcessPoolExecutor(1 + plan.readers, multiprocessing.get_context("spawn")) as pool:
        begun = pool.submit(write, service.port, plan, "register", plan.all_names, 1 / 500).result()
        assert all(it.epoch for it in begun)
        writing = pool.submit(write, service.port, plan, "change", changes(plan), 1 / plan.operations)
        reading = [pool.submit(read, ports[it % len(ports)], plan, it) for it in range(plan.readers)]
        kills: list[Kill] = [lambda: restart(service)] * plan.kills
        kills[1:1] = [kill_database] if kill_database else []
        for kill in kills:
            time.sleep(plan.seconds / (len(kills) + 1))
            kill()
        changed, found = writing.result(), [it.result() for it in reading]
    seen, failed = [it for one, _ in found for it in one], sum(it for _, it in found)
    receipts = [it for it in changed if it.epoch]
    check_keys([*begun, *changed], seen)
    check_receipts(service.port, [*begun, *changed])
    until(lambda: b"coniks_operations_waiting 0.0" in service.get("/metrics").body)
    check_accepted(service.port, [*begun, *changed])
    accepted = [it for it in changed if it.is_accepted]
    assert receipts and seen and not [it for it in service.lines() if it["event"] == "unexpected"]
    times = [f"{1000 * percentile((it.seconds for it in seen), part):.0f} ms" for part in (50, 99, 100)]
    over = "PostgreSQL, killed once" if kill_database else "files"
    say(
        f"load: {len(seen)} verified lookups in {plan.seconds:.0f} s: median {times[0]}, 99th percentile {times[1]}, largest {times[2]}"
    )
    say(
        f"load: {len(accepted)} of {len(changed)} operations were accepted, and {len(receipts)} have receipts; {plan.kills} kills; "
        f"{failed} lookups failed; over {over}"
    )


def restart(service: Running) -> None:
    service.process.kill()
    service.process.wait()
    start(service)
