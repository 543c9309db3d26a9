"""That examples/service loses no operation of which it gave a receipt, that lookups wait for no commit, and what it does when a
signer, the log or another machine stands in the way."""

from __future__ import annotations

import asyncio
import os
import random
import signal
import subprocess
import sys
import threading
import time
from concurrent.futures import ThreadPoolExecutor
from contextlib import suppress
from http.client import HTTPException
from pathlib import Path
from typing import Any, Callable, Optional
from unittest.mock import Mock

import pytest

pytest.importorskip("aiohttp")
pytest.importorskip("nacl.signing")

import collecting
import ecvrf
from coniks import provider
from coniks.provider import Change, LogRefused, Operation, Overtaken, Register
from collecting import Collector, Requested, committed, shown_key
from holders import collector_of, judged, made, opened
from holding import Keys
from problems import Problem
from services import HOME, PYTHON, Running, named, until


class Askers:
    """Clients that register names as fast as they can, and note each receipt."""

    def __init__(self, service: Running, of: str):
        self._service, self._of, self._is_over = service, of, False
        self.receipts: dict[str, Any] = {}
        self._threads = [threading.Thread(target=self._run, args=(it,)) for it in range(4)]
        for it in self._threads:
            it.start()

    def _run(self, who: int) -> None:
        number = 0
        while not self._is_over:
            number += 1
            name = f"{self._of}-{who}-{number}"
            with suppress(OSError, HTTPException):
                answer = self._service.operate("register", name, name.encode())
                if answer.status == 200:
                    self.receipts[name] = answer.json

    def stop(self) -> None:
        self._is_over = True
        for it in self._threads:
            it.join()


def check_receipts(service: Running, receipts: dict[str, Any]) -> None:
    """Each receipt's epoch has its entry, and shows the name's key."""
    for name, receipt in receipts.items():
        assert service.entry(receipt["epoch"]).hex() == receipt["entry"], name
        shown = service.get(f"{named(name)}&epoch={receipt['epoch']}").body
        assert shown.endswith(name.encode()) and shown[1:210].hex() == receipt["entry"], name


@pytest.mark.kills
@pytest.mark.parametrize("number", [signal.SIGKILL, signal.SIGTERM], ids=["killed", "ended"])
def test_no_receipt_is_lost(other: Running, number: signal.Signals, request: pytest.FixtureRequest) -> None:
    """The service is ended at random moments while clients register names."""
    draw, all_receipts = random.Random(request.config.getoption("seed")), dict[str, Any]()
    for turn in range(max(2, request.config.getoption("kills") // 4)):
        other.start("--rate", "100000")
        askers = Askers(other, f"t{turn}")
        until(lambda: askers.receipts)
        time.sleep(draw.random())
        assert other.end(number) == (0 if number == signal.SIGTERM else -9)
        askers.stop()
        all_receipts |= askers.receipts
    other.start("--rate", "100000", "--recent", "100000")
    check_receipts(other, all_receipts)


def test_end_answers_who_waits(other: Running) -> None:
    """At SIGTERM who waits gets a reply at once: a receipt, or where to ask for it. A start has it, or the key that was committed while the
    service ended, whose receipt is gone."""
    other.start()
    with ThreadPoolExecutor() as pool:
        waits = pool.submit(other.operate, "register", "last", b"key", Prefer="wait=20")
        until(lambda: b"coniks_operations_waiting 1.0" in other.get("/metrics").body or waits.done())
        assert other.end() == 0
        answer = waits.result()
    assert answer.status in (200, 202), answer
    other.start()
    assert answer.status == 200 or other.decided(answer).status in (200, 404)
    assert other.get(named("last")).body.endswith(b"key")


SLOW = """
import runpy, sys, time
from pathlib import Path
sys.path[:0] = {path}
sys.argv = sys.argv[1:]
import holding
sign = holding.Keys.sign
def slowly(self, body):
    while Path({stop!r}).exists():
        time.sleep(0.05)
    return sign(self, body)
holding.Keys.sign = slowly
runpy.run_path(sys.argv[0], run_name="__main__")
"""


def test_lookups_wait_for_no_commit(other: Running, monkeypatch: pytest.MonkeyPatch) -> None:
    """While the signer doesn't answer, lookups go on at the epoch before, and show nothing that isn't stored."""
    words, stop = Running._words, other.room / "stop"

    def slow(self: Running, command: str) -> list[str]:
        found = words(self, command)
        path = [str(Path(found[1]).parent), *sys.path]
        return [PYTHON, "-c", SLOW.format(path=path, stop=str(stop)), *found[1:]]

    monkeypatch.setattr(Running, "_words", slow)
    other.start("--rate", "100000")
    other.operate("register", "alice", b"key")
    stop.touch()
    waiting = other.operate("change", "alice", b"other", Prefer="")
    until(lambda: b"coniks_update_pending 1.0" in other.get("/metrics").body)
    shown = {other.get(named("alice")).body for _ in range(100)}
    assert len(shown) == 1 and shown.pop().endswith(b"key"), "they are made while the signer waits"
    assert other.get(waiting.headers["location"], Prefer="").status == 202
    stop.unlink()
    stored = until(lambda: it if (it := other.get(waiting.headers["location"], Prefer="wait=15")).status == 200 else None)
    assert other.get(named("alice")).body.endswith(b"other") and stored.json["state"] == "stored"


def test_one_proof_for_a_name(program: str, tmp_path: Path, monkeypatch: pytest.MonkeyPatch) -> None:
    """The VRF proof of a name is computed once, for its index, its replies and its operations."""
    prove: Callable[[bytes, bytes], bytes] = ecvrf.prove
    names: list[bytes] = []

    def counted(secret: bytes, name: bytes) -> bytes:
        names.append(name)
        return prove(secret, name)

    with made(program, tmp_path) as holder:
        monkeypatch.setattr(ecvrf, "prove", counted)
        assert len({holder.reply("bob", None) for _ in range(9)}) == 1 and names == [b"bob"]
        holder.provider.commit(3, [Register("bob", b"key"), Register("carol", b"key")], force=True)
        assert holder.reply("bob", 3) != holder.reply("carol", 3) and names == [b"bob", b"carol"]


# What a commit leaves, in the process of the test.


def fail_once(monkeypatch: pytest.MonkeyPatch, target: Any, call: str, error: Exception) -> None:
    """Has a call fail once."""
    real = getattr(target, call)

    def once(*_: object, **__: object) -> object:
        monkeypatch.setattr(target, call, real)
        raise error

    monkeypatch.setattr(target, call, once)


def epoch_in(requested: Requested) -> int:
    """The epoch of a receipt."""
    entry = requested.outcome.result()
    assert isinstance(entry, bytes)
    return int.from_bytes(entry[1:9], "big")


def batch(*names: str) -> list[Register]:
    return [Register(it, it.encode()) for it in names]


def soon_committed(directory: Any, epoch: int, tried: list[Register]) -> Optional[bytes]:
    """What a batch becomes, tried again after each error."""
    for _ in range(3):
        with suppress(provider.ProviderError):
            return committed(directory, epoch, tried)
    raise AssertionError("three tries failed")


@pytest.mark.parametrize("after", [False, True], ids=["before", "after"])
@pytest.mark.parametrize("position", [1, 2], ids=["prepare", "install"])
def test_failed_appends(program: str, tmp_path: Path, monkeypatch: pytest.MonkeyPatch, after: bool, position: int) -> None:
    """An append fails before or after the line is stored: the receipt says what the log has."""
    with made(program, tmp_path) as holder:
        log, count = holder.log, 0
        append: Any = type(log).append

        def failing(self: Any, at: int, line: bytes) -> None:
            nonlocal count
            count += 1
            if count != position or after:
                append(self, at, line)
            if count == position:
                raise OSError(5, "planted")

        epoch = holder.provider.epoch_now()
        monkeypatch.setattr(type(log), "append", failing)
        tried = batch("alice", "bob")
        found = soon_committed(holder.provider, epoch, tried) or soon_committed(holder.provider, epoch, tried)
        assert found == holder.provider.chain()[-1] and holder.provider.lookup("alice").epoch == epoch
        assert holder.provider.latest().names == 2


def test_refused_append(program: str, tmp_path: Path, monkeypatch: pytest.MonkeyPatch) -> None:
    """A full disk: the operations wait, and are committed once there is room."""
    with made(program, tmp_path) as holder:
        fail_once(monkeypatch, type(holder.log), "append", LogRefused("no room"))
        epoch, tried = holder.provider.epoch_now(), batch("alice")
        with pytest.raises(LogRefused):
            committed(holder.provider, epoch, tried)
        assert committed(holder.provider, epoch, tried) == holder.provider.chain()[-1] and holder.provider.latest().epoch == epoch


def test_failed_signer(program: str, tmp_path: Path, monkeypatch: pytest.MonkeyPatch) -> None:
    """Who asked has no receipt until the signer is back, and then one for the same epoch, also if the clock has gone on."""
    with made(program, tmp_path) as holder:
        collector = collector_of(holder)
        fail_once(monkeypatch, holder.keys._signer, "sign", OSError("away"))

        async def story() -> None:
            requested = await collector.collect(judged(Register("alice", b"key")))
            await collector.commit()
            assert not requested.outcome.done() and collector.failures == 1 and holder.provider.pending
            with pytest.raises(Problem):
                await collector.collect(judged(Register("alice", b"other")))
            second = await collector.collect(judged(Register("bob", b"key")))
            epoch = holder.provider.pending.epoch
            monkeypatch.setattr(type(holder.provider), "epoch_now", lambda self: epoch + 7)
            await collector.commit()
            assert epoch_in(requested) == epoch and not second.outcome.done()
            await collector.commit()
            assert epoch_in(second) == epoch + 7 and collector.failures == 0

        asyncio.run(story())


def test_start_without_a_signer(program: str, tmp_path: Path, monkeypatch: pytest.MonkeyPatch) -> None:
    """A signer that is away at a start keeps no lookup back. What is pending is signed once it is back."""
    with made(program, tmp_path, operations=[Register("alice", b"key")]):
        pass
    epochs = [2]
    monkeypatch.setattr(provider.Provider, "epoch_now", lambda _: epochs[0])
    with monkeypatch.context() as away:
        away.setattr(Keys, "sign", Mock(side_effect=OSError("away")))
        for _ in range(2):
            with opened(program, tmp_path) as holder:
                collector = collector_of(holder)
                asyncio.run(collector.commit())
                assert collector.failures == 1 and holder.provider.pending.epoch == 2
                assert shown_key(holder.directory.lookup("alice")) == b"key"
    with opened(program, tmp_path) as holder:
        collector = collector_of(holder)
        for epochs[0] in (2, 3):
            asyncio.run(collector.commit())
        assert collector.failures == 0 and [it[8] for it in holder.provider.chain()] == [1, 2, 3]


def test_refused_operations(program: str, tmp_path: Path) -> None:
    """An operation that the program refuses doesn't keep the others from their epoch."""
    with made(program, tmp_path, operations=[Register("bob", b"key")]) as holder:
        collector = collector_of(holder)

        async def story() -> list[Any]:
            operations: list[Operation] = [
                Register("alice", b"1"),
                Register("bob", b"2"),
                Change("carol", b"3"),
                Register("dave", b"4"),
            ]
            requested = [await collector.collect(judged(it)) for it in operations]
            await collector.commit()
            return [it.outcome.result() for it in requested]

        one, taken, unknown, four = asyncio.run(story())
        assert one == four == holder.provider.chain()[-1] and holder.provider.latest().epoch == 2
        assert (taken.fault, unknown.fault) == ("NameTaken", "NameUnknown")
        assert holder.provider.latest().names == 3 and collector.pending == 0


def test_full_epoch(program: str, tmp_path: Path, monkeypatch: pytest.MonkeyPatch) -> None:
    """Operations are committed in the order in which they were stored, as many at once as a batch takes. Beyond what the queue takes
    whoever asks is told when there is room."""
    assert (collecting.MOST, collecting.MOST_WAITING) == (4096, 16384)
    monkeypatch.setattr(collecting, "MOST", 3)
    monkeypatch.setattr(collecting, "MOST_WAITING", 8)
    with made(program, tmp_path) as holder:
        collector, clock = collector_of(holder), [1]
        monkeypatch.setattr(type(holder.provider), "epoch_now", lambda _: clock[0])

        async def story() -> list[int]:
            requested = [await collector.collect(judged(Register(f"name{number}", b"key"))) for number in range(8)]
            with pytest.raises(Problem, match="8 operations wait") as refused:
                await collector.collect(judged(Register("one more", b"key")))
            # The second epoch of 1,000 seconds is 5 seconds old when the directory is made.
            assert refused.value.fault == "QueueFull" and 900 < refused.value.wait < 995
            for clock[0] in (2, 3, 4):
                await collector.commit()
            await collector.stop()
            return [epoch_in(it) for it in requested]

        assert asyncio.run(story()) == [2, 2, 2, 3, 3, 3, 4, 4]
        assert holder.provider.latest().names == 8


def test_end_amid_a_commit(program: str, tmp_path: Path, monkeypatch: pytest.MonkeyPatch) -> None:
    """A commit whose task is cancelled goes on in its thread, and who waits has the receipt all the same."""
    with made(program, tmp_path) as holder:
        collector, sign = collector_of(holder), holder.keys._signer.sign
        is_requested, may_sign = threading.Event(), threading.Event()

        def slowly(body: bytes) -> Any:
            is_requested.set()
            assert may_sign.wait(60)
            return sign(body)

        async def story() -> Any:
            monkeypatch.setattr(holder.keys._signer, "sign", slowly)
            requested = await collector.collect(judged(Register("alice", b"key")))
            committing = asyncio.create_task(collector.commit())
            await asyncio.to_thread(is_requested.wait, 60)
            committing.cancel()
            await asyncio.gather(committing, return_exceptions=True)
            assert not requested.outcome.done()
            may_sign.set()
            await collector.stop()
            return requested.outcome.result()

        assert asyncio.run(story()) == holder.provider.chain()[-1] and holder.provider.latest().epoch == 2


def test_failing_commits(program: str, tmp_path: Path, monkeypatch: pytest.MonkeyPatch, caplog: pytest.LogCaptureFixture) -> None:
    """A commit that goes on failing is logged ever more rarely, and tried again after growing pauses. Each failure is counted."""
    with made(program, tmp_path) as holder:
        collector, pauses = collector_of(holder), list[float]()

        def failing(*_: object, **__: object) -> None:
            raise LogRefused("no room")

        async def pause(seconds: float) -> None:
            pauses.append(seconds)
            if len(pauses) == 20:
                raise asyncio.CancelledError

        monkeypatch.setattr(type(holder.provider), "commit", failing)
        monkeypatch.setattr(asyncio, "sleep", pause)
        with suppress(asyncio.CancelledError):
            asyncio.run(collector.run())
        assert collector.failures == 20 and pauses == sorted(pauses) and pauses[0] < 1 and pauses[-1] == 5
        logged = [vars(it)["members"]["failures"] for it in caplog.records if it.getMessage() == "commit failed"]
        assert logged == [1, 2, 4, 8, 16]


def test_failures_of_several_epochs(program: str, tmp_path: Path, monkeypatch: pytest.MonkeyPatch) -> None:
    """A batch that is put back, since the clock has another epoch, ends no row of failures."""
    with made(program, tmp_path) as holder:
        collector, failures = collector_of(holder), list[int]()
        (tmp_path / "guard").unlink()
        for epoch in [2, 3, 3, 4, 4, 5]:
            monkeypatch.setattr(type(holder.provider), "epoch_now", lambda _: epoch)
            asyncio.run(collector.commit())
            failures.append(collector.failures)
        assert failures == [1, 1, 2, 2, 3, 3] and holder.provider.latest().epoch == 1


def test_killed_child(program: str, tmp_path: Path, caplog: pytest.LogCaptureFixture) -> None:
    """A child that is killed, and started again, leaves a line."""
    caplog.set_level("INFO")
    with made(program, tmp_path) as holder:

        def printed() -> list[Any]:
            return [vars(it)["members"]["pids"] for it in caplog.records if it.getMessage() == "children"]

        async def story() -> int:
            running = asyncio.create_task(collector_of(holder).run())
            before = holder.provider.pid
            while printed() != [[before]]:
                await asyncio.sleep(0.1)
            os.kill(before, signal.SIGKILL)
            while not printed()[-1] == [holder.provider.pid] != [before]:
                await asyncio.sleep(0.1)
            running.cancel()
            await asyncio.gather(running, return_exceptions=True)
            return int(before)

        killed = asyncio.run(asyncio.wait_for(story(), 60))
        assert printed()[0] == [killed] and printed()[-1] == [holder.provider.pid] != [killed]


@pytest.mark.parametrize(
    "options", [["--period", "60", "--kept", str(60 * 10**12)], ["--period", "1", "--kept", str(10**12)], ["--period", "0"]]
)
def test_made_to_stop(program: str, tmp_path: Path, options: list[str]) -> None:
    """A directory whose promised epochs need more memory than a machine has is not made."""
    place = ["--log", str(tmp_path / "log"), "--guard", str(tmp_path / "guard"), "--program", program]
    words = [
        PYTHON,
        str(HOME / "serve"),
        "make",
        "--keys",
        str(tmp_path / "keys"),
        "--origin",
        "keys.example.com",
        *place,
        *options,
    ]
    ran = subprocess.run(words, capture_output=True, text=True)
    assert ran.returncode == 1 and "memory" in ran.stderr and "--period" in ran.stderr and not any(tmp_path.iterdir())


def test_long_stop(program: str, tmp_path: Path, monkeypatch: pytest.MonkeyPatch) -> None:
    """An epoch that is more than a week after the latest one is committed only if the operator says so, and only once."""
    with made(program, tmp_path) as holder:

        def tried(collector: Collector, epoch: int) -> int:
            monkeypatch.setattr(type(holder.provider), "epoch_now", lambda _: epoch)
            asyncio.run(collector.commit())
            return int(holder.provider.latest().epoch)

        assert tried(collector_of(holder), 2000) == 1
        late = Collector(holder, lambda _: True, is_late=True)
        assert tried(late, 2000) == 2000 and tried(late, 2001) == 2001 and tried(late, 4000) == 2001 and late.failures == 1


def test_another_writer(program: str, tmp_path: Path) -> None:
    """If another process committed under the number of a batch, or under a later one, nobody gets its receipt."""
    with made(program, tmp_path) as holder:
        holder.provider.commit(2, [Register("alice", b"of the other one")])
        for epoch in (2, 1):
            with pytest.raises(Overtaken):
                committed(holder.provider, epoch, batch("alice"))
        assert committed(holder.provider, 2, []) == holder.provider.chain()[-1]


def test_overtaken(program: str, tmp_path: Path, monkeypatch: pytest.MonkeyPatch) -> None:
    """A writer that is overtaken commits nothing more, and takes nothing more. What waits stays in the queue."""
    with made(program, tmp_path) as holder:
        collector, epoch = collector_of(holder), holder.provider.latest().epoch

        async def story() -> Any:
            fail_once(monkeypatch, type(holder.provider), "commit", Overtaken("planted"))
            requested = await collector.collect(judged(Register("alice", b"key")))
            with pytest.raises(Overtaken):
                await collector.run()
            with pytest.raises(Problem, match="the writer"):
                await collector.collect(judged(Register("bob", b"key")))
            await collector.stop()
            return requested.outcome.cancelled()

        assert asyncio.run(story()) and holder.provider.latest().epoch == epoch
