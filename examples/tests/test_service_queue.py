"""That examples/service commits each operation that it has accepted, once and in its order, whatever ends the process."""

from __future__ import annotations

import asyncio
import shutil
import signal
import sqlite3
import stat
from contextlib import suppress
from pathlib import Path
from typing import Any, Iterable, Iterator, Optional
from unittest.mock import Mock

import pytest

pytest.importorskip("aiohttp")
pytest.importorskip("nacl.signing")

import collecting
from collecting import Collector, Outcome, Requested, shown_key
from coniks.provider import Change, FileLog, Operation, Register
from connections import Bounds
from endpoints import Endpoints
from holders import collector_of, judged, made, opened
from nacl.signing import SigningKey
from problems import Problem
from queueing import Queue, QueueFailed, Row
from services import Running, named, until


class Ended(BaseException):
    """The end of a process."""


@pytest.fixture(autouse=True)
def clock(monkeypatch: pytest.MonkeyPatch) -> Iterator[list[int]]:
    """The epoch that the clock of a directory in the test's process has."""
    epoch = [1]
    monkeypatch.setattr("coniks.provider.Provider.epoch_now", lambda _: epoch[0])
    yield epoch


@pytest.mark.parametrize("number", [signal.SIGTERM, signal.SIGKILL], ids=["ended", "killed"])
def test_accepted_operations(packages: None, program: str, tmp_path: Path, number: signal.Signals) -> None:
    """What got 202 before the process was ended or killed is committed by the next one."""
    other = Running(tmp_path, program, period=2)
    other.make()
    other.start("--rate", "100000")
    try:
        names = [f"name{it}" for it in range(300)]
        assert {other.operate("register", it, b"key", Prefer="").status for it in names} == {202}
        other.end(number)
        assert stat.S_IMODE((tmp_path / "log.queue").stat().st_mode) == 0o600
        other.start("--rate", "100000")
        until(lambda: b"coniks_names 300.0" in other.get("/metrics").body)
        assert all(other.get(named(it)).body.endswith(b"key") for it in names)
    finally:
        other.process.kill()
        other.process.wait()


def ask(collector: Collector, *operations: Operation) -> list[Requested]:
    async def requested() -> list[Requested]:
        return [await collector.collect(judged(it)) for it in operations]

    return asyncio.run(requested())


def commit(collector: Collector, clock: list[int], *epochs: int) -> None:
    async def run() -> None:
        for clock[0] in epochs:
            await collector.commit()

    asyncio.run(run())


def outcomes(collector: Collector, requested: Iterable[Requested]) -> list[Any]:
    """What became of operations."""
    return reported(collector.outcomes.get(it.number) for it in requested)


def reported(found: Iterable[Optional[Outcome]]) -> list[Any]:
    """Of each outcome the number of the epoch, the error, or None while it isn't decided."""
    results = [it.result() if it and it.done() else None for it in found]
    return [int.from_bytes(it[1:9], "big") if isinstance(it, bytes) else it and it.fault for it in results]


# Where a process ends: the call, and whether it is made before.
PLACES = {
    "before the queue has the batch": (Queue, "mark", False),
    "before the log has it": (FileLog, "append", False),
    "after the log has it": (FileLog, "append", True),
    "before the key is used": (SigningKey, "sign", False),
    "after the key is used": (SigningKey, "sign", True),
    "before the queue drops it": (Queue, "drop", False),
}


def dies(at: str, monkeypatch: pytest.MonkeyPatch) -> None:
    """Ends the process in the midst of a commit."""
    target, name, is_after = PLACES[at]
    real = getattr(target, name)

    def ending(*arguments: Any, **more: Any) -> Any:
        if is_after:
            real(*arguments, **more)
        raise Ended

    monkeypatch.setattr(target, name, ending)


@pytest.mark.parametrize("later", [[2, 3], [3, 4]], ids=["soon", "later"])
@pytest.mark.parametrize("at", PLACES)
def test_ends_amid_a_commit(
    program: str, tmp_path: Path, monkeypatch: pytest.MonkeyPatch, clock: list[int], at: str, later: list[int]
) -> None:
    """Wherever a process ends, the next one commits each operation once, and knows what became of it."""
    operations = [Register("alice", b"1"), Register("bob", b"2")]
    with made(program, tmp_path) as holder:
        collector = collector_of(holder)
        requested = ask(collector, *operations)
        with monkeypatch.context() as patched:
            dies(at, patched)
            with suppress(Ended):
                commit(collector, clock, 2)
    with opened(program, tmp_path) as holder:
        collector = collector_of(holder)
        commit(collector, clock, *later)
        reported = outcomes(collector, requested)
        assert reported in ([2, 2], [3, 3]) and collector.failures == 0
        assert [shown_key(holder.provider.lookup(it.name)) for it in operations] == [b"1", b"2"]
        assert holder.provider.latest().names == 2 and collector.pending == 0
    with opened(program, tmp_path) as holder:
        assert waiting(holder) == [], "nothing is left in the queue"


def waiting(holder: Any) -> list[str]:
    """The names in the queue, in their order."""

    async def rows() -> list[Row]:
        found: list[Row] = await holder.queue.others(set())
        return found

    return [it.name for it in asyncio.run(rows())]


@pytest.mark.parametrize("ends", [False, True])
def test_refused_in_a_batch(program: str, tmp_path: Path, monkeypatch: pytest.MonkeyPatch, clock: list[int], ends: bool) -> None:
    """What the program refuses is none of the batch that a start finds in the queue."""
    with made(program, tmp_path, operations=[Register("bob", b"key")]) as holder:
        collector = collector_of(holder)
        requested = ask(collector, Register("alice", b"1"), Register("bob", b"2"), Register("carol", b"3"))
        real, count = Queue.drop, [0]

        def drop(self: Queue, numbers: Any) -> Any:
            count[0] += 1
            if ends and count[0] == 3:
                raise Ended
            return real(self, numbers)

        monkeypatch.setattr(Queue, "drop", drop)
        with suppress(Ended):
            commit(collector, clock, 2)
        assert outcomes(collector, requested) == [None if ends else 2, "NameTaken", None if ends else 2]
    with opened(program, tmp_path) as holder:
        collector = collector_of(holder)
        commit(collector, clock, 3)
        assert outcomes(collector, requested) == [2 if ends else None, None, 2 if ends else None]
        assert holder.provider.latest().epoch == 3


def test_old_queue(program: str, tmp_path: Path, clock: list[int]) -> None:
    """A queue from an old backup brings no old key back."""
    queue = tmp_path / "log.queue"
    with made(program, tmp_path, operations=[Register("alice", b"1")]) as holder:
        collector = collector_of(holder)
        ask(collector, Register("bob", b"1"))
        asyncio.run(collector.collect(collecting.Judged(Change("alice", b"2"), {}, b"1", 1)))
        shutil.copy(queue, tmp_path / "old")
        commit(collector, clock, 2)
        asyncio.run(collector.collect(collecting.Judged(Change("alice", b"3"), {}, b"2", 2)))
        commit(collector, clock, 3)
    shutil.copy(tmp_path / "old", queue)
    with opened(program, tmp_path) as holder:
        # The one of whom nothing is known but the name has no credentials.
        collector = Collector(holder, lambda request: bool(request.headers))
        commit(collector, clock, 4, 5)
        assert reported(collector.outcomes.values()) == ["Forbidden", "Forbidden"]
        assert [shown_key(holder.provider.lookup(it)) for it in ("alice", "bob")] == [b"3", b"1"]


def test_queue_of_another_directory(program: str, tmp_path: Path, clock: list[int]) -> None:
    """A queue that lies beside another log is not that log's."""
    rooms = [tmp_path / it for it in ("one", "two")]
    for room in rooms:
        room.mkdir()
        with made(program, room) as holder:
            ask(collector_of(holder), Register(f"of {room.name}", b"key"))
    shutil.copy(rooms[0] / "log.queue", rooms[1] / "log.queue")
    with opened(program, rooms[1]) as holder:
        assert waiting(holder) == []
    with opened(program, rooms[0]) as holder:
        assert waiting(holder) == ["of one"]


def test_full_disk_of_the_queue(program: str, tmp_path: Path, monkeypatch: pytest.MonkeyPatch, clock: list[int]) -> None:
    """What can't be stored is not accepted, and can be asked for again."""
    with made(program, tmp_path) as holder:
        collector = collector_of(holder)
        with monkeypatch.context() as patched:

            def full(*_: object) -> bool:
                raise sqlite3.OperationalError("database or disk is full")

            patched.setattr(Queue, "_put", full)
            with pytest.raises(QueueFailed, match="log.queue can't be written: database or disk is full"):
                ask(collector, Register("alice", b"1"))
        assert collector.pending == 0 and collector.outcomes == {}
        [requested] = ask(collector, Register("alice", b"2"))
        commit(collector, clock, 2)
        assert outcomes(collector, [requested]) == [2]


def test_no_queue(program: str, tmp_path: Path) -> None:
    """A file that is no queue is left as it is, and the error names it."""
    with made(program, tmp_path):
        pass
    (tmp_path / "log.queue").write_bytes(b"something else, " * 4096)
    with pytest.raises(QueueFailed, match="log.queue can't be opened: file is not a database"):
        with opened(program, tmp_path):
            pass
    assert (tmp_path / "log.queue").read_bytes() == b"something else, " * 4096


def test_together(program: str, tmp_path: Path, monkeypatch: pytest.MonkeyPatch) -> None:
    """Operations that come at once are stored at once: one waits for the disk no longer than two."""
    with made(program, tmp_path) as holder:
        collector, real, groups = collector_of(holder), Queue._do, list[str]()

        def counted(self: Queue, done: str, call: Any) -> Any:
            groups.append(done)
            return real(self, done, call)

        monkeypatch.setattr(Queue, "_do", counted)

        async def story() -> list[Requested]:
            return await asyncio.gather(*(collector.collect(judged(Register(f"name{it}", b"key"))) for it in range(500)))

        assert len({it.number for it in asyncio.run(story())}) == 500 and len(groups) < 50
        assert waiting(holder) == [f"name{it}" for it in range(500)]


def test_same_name(program: str, tmp_path: Path) -> None:
    """One that asks for the same gets the same number, also while it is being stored, and another one is told to wait."""
    with made(program, tmp_path) as holder:
        collector = collector_of(holder)

        async def story() -> list[Any]:
            keys = [b"1", b"1", b"2"]
            tried = (collector.collect(judged(Register("alice", it))) for it in keys)
            return list(await asyncio.gather(*tried, return_exceptions=True))

        one, same, other = asyncio.run(story())
        assert one.number == same.number and isinstance(other, Problem) and other.fault == "NameWaits"


def test_of_another_writer(program: str, tmp_path: Path, clock: list[int]) -> None:
    """What another writer has accepted is committed by this one, and its name waits here too."""
    with made(program, tmp_path) as holder:
        collector = collector_of(holder)
        # What a start finds is read before.
        commit(collector, clock, 1)

        async def story() -> None:
            assert await holder.queue.put(Row("of another one", "register", "alice", b"1", bytes(32), None, 1))
            with pytest.raises(Problem, match="another operation of this name"):
                await collector.collect(judged(Register("alice", b"2")))
            clock[0] = 2
            await collector.commit()

        asyncio.run(story())
        assert shown_key(holder.provider.lookup("alice")) == b"1" and waiting(holder) == [] and collector.failures == 0


def test_judged_once(program: str, tmp_path: Path, clock: list[int]) -> None:
    """An operation of the queue whose name has the key by which it was judged is not judged again, which would take its credentials."""
    with made(program, tmp_path, operations=[Register("alice", b"1")]) as holder:
        requested = asyncio.run(
            collector_of(holder).collect(collecting.Judged(Change("alice", b"2"), {"Authorization": "a"}, b"1", 1))
        )
    with opened(program, tmp_path) as holder:
        holder.provider.commit(2, [], force=True)
        collector = Collector(holder, lambda request: bool(request.headers))
        commit(collector, clock, 3)
        assert outcomes(collector, [requested]) == [3]


def test_error_of_a_full_disk(packages: None) -> None:
    """Whoever asks is told to ask again, and of the disk only the log says more: it is no error of the service."""
    unexpected = Mock()
    served = Endpoints(Mock(), Mock(), Mock(unexpected=unexpected), Bounds())
    problem = served._problem_of(QueueFailed("the file names.log.queue can't be written: database or disk is full"))
    assert (problem.status, problem.fault, problem.wait) == (503, "Unavailable", 1) and "names.log" not in str(problem)
    assert not unexpected.inc.called
