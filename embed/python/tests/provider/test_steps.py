"""Stops a commit at each of its steps: by an exception, a child that ends, a log that fails, or a full disk.

After each, the directory is started again, once by `restart` and once by a new process's means: from the log alone. What was
acknowledged must be there, and an update whose body was logged must be installed with that body.
"""

from __future__ import annotations

import errno
import os
import tempfile
from contextlib import contextmanager, nullcontext
from pathlib import Path
from typing import Any, Iterator, Optional
from unittest import mock

import pytest

from stand_ins import Salted, Signer, audited, has_library, is_new, opened, small_disk
from raising import raises
from steps import STOPS, Stage, Stop, starts, stopped
from coniks.provider import FileLog, LogFailed, LogRefused, Provider, ProviderError, Register, RestartNeeded, UnknownEpoch
from coniks.provider import entries


@contextmanager
def failing(stage: Stage, name: str, number: int) -> Iterator[None]:
    """A call of `os` that fails once, at its n-th time for the log's file from now on."""
    calls, real = [0], getattr(os, name)

    def call(*arguments: Any) -> Any:
        is_of_file = stage.file._opened is not None and arguments[0] == stage.file._opened.file.fileno()
        calls[0] += is_of_file
        if is_of_file and calls[0] == number:
            if name == "pwrite":
                real(arguments[0], arguments[1][: len(arguments[1]) // 2], arguments[2])
            raise OSError(errno.ENOSPC if name == "pwrite" else errno.EIO, "the disk is told to fail")
        return real(*arguments)

    with mock.patch.object(os, name, call):
        yield


def check(what: str, stage: Stage, is_logged: bool, library: bool) -> None:
    """What must be there after a stop of epoch 2."""
    by_epoch = {int.from_bytes(it[1:9], "big"): it for it in entries(stage.log)}
    assert by_epoch.get(1) == stage.first.entry, f"{what}: the first epoch is as it was"
    assert (2 in by_epoch) == is_logged, f"{what}: epoch 2 is installed if its body was logged: {sorted(by_epoch)}"
    assert stage.provider.pending is None, f"{what}: nothing is pending"
    made = stage.provider.commit(3, [Register("third", b"key")])
    assert stage.provider.lookup("third").entry == made.entry, f"{what}: a lookup has the next entry"
    assert stage.signer.is_requested_once(), f"{what}: one body for each epoch"
    assert set(stage.signer.requested()) == {1, 3} | (
        {2} if is_logged else set()
    ), f"{what}: a body is signed only after it was logged"
    assert audited(entries(stage.log), stage.signer.keys, library), f"{what}: the chain is audited"


def commit_stopped(stage: Stage, error: Optional[type[BaseException]]) -> Optional[str]:
    """Commits epoch 2, which must raise the error, or return if it is None. Then a lookup must go on, at an epoch that the log
    has, and a commit only if nothing is open. Returns what is wrong, or None."""
    try:
        stage.provider.commit(2, [Register("second", b"key")])
    except (ProviderError, Stop) as raised:
        if error is None or type(raised) is not error:
            return f"raised {raised!r}"
    else:
        if error:
            return "returned"
    stage.log.before = stage.log.after = lambda line: None
    stage.signer.before = lambda: None
    found, latest = stage.provider.lookup("first"), stage.provider.latest()
    logged = [*entries(stage.file)] if not stage.file._is_bad else [stage.first.entry]
    if found.entry not in logged or stage.provider.chain()[-1] != found.entry or latest.epoch != found.epoch:
        return f"a lookup showed {found!r}"
    try:
        stage.provider.lookup("first", 2)
    except UnknownEpoch:
        if found.epoch == 2:
            return "the latest epoch can't be looked up"
    else:
        if found.epoch != 2:
            return "an epoch was shown that isn't the log's"
    return None


@pytest.mark.parametrize("children", [1, 2])
@pytest.mark.parametrize("what, how", starts("new", "restart", "next"))
def test_stop(program: str, what: str, how: str, children: int) -> None:
    set_up, error, is_logged = STOPS[what]
    with tempfile.TemporaryDirectory() as room:
        stage = Stage(room, program, children)
        set_up(stage)
        reported = commit_stopped(stage, error)
        assert reported is None
        stage.start_again(how)
        check(what, stage, is_logged, has_library())
        stage.close()


@pytest.mark.parametrize("name", ["pwrite", "fsync"])
@pytest.mark.parametrize("number", [1, 2])
def test_disk(program: str, name: str, number: int) -> None:
    """A write or a sync of a file log fails: each of those of a commit, and then those that would undo it."""
    with tempfile.TemporaryDirectory() as room:
        stage = Stage(room, program)
        with failing(stage, name, number):
            reported = commit_stopped(stage, LogRefused)
        assert reported is None
        stage.start_again("next")
        check(f"{name} {number} fails", stage, number == 2, has_library())
        stage.close()


@pytest.mark.parametrize("name", ["ftruncate", "fsync"])
def test_undone(program: str, name: str) -> None:
    """A sync fails, and the line that it leaves can't be dropped, or its dropping can't be synced: the log fails until it is
    opened again."""
    cut = stopped(OSError(errno.EIO, "told to fail"))
    with tempfile.TemporaryDirectory() as room:
        stage = Stage(room, program)
        with failing(stage, "fsync", 1) if name == "ftruncate" else nullcontext(), mock.patch.object(os, name, cut):
            reported = commit_stopped(stage, LogFailed)
        assert reported is None
        for _ in range(2):
            raises("a restart", LogFailed, lambda: stage.start_again("restart"))
        raised = raises("a commit", RestartNeeded, stage.provider.retry)
        assert "a new provider" in str(raised) and "restart()" not in str(raised), f"what helps: {raised}"
        found = stage.provider.lookup("first")
        assert found.entry == stage.first.entry, "lookups go on"
        stage.start_again("new")
        # What a disk does that can't sync is not known: here the first line is there, and the second is dropped.
        check("a line that can't be dropped", stage, name == "ftruncate", has_library())
        stage.close()


def test_full_disk(program: str, rounds: int = 8) -> None:
    """A small tmpfs fills up while a directory commits. After each time it is emptied a little, and the directory goes on."""
    with small_disk("256k") as room:
        if not room.is_mount():
            pytest.skip("a full disk needs the right to mount a tmpfs")
        fill(room, program, rounds, has_library())


def fill(room: Path, program: str, rounds: int, library: bool) -> None:
    signer, ballast = Signer(room, Salted()), room / "ballast"
    there: dict[int, bytes] = {}
    with tempfile.TemporaryDirectory() as elsewhere:
        signer.file = Path(elsewhere) / "asked"
        ballast.write_bytes(bytes(160 << 10))
        for turn in range(rounds):
            with FileLog(room / "log") as log, opened(program, log, signer, create=is_new(log)) as provider:
                fill_once(turn, provider, there)
                if turn % 2 == 0:
                    os.truncate(ballast, ballast.stat().st_size - (16 << 10))
                    if provider.pending:
                        provider.retry()
                    made = provider.commit(provider.latest().epoch + 1, [])
                    there[made.epoch] = made.entry
            if turn % 2:
                with FileLog(room / "log") as log:
                    assert list(log.read(0)), f"full disk {turn}: the log opens while the disk is full"
                os.truncate(ballast, ballast.stat().st_size - (16 << 10))
            with FileLog(room / "log") as log, opened(program, log, signer) as provider:
                by_epoch = {int.from_bytes(it[1:9], "big"): it for it in entries(log)}
                assert all(
                    by_epoch.get(it) == entry for it, entry in there.items()
                ), f"full disk {turn}: each acknowledged epoch is there"
                assert signer.is_requested_once(), f"full disk {turn}: one body for each epoch"
                assert audited(entries(log), signer.keys, library), f"full disk {turn}: the chain is audited"
        assert len(there) > rounds, f"full disk: epochs were acknowledged: {len(there)}"


def fill_once(turn: int, provider: Provider, there: dict[int, bytes]) -> None:
    """Commits batches, whose size differs from turn to turn, until the disk is full."""
    epoch = provider.latest().epoch
    try:
        while True:
            epoch += 1
            made = provider.commit(epoch, [Register(f"user-{epoch}-{it}", b"k" * (700 * (turn + 1))) for it in range(1 + turn % 3)])
            there[epoch] = made.entry
    except LogRefused:
        pass
