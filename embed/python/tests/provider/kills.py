"""A process that is killed: it commits batches, some by a signer that fails, while one thread looks names up, and another one takes
snapshots and drops the lines below them. It lists each epoch that `commit` returned, each entry that a lookup showed, and, by its
signer, each body to sign.

    kills.py FOLDER DISK PROGRAM KIND SEED
"""

from __future__ import annotations

import base64
import json
import os
import random
import signal
import sys
import threading
import time
from contextlib import suppress
from pathlib import Path
from typing import Callable, Sequence

from stand_ins import Ed25519, Salted, Scheme, Signer, append, guarded
from stand_ins import is_new, opened
from coniks.guard import BodyAbandoned
from coniks.provider import Change, Epoch, Fault, FileLog, LogRefused, Operation, ProgramFailed, Provider, Register
from coniks.provider import RestartNeeded, SignerFailed


KINDS: dict[str, Callable[[], Scheme]] = {"salted": Salted, "ed25519": Ed25519}


def some_batch(chance: random.Random, provider: Provider) -> list[Operation]:
    """Registers names that follow those there are, and changes some of them."""
    there, size = provider.latest().names, chance.randrange(4)
    made: list[Operation] = [Register(f"user-{there + it}", b"key-%d" % chance.randrange(1 << 30)) for it in range(size)]
    names = chance.sample(range(there), min(there, chance.randrange(3)))
    return made + [Change(f"user-{it}", b"key-%d" % chance.randrange(1 << 30)) for it in names]


def commit(chance: random.Random, provider: Provider, epoch: int, operations: Sequence[Operation]) -> Epoch:
    """Commits: after the signer fails again with the same operations, or by `retry`, or the update is given up, or another
    one follows it under a later epoch."""
    made = {epoch: operations}
    while True:
        try:
            return provider.commit(epoch, made[epoch])
        except SignerFailed:
            assert provider.pending
            turn, pending = chance.randrange(4), provider.pending.epoch
            if turn == 0:
                epoch += chance.randrange(1, 4)
                made[epoch] = []
            elif turn == 1:
                provider.abandon()
                epoch += chance.randrange(1, 4)
                made[epoch] = made[pending]
            elif turn == 2:
                try:
                    return provider.retry()
                except SignerFailed:
                    pass


def look(room: Path, provider: Provider, seed: int) -> None:
    """Looks names up, and lists each entry that is shown."""
    chance = random.Random(seed)
    seen: set[bytes] = set()
    while True:
        try:
            found = provider.lookup(f"user-{chance.randrange(40)}")
        except (Fault, ProgramFailed):
            time.sleep(0.001)
            continue
        if found.entry not in seen:
            seen.add(found.entry)
            append(room / "shown", found.entry.hex())


def compact(disk: Path, provider: Provider, log: FileLog, seed: int) -> None:
    """Takes snapshots, and drops the lines below some. A small disk is full for some of that time."""
    chance = random.Random(seed)
    while True:
        time.sleep(chance.uniform(0, 0.05))
        ballast = disk / "ballast"
        if disk.is_mount() and chance.randrange(3) == 0:
            with suppress(OSError):
                room = os.statvfs(disk)
                ballast.write_bytes(bytes(max(0, (room.f_bavail - chance.randrange(8)) * room.f_frsize)))
        try:
            position = provider.compact()
            if chance.randrange(2):
                log.drop_before(position - chance.randrange(3))
        except (Fault, ProgramFailed, RestartNeeded, LogRefused):
            pass
        with suppress(FileNotFoundError):
            ballast.unlink()


def drive(folder: str, disk: str, program: str, kind: str, seed: int) -> None:
    chance, room = random.Random(seed), Path(folder)
    signer = Signer(room, KINDS[kind]())

    def before() -> None:
        time.sleep(chance.choice([0, 0, 0.001, 0.004]))
        signer.fails = chance.randrange(5) == 0

    signer.before = before
    with FileLog(Path(disk) / "log") as log:
        while True:
            try:
                # A process that was killed may have made the directory or not.
                provider = opened(program, log, signer, guarded(signer), create=is_new(log), children=1 + chance.randrange(2))
                break
            except (SignerFailed, ProgramFailed, LogRefused):
                pass
        print("ready", flush=True)
        threading.Thread(target=look, args=(room, provider, seed), daemon=True).start()
        threading.Thread(target=compact, args=(Path(disk), provider, log, seed), daemon=True).start()
        while True:
            try:
                made = some_batch(chance, provider)
                # An update that was given up has spent its number.
                spent = max(provider.latest().epoch, provider.pending.epoch if provider.pending else 0)
                epoch = commit(chance, provider, spent + chance.randrange(1, 3), made)
                keys = {it.name: base64.b64encode(it.key).decode() for it in made}
                append(room / "acknowledged", json.dumps([epoch.epoch, epoch.entry.hex(), keys]))
            except (ProgramFailed, LogRefused):
                go_on(chance, provider)


def go_on(chance: random.Random, provider: Provider) -> None:
    """Goes on after the child ended: by `restart`, or by asking for the pending update alone. One that was given up stays."""
    while True:
        try:
            if chance.randrange(2):
                provider.restart()
            if provider.pending:
                provider.retry()
            return
        except (ProgramFailed, LogRefused):
            pass
        except SignerFailed as error:
            if isinstance(error.__cause__, BodyAbandoned):
                return


def kill(process: int) -> None:
    try:
        os.kill(process, signal.SIGKILL)
    except ProcessLookupError:
        pass


if __name__ == "__main__":
    drive(sys.argv[1], sys.argv[2], sys.argv[3], sys.argv[4], int(sys.argv[5]))
