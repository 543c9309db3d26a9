"""Kills a process that commits, looks up and takes snapshots, its children or all, at random moments; then all that was
acknowledged must be there. The log is on a small disk, which is full at some moments. The process is kills.py."""

from __future__ import annotations

import base64
import json
import random
import signal
import subprocess
import sys
import tempfile
import time
from itertools import combinations
from pathlib import Path
from typing import Callable

import pytest

from bodies import is_evidence
from stand_ins import HAS_NACL, HERE, Signer, audited, children_of, guarded, has_library
from stand_ins import is_new, lines, opened, shown, small_disk
from kills import KINDS, kill
from coniks.guard import BodyAbandoned
from coniks.provider import FileLog, Lookup, Provider
from coniks.provider import SignerFailed, entries


# After this number of kills a log ends and a new one begins, so that replays stay short.
KILLS_OF_ROOM = 20


def check(what: str, room: Path, disk: Path, program: str, kind: str, library: bool) -> tuple[int, int]:
    """Starts once more, and compares the directory with the lists."""
    signer = Signer(room, KINDS[kind]())
    guard = guarded(signer)
    (disk / "ballast").unlink(missing_ok=True)
    with FileLog(disk / "log") as log, opened(program, log, signer, guard, create=is_new(log)) as provider:
        by_epoch = {int.from_bytes(it[1:9], "big"): it for it in entries(log)}
        acknowledged = [json.loads(it) for it in lines(room / "acknowledged")]
        assert all(
            by_epoch.get(epoch) == bytes.fromhex(entry) for epoch, entry, _ in acknowledged
        ), f"{what}: each acknowledged epoch is in the log"
        # The epochs before the snapshot are forgotten.
        first = provider._host.known.points[0].epoch if provider.chain() else 0
        for epoch, entry, keys in [it for it in acknowledged[-20:] if it[0] >= first]:
            found = provider.lookups(keys, epoch)
            right = [it for it in found if isinstance(it, Lookup) and it.entry.hex() == entry]
            printed = {it.name: base64.b64encode(shown(it) or b"").decode() for it in right}
            assert printed == keys, f"{what}: epoch {epoch} has its keys: {(printed, keys)}"
        assert all(
            it in by_epoch.values() for it in map(bytes.fromhex, lines(room / "shown"))
        ), f"{what}: each entry shown is in the chain"
        assert signer.is_requested_once(), f"{what}: one body for each epoch: {signer.requested()}"
        position, stored = log.snapshot() or (0, ())
        given_up = {bytes.fromhex(json.loads(it).get("abandons", "")) for it in log.read(position)}
        given_up |= {bytes.fromhex(body) for it in stored for body in json.loads(it).get("replaced", ())}
        signed = {it for bodies in signer.requested().values() for it in bodies} - given_up
        assert not any(is_evidence(*it) for it in combinations(signed, 2)), f"{what}: no two bodies are evidence"
        last = provider.chain()[-1] if provider.chain() else None
        assert (guard.signed(), guard.asked()) == (last, None), f"{what}: the record ends as the log"
        assert audited(entries(log), signer.keys, library), f"{what}: the chain is audited"
        latest = provider.latest()
        assert latest.epoch == max(by_epoch, default=0) and (
            not provider.pending or is_abandoned(provider)
        ), f"{what}: nothing is pending, and the latest is the log's"
    return len(acknowledged), len(lines(room / "shown"))


def is_abandoned(provider: Provider) -> bool:
    """Whether the guard refuses the pending update, since the process was killed after it had abandoned it."""
    try:
        provider.retry()
        return False
    except SignerFailed as error:
        return isinstance(error.__cause__, BodyAbandoned)


def one_kill(chance: random.Random, room: Path, disk: Path, program: str, kind: str) -> tuple[str, bool]:
    """Starts the process, and kills it, or its children or one of them, and then it: some time after its start, or after it has
    replayed the log."""
    words = [sys.executable, str(HERE / "kills.py"), str(room), str(disk), program, kind, str(chance.randrange(1 << 30))]
    with open(room / "said", "ab") as printed, subprocess.Popen(words, stdout=subprocess.PIPE, stderr=printed) as process:
        assert process.stdout
        if chance.randrange(3):
            process.stdout.readline()
        time.sleep(chance.uniform(0, 0.5))
        turn = chance.choice(["process", "child", "one child", "both", "child first"])
        if turn in ("child", "one child"):
            # There may be two, or more while a snapshot is taken.
            there = children_of(process.pid)
            for it in chance.sample(there, min(1, len(there))) if turn == "one child" else there:
                kill(it)
            time.sleep(chance.uniform(0, 0.4))
        children = children_of(process.pid)
        for it in {"both": [process.pid, *children], "child first": [*children, process.pid]}.get(turn, [process.pid]):
            kill(it)
        ended = process.wait()
    return turn, ended == -signal.SIGKILL


@pytest.mark.kills
def test_kills(program: str, pytestconfig: pytest.Config, say: Callable[[str], None], seed: int = 20261126) -> None:
    chance, library = random.Random(seed), has_library()
    count = int(pytestconfig.getoption("kills"))
    counts: dict[str, int] = {}
    acknowledged = seen = 0
    for done in range(0, count, KILLS_OF_ROOM):
        kind = "ed25519" if HAS_NACL and done // KILLS_OF_ROOM % 2 else "salted"
        with tempfile.TemporaryDirectory() as room, small_disk("1m") as disk:
            for number in range(done, min(count, done + KILLS_OF_ROOM)):
                turn, was_killed = one_kill(chance, Path(room), disk, program, kind)
                what = f"kill {number} ({turn}, {kind})"
                assert was_killed, (f"{what}: it ran until it was killed", (Path(room) / "said").read_text()[-2000:])
                counts[turn] = counts.get(turn, 0) + 1
                there = check(what, Path(room), disk, program, kind, library)
            acknowledged, seen = acknowledged + there[0], seen + there[1]
    reported = ", ".join(f"{it} {counts[it]}" for it in sorted(counts))
    assert acknowledged and seen, "kills: epochs were acknowledged and shown"
    say(f"{count} kills ({reported}): {acknowledged} epochs acknowledged, {seen} entries shown")
