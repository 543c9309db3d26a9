"""Honest runs: a directory with faults, takeovers, old backups and abandoned bodies, whose key must sign one chain.

    pytest embed/python/tests/provider/test_honest.py --honest RUNS

A run is a new directory with 3 to 12 random events, over the program and `coniks.guard`. Its processes are providers and replicas
that share a log and the guard's record. Each step of a call can raise, end the child, or end the process. In one run of five the
signer has no guard: then no old backup is restored, and nothing is abandoned. After each run

- no two bodies that were signed are evidence, by the rule of docs/FORMATS.md written once more below, with sets of numbers;
- a process that starts over the latest log goes on, and its chain has each entry that was acknowledged or shown, and each body
  that was signed.
"""

from __future__ import annotations

import random
import tempfile
import threading
from collections import Counter
from contextlib import suppress
from functools import partial
from pathlib import Path
from typing import Any, Callable, Optional, Union
from unittest import mock

import pytest

from stand_ins import POLICY, Salted, index, kill_child, provided
from bodies import is_evidence
from memory_log import Lines, MemoryLog
from coniks import provider
from coniks.guard import Guard, GuardError, RecordFailed
from coniks.policy import Policy
from coniks.provider import Change, LogRefused, Operation, Overtaken, Provider, ProviderError, Register, Settings
from coniks.replica import Replica


DIGESTED = Policy("keys.example.com/honest", bytes(32))
CLOCKED = Policy("keys.example.com/honest", bytes(32), epoch_start=1000, epoch_period=60)
POLICIES: list[Union[bytes, Policy]] = [POLICY, DIGESTED, CLOCKED, CLOCKED]
# A run that takes longer doesn't end.
SECONDS = 120
SEED = 20261128


class Crash(BaseException):
    """Ends a process at a step."""


class Watched(Guard):
    """A guard whose steps can fail, and which lists what it has signed."""

    def __init__(self, world: World) -> None:
        self._world = world
        super().__init__(world.room / "guard", world.sign, new_directory=not world.signed)

    def _swap(self, before: Optional[str], after: str) -> bool:
        self._world.step("before a record")
        is_stored = super()._swap(before, after)
        if is_stored and after.split("\n")[1].startswith("signed "):
            self._world.note_signed(bytes.fromhex(after.split()[3]))
        self._world.step("after a record")
        return is_stored


class World:
    """A key, the guard's record and a log that all processes share, and what was signed, acknowledged and shown."""

    def __init__(self, program: str, room: Path, chance: random.Random, counts: Counter[str]) -> None:
        self.program, self.room, self.chance, self.counts = program, room, chance, counts
        self.lines, self.keys, self.seconds = Lines(), Salted(), 1000.0
        self.policy = chance.choice(POLICIES)
        self.is_guarded = chance.randrange(5) > 0
        self.signed: list[bytes] = []
        self.acknowledged: set[bytes] = set()
        self.shown: set[bytes] = set()
        self.backups: list[list[bytes]] = []
        self.names = 0
        # What happens at a step: after how many steps, and what.
        self._left, self._fails, self._fault = 0, 0, ""
        self.member: Optional[Member] = None

    def log(self) -> MemoryLog:
        """The log for another process."""
        return MemoryLog(self.lines, self.step)

    def time(self) -> float:
        """The time, in the place of the module `time` of the provider."""
        return self.seconds

    def arm(self) -> None:
        """Lets one of the next steps fail, or none."""
        self._left = self.chance.choice([0, self.chance.randrange(1, 12)])
        self._fault = self.chance.choice(["crash", "child", "error", "refusal"])
        self._fails = self.chance.choice([0, 0, 1, 2])

    def disarm(self) -> None:
        self._left = self._fails = 0

    def step(self, what: str) -> None:
        self._left -= 1
        if self._left:
            return
        self.counts[f"{self._fault} {what}"] += 1
        if self._fault == "child" and self.member and self.member.own:
            with suppress(ProcessLookupError):
                kill_child(self.member.own)
        elif self._fault == "crash":
            raise Crash()
        elif self._fault == "refusal" and what == "before an append":
            raise LogRefused("told to refuse: try again")
        elif self._fault != "child":
            raise (RecordFailed if "record" in what else OSError)("told to fail")

    def sign_alone(self, body: bytes) -> bytes:
        """Signs without a guard."""
        signature = self.sign(body)
        self.note_signed(body + signature)
        return signature

    def sign(self, body: bytes) -> bytes:
        self.step("before the key")
        if self._fails:
            self._fails -= 1
            raise TimeoutError("the key is told to fail")
        signature = self.keys.sign(body)
        self.step("after the key")
        return signature

    def note_signed(self, entry: bytes) -> None:
        if entry not in self.signed:
            self.signed.append(entry)

    def commits(self, own: Provider) -> None:
        """Commits under the number of the clock, or another one."""
        self.seconds += self.chance.choice([0, 60, 60, 60, 120, -60])
        is_clocked = self.policy is CLOCKED and self.seconds >= 1000
        epoch = own.epoch_now() if is_clocked and self.chance.randrange(4) else own.latest().epoch + self.chance.randrange(1, 4)
        self.names += 1
        made: list[Operation] = [Register(f"user-{self.names}", b"key"), Change("first", b"other")]
        made = made[: self.chance.randrange(3)]
        again = self.chance.randrange(3)
        while True:
            try:
                self.acknowledge(own.commit(epoch, made, force=self.chance.random() < 0.5))
                return
            except ProviderError:
                if not again:
                    raise
                again -= 1

    def retries(self, own: Provider) -> None:
        self.acknowledge(own.retry())

    def acknowledge(self, epoch: provider.Epoch) -> None:
        self.counts["epochs"] += 1
        self.acknowledged.add(epoch.entry)

    def looks(self, own: Union[Provider, Replica]) -> None:
        self.shown.add(own.lookup("first").entry)

    def restores(self) -> None:
        """Puts a backup in the place of the log. All later lines are kept too."""
        self.backups.append(self.lines.all)
        lines = self.chance.choice(self.backups)
        self.lines.replace(lines[: self.chance.randrange(len(lines) + 1)] if self.chance.randrange(2) else list(lines))


class Member:
    """A process: a provider, a replica, or none while it is down."""

    def __init__(self, world: World) -> None:
        self.world = world
        self.own: Union[None, Provider, Replica] = None

    def end(self) -> None:
        if self.own:
            self.own.close(0)
        self.own = None

    def sign(self) -> Callable[[bytes], bytes]:
        """The signer of a new process."""
        sign: Callable[[bytes], bytes] = Watched(self.world) if self.world.is_guarded else self.world.sign_alone  # type: ignore
        return sign

    def opens(self, **more: Any) -> Provider:
        world = self.world
        settings: dict[str, Any] = {"policy": world.policy, "verify": world.keys.verify, "workers": 1, "timeout": 60, **more}
        return provided(world.program, index, self.sign(), world.log(), **settings)

    def event(self) -> None:
        """Makes a random call. An error is what the process is told, and a crash is its end."""
        world, chance = self.world, self.world.chance
        world.member = self
        world.arm()
        try:
            what = self._call(chance)
            world.counts[f"{what} returned"] += 1
        except (ProviderError, GuardError) as error:
            world.counts[type(error).__name__] += 1
            if isinstance(error, Overtaken) and chance.randrange(2):
                self.end()
        except Crash:
            self.end()
        finally:
            world.disarm()
            world.member = None

    def _call(self, chance: random.Random) -> str:
        """Makes a call that fits the process's state, and returns its name."""
        own = self.own
        if own is None:
            return self._begins(chance)
        calls: dict[str, Callable[[], object]] = {"restart": own.restart, "look": partial(self.world.looks, own), "end": self.end}
        if isinstance(own, Replica):
            calls |= {"follow": own.follow, "promote": partial(self._promotes, own, chance)}
        else:
            calls |= {"commit": partial(self.world.commits, own), "commit again": partial(self.world.commits, own)}
            if own.pending:
                calls |= {"retry": partial(self.world.retries, own), "abandon": own.abandon}
            if own.pending and self.world.is_guarded:
                calls["guard"] = self._gives_up
        if own.evidence():
            calls["discard"] = partial(own.discard_evidence, own.latest().link)
        what = chance.choice([*calls, *(it for it in calls if it in ("commit", "commit again", "promote", "abandon"))])
        calls[what]()
        return what

    def _begins(self, chance: random.Random) -> str:
        world = self.world
        if world.lines.all and chance.randrange(3) == 0:
            self.own = Replica(Settings(world.program, index, world.policy, workers=1, timeout=60), world.log())
            return "replica"
        self.own = self.opens(sign_pending=chance.random() < 0.7, create=not world.lines.all)
        return "start"

    def _promotes(self, own: Replica, chance: random.Random) -> None:
        self.own = own.promote(self.sign(), verify=self.world.keys.verify, sign_pending=chance.random() < 0.7)

    def _gives_up(self) -> None:
        """An operator gives a body up by the guard alone: one of the last lines of the log, or what the guard was asked for."""
        guard = Watched(self.world)
        found = [bytes.fromhex(it.split(b'"body":"')[1][:290].decode()) for it in self.world.lines.all[-3:] if b'"body":"' in it]
        requested = guard.asked()
        guard.abandon(self.world.chance.choice([*found, *([requested] if requested else [])] or [bytes(144) + b"\1"]))


def wrong(world: World) -> Optional[str]:
    """What is wrong after a run, or None. A process starts over the latest log: the others are refused."""
    bodies = [it[:145] for it in world.signed]
    if any(is_evidence(one, other) for at, one in enumerate(bodies) for other in bodies[: at + 1]):
        return f"evidence: {[it.hex() for it in bodies]}"
    member, reported = Member(world), list[str]()
    for lines in sorted([world.lines.all, *world.backups], key=len, reverse=True):
        world.lines.replace(list(lines))
        try:
            if not lines and world.signed:
                continue
            own = member.own = member.opens(create=not lines)
            epoch = max([own.latest().epoch, own.pending.epoch if own.pending else 0]) + 1
            world.acknowledge(own.commit(epoch, [Register("last", b"key")], force=True))
            world.looks(own)
            chain = own.chain()
            is_whole = world.acknowledged | world.shown <= {*chain} and {*bodies} <= {it[:145] for it in chain}
            return None if is_whole else "the chain lacks what was acknowledged, shown or signed"
        except ProviderError as error:
            reported.append(repr(error))
        finally:
            member.end()
    return f"no log goes on: {reported}"


def run(program: str, seed: str, counts: Counter[str]) -> Optional[str]:
    """Makes a run, and returns what is wrong with it, or None."""
    chance = random.Random(seed)
    with tempfile.TemporaryDirectory(dir="/dev/shm" if Path("/dev/shm").is_dir() else None) as room:
        world = World(program, Path(room), chance, counts)
        with mock.patch.object(provider, "time", world):
            members = [Member(world) for _ in range(chance.choice([1, 1, 2, 3]))]
            try:
                members[0].own = members[0].opens(create=True)
                world.acknowledge(members[0].own.commit(1, [Register("first", b"key")], force=True))
                for _ in range(chance.randrange(3, 13)):
                    if world.is_guarded and chance.randrange(12) == 0:
                        counts["restored"] += 1
                        world.restores()
                    chance.choice(members).event()
                for it in members:
                    it.end()
                return wrong(world)
            finally:
                world.lines.close()
                for it in members:
                    it.end()


def pytest_generate_tests(metafunc: pytest.Metafunc) -> None:
    if "number" in metafunc.fixturenames:
        metafunc.parametrize("number", range(metafunc.config.getoption("honest")))


@pytest.mark.honest
def test_run(program: str, counted: Counter[str], number: int) -> None:
    reported: list[Optional[str]] = ["it doesn't end"]

    def works() -> None:
        try:
            reported[0] = run(program, f"{SEED} {number}", counted)
        except BaseException as error:
            reported[0] = repr(error)

    thread = threading.Thread(target=works, daemon=True)
    thread.start()
    thread.join(SECONDS)
    counted["runs"] += 1
    assert reported[0] is None


@pytest.mark.honest
def test_runs_have_events(counted: Counter[str], say: Callable[[str], None]) -> None:
    """Epochs were committed, abandoned and refused in the runs before."""
    runs = counted.pop("runs", 0)
    if runs < 50:
        pytest.skip(f"{runs} honest runs are few")
    say(f"{runs} honest runs: {', '.join(f'{it} {counted[it]}' for it in sorted(counted))}")
    assert counted["epochs"] and counted["abandon returned"]


@pytest.fixture(scope="module")
def counted() -> Counter[str]:
    """What happened in all runs."""
    return Counter()
