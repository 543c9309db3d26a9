"""A cluster of three processes over a private PostgreSQL, faults that strike it, and what must be kept then."""

from __future__ import annotations

import os
import random
import signal
import tempfile
import threading
import time
from collections import Counter
from concurrent.futures import ThreadPoolExecutor, wait
from contextlib import ExitStack, suppress
from functools import partial
from pathlib import Path
from types import FrameType
from typing import Any, Iterator, Optional

from database import Database, soon
from kills import kill
from node import SPAWN, Node
from stand_ins import (
    HAS_NACL,
    PACKAGE,
    Ed25519,
    Salted,
    Scheme,
    Signer,
    audited,
    children_of,
    guarded,
    has_library,
    lines,
    opened,
    shown,
)
from stand_ins import small_disk
from coniks.guard import Guard
from coniks.postgres import PostgresLog
from coniks.provider import (
    Change,
    Closed,
    Directory,
    Epoch,
    EpochNotLater,
    EpochSpent,
    Latest,
    LogFailed,
    LogRefused,
    Lookup,
    NameUnknown,
    Operation,
)
from coniks.provider import Overtaken, ProgramFailed, ProviderError, Register, RestartNeeded, SignerFailed, entries


FAULTS = ["kill writer", "pause writer", "kill database", "cut connections", "start writers", "fill disk"]
FAULTS += ["interrupt members", "kill children", "stop database", "drop lines"]
# The number of faults on one cluster. A new cluster then replaces it, so that replays stay short.
FAULTS_OF_ROOM = 20
# By `Salted`, two signatures of one body differ.
SCHEMES: list[type[Scheme]] = [Ed25519, Salted] if HAS_NACL else [Salted]
CUT = "SELECT pg_terminate_backend(pid) FROM pg_stat_activity WHERE application_name = 'coniks_log' AND random() < 0.7"


class Interrupted(ProviderError):
    """What a member's signal handler raises."""


def interrupt(_: int, frame: Optional[FrameType]) -> None:
    """Raises an exception if a call of the package is under way, but for `close`, after which the service ends."""
    names = []
    while frame:
        if frame.f_code.co_filename.startswith(PACKAGE):
            names.append(frame.f_code.co_name)
        frame = frame.f_back
    if names and "close" not in names:
        raise Interrupted("a signal handler raised")


# What a fault excuses. A commit that was interrupted goes on, so the next one may come too late. One that another member overtook
# may ask for a body that the guard refuses.
EXCUSED = (LogFailed, RestartNeeded, ProgramFailed, NameUnknown, Interrupted, Closed, EpochSpent, EpochNotLater, SignerFailed)


class Keys:
    """What a service has beside its provider. All members sign through one guard's record."""

    def __init__(self, signer: Signer) -> None:
        self.policy, self.nonce, self.index, self.verify = signer.policy, signer.nonce, signer.index, signer.verify
        self._signer = signer

    def signer(self) -> Guard:
        return guarded(self._signer)


class Trapped(PostgresLog):
    """Sends its process a signal after some steps: each append has one before it and one after it. `trap` has the number of the
    steps that are left, and the signal. It is shared with another process."""

    def __init__(self, conninfo: str, trap: Any, patience: float) -> None:
        # The handler is there before the database is asked for anything.
        signal.signal(signal.SIGUSR1, interrupt)
        super().__init__(conninfo, patience=patience)
        self.trap = trap

    def append(self, position: int, line: bytes) -> None:
        self._step()
        super().append(position, line)
        self._step()

    def _step(self) -> None:
        self.trap[0] -= 1
        if self.trap[0] == 0:
            os.kill(os.getpid(), self.trap[1])


def place(latest: Optional[Latest]) -> object:
    """What is the same at all members, whatever they have forgotten."""
    return latest and (latest.epoch, latest.link, latest.names)


# The threads of this process that take snapshots.
COMPACTING: list[threading.Thread] = []


def compact_beside(own: Directory) -> None:
    """Has a snapshot taken, or taken over, by another thread of a member's process, while that answers calls."""

    def compacts() -> None:
        with suppress(ProviderError):
            own.compact()  # type: ignore[attr-defined]

    thread = threading.Thread(target=compacts, daemon=True)
    thread.start()
    COMPACTING.append(thread)


def oldest(own: Directory) -> int:
    """The oldest epoch that a member has in memory, once no snapshot is being taken."""
    while COMPACTING:
        COMPACTING.pop().join()
    return own._host.known.points[0].epoch


# A member calls them as the other methods.
setattr(Directory, "compact_beside", compact_beside)
setattr(Directory, "oldest", oldest)


class Member(Node):
    """A process of the cluster."""

    def __init__(self, cluster: Cluster, is_writer: bool) -> None:
        self.reported, self.trap = cluster.reported, SPAWN.RawArray("l", 2)
        log = partial(Trapped, cluster.database.conninfo, self.trap, cluster.chance.choice([0.3, 20]))
        super().__init__(log, cluster.program, Keys(cluster.signer), is_writer)
        cluster.callback(self.kill)

    def tried(self, call: str, *arguments: Any) -> Any:
        """What a call returns, or its error if a fault excuses it. A provider that was overtaken may not know a name yet."""
        try:
            return self.call(call, *arguments)
        except EXCUSED as error:
            self.reported[f"{type(error).__name__} told"] += 1
            if isinstance(error, NameUnknown) and self.commits():
                raise
            with suppress(ProviderError):
                if isinstance(error, Closed):
                    # The promotion was interrupted: repeated, it returns the provider.
                    self.call("lead")
                elif isinstance(error, (EpochSpent, SignerFailed)) and self.is_writer:
                    # So was a commit, which left its update pending.
                    self.call("retry")
                elif isinstance(error, (LogFailed, RestartNeeded)) and not isinstance(error, (Overtaken, LogRefused)):
                    self.call("restart")
            return error

    def surely(self, call: str, *arguments: Any) -> Any:
        """Calls until there is no error. Returns None if another member writes."""
        until = time.monotonic() + 120
        while isinstance(answer := self.tried(call, *arguments), ProviderError) and not isinstance(answer, Overtaken):
            if time.monotonic() > until:
                raise answer
            time.sleep(0.02)
        return None if isinstance(answer, Overtaken) else answer

    def commits(self) -> bool:
        """Whether this is the member that commits. One that was overtaken learns it."""
        until = time.monotonic() + 120
        while self.is_writer and time.monotonic() < until:
            # A commit that was interrupted may install an epoch meanwhile.
            latest = self.surely("latest")
            if latest and isinstance(self.tried("commit", latest.epoch + 1, []), Epoch):
                return True
        return False

    def signal(self, number: int, steps: int = 0) -> None:
        """Sends a signal after some steps, or after two seconds without them."""
        self.trap[1], self.trap[0] = number, steps
        soon(lambda: self.trap[0] <= 0, 2)
        self.trap[0] = 0
        assert self.process.pid
        os.kill(self.process.pid, number)


class Cluster(ExitStack):
    """Three processes over a database on a small disk, and what their clients were reported."""

    def __init__(self, program: str, scheme: type[Scheme], chance: random.Random) -> None:
        super().__init__()
        self.program, self.chance, self.reported = program, chance, Counter[str]()
        self.acknowledged: list[tuple[Epoch, list[Operation]]] = []
        self.shown: dict[tuple[str, int], Lookup] = {}
        self.names, self.wrong = list[str](), list[str]()
        self.signer = Signer(self.enter_context(tempfile.TemporaryDirectory()), scheme())
        self.database = self.enter_context(Database(self.enter_context(small_disk("80m"))))
        with PostgresLog.create(self.database.conninfo) as log:
            opened(program, log, self.signer).close()
        self.members = [Member(self, True)]
        self.members[0].surely("commit", 1, [])
        self.members += [Member(self, False) for _ in range(2)]
        for it in self.members:
            it.surely("latest")

    def strike(self, fault: str) -> None:
        """Causes a fault while each provider commits and all members look up."""
        self._is_loaded = True
        with ThreadPoolExecutor(8) as self._pool:
            self._works = [self._pool.submit(self._work, it, self.chance.random()) for it in self.members]
            try:
                time.sleep(self.chance.uniform(0, 0.4))
                getattr(self, fault.replace(" ", "_"))()
                time.sleep(self.chance.uniform(0, 0.3))
            finally:
                self._is_loaded = False
        self.wrong += [repr(it.exception()) for it in self._works if it.exception()]

    def _work(self, member: Member, seed: float) -> None:
        chance, number = random.Random(seed), 0
        with suppress(EOFError, OSError):
            while self._is_loaded:
                if member.is_writer:
                    self._commit(member, chance, f"user-{seed}-{(number := number + 1)}")
                if chance.randrange(30) == 0:
                    member.tried("compact_beside")
                found = member.tried("lookup", chance.choice(["no name", f"user-{seed}-{number}-0", *self.names]))
                if isinstance(found, Lookup) and self.shown.setdefault((found.name, found.epoch), found) != found:
                    self.wrong.append(f"two answers: {found.line!r}")

    def _commit(self, member: Member, chance: random.Random, name: str) -> None:
        """Registers names, and changes keys of others."""
        key, names = b"key %d " % chance.randrange(1 << 30) * chance.choice([1, 1, 500]), list(self.names)
        made: list[Operation] = [Register(f"{name}-{it}", key) for it in range(chance.randrange(3))]
        made += [Change(it, key) for it in chance.sample(names, min(len(names), chance.randrange(3)))]
        latest = member.tried("latest")
        epoch = isinstance(latest, Latest) and member.tried("commit", latest.epoch + chance.randrange(1, 3), made)
        if isinstance(epoch, Epoch):
            self.acknowledged.append((epoch, made))
            self.names += [it.name for it in made if isinstance(it, Register)]

    def _signal(self, number: int) -> Member:
        """Sends a signal to a provider. Then another member leads."""
        struck = self.chance.choice([it for it in self.members if it.is_writer] or self.members)
        struck.signal(number, self.chance.randrange(5))
        other = self.chance.choice([it for it in self.members if it is not struck])
        self._works.append(self._pool.submit(other.surely, "lead"))
        # A process that is stopped may have the lock of the guard's record. The other one leads once it goes on.
        wait(self._works[-1:], 5)
        return struck

    def kill_writer(self) -> None:
        self.members.remove(self._signal(signal.SIGKILL))
        self.members.append(Member(self, self.chance.random() < 0.5))
        self._works.append(self._pool.submit(self._work, self.members[-1], self.chance.random()))

    def pause_writer(self) -> None:
        paused = self._signal(signal.SIGSTOP)
        time.sleep(self.chance.uniform(0, 0.3))
        paused.signal(signal.SIGCONT)

    def kill_database(self) -> None:
        self.database.kill()
        time.sleep(self.chance.uniform(0, 0.5))
        self.database.start()

    def cut_connections(self) -> None:
        for _ in range(self.chance.randrange(1, 20)):
            self.database.execute(CUT)
            time.sleep(self.chance.uniform(0, 0.02))

    def start_writers(self) -> None:
        list(self._pool.map(Member.surely, self.members, ["lead"] * len(self.members)))

    def interrupt_members(self) -> None:
        """A signal handler of each member raises again and again."""
        for _ in range(self.chance.randrange(1, 30)):
            for it in self.members:
                with suppress(ProcessLookupError):
                    os.kill(it.process.pid or 0, signal.SIGUSR1)
            time.sleep(self.chance.uniform(0, 0.02))

    def kill_children(self) -> None:
        """The program of some members ends, and is started again without a call."""
        for it in self.chance.sample(self.members, self.chance.randrange(1, 4)):
            for child in children_of(it.process.pid or 0):
                with suppress(FileNotFoundError, ProcessLookupError):
                    if "provider" in Path(f"/proc/{child}/cmdline").read_text():
                        kill(child)

    def stop_database(self) -> None:
        """PostgreSQL answers nothing for some time: its processes are stopped."""
        self.database.stop()
        time.sleep(self.chance.uniform(0.2, 1.5))
        self.database.go_on()

    def drop_lines(self) -> None:
        """Lines that a snapshot has the effect of are dropped, while members may lag behind them."""
        with PostgresLog(self.database.conninfo) as log:
            for _ in range(self.chance.randrange(1, 5)):
                if found := log.snapshot():
                    log.drop_before(found[0] - self.chance.choice([0, 0, 1, 2]))
                time.sleep(self.chance.uniform(0, 0.2))

    def fill_disk(self) -> None:
        ballast = self.database.folder / "ballast"
        with suppress(OSError):
            ballast.write_bytes(bytes(80 << 20))
        time.sleep(self.chance.uniform(0.2, 1))
        ballast.unlink()
        if not self.database.is_running():
            self.database.start()

    def check(self) -> Iterator[tuple[str, bool]]:
        """Each promise, and whether it is kept, once each member knows who commits and has replayed all."""
        if not any([it.commits() for it in self.members]):
            self.members[0].surely("lead")
        for it in self.members:
            it.surely("oldest")
        soon(lambda: len({place(it.surely("latest")) for it in self.members}) == 1)
        with PostgresLog(self.database.conninfo) as log:
            position, stored = log.snapshot() or (0, ())
            chain, logged = list(entries(log)), b"\n".join([*stored, *log.read(position)])
        record = guarded(self.signer)
        # The epochs before a snapshot are forgotten.
        first = max(int(it.surely("oldest")) for it in self.members)
        self.reported["epochs forgotten at a check"] += sum(int.from_bytes(it[1:9], "big") < first for it in chain)
        saved = [(epoch, made) for epoch, made in self.acknowledged[-10:] if epoch.epoch >= first]
        recent = {(it.name, epoch.epoch): it.key for epoch, made in saved for it in made}
        shown_ = sorted(it for it in self.shown if it[1] >= first)
        requested = [*recent, *self.chance.sample(shown_, min(len(shown_), 30))]
        answers = [
            [it.surely("chain"), place(it.surely("latest")), *(it.surely("lookup", *of) for of in requested)] for it in self.members
        ]
        found = answers[0][2:]
        yield "each acknowledged epoch is in the log", {epoch.entry for epoch, _ in self.acknowledged} <= {*chain}
        yield "each acknowledged key is shown", [shown(it) for it in found[: len(recent)]] == [*recent.values()]
        yield "each entry shown is in the log", {it.entry for it in self.shown.values()} <= {*chain}
        yield "each lookup has its answer", all(self.shown.get((it.name, it.epoch), it) == it for it in found)
        yield "one body for each epoch", self.signer.is_requested_once()
        yield "a body is signed once it is logged", all(it.encode() in logged for it in lines(self.signer.file))
        yield "the chain is audited", audited(chain, self.signer.keys, has_library())
        yield "the guard's record is the log's", [record.signed(), record.asked()] == [chain[-1], None]
        yield "all members answer the same", answers[1:] == answers[:-1] and answers[0][0] == chain
        yield "one member commits", [it.is_writer for it in self.members].count(True) == 1
        yield "no other error was told", not self.wrong
        self.wrong = []
