"""What `coniks.provider.Provider` and `coniks.replica.Replica` share."""

from __future__ import annotations

import os
import time
import weakref
from typing import Callable, Iterable, Iterator, Optional, Sequence, TypeVar, Union

from . import Head, _replies
from ._engine import Engine, Record
from ._host import Evidence, Host
from ._lines import Latest, Lookup, grouped, lookup_line, lookup_of, sized, text, whole
from ._threads import Worker
from .faults import (
    ChildrenDiffer,
    Closed,
    Fault,
    LogFailed,
    LogForked,
    NoDirectory,
    NotText,
    OtherIndex,
    Overtaken,
    ProgramFailed,
    ProviderError,
    ReplayDiffers,
)
from .faults import RestartNeeded, UnknownEpoch
from .log import Closing, Log
from .policy import Policy

Result = TypeVar("Result")
# How long a snapshot may take to be stored after the directory was closed.
_STORE_SECONDS = 60


def drop(work: Worker, compacting: Worker, host: Host) -> None:
    """Ends what a directory had that nobody closed."""
    work.stop()
    compacting.stop()
    host.drop()


class Directory(Closing):
    """What `Provider` and `coniks.replica.Replica` share: children that answer lookups, and a thread that changes the
    directory."""

    def __init__(self, host: Host, log: Log):
        settings = host.settings
        self._host, self._log, self._index, self._is_checking = host, log, settings.index, settings.check_indices
        self._policy, self._clock = settings.policy, clock_of(settings.policy)
        # A closed directory begins no other call. What is under way then ends before the directory is over, or fails.
        self._is_closed = self._is_over = False
        self._work, self._owner = Worker(), os.getpid()
        # Takes snapshots, and fills the place of a child that ended, beside the changes.
        self._compacting = Worker(host.fill)
        # Set while a line is appended.
        self._is_logging = False
        # A directory that nobody closes ends with its last reference.
        self._unused = weakref.finalize(self, drop, self._work, self._compacting, host)
        self._unused.atexit = False

    def _check_open(self) -> None:
        if self._is_closed:
            raise Closed("the directory is closed: open it again")
        if os.getpid() != self._owner:
            raise Closed("the directory belongs to the process that this one was forked from: open it in one process alone")

    def _check(self) -> None:
        """Checks that lookups can go on: not if the VRF turned out to be another one."""
        self._check_open()
        if isinstance(self._host.broken, OtherIndex):
            raise self._needed(self._host.broken) from self._host.broken

    @staticmethod
    def _needed(broken: Exception) -> RestartNeeded:
        if isinstance(broken, LogFailed) and broken.is_final:
            # A restart would read the same log.
            return RestartNeeded(f"a new provider is needed, over the log that is opened again: {broken}")
        if isinstance(broken, OtherIndex):
            return RestartNeeded(
                f"restart() is needed once index returns the right bytes, or a new provider with another index: {broken}"
            )
        if isinstance(broken, Overtaken):
            return RestartNeeded(f"this provider adds nothing more, unless restart() takes the log back: {broken}")
        return RestartNeeded(f"restart() is needed: {broken}")

    def _change(self, work: Callable[[], Result]) -> Result:
        """Makes a call in the thread that changes the directory, one after another."""
        self._check_open()
        self._check_thread()

        def begun() -> Result:
            self._check_open()
            return work()

        return self._work.call(begun)

    def _compact_by(self, work: Callable[[], Result]) -> Result:
        """Makes a call in the thread that takes snapshots, one after another, while lookups and changes go on."""
        self._check()
        self._check_thread()

        def begun() -> Result:
            self._check_open()
            try:
                return work()
            except ProviderError as error:
                if self._is_closed:
                    raise Closed("the directory was closed before the snapshot was stored") from error
                raise

        return self._compacting.call(begun)

    def _check_thread(self) -> None:
        if self._work.is_this_thread() or self._compacting.is_this_thread():
            raise ProviderError("the signer called the provider that waits for it: call it after commit returned")

    def _begin(
        self,
        start: Callable[[], Engine],
        with_pending: bool,
        head: Optional[Head] = None,
        record: Record = Record(),
        prepare: Callable[[Engine], object] = lambda engine: None,
    ) -> None:
        """Replays the log in other children, which get the place of these if they show the same directory, with this head and this
        record of the signer. Until then these answer lookups."""
        with self._host.changing:
            try:
                engine = start()
                try:
                    engine.check_origin(record, head)
                    if head:
                        engine.check_head(head)
                    self._host.check_record(engine, record)
                    if self._is_checking:
                        engine.check_indices(self._index_of, with_pending)
                    prepare(engine)
                except BaseException:
                    self._host.end(engine)
                    raise
                self._host.exchange(engine)
            except (ChildrenDiffer, LogForked, NoDirectory, OtherIndex) as error:
                self._host.broken = error
                raise
            except ReplayDiffers as error:
                self._host.broken = self._host.forked(error) if self._host.engine else error
                raise
            self._host.broken = None

    def _restarted(self) -> Engine:
        self._host.begin_anew()
        return self._host.started()

    def _ready(self) -> Engine:
        """The engine, if no restart is needed."""
        engine = self._host.known
        if broken := self._host.broken or engine.children.differing:
            raise self._needed(broken) from broken
        return engine

    def lookup(self, name: str, epoch: Optional[int] = None) -> Lookup:
        """A name's proof at an epoch, the latest if none is given."""
        self._check()
        at = self._at(epoch)
        [answers] = self._host.serve([[lookup_line(name, self._index_of(name), at)]])
        found = self._reported(answers[0])
        if isinstance(found, Fault):
            raise found
        return found

    def lookups(self, names: Iterable[str], epoch: Optional[int] = None) -> list[Union[Lookup, ProviderError]]:
        """The proofs of many names at one epoch, in their order: more lookups a second than by `lookup`. In the place of a name
        that is refused is its error: a `Fault`, or `NotText`."""
        self._check()
        at, found = self._at(epoch), list[Union[Lookup, ProviderError]]()
        refused: dict[int, ProviderError] = {}

        def lines() -> Iterator[bytes]:
            for number, name in enumerate(names):
                try:
                    yield lookup_line(name, self._index_of(name), at)
                except NotText as error:
                    refused[number] = error

        for answers in self._host.serve(grouped(lines(), self._host.group_size)):
            found += map(self._reported, answers)
        for number in sorted(refused):
            found.insert(number, refused[number])
        return found

    def reply(self, name: str, vrf_proof: bytes, epoch: Optional[int] = None) -> bytes:
        """The reply for a client that looks a name up: entry, VRF proof and proof. Without a VRF its proof has no byte."""
        return _replies.reply(self.lookup(name, epoch), vrf_proof)

    def replies(self, names: Sequence[tuple[str, bytes]], epoch: Optional[int] = None) -> list[Union[bytes, ProviderError]]:
        """The replies for many names with their VRF proofs, at one epoch, as `reply` and `lookups` make them."""
        found = self.lookups([name for name, _ in names], epoch)
        return [it if isinstance(it, ProviderError) else _replies.reply(it, proof) for it, (_, proof) in zip(found, names)]

    def catch_up(self, epoch: int) -> bytes:
        """The entries after an epoch, for a client or an auditor that has those up to it. After 0 it is the whole chain."""
        return _replies.catch_up(self.chain(), epoch)

    def history(self, name: str, vrf_proof: bytes, first: int, last: int) -> bytes:
        """The proofs of a name at each epoch from number `first` to `last`, for the client that watches it. What two proofs in a row
        have in common is sent once."""
        self._check()
        return _replies.history(self, name, vrf_proof, first, last)

    def _reported(self, line: bytes) -> Union[Lookup, Fault]:
        try:
            return lookup_of(line)
        except Fault as fault:
            return fault
        except ProgramFailed:
            self._host.distrust()
            raise

    def _at(self, epoch: Optional[int]) -> int:
        """An epoch, the latest if none is given. The child may have one more, which the log has not."""
        latest = self._host.known.latest.epoch
        if epoch is not None and whole(epoch) > latest:
            raise UnknownEpoch()
        return latest if epoch is None else epoch

    def _index_of(self, name: str) -> bytes:
        return sized(self._index(text(name)), 32, "an index")

    def latest(self) -> Latest:
        """The latest epoch, and how large the directory is."""
        self._check_open()
        return self._host.known.size

    def chain(self, first: int = 0) -> list[bytes]:
        """The entries of the epochs in their order, 209 bytes each, from number `first` on, counted from 0: what an auditor takes."""
        self._check_open()
        return self._host.known.chain[first:]

    def evidence(self) -> Optional[Evidence]:
        """What this process has seen and what the log had, after `LogForked` or `ReplayDiffers`, until `discard_evidence`; None if no
        log was another one. A log that lacks a head is no evidence, since a head has no entry."""
        return self._host.evidence

    def discard_evidence(self, link: bytes) -> None:
        """Drops the evidence. If the log still lacks what this process has seen, the next `restart` takes it as it is. `link` is
        that of the latest epoch, so that no script does it for another directory. Keep the evidence first: clients may have seen
        it too."""
        is_forked = isinstance(self._host.broken, (LogForked, ReplayDiffers))
        self._change(lambda: self._host.forget(sized(link, 32, "a link"), is_forked))

    @property
    def pid(self) -> Optional[int]:
        """The process number of the first child that runs."""
        return self._host.engine.children.pid if self._host.engine else None

    @property
    def pids(self) -> list[int]:
        """The process numbers of the children that run. One that has ended is missing until its place is filled."""
        return self._host.engine.children.pids if self._host.engine else []

    def close(self, seconds: float = 5) -> None:
        """Ends the children. Waits for a change that is under way, at most some seconds, and for an append in any case. What the
        signer returns later is not installed, and a start asks for the same body again. The log stays open, since the caller
        opened it."""
        self._check_thread()
        self._is_closed = True
        if os.getpid() != self._owner:
            return
        self._unused.detach()
        self._work.stop()
        until = time.monotonic() + seconds
        while not self._work.join(0.02) and time.monotonic() < until:
            pass
        self._is_over = True
        while self._is_logging and not self._work.join(0.02):
            pass
        self._compacting.stop()
        self._host.close()
        # A snapshot that is being stored is stored, or refused, before the log can be closed.
        self._compacting.join(_STORE_SECONDS)


def check_writable(log: Log) -> None:
    """Raises `LogFailed` if an append could not succeed, as far as the log tells."""
    if hasattr(log, "check_writable"):
        log.check_writable()


def clock_of(policy: Union[bytes, Policy]) -> Optional[Policy]:
    """The policy if it has a clock."""
    return policy if isinstance(policy, Policy) and policy.epoch_period is not None else None
