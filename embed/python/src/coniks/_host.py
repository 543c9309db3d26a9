"""Keeps children that answer lookups, and starts others if they end."""

from __future__ import annotations

import math
import threading
import time
from collections import deque
from contextlib import suppress
from dataclasses import dataclass, replace
from queue import Empty, SimpleQueue
from typing import Any, Callable, Iterable, Iterator, Optional, Sequence

from ._children import DIFFER
from ._engine import Engine, Record, Settings, two_bodies
from ._layout import body_of
from ._snapshot_lines import entries_in, snapshot_in
from ._threads import Worker
from .faults import ChildrenDiffer, Closed, LinesDropped, LogForked, NoDirectory, ProgramFailed, ProviderError, ReplayDiffers
from .faults import SnapshotDiffers
from .log import Log

# The most starts of a child that ended, and the seconds in which they are counted.
_STARTS, _SECONDS = 5, 60
# How often another child reads on before changes wait for it.
_ROUNDS = 3
Verify = Callable[[bytes, bytes], bool]

# How often a start begins anew because the snapshot was replaced meanwhile.
_TRIES = 3
# The bytes of a group of lookups, and how many groups are sent ahead.
_GROUP, _AHEAD = 4096, 32
_FORKED = (
    "the log lacks what this process has seen in it, or has something else in its place: restore it, "
    "or keep evidence() and call discard_evidence"
)


@dataclass(frozen=True)
class Evidence:
    """A log that isn't the one that this process has seen, or that lacks what the signer's record has: the entries of both, 209
    bytes each. `bodies` are those after the last entry that both have: what this process has seen there, and what the log has.
    Either is None if there is none.

    `entries` are the first entries with different bodies in one place of both chains, or the last entry that the signer has signed
    and the log's entry that overlaps it. It is None if one of both just ends. If both signatures are valid, anyone who has the
    public key can verify that one signing key signed two chains.
    """

    error: ProviderError
    known: Sequence[bytes]
    found: Sequence[bytes]
    bodies: tuple[Optional[bytes], Optional[bytes]]
    entries: Optional[tuple[bytes, bytes]] = None


class Host:
    """Keeps an engine, and sends lookups to its children in a thread of its own.

    `changing` is held while the children and the log may differ: by the thread that changes the directory, and while others are
    started because none is left. Lookups need only a child's own lock, which is held while it answers.
    """

    def __init__(self, settings: Settings, log: Log):
        self.settings, self._log, self.changing = settings, log, threading.Lock()
        # The children of replays aren't that of `engine` before they are done.
        self.engine: Optional[Engine] = None
        self._begun: list[Engine] = []
        self.is_closed, self._is_forgetful = False, False
        # Why the directory can't be changed before a restart.
        self.broken: Optional[Exception] = None
        self.evidence: Optional[Evidence] = None
        self._starts: deque[float] = deque(maxlen=_STARTS)
        # When the place of a child that ended was last to be filled.
        self._filled = -math.inf
        # Groups of lookups that wait for the thread, each with where its answers go.
        self._requested: SimpleQueue[Any] = SimpleQueue()
        self._thread = Worker(self._look_after)
        # Ends the children: an interrupt amid that would leave a lock of `subprocess` behind, for which the next call waits for ever.
        self._ending = Worker()

    def verify_by(self, verify: Optional[Verify]) -> None:
        """Has the signatures of snapshots verified by another function from now on."""
        self.settings = replace(self.settings, verify=verify or self.settings.verify)

    @property
    def known(self) -> Engine:
        """The engine, which each start leaves in its place until another one has replayed the log."""
        if self.engine is None:
            raise Closed("the directory isn't started")
        return self.engine

    @property
    def group_size(self) -> int:
        """The bytes of a group of lookups. The pipe to the child has room for at least two groups."""
        return min(_GROUP, self.known.children.at_once)

    def serve(self, groups: Iterable[Sequence[bytes]]) -> Iterator[list[bytes]]:
        """The child's answers to groups of lookups, one group after another. Some groups are sent ahead, so that the child works
        while the answers of others are read. If the child ended, waits until another one is started."""
        waiting: deque[SimpleQueue[Any]] = deque()
        for lines in groups:
            reply: SimpleQueue[Any] = SimpleQueue()
            self._requested.put((lines, reply))
            self._thread.begin(self._serve, reply)
            waiting.append(reply)
            if len(waiting) > _AHEAD:
                yield self._answers(waiting.popleft())
        while waiting:
            yield self._answers(waiting.popleft())

    def _answers(self, reply: SimpleQueue[Any]) -> list[bytes]:
        seconds = self.settings.timeout
        try:
            is_well, answers = reply.get(timeout=seconds)
        except Empty:
            raise ProgramFailed(f"no answer in {seconds} seconds: ask again, since the program may be replaying the log") from None
        if not is_well:
            raise answers
        return answers  # type: ignore[no-any-return]

    def _serve(self) -> None:
        """Sends the groups that wait, and answers them. Those that a child which ends leaves are sent to another one."""
        requested = self._taken()
        failure: BaseException = ProgramFailed("the program ended while it was asked: ask again, since it is started again")
        for tries in range(1 + self.settings.children):
            try:
                self._serve_groups(requested, self._revived() if tries else self.known)
            except BaseException as error:
                failure = error
            if not requested:
                return
        while requested:
            requested.popleft()[1].put((False, failure))

    def _serve_groups(self, requested: deque[Any], engine: Engine) -> None:
        with engine.children.lent() as child:
            if not child.is_sound:
                return
            child.send(line for lines, _ in requested for line in lines)
            while requested:
                lines, reply = requested[0]
                reply.put((True, child.receive(len(lines))))
                requested.popleft()

    def _revived(self) -> Engine:
        engine = self.known
        if engine.children.is_usable():
            return engine
        with self.changing:
            return self.sound()

    def _taken(self) -> deque[Any]:
        """The groups that wait, as many as the pipe to the child has room for."""
        taken: deque[Any] = deque()
        room = self.known.children.at_once
        with suppress(Empty):
            while room > 0:
                taken.append(self._requested.get_nowait())
                room -= sum(map(len, taken[-1][0]))
        return taken

    def distrust(self) -> None:
        """Notes that a child printed what isn't defined."""
        self.known.children.distrust()

    def _look_after(self) -> None:
        """Starts other children if none is left. If that fails, the next lookup or change returns the error."""
        if self.engine and not self.engine.children.is_usable():
            with self.changing:
                self.sound()

    def fill(self) -> None:
        """Starts others in the place of two children of which one has ended. Lookups and changes go on meanwhile, by the one that
        is left. If that one or the log is another one than what was replayed, nothing is changed before a restart."""
        engine, now = self.engine, time.monotonic()
        if engine is None or not self._is_to_fill(engine) or self._filled > now - _SECONDS / _STARTS:
            return
        self._filled = now
        try:
            self._fill(engine)
        except (ChildrenDiffer, LogForked, NoDirectory, ReplayDiffers) as error:
            # A restart may have put another engine there.
            if self.engine is engine:
                self.broken = self.forked(error) if isinstance(error, ReplayDiffers) else error

    def _fill(self, engine: Engine) -> None:
        end = engine.position
        new = self.started(end=end)
        try:
            if new.position < end:
                raise self.forked(LogForked(_FORKED), new)
            # A snapshot may be one of later lines.
            if new.position <= engine.position:
                self.replace(new, engine)
        except SnapshotDiffers as error:
            raise ChildrenDiffer(DIFFER) from error
        finally:
            if self.engine is not new:
                self.end(new)

    def _is_to_fill(self, engine: Engine) -> bool:
        """Whether one of two children has ended, and what the log has is known."""
        children = engine.children
        return not (self.broken or children.differing or children.is_whole()) and children.is_usable()

    def sound(self) -> Engine:
        """The engine, whose children are started again if all have ended. The caller holds `changing`."""
        engine = self.known
        if self.is_closed:
            raise Closed("the directory is closed")
        if engine.children.is_usable():
            return engine
        if engine.children.differing:
            raise engine.children.differing
        now = time.monotonic()
        if len(self._starts) == _STARTS and self._starts[0] > now - _SECONDS:
            raise ProgramFailed(f"the program ended {_STARTS} times in {_SECONDS} seconds: see its standard error, then restart")
        self._starts.append(now)
        return self.exchange(self.started())

    def started(self, may_create: bool = False, end: Optional[int] = None) -> Engine:
        """Another engine, which has replayed the log, or the lines below a position. A log that is missing or has no line raises
        `NoDirectory`, unless a directory may be made there."""
        for left in reversed(range(_TRIES)):
            engine = self.begun()
            try:
                self._replay(engine, may_create, end)
                return engine
            except LinesDropped:
                # Another process may have stored a snapshot meanwhile, and dropped the lines below it.
                self.end(engine)
                found = snapshot_in(self._log)
                if not left or not found or found[0] <= engine.begin:
                    raise
            except BaseException:
                self.end(engine)
                raise
        raise AssertionError

    def _replay(self, engine: Engine, may_create: bool, end: Optional[int]) -> None:
        try:
            engine.replay(end)
        except NoDirectory:
            if not may_create:
                raise
        if engine.position == 0 and not may_create:
            raise NoDirectory(
                f"there is no directory in {self._log}: look whether it is the right one, or make one with create=True"
            )

    def begun(self) -> Engine:
        """Another engine, which has replayed nothing."""
        engine = Engine(self.settings, self._log)
        self._begun.append(engine)
        if self.is_closed:
            self.end(engine)
            raise Closed("the directory is closed")
        return engine

    def end(self, engine: Engine) -> None:
        """Ends the children of an engine that isn't in use."""
        engine.children.end()
        self._forget(engine)

    def _forget(self, engine: Engine) -> None:
        with suppress(ValueError):
            self._begun.remove(engine)

    def exchange(self, new: Engine) -> Engine:
        """Puts an engine in the place of this one, if its log has all that this one has seen. The caller holds `changing`."""
        old = self.engine
        try:
            if self.is_closed:
                raise Closed("the directory is closed")
            if old and not self._is_forgetful and not new.follows(old):
                raise self.forked(LogForked(_FORKED), new)
        except BaseException:
            self.end(new)
            raise
        self._is_forgetful = False
        self._use(new)
        if old:
            old.children.replace()
        return new

    def _use(self, new: Engine) -> None:
        new.children.is_used = True
        self.engine = new
        self._forget(new)

    def replace(self, new: Engine, old: Optional[Engine] = None) -> None:
        """Puts an engine that has the same epochs, or forgot some, in the place of this one, once it has replayed the same lines.
        If an old one is given, it must still be this one, and the log must be its log. Lookups go on meanwhile."""
        for _ in range(_ROUNDS):
            new.follow(self.known.position)
        with self.changing:
            engine = self.sound()
            if old not in (None, engine):
                return
            new.follow(engine.position)
            if old and not new.follows(old):
                raise self.forked(LogForked(_FORKED), new)
            new.check_same(engine)
            if self.is_closed:
                raise Closed("the directory is closed")
            self._use(new)
            # If the directory is closed meanwhile.
            self._begun.append(engine)
        engine.children.leave()
        self._forget(engine)

    def forked(self, error: ProviderError, new: Optional[Engine] = None) -> ProviderError:
        """Keeps the evidence of an error, and returns it. Without another engine the log's entries are read from the log."""
        known = list(self.known.chain)
        found = list(new.chain) if new else self._entries()
        both = next((at for at, pair in enumerate(zip(known, found)) if pair[0] != pair[1]), min(len(known), len(found)))

        def after(chain: Sequence[bytes], engine: Optional[Engine]) -> Optional[bytes]:
            if both < len(chain):
                return body_of(chain[both])
            return engine.update.pending.body if engine and engine.update else None

        pair = two_bodies(known, found)
        if isinstance(error, LogForked):
            error.entries = pair = error.entries or pair
        self.evidence = Evidence(error, known, found, (after(known, self.known), after(found, new)), pair)
        return error

    def check_record(self, engine: Engine, record: Record) -> None:
        """Compares an engine's log with a signer's record. If they differ, raises `LogBehind` or `LogForked`, and keeps the
        evidence unless this is the first start."""
        try:
            engine.check_record(record)
        except LogForked as error:
            if self.engine:
                self.forked(error, engine)
            raise

    def _entries(self) -> list[bytes]:
        """The log's entries, as far as they can be read."""
        found: list[bytes] = []
        with suppress(ProviderError):
            for entry in entries_in(self._log):
                found.append(entry)
        return found

    def forget(self, link: bytes, is_forked: bool) -> None:
        """Drops the evidence. If the log is still the other one, the next start takes it as it is."""
        if self.evidence is None:
            raise ProviderError("there is no evidence to discard: restart first")
        if link != self.known.latest.link:
            raise ValueError("the link isn't that of the latest epoch that this process knows")
        self.evidence, self._is_forgetful = None, is_forked

    def begin_anew(self) -> None:
        """Forgets how often children ended."""
        self._starts.clear()
        self._filled = -math.inf

    def drop(self) -> None:
        """Ends the thread and the children without waiting for them."""
        self.is_closed = True
        self._thread.stop()
        self._ending.stop()
        if self.engine:
            self.engine.children.kill()

    def close(self) -> None:
        """Ends the threads and the children. An interrupt ends only the wait."""
        # Another call may have ended them.
        with suppress(Closed):
            self._ending.call(self._close)
        self._ending.stop()

    def _close(self) -> None:
        self.is_closed = True
        self._thread.stop()
        self._thread.join(0.2)
        ended = [it.children for it in (self.engine, *self._begun) if it]
        for children in ended:
            children.kill()
        self._thread.join(1)
        for children in ended:
            children.end(1)
