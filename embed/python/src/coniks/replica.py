"""A replica of a key directory: it follows a log that a `Provider` writes, and answers the same lookups.

    with Replica(Settings("provider", index, policy), log) as replica:
        found = replica.lookup("alice")

A replica has a child of its own, replays each line that the log gets, and compares the child's answer with the logged one. It
asks no signer and appends nothing. It starts from the log's snapshot, if there is one. Its lookups show an epoch some time after
the provider's `commit` returned: `lag` returns how far it is behind, and `follow` brings it to where the log is. `promote` makes
a provider of it. docs/CLUSTER.md has when to call it.
"""

from __future__ import annotations

import threading
import time
from dataclasses import dataclass
from typing import Optional

from . import Head
from ._directory import Directory, check_writable
from ._engine import Settings
from ._host import Host
from ._snapshot_lines import snapshot_in
from .faults import LinesDropped, LogForked, OtherIndex, ProviderError, ReplayDiffers, SignerFailed
from .log import SharedLog
from .provider import Provider, Sign, Verify, recorded

__all__ = ["Lag", "Replica", "Settings"]


@dataclass(frozen=True)
class Lag:
    """How far a replica is behind: how many lines of the log it hasn't replayed, as far as it knows, and for how many seconds
    it may lack one. `error` is why it can't go on, or why it can't read the log."""

    lines: int
    seconds: float
    error: Optional[Exception]


class Replica(Directory):
    """A directory that follows a log. Starting replays the log; then a thread follows it.

    The settings are those of its provider. `verify` is called for the entry of a snapshot. If the child's answer isn't the logged
    one, or the log lost lines, the replica stays at the epoch that it has: lookups go on, `lag().error` is the cause, `evidence` has
    both chains, and `follow` and `promote` raise `RestartNeeded` until `restart` returns. If the log can't be read, or has a line that
    no provider writes, the replica follows again once it can. If the lines that it needs were dropped, it starts again from the
    snapshot by itself.
    """

    def __init__(
        self,
        settings: Settings,
        log: SharedLog,
        *,
        head: Optional[Head] = None,
    ):
        super().__init__(Host(settings, log), log)
        self._shared, self._lines, self._since = log, 0, time.monotonic()
        self._error: Optional[Exception] = None
        self._promoted: Optional[Provider] = None
        try:
            self.restart(head=head)
        except BaseException:
            self.close(0)
            raise
        threading.Thread(target=self._run, daemon=True).start()

    def restart(self, *, head: Optional[Head] = None) -> None:
        """Starts another child, replays the log into it, and ends this one, which answers lookups until then. Raises `LogForked`
        if the log lacks what this replica has seen in it, or the head."""
        self._change(lambda: self._restart(head))

    def _restart(self, head: Optional[Head]) -> None:
        start = time.monotonic()
        self._begin(self._restarted, False, head)
        self._since, self._error = start, None

    def _run(self) -> None:
        """Follows the log until the replica is closed."""
        while not self._is_closed:
            try:
                position = self._host.known.position
                # A replica that isn't notified looks each second.
                self._lines = self._shared.wait(position, 1)
                if self._lines < position:
                    self._change(lambda: self._note_loss(position))
                self.follow()
                self._error = None
            except Exception as error:
                self._error = error
                time.sleep(0.2)

    def _note_loss(self, position: int) -> None:
        """Notes that the log has fewer lines than were replayed. Until a restart nothing is taken from it."""
        if not self._host.broken and position == self._host.known.position:
            lost = f"the log has {self._lines} lines, of which {position} were replayed: it lost some. Restore it, then restart"
            self._host.broken = self._host.forked(LogForked(lost))

    def follow(self, *, head: Optional[Head] = None) -> None:
        """Replays the lines that the log has now. A replica does it by itself, soon after they were appended. Raises `LogForked`
        if the log lacks the head, and then the replica goes on."""
        self._change(lambda: self._follow(head))

    def _follow(self, head: Optional[Head]) -> None:
        start, engine = time.monotonic(), self._ready()
        size = engine.size
        try:
            for number, line in enumerate(self._log.read(engine.position), engine.position):
                with self._host.changing:
                    engine = self._host.sound()
                    # A child that was started again may have replayed it.
                    if number == engine.position:
                        engine.take(line)
            if self._is_checking and engine.size != size:
                engine.check_last_index(self._index_of)
        except LinesDropped:
            # The snapshot has their effect.
            return self._restart(head)
        except OtherIndex as error:
            self._host.broken = error
            raise
        except ReplayDiffers as error:
            self._host.broken = self._host.forked(error)
            raise
        self._since = start
        if head:
            engine.check_head(head)

    def compact(self) -> None:
        """Forgets the epochs before the log's snapshot, which a `Provider` has stored: a second child starts from it and takes
        this one's place. Lookups go on meanwhile. Lookups at epochs before it raise `UnknownEpoch` then.

        Raises `ProviderError` if the log has no snapshot, and `SnapshotDiffers` if the second child hasn't what this one has:
        then this child stays.
        """
        self._compact_by(self._compact)

    def _compact(self) -> None:
        self._ready()
        found = snapshot_in(self._log)
        if found is None:
            raise ProviderError(f"{self._log} has no snapshot: call compact of the provider first")
        if self._host.known.points and self._host.known.points[0].position >= found[0]:
            return
        new = self._host.started()
        try:
            # It may have replayed lines that this child hasn't.
            if self._host.known.position < new.position:
                self._work.call(lambda: self._follow(None))
            self._host.replace(new)
        finally:
            if self._host.engine is not new:
                self._host.end(new)

    def lag(self) -> Lag:
        """How far the replica is behind."""
        lines = max(0, self._lines - self._host.known.position)
        return Lag(lines, time.monotonic() - self._since, self._host.broken or self._error)

    def promote(
        self, sign: Sign, *, verify: Optional[Verify] = None, sign_pending: bool = True, head: Optional[Head] = None
    ) -> Provider:
        """Makes a provider of the replica, which is closed. It replays only what the replica hasn't, asks for some indices again,
        then signs and installs the pending update if there is one; lookups go on meanwhile.

        Raises `SignerFailed`, or `LogFailed` if the log can't be read or written, and then the replica goes on. So it does after
        `LogForked` or `LogBehind`: the log lacks the head, or what the signer's record has, of which `evidence` then has both.
        After another error, as `Overtaken`, it goes on after `restart`. A call that was interrupted can be repeated.
        """
        if self._promoted is None:
            self._change(lambda: self._promote(sign, verify, sign_pending, head))
        self._work.stop()
        assert self._promoted
        return self._promoted

    def _promote(self, sign: Sign, verify: Optional[Verify], sign_pending: bool, head: Optional[Head]) -> None:
        check_writable(self._log)
        # Before the log, as at a start.
        record = recorded(sign)
        self._follow(head)
        engine = self._host.known
        self._host.check_record(engine, record)
        if self._is_checking:
            engine.check_indices(self._index_of, sign_pending)
        provider = Provider._over(self, sign, verify)
        try:
            if engine.update and sign_pending:
                provider._settle_unless_abandoned()
        except BaseException as error:
            # It must not end the child that the replica goes on with.
            provider._unused.detach()
            provider._work.stop()
            provider._compacting.stop()
            if not isinstance(error, SignerFailed):
                # What the child has installed may not be what the log will have.
                self._host.distrust()
            raise
        self._unused.detach()
        self._promoted, self._is_closed = provider, True
        self._compacting.stop()

    def close(self, seconds: float = 5) -> None:
        """Ends the child, unless a provider has taken it over."""
        if self._promoted is None:
            return super().close(seconds)
        self._work.stop()
