"""Runs a CONIKS key directory: the program `provider` as a child process, with your own indices and signatures.

    with FileLog("names.log") as log, Provider(Settings("provider", index, policy), sign, log) as provider:
        epoch = provider.commit(provider.epoch_now(), [Register("alice", b"key")])
        found = provider.lookup("alice")

A directory is made once, on purpose: by `create=True`, or over `FileLog.create("names.log")`. A log that is missing or empty
raises `NoDirectory` otherwise.

`index(name)` returns the 32 bytes at which a name is stored, as the output of a verifiable random function (VRF). It returns
the same bytes for a name each time. `sign(body)` returns the signature, 64 bytes, of the 145 bytes of a signed tree root
(STR). `sign` must not call `commit`, `retry`, `abandon`, `restart`, `compact` or `close`. Both are also called in a thread of the
provider's own. `coniks.guard.Guard` is a `sign` that keeps a record. From it a provider takes three more calls, if they are
there: `signed()` and `asked()` return the last entry that was signed, and the body that was requested and isn't signed, or None;
`abandon(body)` refuses a body for ever.

The directory is in the child's memory, and the log is its store. Each accepted line is appended to the log, and a new child
replays it. So the log is a script: `provider < names.log` prints the same answers, and `provider --replay` the latest epoch, or the
first line that is refused. A line is stored as the program returns it, so with what a replay is compared with: `prepare` lines have
`body`, and `abandons`, the body of the update that they replace; `install` lines have `link`. The `open` line has `log`, the
format, 2, and may have `vrf`, the SHA-256 of the VRF's public key. A log without `log` goes on as it is: in it a `prepare` line may
replace an update without `abandons`.

`compact` stores a snapshot of one epoch beside the log and forgets the epochs before it. A start then restores the snapshot, and
replays the lines after it. Each entry of the snapshot must follow the one before it, and its bindings must have the root of the
last one, whose signature `verify` must accept.

What holds, if the log keeps each line whose `append` returned:

- An epoch that `commit` returned is in the directory after each restart, with the same entry.
- The signer is asked for the bodies of one chain: for another body after an entry only once it has abandoned the body before. It
  can be asked for a body again.
- No lookup shows an entry before the log has it.
- A call that is interrupted only stops waiting. What it began goes on in a thread that no signal interrupts.

An update is pending from the `prepare` line in the log to the `install` line. A provider that starts signs and installs the
pending update first. If the signer fails, the update stays pending: `retry`, or `commit` of the same operations, asks for the
same body again, and so does `commit` under a later epoch number before its own update. Only `abandon` gives an update up: then
`commit` under a later number replaces it. All calls can be used from several threads.

`reply`, `catch_up` and `history` return what a service sends to a `coniks.client.Client`, in the bytes of docs/FORMATS.md.

With `coniks.postgres.PostgresLog` several machines share a log, and a `coniks.replica.Replica` follows it.

Each error is a `ProviderError`. A `Fault` is the program's, one class for each of docs/LINES.md, and changes nothing. After
`LogFailed` or `Overtaken` the log may have a line that the child hasn't, or the other way round: `commit` and `retry` raise
`RestartNeeded` until `restart` returns. `LogRefused` is a `LogFailed` that leaves nothing open. Lookups go on in each case, at
the latest epoch that the log is known to have. A child that ends is started again without a call. So they do after `ChildrenDiffer`,
after which nothing is started and nothing changed before `restart`.
"""

from __future__ import annotations

import time
from typing import Callable, Iterable, Iterator, Optional, TypeVar

from . import ENTRY_LENGTH, BODY_LENGTH, Head, _number, faults
from ._directory import Directory, check_writable
from ._engine import Engine, Record, Settings
from ._files import cause
from ._host import Evidence, Host
from ._formats import SIGNATURE_LENGTH
from ._layout import epoch_of
from ._lines import Change, Epoch, Latest, Lookup, Operation, Pending, Register, prepare_line, sized
from ._restoring import Restoring
from ._snapshot_lines import Point, entries_in
from .faults import *
from .guard import BodyAbandoned, BodyRefused, BodySigned, Guard
from .log import FileLog, Log, SharedLog, SnapshotLog
from .policy import Policy

__all__ = [
    "Change",
    "Directory",
    "Epoch",
    "Evidence",
    "Latest",
    "Lookup",
    "Operation",
    "Pending",
    "Policy",
    "Provider",
    "Register",
    "Settings",
    "entries",
]
__all__ += faults.__all__
__all__ += ["FileLog", "Log", "SharedLog", "SnapshotLog"]

Sign = Callable[[bytes], bytes]
Verify = Callable[[bytes, bytes], bool]
Result = TypeVar("Result")

# `commit` refuses an epoch number that is further than this above the latest one.
_FAR = 1 << 32
# By a clock no number is this many seconds after the latest one: a clock that was ahead once would end the directory.
_WEEK = 7 * 86400


class Provider(Directory):
    """A directory that the program `provider` keeps, with its log.

    `settings` are what its replicas take too. `log` isn't closed by the provider. `create` makes a directory: the log must have no line.

    `head` is one that an auditor, a client or a replica saw. A log that ends before it raises `LogBehind`, one with another entry
    `LogForked`: pass it after a log was restored. A log that lacks what the signer's record has raises the same errors, whose
    `entries` are two entries that overlap, if there are two. A record that can't be read raises `SignerFailed`.

    Starting restores the snapshot, if the log has one, and replays the lines after it. It asks for the indices of the first, the last
    and 64 random bindings and operations again: another one raises `OtherIndex`, unless `check_indices` is False. Then the
    pending update is signed and installed, if there is one. If the signer fails, `SignerFailed` is raised. With
    `sign_pending=False` that update stays pending, and so does one that the signer has abandoned.
    """

    def __init__(
        self,
        settings: Settings,
        sign: Sign,
        log: Log,
        *,
        create: bool = False,
        head: Optional[Head] = None,
        sign_pending: bool = True,
    ):
        super().__init__(Host(settings, log), log)
        self._set_signer(sign, settings.verify)
        try:
            self._change(lambda: self._start(lambda: self._first(create), sign_pending, head))
        except BaseException:
            self.close(0)
            raise

    @classmethod
    def _over(cls, directory: Directory, sign: Sign, verify: Optional[Verify]) -> Provider:
        """A provider that goes on with the child of another directory."""
        provider = cls.__new__(cls)
        Directory.__init__(provider, directory._host, directory._log)
        provider._set_signer(sign, verify)
        provider._host.verify_by(verify)
        return provider

    def _set_signer(self, sign: Sign, verify: Optional[Verify]) -> None:
        self._sign, self._verify = sign, verify
        if verify and isinstance(sign, Guard):
            sign.verify_by(verify)
        # A body that the signer has abandoned, and will not sign.
        self._abandoned: Optional[bytes] = None

    # What a crash, an exception or a failed append leaves behind, after each step of a commit:
    #
    #   1. the child accepts `prepare`       The log doesn't have the line, and the signer wasn't asked: as if never called.
    #   2. the log appends it                A start finds the update pending. Its body is the logged one (`Engine` compares).
    #   3. the signer returns the signature  As after 2: it is asked for the same body again.
    #   4. the child accepts `install`       As after 2. No lookup has shown the entry: each names an epoch that is in the log.
    #   5. the log appends it                A start finds the epoch installed, with this signature.
    #
    # If an update is pending that other operations made, a commit first makes its steps 3 to 5, or ends as before them. If that
    # update is given up, the steps before 1 are:
    #
    #   a. the signer abandons the body      The log still has the update pending. A start asks for its body, and the signer says
    #                                        that it is abandoned: the update stays pending, and only `commit` replaces it.
    #   2. the log appends `prepare`         The line says what it abandons. A start finds the other update pending.
    #
    # The log drops a line that a crash has cut. A line whose append failed may be in the log or not: both are rows of this list.
    # So after such an error nothing is added before a restart (`_broken`), and lookups go on. If the log refused the line, it is
    # not in the log: after 1 the child drops the update (`withdraw`), and takes back what was pending before, which is still
    # abandoned if it was (`_abandoned` has its body), and after 4 the same line is appended again before anything else.
    #
    # All steps are made by one thread, which no signal interrupts. `changing` is held from 1 to 2 and from 4 to 5, so that a child
    # which ends is started again only when the engine says what the log has. Another child may have replayed what another
    # provider appended: so between the last look at the pending update and 1 it is looked at again.
    #
    # The epoch numbers of `prepare` lines only rise. The child refuses those up to the latest installed one, and `_check_number`
    # those up to the pending one. So the log has one `prepare` line for a number. Between two `install` lines it has one, or each
    # but the last is abandoned. The signer is asked for a body only after the log has it. So of the bodies that follow an entry
    # the signer signs at most one, and what it signs is one chain.
    #
    # The signer's record is read before the log. So a log that lacks what the record has lost it, or is another one. A guard that
    # refuses a body may have signed the next one, for another provider. Then the log has more lines than this process has seen,
    # and the error is `Overtaken`, as that of an append.

    def _start(self, start: Callable[[], Engine], sign_pending: bool, head: Optional[Head]) -> None:
        """Replays the log in another child, which is then asked, and signs and installs the pending update."""

        def open_if_new(engine: Engine) -> None:
            check_writable(self._log)
            if engine.position == 0:
                self._logged(engine.open)

        record = recorded(self._sign)
        self._begin(start, sign_pending, head, record, open_if_new)
        if self.pending and sign_pending:
            self._settle_unless_abandoned()

    def _first(self, create: bool) -> Engine:
        """The engine of the first start, which alone may make a directory."""
        engine = self._host.started(create or getattr(self._log, "is_new", False))
        if create and engine.position:
            self._host.end(engine)
            raise DirectoryExists(f"there is a directory in {self._log}: start without create, or choose another log")
        return engine

    def epoch_now(self) -> int:
        """The epoch number that the policy's clock has. Raises `ProviderError` if the policy has no clock, and before its start."""
        if self._clock is None:
            raise ProviderError("the policy has no clock: pass a Policy with epoch_start and epoch_period")
        try:
            return self._clock.epoch_at(time.time())
        except ValueError as error:
            raise ProviderError(f"the policy's clock has no epoch at this time: {error}. Look at the machine's clock") from error

    def commit(
        self,
        epoch: int,
        operations: Iterable[Operation],
        nonce: Optional[bytes] = None,
        *,
        far: bool = False,
        force: bool = False,
    ) -> Epoch:
        """Binds names to keys in a new epoch, and returns it once the log has its entry. A `nonce` rehashes the whole tree.

        Raises a `Fault` if the program refuses the batch, and then nothing is changed by it, nor by `RecordBehind`: the signer's
        record lacks the latest entry. Raises `SignerFailed` if the signer fails: the update stays pending, and `commit` with the same arguments, or `retry`, asks for the same body again.
        Operations have a random opening: pass the same objects.

        With other operations under a later epoch, the pending update is signed and installed first, unless it is abandoned. If
        that raises, these operations were not seen.

        Before that are raised: `EpochSpent` for other operations under the epoch of the pending update or an earlier one;
        `EpochNotNow` if the policy has a clock and it has another number, unless `force`; `EpochTooFar` for a number more than
        2^32 above the latest, or by the policy's clock more than a week and three epochs after it, unless `far`.

        After `ProgramFailed`, or `LogFailed` and then `restart`, the batch is installed if `latest().epoch` is its epoch, and
        pending if `pending` is its update. After `LogRefused` it is neither, or still pending.
        """
        self._check()
        listed = list(operations)
        line = prepare_line(epoch, listed, nonce, self._index_of)
        names = sum(isinstance(it, Register) for it in listed)
        return self._change(lambda: self._commit(epoch, line, names, far, force))

    def _commit(self, epoch: int, line: bytes, names: int, far: bool, force: bool) -> Epoch:
        """Makes the update of a line the pending one, in the child and in the log, and has it signed and installed."""
        engine = self._ready()
        if engine.update and engine.update.is_of(line):
            return self._retry(engine.update.pending.body)
        self._check_number(epoch, engine, far, force)
        self._check_recorded()
        if engine.update:
            self._settle_unless_abandoned()
        with self._host.changing:
            engine = self._host.sound()
            if engine.update and not (self._is_abandoned(engine) and engine.update.pending.epoch < epoch):
                raise ProgramFailed("the program was started again meanwhile, and another update is pending: commit again")
            update = engine.prepare(epoch, line, names)
            self._logged(lambda: engine.log_prepared(update))
        return self._settle(update.pending.body)

    def _check_number(self, epoch: int, engine: Engine, far: bool, force: bool) -> None:
        latest = engine.update.pending.epoch if engine.update else engine.latest.epoch
        if engine.update and epoch <= latest:
            raise EpochSpent(epoch, latest)
        if self._clock and not force and epoch != (now := self.epoch_now()):
            raise EpochNotNow(epoch, now)
        most = self._most_ahead() if latest else _FAR
        if epoch > latest + most and not far:
            raise EpochTooFar(epoch, latest, most)

    def _check_recorded(self) -> None:
        """Checks that the signer's record has the latest entry. Without it a guard refuses each body, so none is prepared."""
        if not hasattr(self._sign, "signed"):
            return
        signed, latest = _of_record(self._sign.signed, ENTRY_LENGTH, _SIGNED), self._host.known.latest.epoch
        last = epoch_of(signed) if signed else 0
        if last < latest:
            raise RecordBehind(
                f"the signer's record {f'ends with epoch {last}' if last else 'has no signed entry'}, and the log has epoch {latest}: "
                "put back the latest record. If it is lost, begin another one with the log's latest entry, by Guard(.., known=), once "
                "it is certain that no later epoch was signed. Nothing was appended"
            )

    def _most_ahead(self) -> int:
        """How far an epoch number may be above the latest one."""
        period = self._clock.epoch_period if self._clock else None
        return _FAR if period is None else max(3, _WEEK // period)

    def _is_abandoned(self, engine: Engine) -> bool:
        """Whether an update is pending that the signer has abandoned."""
        return engine.update is not None and engine.update.pending.body == self._abandoned

    def _settle_unless_abandoned(self) -> None:
        """Has the pending update signed, and installs it, unless the signer has abandoned it."""
        if self._is_abandoned(self._ready()):
            return
        try:
            self._settle()
        except SignerFailed:
            if not self._is_abandoned(self._host.known):
                raise

    def _settle(self, body: Optional[bytes] = None) -> Epoch:
        """Has the pending update signed, and installs it. If a body is given, the update is the one of this body."""
        engine = self._ready()
        if engine.update is None and body is None:
            raise NotPrepared()
        if engine.update is None or body not in (None, engine.update.pending.body):
            raise ProgramFailed(_STARTED_AGAIN)
        body = engine.update.pending.body
        signature = b"" if engine.unlogged else self._signature(body)
        with self._host.changing:
            engine = self._host.sound()
            if not engine.unlogged:
                if not engine.update or engine.update.pending.body != body or not signature:
                    raise ProgramFailed(_STARTED_AGAIN)
                engine.install(signature)
            return self._logged(engine.log_installed)

    def _logged(self, append: Callable[[], Result]) -> Result:
        """Appends a line. After an error that leaves open whether the log has it, a restart is needed."""
        self._is_logging = True
        try:
            if self._is_over:
                raise Closed("the directory was closed before the log had the line")
            return append()
        except BaseException as error:
            if not isinstance(error, (LogRefused, Closed)):
                self._host.broken = error if isinstance(error, Exception) else ProviderError("a call was interrupted")
            raise
        finally:
            self._is_logging = False

    def _signature(self, body: bytes) -> bytes:
        if body == self._abandoned:
            raise SignerFailed(_ABANDONED) from BodyAbandoned("the body was abandoned")
        if self._is_checking:
            self._host.known.check_pending_indices(self._index_of)
        try:
            signature = sized(self._sign(body), SIGNATURE_LENGTH, "a signature")
            is_valid = self._verify is None or self._verify(body, signature)
        except BodyAbandoned as error:
            self._abandoned = body
            self._check_not_overtaken(error)
            raise SignerFailed(_ABANDONED) from error
        except Exception as error:
            self._check_not_overtaken(error)
            raise SignerFailed(
                f"the signer failed: {error}. The update is pending: retry, or give it up by abandon() if the signer's guard refuses it"
            ) from error
        if is_valid is not True:
            raise SignerFailed("the signer returned a signature that isn't valid: look at its key. The update is pending: retry")
        return signature

    def _check_not_overtaken(self, refusal: Exception) -> None:
        """Raises `Overtaken` if a guard refuses a body, and another provider has gone on in the log, which both share."""
        wait, position = getattr(self._log, "wait", None), self._host.known.position
        if wait is None or not isinstance(refusal, (BodyRefused, BodySigned)):
            return
        try:
            count = wait(position, 0)
        except Exception:
            # The refusal is what is known.
            return
        if count > position:
            self._host.broken = Overtaken(
                f"another provider has appended to {self._log}, and gone on: close this one, or open a replica"
            )
            raise self._host.broken from refusal

    def retry(self) -> Epoch:
        """Has the pending update signed, and installs it. Raises `NotPrepared` if there is none, `SignerFailed` if it is abandoned, and
        `RecordBehind` if the signer's record lacks the latest entry."""
        return self._change(self._retry)

    def _retry(self, body: Optional[bytes] = None) -> Epoch:
        if self._ready().update:
            self._check_recorded()
        return self._settle(body)

    def abandon(self) -> None:
        """Gives up the pending update: the signer abandons its body, and refuses it for ever. Then `commit` under a later epoch
        replaces the update. Until then it is pending, and no lookup shows it.

        Raises `NotPrepared` if there is none, `ProviderError` if the signer can't abandon, and `SignerFailed` if the signer has
        signed the body, or fails. A call that was interrupted can be repeated.
        """
        self._change(self._abandon)

    def _abandon(self) -> None:
        engine = self._ready()
        if engine.update is None:
            raise NotPrepared()
        body = engine.update.pending.body
        abandon = getattr(self._sign, "abandon", None)
        if abandon is None:
            raise ProviderError("the signer can't abandon a body: sign through coniks.guard.Guard")
        try:
            if engine.unlogged:
                raise BodySigned("its body is signed")
            abandon(body)
        except BodySigned as error:
            self._check_not_overtaken(error)
            raise SignerFailed(f"the update can't be given up: {error}. It is pending: retry") from error
        except Exception as error:
            raise SignerFailed(f"the signer failed to abandon the body: {error}. Call abandon() again") from error
        self._abandoned = body

    @property
    def pending(self) -> Optional[Pending]:
        """The update that isn't installed, because the signer failed or has abandoned it; None if there is none."""
        engine = self._host.engine
        return engine.update.pending if engine and engine.update else None

    def compact(self, epoch: Optional[int] = None) -> int:
        """Stores a snapshot in the log, and forgets the epochs before it: a second child is restored from it and takes this one's
        place. Lookups and commits go on meanwhile. Returns the snapshot's position: after a backup of it, `log.drop_before` may
        drop the lines below.

        The snapshot is of the oldest epoch whose proofs the policy still promises, or of an older one, `epoch`. With the digest
        of a policy alone it is of the latest epoch. Lookups at epochs before it raise `UnknownEpoch`; `chain`, `catch_up` and
        `entries` have all entries as before.

        Raises `ProviderError` if the policy promises what would be forgotten, `UnknownEpoch` for an epoch that isn't in memory,
        and `SnapshotDiffers` if the second child hasn't what this one has: then this child stays, and so does the snapshot that
        was stored before. So they do after another error, unless it is `LogFailed` or `LogRefused` and the log failed at the end:
        the older epochs may be forgotten then. Call it again.
        """
        return self._compact_by(lambda: self._compact(epoch))

    def _compact(self, epoch: Optional[int]) -> int:
        self._ready()
        if not hasattr(self._log, "compact"):
            raise ProviderError(f"{self._log} stores no snapshots: add snapshot, compact and drop_before to it, or use FileLog")
        with self._host.changing:
            engine = self._host.sound()
            point = self._chosen(engine, epoch)
            lines = engine.snapshot(point, lambda line: self._host.known.children.look(line))
        new = self._host.begun()
        try:
            self._log.compact(point.position, self._restoring(new, point, lines))
        except ProviderError:
            raise
        except Exception as error:
            raise LogFailed(f"the snapshot can't be stored: {cause(error)}. Repair the log, and call compact again") from error
        finally:
            if self._host.engine is not new:
                self._host.end(new)
        return point.position

    def _restoring(self, new: Engine, point: Point, lines: Iterator[bytes]) -> Iterator[bytes]:
        """Lines of a snapshot, each of which another engine takes first. Before the last line, which makes it whole, that engine
        takes the place of this one: so no snapshot is stored from which a start would differ."""
        restoring = Restoring(new, point.position)
        for line in lines:
            restoring.take(line)
            if new.points:
                self._host.replace(new)
            yield line

    def _chosen(self, engine: Engine, epoch: Optional[int]) -> Point:
        """The epoch to take a snapshot of. No epoch after it is forgotten, so it is none after the oldest promised one."""
        oldest = self._oldest_promised(engine)
        if epoch is None:
            return oldest
        point = engine.point_of(_number(epoch, 64, "the epoch"))
        if point.epoch > oldest.epoch:
            raise ProviderError(
                f"the policy still promises proofs of epoch {oldest.epoch}, and a snapshot of epoch {epoch} would forget it: "
                f"take epoch {oldest.epoch} or an older one"
            )
        return point

    def _oldest_promised(self, engine: Engine) -> Point:
        policy = self._policy
        if not isinstance(policy, Policy):
            return engine.point_of(None)
        if policy.proofs_kept is None:
            raise ProviderError("the policy says proofs-kept forever, so no epoch may be forgotten: this directory stays in memory")
        if policy.epoch_period is None and policy.proofs_kept:
            raise ProviderError(
                "the policy says for how long proofs are kept and has no clock, so nobody knows when that is over: "
                "no epoch may be forgotten"
            )
        now, points = time.time(), engine.points
        for point, following in zip(points, points[1:]):
            if policy.is_promised(following.epoch, now):
                return point
        return engine.point_of(None)

    def restart(self, sign_pending: bool = True, *, head: Optional[Head] = None) -> None:
        """Starts another child, replays the log into it, and ends this one, which answers lookups until then. Signs and installs
        the pending update, as a start does. If `SignerFailed` is raised, the directory is usable and the update pending.

        Raises `LogForked` if the log lacks what this process has seen in it, the head, or what the signer's record has. Then
        lookups go on as before, `evidence` has both, and nothing can be added until the log is whole again. After
        `discard_evidence` the next restart takes a log that lacks what this process has seen.
        """
        self._change(lambda: self._start(self._restarted, sign_pending, head))


_ABANDONED = "the signer has abandoned the body of the pending update, and won't sign it: commit under a later epoch"
_SIGNED = "the signed entry"
_STARTED_AGAIN = (
    "the program was started again meanwhile: the update is installed if its epoch is the latest one, and pending if pending has it"
)


def recorded(sign: Sign) -> Record:
    """What a signer's record has, nothing if the signer has no record."""
    if not hasattr(sign, "signed"):
        return Record()
    signed = _of_record(sign.signed, ENTRY_LENGTH, _SIGNED)
    return Record(signed, _of_record(sign.asked, BODY_LENGTH, "the body that was asked for") if hasattr(sign, "asked") else None)


def _of_record(read: Callable[[], Optional[bytes]], size: int, what: str) -> Optional[bytes]:
    """What a call of a signer's record returns."""
    try:
        found = read()
        return None if found is None else sized(found, size, what)
    except Exception as error:
        raise SignerFailed(f"the signer's record can't be read: {error}. Repair it, and try again") from error


def entries(log: Log) -> Iterator[bytes]:
    """The entries of all epochs that a log has, in their order, 209 bytes each: what an auditor takes."""
    return entries_in(log)
