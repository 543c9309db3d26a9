"""Collects operations, and commits them each epoch, in their order. An operation is stored in the queue before its number is
returned, and whoever asked gets a receipt once the log has its epoch. Each one is judged by the key that its name has at the epoch
before its own. What the operator announces is judged by the epoch of its batch too: its effect must be late enough."""

from __future__ import annotations

import asyncio
import base64
import secrets
from bisect import bisect_left
from concurrent.futures import ThreadPoolExecutor
from contextlib import suppress
from dataclasses import dataclass, replace
from functools import partial
from itertools import islice, takewhile
from typing import Callable, Iterable, Mapping, Optional, Sequence, TypeVar, Union

from authorising import Authorise, Request, check_promise
from coniks._layout import epoch_of
from coniks.provider import Change, EpochNotLater, EpochNotNow, EpochSpent, Fault, Lookup, Operation, Overtaken
from coniks.provider import Provider, ProviderError, RecordBehind, Register, RestartNeeded
from holding import LOG, Holder, error_of
from problems import Problem
from queueing import Queue, Row

# The most operations of a batch, and of those that wait.
MOST = 4096
MOST_WAITING = 4 * MOST
# The most operations whose names are looked up at once.
_LOOKING = 2
# The seconds until the clock is read again, and the most until a commit that failed is tried again.
_PAUSE, _LONGEST_PAUSE = 0.3, 5
# The kind of an operation that `serve reset` has stored is another one, so that no request can ask for it.
OPERATORS = "announce"
_KINDS: dict[str, type[Operation]] = {"register": Register, "change": Change, OPERATORS: Change}
Result = TypeVar("Result")


@dataclass(frozen=True)
class Judged:
    """An operation, the headers of whoever asks for it, and the name's key at an epoch, by which it is judged; None if it had none.
    The headers are not stored: an operation that is read from the queue has none. `is_operators` is whether the operator has stored it.
    """

    operation: Operation
    headers: Mapping[str, str]
    present: Optional[bytes]
    epoch: int
    is_operators: bool = False

    def is_allowed(self, authorise: Authorise, epoch: int) -> bool:
        """Whether it may be done at an epoch. It is called in a thread."""
        it = self.operation
        return authorise(Request(it.name, it, self.present, self.headers, epoch, self.is_operators))

    def row(self, number: str) -> Row:
        """What the queue stores of it."""
        it = self.operation
        kind = OPERATORS if self.is_operators else type(it).__name__.lower()
        return Row(number, kind, it.name, it.key, it.opening, self.present, self.epoch)

    @classmethod
    def of(cls, row: Row) -> Judged:
        return cls(_KINDS[row.op](row.name, row.key, row.opening), {}, row.present, row.judged, row.op == OPERATORS)


# The entry of the epoch that has an operation, once the log has that, or why it is refused. It is cancelled if the process ends before.
Outcome = asyncio.Future[Union[bytes, Problem]]


@dataclass(frozen=True)
class Requested:
    """An operation that was collected. `stored` is whether the queue has it."""

    number: str
    judged: Judged
    stored: asyncio.Future[bool]
    outcome: Outcome

    @property
    def operation(self) -> Operation:
        return self.judged.operation

    @property
    def is_stored(self) -> bool:
        return self.stored.done() and not self.stored.exception() and self.stored.result()


class Collector:
    """The operations by their names, and those that were decided lately. The event loop alone changes them. Raises ValueError if `authorise`
    doesn't keep what the policy promises."""

    def __init__(self, holder: Holder, authorise: Authorise, is_late: bool = False):
        check_promise(holder.keys.policy, authorise)
        self.holder, self.authorise, self.failures = holder, authorise, 0
        # Whether the next epoch may be far from the latest one, since the directory stood still.
        self._is_late = is_late
        # What became of those that are remembered, by their numbers.
        self.outcomes: dict[str, Outcome] = {}
        # Those that wait for an epoch, and the batch of an epoch, while it isn't known whether the log has it.
        self._waiting: dict[str, Requested] = {}
        self._batch: dict[str, Requested] = {}
        self._epoch: Optional[int] = None
        # Few threads look up names for operations at once, so that those of one address delay no other lookups.
        self._looking = asyncio.Semaphore(_LOOKING)
        # One thread commits, so that lookups wait for none of it.
        self._thread = ThreadPoolExecutor(1, "commit")
        self.is_over = self._has_read = False

    @property
    def has_all(self) -> bool:
        """Whether each operation of the queue is known. After a start it is not, until the queue was read."""
        return self._has_read or self.holder.queue is None

    @property
    def pending(self) -> int:
        return len(self._waiting) + len(self._batch)

    async def take(self, operation: Operation, headers: Mapping[str, str]) -> Requested:
        """Takes an operation for the next epoch if whoever asks may do it. Raises `Problem`."""
        judged = await self._judged(operation, headers)
        # An epoch that was committed meanwhile may have another key of the name.
        while judged.epoch < self.holder.directory.latest().epoch:
            judged = await self._judged(operation, headers)
        return await self.collect(judged)

    async def _judged(self, operation: Operation, headers: Mapping[str, str]) -> Judged:
        """An operation that whoever asks may do, by the name's key of the latest epoch. Raises `Problem`."""
        async with self._looking:
            shown = await asyncio.to_thread(self.holder.directory.lookup, operation.name)
        judged = Judged(operation, headers, shown_key(shown), shown.epoch)
        earliest = max(shown.epoch + 1, self.holder.provider.epoch_now()) if self.holder.provider else shown.epoch + 1
        if not await asyncio.to_thread(judged.is_allowed, self.authorise, earliest):
            raise self._forbidden()
        is_taken = judged.present is not None
        if isinstance(operation, Register) is is_taken:
            raise Problem(409, "NameTaken" if is_taken else "NameUnknown", f"the name is {'' if is_taken else 'not '}registered")
        return judged

    def _forbidden(self) -> Problem:
        unsigned = ", or the key is no record that may follow the present one" * self.holder.keys.policy.records_vouched
        return Problem(403, "Forbidden", f"the credentials do not allow this{unsigned}")

    async def collect(self, judged: Judged) -> Requested:
        """Takes an operation that is judged, once the queue has it, or returns the one that asks for the same already. Raises
        `Problem` and `QueueFailed`."""
        requested = self._same(judged.operation) or self._new(judged)
        # Whoever asks may go: it is stored, and committed, all the same.
        if not await asyncio.shield(requested.stored):
            raise name_waits()
        return requested

    def _same(self, operation: Operation) -> Optional[Requested]:
        """The operation of a name that waits, which must ask for the same."""
        other = self._waiting.get(operation.name) or self._batch.get(operation.name)
        if other and (type(operation), operation.key) != (type(other.operation), other.operation.key):
            raise name_waits()
        return other

    def _new(self, judged: Judged) -> Requested:
        """Has the queue store an operation."""
        if self.is_over or self.holder.queue is None:
            raise Problem(503, "NoWriter", "this process takes no operations: look the name up, and send it again to the writer")
        if self.pending >= MOST_WAITING:
            text = f"{MOST_WAITING} operations wait, of which an epoch takes {MOST}: ask again after the next one"
            raise Problem(503, "QueueFull", text, self.holder.until_next())
        number = secrets.token_urlsafe(18)
        requested = self._remember(number, judged, self.holder.queue.put(judged.row(number)))
        self._waiting[judged.operation.name] = requested
        requested.stored.add_done_callback(partial(self._forget_unstored, requested))
        return requested

    def _remember(self, number: str, judged: Judged, stored: asyncio.Future[bool]) -> Requested:
        self.outcomes[number] = outcome = asyncio.get_running_loop().create_future()
        # They are decided in their order, so the first one is decided.
        if len(self.outcomes) > 2 * MOST_WAITING:
            del self.outcomes[next(iter(self.outcomes))]
        return Requested(number, judged, stored, outcome)

    def _forget_unstored(self, requested: Requested, _: object) -> None:
        if not requested.is_stored:
            del self._waiting[requested.operation.name], self.outcomes[requested.number]

    async def run(self) -> None:
        """Commits at each epoch, until it is cancelled. Raises `Overtaken` once another process writes, so that this one ends: it must
        not take the log back by itself."""
        pids = list[int]()
        while True:
            await self.commit()
            if (now := self.holder.directory.pids) != pids:
                # Others took the place of those that ended, or that a snapshot replaced.
                LOG.info("children", extra={"members": {"pids": now, "before": pids}})
                pids = now
            await asyncio.sleep(min(_PAUSE * 2 ** min(self.failures, 9), _LONGEST_PAUSE))

    async def stop(self) -> None:
        """Commits what is collected if the clock has another epoch. The rest stays in the queue."""
        if not self.is_over:
            self.is_over = True
            with suppress(Overtaken):
                await self.commit()
        for it in [*self._batch.values(), *self._waiting.values()]:
            it.outcome.cancel()
        self._thread.shutdown()

    async def commit(self) -> None:
        """Commits what is collected, if the clock has an epoch that the directory has not. An error leaves the batch for later."""
        try:
            if (provider := self.holder.provider) and (queue := self.holder.queue):
                while (epoch := await self._next(provider, queue)) and await self._refuses(provider, queue, epoch):
                    pass
                # A batch that was put back may have failed before.
                if epoch and provider.latest().epoch < epoch:
                    return
            self.failures = 0
        except Overtaken:
            self.is_over = True
            raise
        except Exception as error:
            self.failures += 1
            # Once, and then ever more rarely.
            if self.failures.bit_count() == 1:
                way_out = {"if the record is lost": "serve adopt"} if isinstance(error, RecordBehind) else {}
                LOG.error("commit failed", extra=error_of(error, failures=self.failures, **way_out))

    async def _next(self, provider: Provider, queue: Queue) -> Optional[int]:
        """The epoch of the batch. If there is none, that of the clock is begun if it is a new one."""
        now = provider.epoch_now()
        if not self._has_read or (self._epoch is None and now > provider.latest().epoch):
            await self._read(provider, queue)
            self._has_read = True
        if self._epoch is None and now > provider.latest().epoch:
            first = list(islice(takewhile(lambda it: it.is_stored, self._waiting.values()), MOST))
            await queue.mark([it.number for it in first], now)
            self._epoch, self._batch = now, {it.operation.name: self._waiting.pop(it.operation.name) for it in first}
        return self._epoch

    async def _read(self, provider: Provider, queue: Queue) -> None:
        """Takes what the queue has and this process doesn't know: at the start all of it, later what another writer has accepted."""
        # What comes meanwhile is stored beside it.
        rows = [it for it in await queue.others(set(self.outcomes)) if it.number not in self.outcomes]
        entries = await self._run(entries_of, provider, rows) if rows else []
        await queue.drop([row.number for row, entry in zip(rows, entries) if entry])
        pending = provider.pending
        for row, entry in zip(rows, entries):
            stored: asyncio.Future[bool] = asyncio.get_running_loop().create_future()
            stored.set_result(True)
            requested = self._remember(row.number, Judged.of(row), stored)
            if entry:
                requested.outcome.set_result(entry)
            elif pending and row.epoch == pending.epoch:
                self._epoch, self._batch[row.name] = row.epoch, requested
            else:
                self._waiting[row.name] = requested

    def _run(self, call: Callable[..., Result], *arguments: object) -> asyncio.Future[Result]:
        """Makes a call in the thread that commits."""
        return asyncio.get_running_loop().run_in_executor(self._thread, call, *arguments)

    async def _refuses(self, provider: Provider, queue: Queue, epoch: int) -> bool:
        """Tries once to commit the batch, which is over once it is known whether the log has it. Returns whether the program refuses
        one of its operations, so that the others are to be tried again."""
        await self._judge(provider, queue, epoch)
        batch, operations = self._batch, [it.operation for it in self._batch.values()]
        try:
            entry = await self._run(committed, provider, epoch, operations, self._is_late)
        except Fault as fault:
            if fault.position is None:
                raise
            await self._refuse(queue, operations[fault.position].name, Problem(409, type(fault).__name__, type(fault).reason))
            return True
        if entry:
            await queue.drop([it.number for it in batch.values()])
            for it in batch.values():
                it.outcome.set_result(entry)
            self._is_late = False
            LOG.info("epoch", extra={"members": {"epoch": epoch, "operations": len(batch)}})
        else:
            self._waiting = batch | self._waiting
        self._batch, self._epoch = {}, None
        return False

    async def _judge(self, provider: Provider, queue: Queue, epoch: int) -> None:
        """Judges those of the batch again whose name may have another key since, and those of the operator. Refuses those that aren't
        allowed any more."""
        latest = provider.latest().epoch
        waiting = self._batch.values() if latest < epoch else ()
        old = [it for it in waiting if it.judged.epoch < latest or it.judged.is_operators]
        for it, judged in zip(old, await self._run(again, provider, [it.judged for it in old], latest) if old else []):
            is_same = judged.present == it.judged.present and not judged.is_operators
            if is_same or await self._run(judged.is_allowed, self.authorise, epoch):
                self._batch[it.operation.name] = replace(it, judged=judged)
                continue
            if judged.is_operators:
                LOG.error(
                    "reset refused",
                    extra={"members": {"epoch": epoch, "why": "its effect is too early, or the record another one"}},
                )
            await self._refuse(queue, it.operation.name, self._forbidden())

    async def _refuse(self, queue: Queue, name: str, problem: Problem) -> None:
        """Refuses an operation of the batch. The queue drops it first: the batch that a start finds there is the one that is tried."""
        await queue.drop([self._batch[name].number])
        self._batch.pop(name).outcome.set_result(problem)


def name_waits() -> Problem:
    return Problem(409, "NameWaits", "another operation of this name waits for its epoch: ask again after that")


def committed(provider: Provider, epoch: int, operations: Sequence[Operation], is_late: bool = False) -> Optional[bytes]:
    """Commits a batch, or finds what an earlier try left of it, and returns the epoch's entry. Returns None if the log hasn't it and
    no signature is under way, so that its operations may be committed under another number. Raises `Overtaken` if another process has
    written, and another error after which nothing of that is known."""
    if provider.latest().epoch < epoch:
        try:
            # If the batch is pending already, this has the same body signed.
            return provider.commit(epoch, operations, far=is_late).entry
        except (EpochNotLater, EpochNotNow, EpochSpent):
            return None
        except RestartNeeded:
            provider.restart()
    if (latest := provider.latest().epoch) < epoch:
        return None
    shown = provider.lookups([it.name for it in operations], latest)
    if latest > epoch or [shown_key(it) for it in shown] != [it.key for it in operations]:
        raise Overtaken("another process committed this epoch, or a later one")
    return provider.chain()[-1]


def again(provider: Provider, judged: Sequence[Judged], epoch: int) -> list[Judged]:
    """The operations with the keys that their names have at an epoch."""
    shown = provider.lookups([it.operation.name for it in judged], epoch)
    for it in shown:
        if isinstance(it, ProviderError):
            raise it
    return [replace(it, present=shown_key(its), epoch=epoch) for it, its in zip(judged, shown)]


def entries_of(provider: Provider, rows: Iterable[Row]) -> list[Optional[bytes]]:
    """The entries of the epochs that have operations of batches, each None if the log hasn't that epoch with this key."""
    chain = provider.chain()

    def entry_of(row: Row) -> Optional[bytes]:
        at = bisect_left(chain, row.epoch or 0, key=epoch_of)
        if at == len(chain) or epoch_of(chain[at]) != row.epoch:
            return None
        [shown] = provider.lookups([row.name], row.epoch)
        return chain[at] if shown_key(shown) == row.key else None

    return [entry_of(it) for it in rows]


def shown_key(shown: Union[Lookup, ProviderError]) -> Optional[bytes]:
    """The key that a lookup shows, None if it shows none."""
    if isinstance(shown, ProviderError) or shown.proof["end"]["kind"] != "here":
        return None
    return base64.b64decode(shown.proof["end"]["key"])
