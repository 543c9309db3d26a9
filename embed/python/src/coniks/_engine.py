"""The children of a directory, and how far a log was replayed into them."""

from __future__ import annotations

import math
import os
import random
import secrets
from dataclasses import dataclass
from hashlib import sha256
from itertools import islice
from typing import Any, Callable, Iterator, Mapping, NamedTuple, Optional, Sequence, Tuple, Union

from . import BODY_LENGTH, ENTRY_LENGTH, Head, _number
from ._children import Children
from ._files import Path, cause
from ._formats import SIGNATURE_LENGTH
from ._layout import body_of, epoch_before, epoch_of, link_before, policy_of, root_of
from ._lines import Epoch, Index, Latest, Pending, digits, encoded, install_line, lookup_line
from ._lines import has_digits, latest_of, members_of, number, sized, with_first
from ._restoring import Restoring, link_of
from ._snapshot_lines import OPENING, Point, lines_of, refused, snapshot_in
from .faults import (
    ChildrenDiffer,
    Fault,
    LogBehind,
    LogFailed,
    LogForked,
    NotAbandoned,
    OtherIndex,
    ProgramFailed,
    ProviderError,
    ReplayDiffers,
)
from .faults import LinesDropped, NoDirectory, SnapshotDiffers, UnknownEpoch
from .log import Log
from .policy import Policy

# In a log of this format a `prepare` line that follows another one without `install` abandons that update by name.
_FORMAT = 2
_WITHDRAW = b'{"cmd":"withdraw"}'
# The kinds of lines that a log has.
_COMMANDS = ("open", "prepare", "install")


Place = Tuple[str, str]


class Sample:
    """Names and indices of the first, the last and 64 random ones of all operations that it was given: reservoir sampling by Li's
    algorithm L."""

    def __init__(self, size: int = 64):
        self._size, self._count, self._weight = size, 0, 1.0
        self._stored: list[Place] = []
        self._ends: list[Place] = []
        self._next = size
        self._skip()

    def _skip(self) -> None:
        self._weight *= math.exp(math.log(1 - random.random()) / self._size)
        self._next += int(math.log(1 - random.random()) / math.log1p(-self._weight)) if self._weight < 1 else 0

    def add(self, operations: Sequence[Any]) -> None:
        if not operations:
            return
        self._ends = [*(self._ends or [place_of(operations[0])])[:1], place_of(operations[-1])]
        self._stored += map(place_of, operations[: self._size - len(self._stored)])
        while self._next < self._count + len(operations):
            self._stored[random.randrange(self._size)] = place_of(operations[self._next - self._count])
            self._next += 1
            self._skip()
        self._count += len(operations)

    def last(self) -> list[Place]:
        return self._ends[1:]

    def all(self) -> list[Place]:
        return self._ends + self._stored


def requested_of(line: bytes) -> tuple[object, ...]:
    """What a `prepare` line asks for."""
    reply = members_of(line, LogFailed, "a `prepare` line")
    operations = [(it["op"], it["name"], it["index"].lower(), it["key"], it["opening"].lower()) for it in reply["ops"]]
    return reply["epoch"], (reply.get("nonce") or "").lower(), operations


def place_of(operation: Mapping[str, Any]) -> Place:
    return operation["name"], operation["index"]


@dataclass(frozen=True)
class Settings:
    """What a `Provider` or a `Replica` is started with beside its log.

    `program` is the program's path, or its path and first arguments. `index(name)` returns the index of a name. `policy` is the digest in
    each entry, 32 bytes, or the `Policy` whose digest it is, and `nonce` that of the first epoch: 32 random bytes if it is None.
    `vrf_public_key` is the public key of the VRF, whose SHA-256 the log keeps. These are in the log from the first start on; later
    starts raise `LogFailed` if one is given that isn't the log's.

    `verify(body, signature)` returns whether a signature is valid, and is called before one is installed, and for the entry of a
    snapshot: the program verifies none. `workers` and `depth` are the program's options. `timeout` is how many seconds the
    program may take for one answer; without it there is no limit. A snapshot may take it for each 4,096 names.

    `children` is how many children there are, 1 or 2. Two take each line one after another, and lookups go to the one that isn't
    taking it, so that they don't wait while a batch is built. Two take twice the memory, and a commit twice the program's time. If
    one ends, the other one goes on, and others are started beside it. If two answers to a line differ, `ChildrenDiffer` is raised.

    With `check_indices` a start asks for the indices of some names again, and another one raises `OtherIndex`.
    """

    program: Union[Path, Sequence[str]]
    index: Index
    policy: Union[bytes, Policy]
    nonce: Optional[bytes] = None
    vrf_public_key: Optional[bytes] = None
    verify: Optional[Callable[[bytes, bytes], bool]] = None
    workers: Optional[int] = None
    depth: Optional[int] = None
    timeout: Optional[float] = None
    children: int = 1
    check_indices: bool = True

    def __post_init__(self) -> None:
        # A policy or an option that can't be one raises an error here, and not at the start.
        self.digest, self.words
        if self.nonce is not None:
            sized(self.nonce, 32, "the nonce")
        if type(self.children) is not int or self.children not in (1, 2):
            raise ValueError(f"a directory has 1 or 2 children, not {self.children!r}")

    @property
    def digest(self) -> bytes:
        """The policy digest of each entry."""
        return self.policy.digest if isinstance(self.policy, Policy) else sized(self.policy, 32, "the policy")

    @property
    def words(self) -> list[str]:
        """The program with its arguments."""
        program = self.program
        words = [os.fspath(program)] if isinstance(program, (str, os.PathLike)) else list(program)
        for option, value in [("--workers", self.workers), ("--depth", self.depth)]:
            words += [] if value is None else [option, str(_number(value, 64, option))]
        return words


class Update(NamedTuple):
    """A pending update with its line, as the log has it: how many names it registers, how many nodes it adds, and its operations
    if it was replayed."""

    pending: Pending
    line: bytes
    names: int
    nodes: int
    operations: Sequence[Any] = ()

    def is_of(self, line: bytes) -> bool:
        """Whether a `prepare` line asks for this update: for its epoch, its nonce and its operations, however they are written."""
        return requested_of(line) == requested_of(self.line)


class Record(NamedTuple):
    """What a signer's record has: the entry of the last body that it signed, and a body that it was asked for and whose signature
    it hasn't given."""

    signed: Optional[bytes] = None
    requested: Optional[bytes] = None


class Engine:
    """The children, and how far the log was replayed into them: the position of the next line, the latest epoch that the log has,
    and the pending update. The children answer for these also if they have installed an epoch that the log doesn't have,
    `unlogged`, since each lookup names its epoch."""

    def __init__(self, settings: Settings, log: Log):
        """Starts the children. `replay` replays the log."""
        self._settings, self.log, self.verify = settings, log, settings.verify
        # The position of the snapshot that the replay begins with, 0 if there is none, and whether it is that of the log's directory,
        # as far as the log has the line before it.
        self.begin, self._is_compared = 0, True
        self.position, self.latest = 0, Epoch(0, bytes(32), bytes(32), b"")
        self.size = Latest(0, bytes(32), 0, 0)
        self.chain: list[bytes] = []
        # The epochs that the children have, with those of the latest entries of the chain, and what the `open` line said.
        self.points: list[Point] = []
        self._opening: Mapping[str, Any] = {}
        self.update: Optional[Update] = None
        self.unlogged: Optional[tuple[bytes, Epoch]] = None
        # The bodies of logged updates that others replaced, and a sample of the logged operations.
        self.replaced: list[bytes] = []
        self._sample = Sample()
        self.children = Children(settings.words, settings.children, settings.timeout)

    def ask(self, line: bytes, times: int = 1) -> Mapping[str, Any]:
        """What each child answers to a line. It may take the timeout so many times."""
        return self.children.ask(line, times)

    def open(self) -> None:
        """Opens a directory, in a log without a line."""
        members = {
            "cmd": "open",
            "nonce": (self._settings.nonce or secrets.token_bytes(32)).hex(),
            "policy": self._settings.digest.hex(),
            "log": _FORMAT,
        }
        if self._settings.vrf_public_key is not None:
            members["vrf"] = sha256(self._settings.vrf_public_key).hexdigest()
        line = encoded(members)
        self.ask(line)
        self.append(line)
        self.compare_opening(members)

    def replay(self, end: Optional[int] = None) -> None:
        """Restores the snapshot of the log, if there is one, and replays the lines from its position on, to another one if that is
        given."""
        try:
            if found := snapshot_in(self.log):
                self.begin = found[0]
                Restoring(self, self.begin).take_all(found[1])
                self._compare_snapshot()
            count = None if end is None else max(0, end - self.position)
            for line in islice(self.log.read(self.position), count):
                self.take(line)
        except ProviderError:
            raise
        except Exception as error:
            raise LogFailed(f"the log can't be read: {cause(error)}. Repair it, and start again") from error

    def _compare_snapshot(self) -> None:
        """Compares the snapshot with the line before its position, which has its link, unless that line was dropped."""
        try:
            line = next(iter(self.log.read(self.begin - 1)), b"{}")
        except (LinesDropped, NoDirectory):
            self._is_compared = False
            return
        if not has_digits(members_of(line, LogFailed, f"line {self.begin - 1} of the log"), "link", self.latest.link):
            raise refused(self.log, "has another entry than the line before it")

    def check_origin(self, record: Record, head: Optional[Head]) -> None:
        """Raises `SnapshotDiffers` if nothing shows that a snapshot is of this directory."""
        if not (self._is_compared or self.verify or record.signed or head):
            raise SnapshotDiffers(
                f"nothing shows that the snapshot of {self.log} is of this directory, since the lines before it were dropped: "
                "pass verify, sign through a guard, or pass the head that you have kept"
            )

    def follow(self, position: int) -> None:
        """Replays the lines below a position that it hasn't replayed."""
        if self.position < position:
            for line in islice(self.log.read(self.position), position - self.position):
                self.take(line)
        if self.position < position:
            raise LogFailed(f"{self.log} lost lines: compare it with a backup, and restart")

    def take(self, line: bytes) -> None:
        """Replays the next line of the log. The program compares its body, its link and what it abandons."""
        what = f"line {self.position} of the log"
        reply = members_of(line, LogFailed, what)
        command = reply.get("cmd")
        if command not in _COMMANDS:
            # The program has others, and one of them drops an update.
            raise LogFailed(f"{what} is none of a provider: look what wrote it, and restore the log without it")
        if command == "open":
            self.compare_opening(reply)
        try:
            reported = self.ask(line)
        except NotAbandoned as fault:
            raise LogFailed(f"{what} is refused: {fault}. Look what wrote it, and restore the log without it") from fault
        except Fault as fault:
            raise ReplayDiffers(f"{what} is refused: {fault}. Look whether log and program are this directory's") from fault
        if command == "prepare":
            self._check_named(reply, "body", what)
            operations = reply.get("ops", [])
            names = sum(it.get("op") == "register" for it in operations)
            pending = self._pending(number(reply, "epoch", LogFailed), reported)
            self._prepared(Update(pending, line, names, number(reported, "nodes"), operations))
        elif command == "install":
            self._check_named(reply, "link", what)
            epoch = self._installed(digits(reply, "signature", SIGNATURE_LENGTH, LogFailed), reported)
            self._settle(epoch, self.position + 1)
        self.position += 1

    def _check_named(self, reply: Mapping[str, Any], member: str, what: str) -> None:
        """Checks that a line has the member that the program compares with its own: it takes a line without it too."""
        if member not in reply:
            raise ReplayDiffers(f"{what} has no {member}: look whether log and program are this directory's")

    def compare_opening(self, reply: Mapping[str, Any]) -> None:
        """Compares what an `open` line says with what the child was started with."""
        version = reply.get("log")
        if version is not None and (type(version) is not int or version != _FORMAT):
            raise LogFailed("the log has a format that this version doesn't read: use the version that wrote it, or a later one")
        key = self._settings.vrf_public_key
        digest = None if key is None or "vrf" not in reply else sha256(key).digest()
        for what, member, given in [
            ("policy", "policy", self._settings.digest),
            ("nonce", "nonce", self._settings.nonce),
            ("public key of the VRF", "vrf", digest),
        ]:
            if given is not None and digits(reply, member, 32, LogFailed) != given:
                raise LogFailed(f"the log's directory has another {what}: look whether log and keys belong together")
        self._opening = {it: reply[it] for it in OPENING if it in reply}

    def sample(self, bindings: Sequence[Any]) -> None:
        """Takes some of these for `check_indices`."""
        self._sample.add(bindings)

    def restored(self, epoch: Epoch, size: Latest, point: Point, chain: list[bytes], replaced: list[bytes]) -> None:
        """Notes that the child was restored at an epoch."""
        self.position, self.latest, self.size = point.position, epoch, size
        self.chain, self.points, self.replaced = chain, [point], replaced

    def point_of(self, epoch: Optional[int]) -> Point:
        """An epoch that the child has, the latest if none is given."""
        found = next((it for it in reversed(self.points) if epoch in (None, it.epoch)), None)
        if found is None:
            raise UnknownEpoch(advice="a snapshot is of an installed epoch that is in memory")
        return found

    def snapshot(self, point: Point, ask: Callable[[bytes], Mapping[str, Any]]) -> Iterator[bytes]:
        """The lines of the snapshot of an epoch."""
        chain = self.chain[: len(self.chain) - len(self.points) + self.points.index(point) + 1]
        return lines_of(ask, self._opening, point, chain, self.replaced[: point.replaced], link_of(chain[-1]))

    def check_same(self, other: Engine) -> None:
        """Raises `SnapshotDiffers` if the children of this engine haven't what those of another one have, which has replayed the same
        lines: what the `open` line said, the latest entry, the names, the pending update, and the proofs of some names."""
        reported = latest_of(self.ask(b'{"cmd":"latest"}'))
        if self._compared() != other._compared() or reported != self.size:
            raise SnapshotDiffers(_SECOND)
        lines = [lookup_line(name, bytes.fromhex(index), self.latest.epoch) for name, index in self._sample.all()]
        if self.children.answers(lines) != other.children.answers(lines):
            raise SnapshotDiffers(_SECOND)

    def _compared(self) -> tuple[object, ...]:
        update = self.update and self.update[:4]
        return self._opening, self.position, self.latest, self.size.names, self.replaced, update

    def _pending(self, epoch: int, reported: Mapping[str, Any]) -> Pending:
        """The update that the child has prepared. Its body is one of this epoch, after the latest one."""
        body, root = digits(reported, "body", BODY_LENGTH), digits(reported, "root", 32)
        parts = epoch_of(body), epoch_before(body), root_of(body), link_before(body), policy_of(body)
        if parts != (epoch, self.latest.epoch, root, self.latest.link, self._settings.digest):
            self.children.distrust()
            raise ProgramFailed(
                f"the body of epoch {epoch} doesn't follow the entry of epoch {self.latest.epoch}: look which program it is"
            )
        return Pending(epoch, root, body)

    def _prepared(self, update: Update) -> None:
        if self.update:
            self.replaced.append(self.update.pending.body)
        self.update = update

    def prepare(self, epoch: int, line: bytes, names: int) -> Update:
        """Has the child prepare an update, which isn't in the log yet. Its line abandons the pending one, if there is one: the
        caller knows that the signer has abandoned that."""
        if self.update:
            line = with_first(line, "abandons", self.update.pending.body)
        reported = self.ask(line)
        try:
            pending = self._pending(epoch, reported)
            stored = self._to_store(reported, line, "body", pending.body)
            return Update(pending, stored, names, number(reported, "nodes"))
        except ProgramFailed:
            self.children.distrust()
            raise

    def _to_store(self, reported: Mapping[str, Any], line: bytes, member: str, value: bytes) -> bytes:
        """The line for the log, which the child prints unless the log is of the first format."""
        if "log" not in self._opening:
            return with_first(line, member, value)
        store = reported.get("store")
        if not isinstance(store, bytes) or not store.endswith(line[1:]):
            self.children.distrust()
            raise ProgramFailed("the program printed no line for the log, or another one: use the program of this version")
        return store

    def log_prepared(self, update: Update) -> None:
        """Appends the line of a prepared update, which is pending then. If the log refuses the line, what was pending before is
        pending in the child again."""
        try:
            self.append(update.line)
        except LogFailed:
            self._withdraw()
            raise
        self._prepared(update)

    def _withdraw(self) -> None:
        """Has the child drop an update that the log doesn't have, and take back what was pending before."""
        try:
            self.ask(_WITHDRAW)
            if self.update:
                # What that one has replaced isn't pending any more. The child compares its body.
                reply = members_of(self.update.line, LogFailed, "a `prepare` line")
                self.ask(encoded({it: reply[it] for it in reply if it != "abandons"}))
        except ChildrenDiffer:
            # They note it, and lookups go on.
            pass
        except ProviderError:
            self.children.distrust()

    def install(self, signature: bytes) -> None:
        """Has the child install the pending update. Its epoch is `unlogged` until `log_installed` returns."""
        line = install_line(signature)
        try:
            reported = self.ask(line)
        except Fault as fault:
            self.children.distrust()
            raise ProgramFailed(f"the program refuses a pending update: {fault}. Retry") from fault
        epoch = self._installed(signature, reported)
        self.unlogged = self._to_store(reported, line, "link", epoch.link), epoch

    def log_installed(self) -> Epoch:
        """Appends the line of the epoch that the child has installed, which is the latest then."""
        assert self.unlogged
        line, epoch = self.unlogged
        self.append(line)
        self._settle(epoch, self.position)
        return epoch

    def append(self, line: bytes) -> None:
        try:
            self.log.append(self.position, line)
        except LogFailed:
            raise
        except Exception as error:
            raise LogFailed(f"the log can't be written: {cause(error)}. Repair it, then restart") from error
        self.position += 1

    def _installed(self, signature: bytes, reported: Mapping[str, Any]) -> Epoch:
        """The epoch that the child has installed. Its entry is what was signed, with the signature."""
        pending = self.update.pending if self.update else None
        root, link, entry = (digits(reported, it, size) for it, size in [("root", 32), ("link", 32), ("entry", ENTRY_LENGTH)])
        epoch = Epoch(number(reported, "epoch"), root, link, entry)
        if not pending or (epoch.epoch, root, entry) != (pending.epoch, pending.root, pending.body + signature):
            self.children.distrust()
            raise ProgramFailed(f"the entry of epoch {epoch.epoch} isn't what was signed: look which program it is")
        return epoch

    def _settle(self, epoch: Epoch, position: int) -> None:
        """Notes that the pending update is installed, in the child and in the log below a position."""
        assert self.update
        self._sample.add(self.update.operations)
        self.chain.append(epoch.entry)
        self.size = Latest(epoch.epoch, epoch.link, self.size.names + self.update.names, self.size.nodes + self.update.nodes)
        self.latest, self.update, self.unlogged = epoch, None, None
        self.points.append(Point(epoch.epoch, position, self.size.names, len(self.replaced)))

    def follows(self, other: Engine) -> bool:
        """Whether this log has all that another engine has seen in its log: the entries, and the body that it may have had
        signed."""
        count = len(other.chain)
        if len(self.chain) < count or (count and self.chain[count - 1] != other.chain[-1]):
            return False
        if other.update is None:
            return True
        requested = [*self.replaced, *map(body_of, self.chain[count:])]
        requested += [self.update.pending.body] if self.update else []
        return other.update.pending.body in requested

    def check_head(self, head: Head) -> None:
        """Raises `LogBehind` or `LogForked` if this link isn't that of the entry of this epoch."""
        if head.epoch > self.latest.epoch:
            raise LogBehind(
                f"the log ends at epoch {self.latest.epoch}, before the head of epoch {head.epoch}: restore its last lines"
            )
        if link_of(self._entry_at(head.epoch)) != head.link:
            raise LogForked(f"the log has another entry of epoch {head.epoch} than the head: look which log is the right one")

    def _entry_at(self, epoch: int) -> bytes:
        """The entry of an epoch, no byte if there is none."""
        return next((it for it in reversed(self.chain) if epoch_of(it) == epoch), b"")

    def check_record(self, record: Record) -> None:
        """Raises `LogBehind` or `LogForked` if the log lacks what a signer's record has. A log that has more is no error: the
        record was read first."""
        pending = self.update.pending.body if self.update else b""
        signed, requested = record
        if signed and signed != self._entry_at(epoch_of(signed)) and body_of(signed) != pending:
            raise self._not_recorded(signed)
        if requested and requested not in (*self.replaced, pending, body_of(self._entry_at(epoch_of(requested)))):
            raise LogBehind(
                f"the signer was asked for a body of epoch {epoch_of(requested)} that the log lacks: restore its last lines, "
                "or abandon that body by the signer's guard if they are lost"
            )

    def _not_recorded(self, signed: bytes) -> LogForked:
        """The error of a log that lacks an entry which was signed, with the log's entry that overlaps it."""
        epoch, latest = epoch_of(signed), self.latest.epoch
        if epoch > latest:
            error: LogForked = LogBehind(
                f"the log ends at epoch {latest}, and the signer has signed epoch {epoch}: restore its last lines"
            )
        else:
            error = LogForked(
                f"the signer has signed another entry of epoch {epoch} than the log has: "
                "look whether log and signer are this directory's, and which of them is the right one"
            )
        other = next((it for it in self.chain if is_overlap(signed, it)), None)
        error.entries = (signed, other) if other else None
        return error

    def check_indices(self, index: Index, with_pending: bool) -> None:
        """Compares the indices of some logged operations with those of a function. Raises `OtherIndex`."""
        _compare_indices(index, [*self._sample.all(), *(self._pending_places() if with_pending else [])], _OF_LOG)

    def check_last_index(self, index: Index) -> None:
        """The same for the last operation alone."""
        _compare_indices(index, self._sample.last(), _OF_LOG)

    def check_pending_indices(self, index: Index) -> None:
        """The same for a pending update alone that was replayed."""
        _compare_indices(index, self._pending_places(), _OF_UPDATE)

    def _pending_places(self) -> list[Place]:
        """Names and indices of the first and the last operation of a pending update that was replayed."""
        operations = self.update.operations if self.update else ()
        return [*map(place_of, [*operations[:1], *operations[-1:]])]


_SECOND = "what a second child has restored isn't what the first one has: the program or the log was changed, so look for that"
_OF_LOG = (
    "the key of the VRF or its code isn't that of this log. Start with the right one, "
    "or pass check_indices=False if the log itself has wrong indices"
)
_OF_UPDATE = (
    "the key of the VRF or its code isn't that of the pending update. Start with the right one, or give the update up by abandon()"
)


def _compare_indices(index: Index, places: Sequence[Place], advice: str) -> None:
    for name, place in places:
        if place.lower() != index(name).hex():
            raise OtherIndex(advice=advice)


def is_overlap(one: bytes, other: bytes) -> bool:
    """Whether two entries have different bodies, each of which covers an epoch number that the other covers: from its epoch down
    to above the epoch before."""
    before = max(epoch_before(one), epoch_before(other))
    return body_of(one) != body_of(other) and before < min(epoch_of(one), epoch_of(other))


def two_bodies(known: Sequence[bytes], found: Sequence[bytes]) -> Optional[tuple[bytes, bytes]]:
    """The first entries with different bodies in one place of two chains, None if one of the chains just ends. All before have
    equal bodies, so these two follow one epoch, and overlap."""
    return next((it for it in zip(known, found) if body_of(it[0]) != body_of(it[1])), None)
