"""`provider`: the directory whose indices and signatures come from outside. Its epochs share unchanged nodes."""

from __future__ import annotations

import base64
from bisect import bisect_right
from typing import Container, Iterator, Optional, Union

import members as read
from bytelists import ZEROS, commitment
from chain import Entry, body_after
from directory import (
    MOST_OPERATIONS,
    Answer,
    Lines,
    Operation,
    answer_of_entry,
    answer_of_lookup,
    end_elsewhere,
    end_here,
    wrong_length,
)
from evidence import is_malformed
from grown import Node, built, grown, nodes_under, path_to
from members import Fault, Wrong, array, b64, bytes_in_digits, h32, member, object_in, texts_bytes, whole_number
from strict_json import Json
from tree import Entries

SIGNATURE_LENGTH, LOG = 64, 2


class SuppliedOperation(Operation):
    """An operation with the index of its name."""

    def __init__(self, value: Json) -> None:
        super().__init__(value)
        self.index = h32(object_in(value).get("index"))

    @property
    def entry(self) -> tuple[bytes, bytes]:
        return self.index, commitment(self.opening, self.name, self.key)


class Binding:
    """What a name is bound to, and its index: an element of a page, and of what is restored."""

    def __init__(self, value: Json) -> None:
        found = object_in(value)
        self.index, self.key = h32(found.get("index")), b64(found.get("key"))
        self.name, self.opening = texts_bytes(found.get("name")), h32(found.get("opening"))

    @property
    def entry(self) -> tuple[bytes, bytes]:
        return self.index, commitment(self.opening, self.name, self.key)


Bound = Union[Binding, SuppliedOperation]


def shown(bound: Bound) -> dict[str, str]:
    """A binding as a page has it."""
    key, name = base64.b64encode(bound.key).decode(), bound.name.decode("utf-8")
    return {"index": bound.index.hex(), "key": key, "name": name, "opening": bound.opening.hex()}


class Restore:
    """A restore that has begun: the entry, and the bindings so far by their indices, in any order."""

    def __init__(self, entry: Entry) -> None:
        self.entry = entry
        self.bindings: dict[bytes, Binding] = {}
        self.names: set[bytes] = set()

    def add(self, bindings: list[Binding]) -> None:
        """Adds all bindings of a line, or none if one has a fault."""
        stored, names = dict(self.bindings), set(self.names)
        for position, it in enumerate(bindings):
            fault = self.fault_of(it, stored, names)
            if fault:
                raise Fault(fault, position=position)
            stored[it.index] = it
            names.add(it.name)
        self.bindings, self.names = stored, names

    @staticmethod
    def fault_of(it: Binding, before: Container[bytes], names: Container[bytes]) -> Optional[str]:
        if fault := wrong_length(it.name, it.key):
            return fault
        if it.name in names:
            return "NameTwice"
        return "IndexClash" if it.index in before else None

    @property
    def entries(self) -> Entries:
        return sorted(it.entry for it in self.bindings.values())


def bindings_of(elements: list[Json]) -> list[Binding]:
    found = []
    for position, element in enumerate(elements):
        try:
            found.append(Binding(element))
        except Wrong:
            raise Fault("Member", member="bindings", position=position)
    return found


def page_size(value: Json) -> int:
    number = whole_number(value)
    if not 1 <= number <= MOST_OPERATIONS:
        raise Wrong
    return number


def signature(value: Json) -> bytes:
    return bytes_in_digits(value, SIGNATURE_LENGTH)


def log_format(value: Json) -> int:
    if whole_number(value) != LOG:
        raise Wrong
    return LOG


def is_logged(members: dict[str, Json]) -> bool:
    """Whether the rules of a log hold."""
    return "log" in members and member(members, "log", log_format) == LOG


def is_named(members: dict[str, Json], name: str, value: bytes) -> bool:
    """Whether a member has the digits of these bytes."""
    try:
        return bytes_in_digits(members.get(name), len(value)) == value
    except Wrong:
        return False


def check_named(members: dict[str, Json], name: str, value: bytes) -> None:
    """Checks that a line names no other bytes than these."""
    if name in members and not is_named(members, name, value):
        raise Fault("ReplayDiffers")


def with_first(line: bytes, name: str, value: bytes) -> bytes:
    """A line with one more member in the place of the bytes up to its first brace."""
    return b'{"%s":"%s",%s' % (name.encode(), value.hex().encode(), line[line.index(b"{") + 1 :])


class Update:
    """What `prepare` makes and `install` stores: an epoch without its signature."""

    def __init__(
        self, body: bytes, version: int, nonce: bytes, operations: list[SuppliedOperation], tree: Node, nodes: int
    ) -> None:
        self.body, self.version, self.nonce = body, version, nonce
        self.operations, self.tree, self.nodes = operations, tree, nodes


class Epoch:
    def __init__(self, entry: Entry, tree: Node) -> None:
        self.entry, self.tree = entry, tree


class Record:
    """The operations on the name that has an index, and the epochs at which these were installed."""

    def __init__(self) -> None:
        self.epochs: list[int] = []
        self.operations: list[Bound] = []

    def add(self, epoch: int, operation: Bound) -> None:
        self.epochs.append(epoch)
        self.operations.append(operation)

    def at(self, epoch: int) -> Bound:
        """The latest operation at an epoch. The name must be registered there."""
        return self.operations[bisect_right(self.epochs, epoch) - 1]

    def is_at(self, epoch: int) -> bool:
        """Whether the name is registered at an epoch."""
        return self.epochs[0] <= epoch


class SuppliedDirectory(Lines[SuppliedOperation, Epoch]):
    """A directory with the index of each registered name, the record of each index, and the number of nodes made so far."""

    COMMANDS = {
        "open": "open",
        "prepare": "prepare",
        "install": "install",
        "withdraw": "withdraw",
        "lookup": "look_up",
        "latest": "tell_latest",
        "bindings": "tell_bindings",
        "restore": "begin_restore",
        "restoring": "restore_more",
        "restored": "end_restore",
    }
    MOST_EPOCHS = None
    OPERATION = SuppliedOperation

    def __init__(self) -> None:
        super().__init__()
        self.indices: dict[bytes, bytes] = {}
        self.records: dict[bytes, Record] = {}
        self.nodes = 0
        self.pending: Optional[Update] = None
        self.restore: Optional[Restore] = None
        # Whether the rules of a log hold.
        self.is_logged = False
        # The line that is replied to.
        self.line = b""

    def answer(self, line: bytes) -> Answer:
        self.line = line
        return super().answer(line)

    def to_store(self, members: dict[str, Json], name: str, value: bytes) -> Answer:
        """The line for the log, in a reply, if the rules of a log hold."""
        if not self.is_logged:
            return {}
        return {"store": self.line if name in members else with_first(self.line, name, value)}

    def open(self, members: dict[str, Json]) -> Answer:
        nonce = member(members, "nonce", h32)
        policy = member(members, "policy", h32)
        logged = is_logged(members)
        self.must_not_restore()
        answer = self.be_open(nonce, policy)
        self.is_logged = logged
        return answer

    def must_not_restore(self) -> None:
        if self.restore is not None:
            raise Fault("AlreadyOpen")

    def judge_batch(self, ops: list[SuppliedOperation], registered: Container[bytes]) -> dict[bytes, SuppliedOperation]:
        self.indices_before: set[bytes] = set()
        return super().judge_batch(ops, registered)

    def fault_of(self, operation: SuppliedOperation, earlier: Container[bytes], registered: Container[bytes]) -> Optional[str]:
        """The first fault of an operation, with those of its index; the index is noted for the operations after it."""
        fault = super().fault_of(operation, earlier, registered)
        if fault:
            return fault
        if self.indices.get(operation.name, operation.index) != operation.index:
            return "OtherIndex"
        is_taken = operation.index in self.records and operation.name not in registered
        if is_taken or operation.index in self.indices_before:
            return "IndexClash"
        self.indices_before.add(operation.index)
        return None

    def prepare(self, members: dict[str, Json]) -> Answer:
        number, later_nonce, ops = self.read_batch(members)
        self.must_be_open()
        self.must_abandon(members)
        self.judge_batch(ops, self.indices)
        self.must_be_next(number)
        is_rotated = later_nonce is not None
        version, nonce = (self.version, self.nonce) if later_nonce is None else (2, later_nonce)
        before = self.epochs.get(self.latest)
        tree, nodes = self.tree_after(before, nonce, ops, is_rotated)
        body = body_after(before.entry if before else None, version, number, tree.hash, nonce, self.policy)
        check_named(members, "body", body)
        self.pending = Update(body, version, nonce, ops, tree, nodes)
        answer: Answer = {"body": body.hex(), "epoch": number, "nodes": nodes, "ok": "prepare", "root": tree.hash.hex()}
        return answer | self.to_store(members, "body", body)

    def must_abandon(self, members: dict[str, Json]) -> None:
        """A line must name the pending update, or none if there is none, if the rules of a log hold."""
        is_right = is_named(members, "abandons", self.pending.body) if self.pending else "abandons" not in members
        if self.is_logged and not is_right:
            raise Fault("NotAbandoned")

    def tree_after(self, before: Optional[Epoch], nonce: bytes, ops: list[SuppliedOperation], is_rotated: bool) -> tuple[Node, int]:
        """The tree of an epoch, and how many of its nodes are new."""
        changes = sorted(it.entry for it in ops)
        if before is None or is_rotated:
            entries = sorted((dict(self.entries()) | dict(changes)).items())
            tree = built(nonce, (), entries)
            return tree, nodes_under(entries, tree, 0)
        tree = grown(before.tree, nonce, (), changes)
        return tree, nodes_under(changes, tree, 0) if changes else 0

    def entries(self) -> Iterator[tuple[bytes, bytes]]:
        """The entries of the latest epoch's tree."""
        return (it.operations[-1].entry for it in self.records.values())

    def install(self, members: dict[str, Json]) -> Answer:
        signed = member(members, "signature", signature)
        self.must_be_open()
        if self.pending is None:
            raise Fault("NotPrepared")
        update = self.pending
        entry = Entry(update.body + signed)
        check_named(members, "link", entry.link)
        self.pending = None
        self.version, self.nonce, self.latest = update.version, update.nonce, entry.epoch
        self.epochs[entry.epoch] = Epoch(entry, update.tree)
        self.nodes += update.nodes
        for operation in update.operations:
            self.indices[operation.name] = operation.index
            self.records.setdefault(operation.index, Record()).add(entry.epoch, operation)
        return answer_of_entry(entry, "install") | self.to_store(members, "link", entry.link)

    def withdraw(self, members: dict[str, Json]) -> Answer:
        self.must_be_open()
        if self.pending is None:
            raise Fault("NotPrepared")
        self.pending = None
        return {"ok": "withdraw"}

    def look_up(self, members: dict[str, Json]) -> Answer:
        number, name = self.epoch_and_name(members)
        index = member(members, "index", h32)
        epoch = self.epoch_requested(number, name)
        if self.indices.get(name.encode("utf-8"), index) != index:
            raise Fault("OtherIndex")
        siblings, found = path_to(epoch.tree, index)
        return answer_of_lookup(epoch.entry, name, index, siblings, self.end(number, index, found))

    def end(self, number: int, index: bytes, found: Entries) -> dict[str, str]:
        """The end of a path. A leaf of the index has the name registered with it, which may not be the one requested."""
        if not found or found[0][0] != index:
            return end_elsewhere(found)
        shown = self.records[index].at(number)
        return end_here(shown.name.decode("utf-8"), shown.key, shown.opening)

    def tell_bindings(self, members: dict[str, Json]) -> Answer:
        number = member(members, "epoch", whole_number)
        after = member(members, "after", h32) if "after" in members else None
        most = member(members, "most", page_size)
        self.must_be_open()
        if number not in self.epochs:
            raise Fault("UnknownEpoch")
        beyond = sorted(it for it in self.records if (after is None or it > after) and self.records[it].is_at(number))
        listed = [shown(self.records[it].at(number)) for it in beyond[:most]]
        return {"bindings": listed, "epoch": number, "more": len(beyond) > most, "ok": "bindings"}

    def begin_restore(self, members: dict[str, Json]) -> Answer:
        entry = Entry(member(members, "entry", read.entry))
        logged = is_logged(members)
        self.must_not_restore()
        if self.is_open:
            raise Fault("AlreadyOpen")
        if entry.epoch <= entry.epoch_before:
            raise Fault("NotLater")
        if entry.version not in (1, 2):
            raise Fault("Version")
        if is_malformed(entry):
            raise Fault("Malformed")
        self.restore, self.is_logged = Restore(entry), logged
        return {"ok": "restore"}

    def under_way(self) -> Restore:
        if self.restore is None:
            raise Fault("NotRestoring")
        return self.restore

    def restore_more(self, members: dict[str, Json]) -> Answer:
        bindings = bindings_of(member(members, "bindings", array))
        restore = self.under_way()
        if len(bindings) > MOST_OPERATIONS:
            raise Fault("BatchTooLong")
        restore.add(bindings)
        return {"names": len(restore.names), "ok": "restoring"}

    def end_restore(self, members: dict[str, Json]) -> Answer:
        restore, self.restore = self.under_way(), None
        entry, entries = restore.entry, restore.entries
        tree = built(entry.nonce, (), entries)
        if tree.hash != entry.root:
            raise Fault("RootDiffers")
        self.is_open = True
        self.version, self.nonce, self.policy, self.latest = entry.version, entry.nonce, entry.body[113:], entry.epoch
        self.epochs[entry.epoch] = Epoch(entry, tree)
        self.nodes = nodes_under(entries, tree, 0)
        for it in restore.bindings.values():
            self.indices[it.name] = it.index
            self.records.setdefault(it.index, Record()).add(entry.epoch, it)
        return answer_of_entry(entry, "restored")

    def tell_latest(self, members: dict[str, Json]) -> Answer:
        self.must_be_open()
        latest = self.epochs.get(self.latest)
        link = latest.entry.link if latest else ZEROS
        return {"epoch": self.latest, "link": link.hex(), "names": len(self.indices), "nodes": self.nodes, "ok": "latest"}
