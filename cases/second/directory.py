"""`keydir run`: the directory, with the registry of each epoch kept whole; and the parts that `provider` shares."""

from __future__ import annotations

import base64
from typing import Any, Callable, ClassVar, Container, Generic, Optional, TypeVar

from bytelists import LONGEST_KEY, LONGEST_NAME, commitment, demonstration_index, demonstration_seal
from chain import Entry, body_after
from members import Fault, Wrong, array, b64, h32, member, object_in, read_object, text, texts_bytes, whole_number
from strict_json import Json
from tree import Entries, node, path

MOST_OPERATIONS = 4096

Answer = dict[str, object]

# The key and the opening of each name.
Registry = dict[bytes, tuple[bytes, bytes]]


class Operation:
    def __init__(self, value: Json) -> None:
        members = object_in(value)
        self.key = b64(members.get("key"))
        self.name = texts_bytes(members.get("name"))
        self.op = text(members.get("op"))
        self.opening = h32(members.get("opening"))
        if self.op not in ("register", "change"):
            raise Wrong


KindOfOperation = TypeVar("KindOfOperation", bound=Operation)
KindOfEpoch = TypeVar("KindOfEpoch")


def operations(elements: list[Json], kind: Callable[[Json], KindOfOperation]) -> list[KindOfOperation]:
    found = []
    for position, element in enumerate(elements):
        try:
            found.append(kind(element))
        except Wrong:
            raise Fault("Member", member="ops", position=position)
    return found


def wrong_length(name: bytes, key: bytes) -> Optional[str]:
    """The fault of a name or a key that is empty or too long, or None."""
    if not 1 <= len(name) <= LONGEST_NAME:
        return "NameLength"
    return None if 1 <= len(key) <= LONGEST_KEY else "KeyLength"


def fault_of(operation: Operation, earlier: Container[bytes], registered: Container[bytes]) -> Optional[str]:
    """The first fault of an operation after the names of the earlier ones, or None."""
    if fault := wrong_length(operation.name, operation.key):
        return fault
    if operation.name in earlier:
        return "NameTwice"
    if operation.op == "register" and operation.name in registered:
        return "NameTaken"
    if operation.op == "change" and operation.name not in registered:
        return "NameUnknown"
    return None


class Lines(Generic[KindOfOperation, KindOfEpoch]):
    """A directory that replies to lines.

    Each kind of directory has COMMANDS, the name of its method for each command, MOST_EPOCHS, and OPERATION, the class of its
    operations.
    """

    COMMANDS: ClassVar[dict[str, str]]
    MOST_EPOCHS: ClassVar[Optional[int]]
    OPERATION: Callable[[Json], KindOfOperation]

    def __init__(self) -> None:
        self.is_open = False
        self.epochs: dict[int, KindOfEpoch] = {}
        self.latest = 0

    def answer(self, line: bytes) -> Answer:
        members = read_object(line)
        command = members.get("cmd")
        if not isinstance(command, str) or command not in self.COMMANDS:
            raise Fault("Command")
        method: Callable[[dict[str, Json]], Answer] = getattr(self, self.COMMANDS[command])
        return method(members)

    def be_open(self, nonce: bytes, policy: bytes) -> Answer:
        if self.is_open:
            raise Fault("AlreadyOpen")
        self.is_open = True
        self.version, self.nonce, self.policy = 1, nonce, policy
        return {"ok": "open"}

    def must_be_open(self) -> None:
        if not self.is_open:
            raise Fault("NotOpen")

    def read_batch(self, members: dict[str, Json]) -> tuple[int, Optional[bytes], list[KindOfOperation]]:
        """A batch's epoch, its nonce or None, and its operations."""
        number = member(members, "epoch", whole_number)
        nonce = member(members, "nonce", h32) if "nonce" in members else None
        return number, nonce, operations(member(members, "ops", array), self.OPERATION)

    def judge_batch(self, ops: list[KindOfOperation], registered: Container[bytes]) -> dict[bytes, KindOfOperation]:
        """Refuses a batch that has a fault over the registered names. Returns its operations by their names."""
        if len(ops) > MOST_OPERATIONS:
            raise Fault("BatchTooLong")
        earlier: dict[bytes, KindOfOperation] = {}
        for position, operation in enumerate(ops):
            fault = self.fault_of(operation, earlier, registered)
            if fault:
                raise Fault(fault, position=position)
            earlier[operation.name] = operation
        return earlier

    def fault_of(self, operation: KindOfOperation, earlier: Container[bytes], registered: Container[bytes]) -> Optional[str]:
        return fault_of(operation, earlier, registered)

    def must_be_next(self, number: int) -> None:
        if number <= self.latest:
            raise Fault("EpochNotLater", latest=self.latest)
        if len(self.epochs) == self.MOST_EPOCHS:
            raise Fault("BoardFull")

    def epoch_and_name(self, members: dict[str, Json]) -> tuple[int, str]:
        """The number of the epoch and the name that a lookup asks for."""
        return member(members, "epoch", whole_number), member(members, "name", text)

    def epoch_requested(self, number: int, name: str) -> KindOfEpoch:
        self.must_be_open()
        epoch = self.epochs.get(number)
        if epoch is None:
            raise Fault("UnknownEpoch")
        if not 1 <= len(name.encode("utf-8")) <= LONGEST_NAME:
            raise Fault("NameLength")
        return epoch


def answer_of_entry(entry: Entry, ok: str) -> Answer:
    """The reply to a line that adds an entry to the chain."""
    return {"entry": entry.whole.hex(), "epoch": entry.epoch, "link": entry.link.hex(), "ok": ok, "root": entry.root.hex()}


def answer_of_lookup(entry: Entry, name: str, index: bytes, siblings: list[bytes], end: dict[str, str]) -> Answer:
    answer: Answer = {"entry": entry.whole.hex(), "epoch": entry.epoch, "index": index.hex(), "name": name, "ok": "lookup"}
    answer |= {"nonce": entry.nonce.hex(), "root": entry.root.hex()}
    return answer | {"proof": {"end": end, "siblings": [sibling.hex() for sibling in siblings]}}


def end_elsewhere(found: Entries) -> dict[str, str]:
    """The end of a path that has no leaf of the index, over the entries there: that of another index, or none."""
    if not found:
        return {"kind": "empty"}
    [(index, committed)] = found
    return {"commitment": committed.hex(), "index": index.hex(), "kind": "other"}


def end_here(name: str, key: bytes, opening: bytes) -> dict[str, str]:
    return {"key": base64.b64encode(key).decode(), "kind": "here", "name": name, "opening": opening.hex()}


class Epoch:
    """An entry, the registry at it, and its tree, whose type depends on the kind of directory."""

    def __init__(self, entry: Entry, registry: Registry, tree: Any) -> None:
        self.entry = entry
        self.registry = registry
        self.tree = tree


class Directory(Lines[Operation, Epoch]):
    COMMANDS = {"open": "open", "batch": "batch", "lookup": "look_up"}
    MOST_EPOCHS = 1024
    OPERATION = Operation

    def open(self, members: dict[str, Json]) -> Answer:
        key = member(members, "key", h32)
        nonce = member(members, "nonce", h32)
        policy = member(members, "policy", h32)
        answer = self.be_open(nonce, policy)
        self.key = key
        return answer

    def batch(self, members: dict[str, Json]) -> Answer:
        number, nonce, ops = self.read_batch(members)
        self.must_be_open()
        before = self.epochs.get(self.latest)
        registry = before.registry if before else {}
        changed = {name: (it.key, it.opening) for name, it in self.judge_batch(ops, registry).items()}
        registry = {**registry, **changed}
        self.must_be_next(number)
        if nonce is not None:
            self.version, self.nonce = 2, nonce
        tree = self.tree_after(before, registry, changed, nonce is not None)
        entry = self.entry_of(before, number, self.root(tree))
        self.epochs[number] = Epoch(entry, registry, tree)
        self.latest = number
        return answer_of_entry(entry, "batch")

    def entry_of(self, before: Optional[Epoch], number: int, root: bytes) -> Entry:
        body = body_after(before.entry if before else None, self.version, number, root, self.nonce, self.policy)
        return Entry(body + demonstration_seal(self.key, body))

    def tree_after(self, before: Optional[Epoch], registry: Registry, changed: Registry, is_rotated: bool) -> Any:
        """An epoch's tree: here all entries of its registry."""
        return self.entries(registry)

    def root(self, tree: Any) -> bytes:
        return node(self.nonce, (), tree)

    def path(self, epoch: Epoch, index: bytes) -> tuple[list[bytes], Entries]:
        return path(epoch.entry.nonce, (), epoch.tree, index)

    def entries(self, registry: Registry) -> Entries:
        """The entries of a registry's tree, sorted by their indices."""
        return sorted(
            (demonstration_index(self.key, name), commitment(opening, name, key)) for name, (key, opening) in registry.items()
        )

    def look_up(self, members: dict[str, Json]) -> Answer:
        number, name = self.epoch_and_name(members)
        epoch = self.epoch_requested(number, name)
        index = demonstration_index(self.key, name.encode("utf-8"))
        siblings, found = self.path(epoch, index)
        if found and found[0][0] == index:
            end = end_here(name, *epoch.registry[name.encode("utf-8")])
        else:
            end = end_elsewhere(found)
        return answer_of_lookup(epoch.entry, name, index, siblings, end)
