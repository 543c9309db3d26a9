"""`provider --replay`: a log, or a snapshot and then its log, that is replayed line by line."""

from __future__ import annotations

from typing import Callable, Iterator, Optional

import members as read
from chain import Entry, check_next
from directory import Answer
from members import Fault, Wrong, array, bytes_in_digits, h32, member, read_object, whole_number
from strict_json import Json
from supplied import SuppliedDirectory, log_format

BODY_LENGTH, MOST_IN_LIST, SNAPSHOT = 145, 1000, 1

# What may follow each kind of line, and what may begin the input.
IN_LOG = {"open", "prepare", "install"}
AFTER: dict[Optional[str], set[str]] = {
    None: IN_LOG | {"snapshot"},
    "snapshot": {"entries"},
    "entries": {"entries", "replaced", "restore"},
    "replaced": {"replaced", "restore"},
    "restore": {"restoring", "restored"},
    "restoring": {"restoring", "restored"},
    "restored": IN_LOG | {"first"},
    "first": IN_LOG,
    **{kind: IN_LOG for kind in IN_LOG},
}
WITH_CMD = IN_LOG | {"restore", "restoring", "restored"}
WITHOUT_CMD = ("snapshot", "entries", "replaced", "first")


def kind_of(members: dict[str, Json]) -> Optional[str]:
    """The kind of a line: its `cmd`, or without one the first of these members that it has."""
    if "cmd" in members:
        command = members["cmd"]
        return command if isinstance(command, str) and command in WITH_CMD else None
    return next((name for name in WITHOUT_CMD if name in members), None)


def body(value: Json) -> bytes:
    return bytes_in_digits(value, BODY_LENGTH)


def from_one(value: Json) -> int:
    number = whole_number(value)
    if number == 0:
        raise Wrong
    return number


def list_of_some(value: Json) -> list[Json]:
    found = array(value)
    if not 1 <= len(found) <= MOST_IN_LIST:
        raise Wrong
    return found


def elements(members: dict[str, Json], name: str, one: Callable[[Json], bytes]) -> Iterator[bytes]:
    """The elements of a list, each of which is read once the ones before it are taken."""
    for it in member(members, name, list_of_some):
        try:
            yield one(it)
        except Wrong:
            raise Fault("Member", member=name)


def must_be(is_so: bool) -> None:
    if not is_so:
        raise Fault("Differs")


class Replay:
    """A directory, the snapshot so far, and the position of the next line of the log, once the input has come to it."""

    def __init__(self) -> None:
        self.directory = SuppliedDirectory()
        self.last: Optional[str] = None
        self.lines = 0
        self.refused: Optional[Answer] = None
        # The position of the snapshot and of the next line of the log.
        self.start = self.position = 0
        self.entries: list[Entry] = []
        self.replaced = self.bindings = 0

    def take(self, line: bytes) -> None:
        """Takes a line, unless an earlier one was refused."""
        if self.refused is None:
            try:
                self.take_next(line)
            except Fault as fault:
                self.refuse(fault)
        self.lines += 1

    def refuse(self, fault: Fault) -> None:
        self.refused = {"line": self.lines, "refused": fault.answer}

    def take_next(self, line: bytes) -> None:
        members = read_object(line)
        kind = kind_of(members)
        if kind is None or kind not in AFTER[self.last]:
            raise Fault("Order")
        takes = {
            "snapshot": self.begin,
            "entries": self.add_entries,
            "replaced": self.add_replaced,
            "restore": self.restore,
            "restoring": self.restore_more,
            "restored": self.end_restore,
            "first": self.skip,
        }
        if kind in takes:
            takes[kind](members)
        else:
            self.take_logged(kind, members)
        self.last = kind

    def send(self, kind: str, members: dict[str, Json]) -> None:
        """Has the directory take a line."""
        method: Callable[[dict[str, Json]], Answer] = getattr(self.directory, self.directory.COMMANDS[kind])
        method(members)

    def begin(self, members: dict[str, Json]) -> None:
        self.header = members
        must_be(member(members, "snapshot", whole_number) == SNAPSHOT)
        self.start = member(members, "position", whole_number)
        self.epochs = member(members, "epochs", whole_number)
        self.names = member(members, "names", whole_number)
        member(members, "nonce", h32)
        self.policy = member(members, "policy", h32)
        if "log" in members:
            member(members, "log", log_format)
        # What is left are the replaced bodies.
        self.bodies = self.start - (1 + 2 * self.epochs)
        must_be(self.bodies >= 0)

    def add_entries(self, members: dict[str, Json]) -> None:
        for entry in map(Entry, elements(members, "entries", read.entry)):
            try:
                check_next(entry, self.entries[-1] if self.entries else None)
            except Fault:
                raise Fault("Differs")
            must_be(entry.body[113:] == self.policy and len(self.entries) < self.epochs)
            self.entries.append(entry)

    def add_replaced(self, members: dict[str, Json]) -> None:
        for _ in elements(members, "replaced", body):
            must_be(self.replaced < self.bodies)
            self.replaced += 1

    def restore(self, members: dict[str, Json]) -> None:
        entry = member(members, "entry", read.entry)
        must_be(len(self.entries) == self.epochs and self.replaced == self.bodies)
        must_be(entry == self.entries[-1].whole)
        rules = {"log": self.header["log"]} if "log" in self.header else {}
        self.send("restore", {"entry": members["entry"], **rules})

    def restore_more(self, members: dict[str, Json]) -> None:
        self.send("restoring", members)
        self.bindings += len(array(members["bindings"]))

    def end_restore(self, members: dict[str, Json]) -> None:
        link = member(members, "link", h32)
        self.send("restored", members)
        must_be(link == self.entries[-1].link and self.bindings == self.names)

    def skip(self, members: dict[str, Json]) -> None:
        """Begins the log at a later position than 0."""
        first = member(members, "first", from_one)
        must_be(first <= self.start)
        self.position = first

    def take_logged(self, kind: str, members: dict[str, Json]) -> None:
        if self.position >= self.start:
            self.replay(kind, members)
        elif self.position == self.start - 1:
            must_be(member(members, "link", h32) == self.entries[-1].link)
        self.position += 1

    def replay(self, kind: str, members: dict[str, Json]) -> None:
        if kind == "prepare":
            member(members, "body", body)
        elif kind == "install":
            member(members, "link", h32)
        self.send(kind, members)

    def end(self) -> Answer:
        is_in_log = self.last in IN_LOG or self.last in ("restored", "first")
        if self.refused is None and (not is_in_log or self.position < self.start):
            self.refuse(Fault("Ended"))
        if self.refused is not None:
            return self.refused
        pending = self.directory.pending
        answer = self.directory.tell_latest({}) | {"ok": "replay", "position": self.position}
        return answer | ({"pending": pending.body.hex()} if pending else {})
