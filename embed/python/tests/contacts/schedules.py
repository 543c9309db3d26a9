"""Random schedules of a hostile service: it withholds, replays, cuts, forks, refuses, and replaces keys. What it, the auditors and the
clients do is in a transcript, and `unjustified` says from that alone which status 0 is wrong."""

from __future__ import annotations

import base64
import json
import random
from dataclasses import dataclass, field
from typing import Any, Callable, Mapping, Optional, Sequence

import client_world
from client_world import FIRST, PERIOD, START, World
from directories import VOUCHED, Directory, Reply, vouched_world
from nacl.signing import SigningKey
from coniks import Head, Policy
from coniks.notes import Auditor, Note, cosign, quorum, text_of

POLICY = Policy.read(VOUCHED.encode())
KEYS = [SigningKey(bytes([number] * 32)) for number in range(4)]
AUDITORS = [Auditor(f"auditor{number}", bytes(key.verify_key)) for number, key in enumerate(KEYS)]
# The name of the user, and those that the user's friend looks up.
OWN, CONTACTS = "dave", ["dave", "alice"]


@dataclass(frozen=True)
class Run:
    """A command of the user or of the friend, with the time, its status, and the lines that it printed."""

    is_user: bool
    words: Sequence[str]
    seconds: int
    status: int
    lines: Sequence[Mapping[str, Any]]


@dataclass
class Transcript:
    """What was done: the worlds of the directory, the heads that auditors cosigned, the replies that were sent whole, by entry and
    name, those of the present run, the records that the user sent, and the runs."""

    worlds: list[World]
    least: int
    cosigned: set[tuple[str, int, bytes]] = field(default_factory=set)
    sent: set[tuple[bytes, str]] = field(default_factory=set)
    sent_now: set[tuple[bytes, str]] = field(default_factory=set)
    records: list[bytes] = field(default_factory=list)
    runs: list[Run] = field(default_factory=list)

    def value(self, world: World, name: str, epoch: int) -> Optional[bytes]:
        """The bytes of a name at an epoch."""
        found = world.epochs[epoch].names.get(client_world.index(name))
        return found[2] if found else None


def unjustified(it: Transcript, run: Run) -> Optional[str]:
    """Why a run should not have had status 0, None if it should, or has another status. Each own name must have been verified at each
    promised epoch with its own key, and each contact's key must be of an epoch that a quorum confirms."""
    if run.status != 0:
        return None
    for line in run.lines:
        if "your key" in line["text"]:
            if not any(is_own(it, world, line, run) for world in it.worlds):
                return f"the own key at {line['epochs']}"
        elif line.get("key") is not None:
            is_well = is_users if run.is_user and it.records and line["name"] == OWN else is_confirmed
            if not any(is_well(it, world, line, run) for world in it.worlds):
                return f"the key of {line['name']} at {line['epoch']}"
    if run.words[0] in ("watch", "register") and not any("your key" in line["text"] for line in run.lines):
        return "no own key was told"
    return None


def is_users(it: Transcript, world: World, line: Mapping[str, Any], run: Run) -> bool:
    """Whether a world shows a record of the user at an epoch."""
    value = it.value(world, OWN, line["epoch"]) if line["epoch"] in world.epochs else None
    return value in it.records and value is not None and shown_key(value) == line["key"]


def is_confirmed(it: Transcript, world: World, line: Mapping[str, Any], run: Run) -> bool:
    """Whether a world shows a contact's key at an epoch that isn't old, and auditors enough cosigned that epoch or a later one of it."""
    epoch = line["epoch"]
    if epoch not in world.epochs or START + epoch * PERIOD < run.seconds - 3 * PERIOD:
        return False
    value = it.value(world, line["name"], epoch)
    confirming = {name for name, at, link in it.cosigned if at >= epoch and at in world.epochs and world.link(at) == link}
    return value is not None and shown_key(value) == line["key"] and len(confirming) >= it.least


def is_own(it: Transcript, world: World, line: Mapping[str, Any], run: Run) -> bool:
    """Whether a world shows the user's records, in their order, at each epoch from the first one on, each was sent whole, and none of
    a later epoch was sent in this run."""
    last = max(line["epochs"])
    if any((world[at], OWN) in it.sent_now for at in world.epochs if at > last):
        return False
    values = {at: it.value(world, OWN, at) for at in world.epochs if at <= last}
    begun = [at for at, value in values.items() if value in it.records]
    if last not in world.epochs or not begun or START + last * PERIOD < run.seconds - 2 * PERIOD:
        return False
    later = {at: value for at, value in values.items() if at >= begun[0]}
    places = [it.records.index(value) if value in it.records else -1 for value in later.values()]
    return -1 not in places and places == sorted(places) and all((world[at], OWN) in it.sent for at in later)


def shown_key(value: bytes) -> str:
    return (value[160:] if value.startswith(b"vouched1") else value).decode()


class Service(Directory):
    """A service that shows one of two worlds. How often it lies is drawn for each schedule, and set to nothing for quiet steps."""

    def __init__(self, draw: random.Random, transcript: Transcript):
        super().__init__([(1, dict(FIRST))])
        self._draw, self._transcript, self.lying = draw, transcript, draw.choice([0.0, 0.05, 0.2, 0.5])
        self.shown, self._before = 0, dict[str, list[Reply]]()
        # The operations that wait for an epoch, and what notes the service may carry.
        self.waiting: list[dict[str, Any]] = []
        self.notes: list[bytes] = []

    @property
    def newest(self) -> World:
        return self._transcript.worlds[self.shown]

    def honest(self, path: str, query: Mapping[str, str], body: bytes) -> Reply:
        if path == "/v1/operations":
            return self._operated(json.loads(body))
        found = self._lied(path, query) if self._draw.random() < self.lying else self._shown(path, query, self.newest)
        self._before.setdefault(path, []).append(found)
        return found

    def _lied(self, path: str, query: Mapping[str, str]) -> Reply:
        """Something else than what the service should send."""
        other = self._draw.choice(self._transcript.worlds)
        lies: list[Callable[[], Reply]] = [
            lambda: Reply(b"", self._draw.choice([400, 403, 404, 429, 500, 503])),
            lambda: Reply(b""),
            lambda: self._draw.choice(self._before.get(path, [Reply(b"")])),
            lambda: self._shown(path, query, other),
            lambda: Reply(self._shown(path, query, other, False).body[: -self._draw.randrange(1, 300)]),
            lambda: self._older(path, query),
        ]
        return self._draw.choice(lies)()

    def _older(self, path: str, query: Mapping[str, str]) -> Reply:
        """What is right for an earlier epoch."""
        epoch = self._draw.choice(list(self.newest.epochs))
        more = {"/v1/lookup": {"epoch": str(epoch)}, "/v1/history": {"last": str(epoch)}}.get(path, {})
        return self._shown(path, {**query, **more}, self.newest)

    def _shown(self, path: str, query: Mapping[str, str], world: World, is_whole: bool = True) -> Reply:
        """What a world has."""
        if path == "/v1/entries":
            return Reply(b"".join(world[it] for it in world.epochs if it > int(query["after"])))
        if path == "/v1/note":
            return Reply(self._draw.choice(self.notes)) if self.notes else Reply(b"", 404)
        if path == "/v1/lookup":
            epoch = int(query.get("epoch", max(world.epochs)))
            if epoch not in world.epochs:
                return Reply(b"", 404)
            self._note(is_whole, world, query["name"], epoch)
            return Reply(world.reply(query["name"], epoch))
        epochs = [it for it in world.epochs if int(query["first"]) <= it <= int(query["last"])]
        self._note(is_whole, world, query["name"], *epochs)
        return Reply(world.history(query["name"], *epochs))

    def _note(self, is_whole: bool, world: World, name: str, *epochs: int) -> None:
        """Notes what is sent whole."""
        found = {(world[it], name) for it in epochs} if is_whole else set()
        self._transcript.sent |= found
        self._transcript.sent_now |= found

    def _operated(self, operation: dict[str, Any]) -> Reply:
        """Takes an operation, or refuses it, whatever becomes of it."""
        record = base64.b64decode(operation["key"])
        if record not in self._transcript.records:
            self._transcript.records.append(record)
        if self._draw.random() < max(self.lying, 0.1):
            return Reply(b"{}", self._draw.choice([400, 403, 409, 500, 503]))
        if operation not in self.waiting:
            self.waiting.append(operation)
        return Reply(b'{"state":"stored"}')


class Cosigner(Directory):
    """An auditor, which follows one world: a faulty one cosigns whatever it is asked for."""

    def __init__(self, number: int, transcript: Transcript):
        super().__init__([(1, dict(FIRST))])
        self.number, self._transcript, self.follows = number, transcript, 0
        self.is_silent = False
        self.pair = (self.url, str(AUDITORS[number]))

    def cosign(self, seconds: int, behind: int = 0) -> bytes:
        """Cosigns the latest head of its world, or one that is so many epochs behind."""
        world = self._transcript.worlds[self.follows]
        epoch = list(world.epochs)[max(0, len(world.epochs) - 1 - behind)]
        head = Head(epoch, world.link(epoch))
        self._transcript.cosigned.add((AUDITORS[self.number].name, epoch, head.link))
        text = text_of(POLICY, head)
        self.note = bytes(Note(text, (cosign(AUDITORS[self.number].name, KEYS[self.number], text, seconds),)))
        return self.note

    def honest(self, path: str, query: Mapping[str, str], body: bytes) -> Reply:
        if self.is_silent:
            return Reply(b"", 503)
        if path == "/v1/entries":
            world = self._transcript.worlds[self.follows]
            return Reply(b"".join(world[it] for it in world.epochs if it > int(query["after"])))
        return Reply(self.note) if path == "/v1/note" and self.note else Reply(b"", 404)


class Schedule:
    """A directory with its auditors, whose epochs, keys, forks and lies are drawn."""

    def __init__(self, seed: int):
        self.draw = random.Random(seed)
        faulty, count = self.draw.choice([(0, 2), (0, 3), (1, 4)])
        self.faulty, self.batches = faulty, [[(1, dict(FIRST))]]
        # How often an epoch replaces a key, also of a service that withholds nothing.
        self.replacing = self.draw.choice([0.0, 0.1, 0.3])
        self.transcript = Transcript([vouched_world(self.batches[0])], quorum(count, faulty))
        self.service = Service(self.draw, self.transcript)
        self.auditors = [Cosigner(number, self.transcript) for number in range(count)]
        self.seconds = client_world.hour(1)
        self._cosign()

    def close(self) -> None:
        for it in [self.service, *self.auditors]:
            it.__exit__()

    def step(self) -> None:
        """An epoch, or a few, with what the directory does in them."""
        self.seconds += self.draw.choice([0, 600, PERIOD, PERIOD, PERIOD, 2 * PERIOD])
        epoch = POLICY.epoch_at(self.seconds)
        if len(self.batches) == 1 and self.draw.random() < self.service.lying / 2:
            self._fork()
        for number, batches in enumerate(self.batches):
            if epoch > batches[-1][0]:
                batches.append((epoch, self._drawn(number)))
                self.transcript.worlds[number] = vouched_world(batches)
        self.service.shown = self.draw.randrange(len(self.batches))
        self._cosign()

    def _fork(self) -> None:
        """Parts the chain: from now on each auditor is shown one of both."""
        self.batches.append([*self.batches[0][:-1], (self.batches[0][-1][0], {"carol": b"of the fork"})])
        self.transcript.worlds.append(vouched_world(self.batches[1]))
        for it in self.auditors:
            it.follows = self.draw.randrange(2)

    def _drawn(self, number: int) -> dict[str, bytes]:
        """The keys of an epoch: those that were requested, or others."""
        batch = dict[str, bytes]()
        if number == self.service.shown or self.draw.random() < 0.5:
            taken, self.service.waiting = self.service.waiting, []
            batch |= {it["name"]: base64.b64decode(it["key"]) for it in taken}
        if self.draw.random() < self.replacing:
            batch[self.draw.choice(CONTACTS)] = b"key of mallory"
        records = self.transcript.records
        if records and self.draw.random() < self.replacing:
            batch[OWN] = self.draw.choice(records)
        return batch

    def _cosign(self) -> None:
        """The auditors cosign, the faulty ones anything. The service may carry any of their notes together."""
        notes = []
        for number, it in enumerate(self.auditors):
            it.is_silent = self.draw.random() < 0.1
            if number < self.faulty:
                it.follows = self.draw.randrange(len(self.batches))
            if self.draw.random() < 0.9:
                notes.append(it.cosign(self.seconds, self.draw.choice([0, 0, 0, 1, 2])))
        texts = dict[str, list[str]]()
        for note in notes:
            text, line = note.decode().rsplit("\n\n", 1)
            texts.setdefault(text + "\n", []).append(line.rstrip("\n"))
        self.service.notes += [bytes(Note(text, tuple(lines))) for text, lines in texts.items()]
