"""A child that is restored from the lines of a snapshot, which are compared with each other and with what it prints."""

from __future__ import annotations

from hashlib import sha256
from typing import TYPE_CHECKING, Any, Iterable, Mapping, Optional

from . import BODY_LENGTH, ENTRY_LENGTH
from ._layout import body_of, epoch_before, epoch_of, link_before, nonce_of, policy_of, signature_of, version_of
from ._lines import Epoch, digits, encoded, has_digits, latest_of, members_of, number
from ._snapshot_lines import FORMAT, GROUP, OPENING, Point, refused
from .faults import Command, Fault, LogFailed, ProgramFailed, ProviderError, SnapshotDiffers

if TYPE_CHECKING:
    from ._engine import Engine

_LINK = b"\x53"  # what the preimage of a link begins with
_BATCH = 4096  # for how many names at a time the program may take its timeout
# What may follow each kind of line.
_AFTER: Mapping[Optional[str], set[str]] = {
    None: {"snapshot"},
    "snapshot": {"entries"},
    "entries": {"entries", "replaced", "restore"},
    "replaced": {"replaced", "restore"},
    "restore": {"restoring", "restored"},
    "restoring": {"restoring", "restored"},
    "restored": set(),
}
# The kinds of lines that have no `cmd`.
_PARTS = ("snapshot", "entries", "replaced")


class _Wrong(ProviderError):
    """A line isn't as docs/STORED.md defines it."""


def link_of(entry: bytes) -> bytes:
    """The link of an entry, which the next one contains."""
    return sha256(_LINK + entry).digest()


class Restoring:
    """Takes the lines of a snapshot, one after another. An engine is restored once it has taken the last one."""

    def __init__(self, engine: Engine, position: int):
        self._engine, self._position = engine, position
        self._last: Optional[str] = None
        self._header: Mapping[str, Any] = {}
        self._chain: list[bytes] = []
        self._replaced: list[bytes] = []
        self._epochs, self._names, self._counted = 0, 0, 0

    def take_all(self, lines: Iterable[bytes]) -> None:
        for line in lines:
            self.take(line)
        if self._last != "restored":
            raise self._refused("is cut")

    def take(self, line: bytes) -> None:
        """Takes the next line."""
        try:
            self._take(line)
        except _Wrong as error:
            raise self._refused(f"has a line that can't be read: {error}") from None

    def _take(self, line: bytes) -> None:
        reply = members_of(line, _Wrong, "it")
        kind = reply["cmd"] if "cmd" in reply else next((it for it in _PARTS if it in reply), None)
        if not isinstance(kind, str) or kind not in _AFTER[self._last] or ("cmd" in reply and kind in _PARTS):
            raise self._refused("has a line that doesn't follow the one before it")
        take = {"snapshot": self._begin, "entries": self._add_entries, "replaced": self._add_replaced}.get(kind)
        if take:
            take(reply)
        else:
            self._ask(kind, line, reply)
        self._last = kind

    def _refused(self, what: str) -> SnapshotDiffers:
        return refused(self._engine.log, what)

    def _begin(self, reply: Mapping[str, Any]) -> None:
        self._header = reply
        if type(reply["snapshot"]) is not int or reply["snapshot"] != FORMAT:
            raise SnapshotDiffers(
                f"the snapshot of {self._engine.log} has a format that this version doesn't read: "
                "use the version that wrote it, or a later one"
            )
        position, self._epochs, self._names = (number(reply, it, _Wrong) for it in ("position", "epochs", "names"))
        if position != self._position:
            raise self._refused("has another position than the log says")
        self._policy = digits(reply, "policy", 32, _Wrong)
        self._engine.compare_opening({it: reply[it] for it in OPENING if it in reply})

    def _add_entries(self, reply: Mapping[str, Any]) -> None:
        for entry in self._listed(reply, "entries", ENTRY_LENGTH):
            before = self._chain[-1] if self._chain else None
            if not is_next(entry, before) or policy_of(entry) != self._policy:
                raise self._refused(f"has an entry that doesn't follow the one before it, number {len(self._chain)}")
            self._chain.append(entry)

    def _add_replaced(self, reply: Mapping[str, Any]) -> None:
        self._replaced += self._listed(reply, "replaced", BODY_LENGTH)

    def _listed(self, reply: Mapping[str, Any], member: str, size: int) -> list[bytes]:
        """The values of a member that is a list of digits."""
        found = reply[member]
        if not isinstance(found, list) or not 1 <= len(found) <= GROUP:
            raise self._refused(f"has a line whose member {member} is no list of 1 to {GROUP}")
        return [digits({member: it}, member, size, _Wrong) for it in found]

    def _ask(self, kind: str, line: bytes, reply: Mapping[str, Any]) -> None:
        """Has the child take a line that is one of its own."""
        if kind == "restore":
            self._check_entry(reply)
            # The rules of the log hold for the lines after it.
            line = encoded({**reply, "log": self._header["log"]}) if "log" in self._header else line
        try:
            # The tree is built for all names at once.
            reported = self._engine.ask(line, 1 + self._counted // _BATCH if kind == "restored" else 1)
        except Command as fault:
            raise ProgramFailed("the program knows no snapshots: use the one of this version") from fault
        except Fault as fault:
            raise self._refused(f"has a line that the program refuses, {kind}: {fault}") from fault
        if kind == "restoring":
            bindings = reply["bindings"]
            self._counted += len(bindings)
            self._engine.sample(bindings)
            if number(reported, "names") != self._counted:
                raise ProgramFailed("the program counts other names than it was given: look which program it is")
        elif kind == "restored":
            self._finish(reply, reported)

    def _check_entry(self, reply: Mapping[str, Any]) -> None:
        """Checks the entry to restore, the position after it, and its signature."""
        entry, verify = self._chain[-1], self._engine.verify
        if len(self._chain) != self._epochs or not has_digits(reply, "entry", entry):
            raise self._refused("doesn't restore its last entry, or has another number of entries than its header")
        # The lines below are `open`, a `prepare` for each entry and each replaced body, and an `install` for each entry.
        if self._position != 1 + 2 * len(self._chain) + len(self._replaced):
            raise self._refused("has a position that isn't the one of its entries and replaced bodies")
        if verify is None:
            return
        try:
            is_valid = verify(body_of(entry), signature_of(entry))
        except Exception as error:
            raise LogFailed(f"verify failed for the entry of the snapshot: {error}. Repair it, and start again") from error
        if is_valid is not True:
            raise self._refused("has an entry whose signature isn't valid")

    def _finish(self, reply: Mapping[str, Any], reported: Mapping[str, Any]) -> None:
        root, link, entry = (digits(reported, it, size) for it, size in [("root", 32), ("link", 32), ("entry", ENTRY_LENGTH)])
        epoch = Epoch(number(reported, "epoch"), root, link, entry)
        if entry != self._chain[-1] or link != link_of(entry):
            raise ProgramFailed("the program has restored another entry than it was given: look which program it is")
        if not has_digits(reply, "link", link) or self._counted != self._names:
            raise self._refused("has another link, or another number of names than its header")
        size = latest_of(self._engine.ask(b'{"cmd":"latest"}'))
        if (size.epoch, size.link, size.names) != (epoch.epoch, link, self._names):
            raise ProgramFailed("the program has another epoch than it has restored: look which program it is")
        point = Point(epoch.epoch, self._position, self._names, len(self._replaced))
        self._engine.restored(epoch, size, point, self._chain, self._replaced)


def is_next(entry: bytes, before: Optional[bytes]) -> bool:
    """Whether an entry continues a chain by its version, epochs, link and nonce. `before` is None for the first one."""
    epoch, link = (epoch_of(before), link_of(before)) if before else (0, bytes(32))
    is_later = epoch_of(entry) > epoch_before(entry) == epoch and link_before(entry) == link
    version = version_of(entry)
    if before is None:
        return is_later and version in (1, 2)
    return is_later and version_of(before) <= version <= 2 and (version == 2 or nonce_of(entry) == nonce_of(before))
