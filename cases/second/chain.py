"""Entries, and `keydir audit` and `keydir monitor`, which compare each with the last one that was accepted."""

from __future__ import annotations

from typing import Optional

import members
from bytelists import ZEROS, demonstration_index, demonstration_seal, link, number
from members import Fault, b64, member, read_object
from proofs import Proof, judge
from strict_json import Json


class Entry:
    """An entry of 209 bytes, by its parts."""

    def __init__(self, whole: bytes) -> None:
        self.whole = whole
        self.body = whole[:145]
        self.version = whole[0]
        self.epoch = int.from_bytes(whole[1:9], "big")
        self.epoch_before = int.from_bytes(whole[9:17], "big")
        self.root = whole[17:49]
        self.previous_link = whole[49:81]
        self.nonce = whole[81:113]
        self.signature = whole[145:]

    @property
    def link(self) -> bytes:
        return link(self.whole)


def body_after(before: Optional[Entry], version: int, epoch: int, root: bytes, nonce: bytes, policy: bytes) -> bytes:
    """The body of an entry that follows another one, or is the first."""
    body = number(version, 1) + number(epoch, 8) + number(before.epoch if before else 0, 8) + root
    return body + (before.link if before else ZEROS) + nonce + policy


def check_next(entry: Entry, before: Optional[Entry]) -> None:
    """Refuses an entry that doesn't follow the one before it, or none, whatever its signature is."""
    if entry.version not in (1, 2):
        raise Fault("Version")
    if before is not None and entry.version < before.version:
        raise Fault("VersionBack")
    if before is None and entry.epoch == 0:
        raise Fault("FirstEpoch")
    if before is not None and entry.epoch <= before.epoch:
        raise Fault("NotLater")
    if entry.epoch_before != (before.epoch if before else 0):
        raise Fault("PreviousEpoch")
    if entry.previous_link != (before.link if before else ZEROS):
        raise Fault("PreviousLink")
    if before is not None and entry.version == 1 and entry.nonce != before.nonce:
        raise Fault("NonceChanged")


def audit(entry: Entry, before: Optional[Entry], key: bytes) -> None:
    """Refuses an entry that doesn't follow the one before it, or none."""
    check_next(entry, before)
    if entry.signature != demonstration_seal(key, entry.body):
        raise Fault("Verdict")


class Auditor:
    def __init__(self, key: bytes) -> None:
        self.key = key
        self.before: Optional[Entry] = None

    def answer(self, line: bytes) -> dict[str, object]:
        entry = Entry(member(read_object(line), "entry", members.entry))
        audit(entry, self.before, self.key)
        self.before = entry
        return {"epoch": entry.epoch, "link": link(entry.whole).hex(), "ok": "audit"}


def key_or_null(value: Json) -> Optional[bytes]:
    return None if value is None else b64(value)


class Monitor:
    def __init__(self, key: bytes, name: bytes, expected: Optional[bytes]) -> None:
        self.key = key
        self.name = name
        self.index = demonstration_index(key, name)
        self.expected = expected
        self.before: Optional[Entry] = None

    def answer(self, line: bytes) -> dict[str, object]:
        found = read_object(line)
        if found.get("cmd") == "expect":
            return self.expect(found)
        entry = Entry(member(found, "entry", members.entry))
        proof = member(found, "proof", Proof)
        audit(entry, self.before, self.key)
        shown = judge(proof, self.index, self.name, entry.nonce, entry.root)
        self.before = entry
        return {"epoch": entry.epoch, "ok": "monitor", "seen": self.seen(shown)}

    def expect(self, found: dict[str, Json]) -> dict[str, object]:
        if "key" not in found:
            raise Fault("Member", member="key")
        self.expected = member(found, "key", key_or_null)
        return {"ok": "expect"}

    def seen(self, shown: Optional[bytes]) -> str:
        if shown == self.expected:
            return "same"
        return "absent" if shown is None else "changed"
