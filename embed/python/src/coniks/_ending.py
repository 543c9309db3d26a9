"""The succession that ends an auditor's directory, and the directory that it goes on from."""

from __future__ import annotations

import re
from contextlib import suppress
from pathlib import Path
from typing import Optional

from . import ENTRY_LENGTH, Policy, link
from ._files import rewrite
from ._layout import nonce_of, root_of
from ._telling import Unusable, Verdict
from .client import entries_of
from .notes import Auditor, BadNote, Note, read_succession
from .succession import Succession, convicts

# The files of an auditor's folder: the succession, its note, the policy document, and the note of each succession before.
_TEXT, NOTE, _POLICY, _BEFORE = "succession", "succession.note", "policy", re.compile("succession[.][0-9a-f]{64}")


def stored_at(path: Path) -> bytes:
    """What a file has, nothing if it isn't there."""
    with suppress(FileNotFoundError):
        return path.read_bytes()
    return b""


def succession_at(folder: Path, policy: str) -> bytes:
    """The note of the succession that ended a policy, of which a folder serves its own directory's and those before."""
    note = stored_at(folder / NOTE)
    return note if f"\npolicy {policy}\n".encode() in note[:100] else stored_at(folder / f"succession.{policy}")


class Ending:
    """The succession of an auditor's directory: the first one that was shown and is signed, and the note in which this auditor cosigned
    it. The note is beside the key too, so that another folder cosigns no other one."""

    def __init__(self, folder: Path, policy: Policy, beside: Path):
        self._folder, self._policy, self._beside = folder, policy, beside
        if policy_text := stored_at(folder / _POLICY):
            if policy_text != bytes(policy):
                raise Unusable(Verdict.AUDIT_OTHER, folder=folder)
        else:
            rewrite(folder / _POLICY, bytes(policy))
        notes = [it for it in map(stored_at, (beside, folder / NOTE)) if it]
        found = [self._read(it) for it in [*notes, stored_at(folder / _TEXT)] if it]
        if len(set(found)) > 1:
            raise Unusable(Verdict.AUDIT_SUCCESSION_CHANGED, folder=folder)
        self.succession: Optional[Succession] = found[0] if found else None
        self._note = notes[0] if notes else b""

    def _read(self, document: bytes) -> Succession:
        """A succession that this auditor has stored."""
        try:
            found, _ = read_succession(document)
        except BadNote as error:
            raise Unusable(Verdict.AUDIT_CHANGED, folder=self._folder, reason=error) from error
        if not self._is_own(found):
            raise Unusable(Verdict.AUDIT_SUCCESSION_CHANGED, folder=self._folder)
        return found

    def _is_own(self, succession: Succession) -> bool:
        """Whether a succession ends this directory."""
        return succession.policy == self._policy.digest and succession.is_signed(self._policy.successor_key)

    @property
    def is_cosigned(self) -> bool:
        return bool(self._note)

    def take(self, document: bytes, source: str) -> list[bytes]:
        """Takes what a source shows, and stores the first succession. Returns both if another one convicts the directory. Raises
        `Unusable` for what isn't signed, which anyone on the way can send."""
        try:
            found, _ = read_succession(document)
        except BadNote as error:
            raise Unusable(Verdict.AUDIT_REFUSED, source=source, reason=error) from error
        if not self._is_own(found):
            raise Unusable(Verdict.AUDIT_UNSIGNED, source=source)
        if self.succession is None:
            rewrite(self._folder / _TEXT, bytes(found))
            self.succession = found
        return [bytes(self.succession), bytes(found)] if convicts(self._policy, self.succession, found) else []

    def cosign(self, line: str) -> None:
        """Stores the note with the line by which the auditor cosigned the succession."""
        self._note = bytes(Note(bytes(self.succession or b"").decode(), (line,)))
        self.publish()

    def publish(self) -> None:
        """Stores a note where it is not yet. First beside the key: what was published must be there, whatever becomes of the folder."""
        rows = [
            (self._beside, self._note),
            (self._folder / _TEXT, bytes(self.succession or b"")),
            (self._folder / NOTE, self._note),
        ]
        for path, data in rows if self._note else []:
            if stored_at(path) != data:
                rewrite(path, data)


class Before:
    """The directory before an auditor's, as its folder has it: its policy, its succession and its last entry."""

    def __init__(self, folder: Path, policy: Policy, auditor: Auditor):
        """Raises `Unusable` if that directory does not go on under this policy, or this auditor has not cosigned that."""
        try:
            self._policy, document = Policy.read(stored_at(folder / _POLICY)), stored_at(folder / NOTE)
            self.succession, note = read_succession(document)
        except ValueError as error:
            raise Unusable(Verdict.AUDIT_NOT_BEFORE, folder=folder, reason=error) from error
        own, last = self.succession, self.succession.last.link
        if own.policy != self._policy.digest or not own.is_signed(self._policy.successor_key):
            raise Unusable(Verdict.AUDIT_SUCCESSION_CHANGED, folder=folder)
        if not note.times([auditor]):
            raise Unusable(Verdict.AUDIT_NOT_COSIGNED, source=folder, auditor=auditor.name)
        if own.next_policy != policy.digest:
            raise Unusable(Verdict.AUDIT_NOT_NEXT, folder=folder, policy=own.next_policy.hex())
        stored = stored_at(folder / "entries")
        whole = stored[: len(stored) - len(stored) % ENTRY_LENGTH]
        self.last = next((it for it in entries_of(whole) if link(it) == last), b"")
        if not self.last:
            raise Unusable(Verdict.AUDIT_LACKS, folder=folder)
        before = {it.name: it.read_bytes() for it in folder.iterdir() if _BEFORE.fullmatch(it.name)}
        self._notes = {**before, f"succession.{own.policy.hex()}": document}

    def keep(self, folder: Path) -> None:
        """Stores the notes of this succession and of those before in the folder of the next directory, which serves them."""
        for name, note in self._notes.items():
            if stored_at(folder / name) != note:
                rewrite(folder / name, note)

    def has_root_of(self, policy: Policy, first: bytes) -> Optional[bool]:
        """Returns whether the first entry that counts under the next policy has the root of the last one, None if another VRF or nonce
        moves the names."""
        is_moved = policy.vrf_key is None or policy.vrf_key != self._policy.vrf_key or nonce_of(first) != nonce_of(self.last)
        return None if is_moved else root_of(first) == root_of(self.last)
