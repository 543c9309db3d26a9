"""Lets a signing key sign one chain: a `sign` for `coniks.provider` that keeps a record of the last body it signed.

    guard = Guard("names.guard", sign)
    Provider(Settings("provider", index, policy), guard, log)

Two signed bodies convict a directory if neither continues the other. A log from an old backup makes such a body, and so does a
second service. The guard compares each body with its record before the key is used, and raises `BodyRefused`. Store the record
apart from the log and its backups. A restored record is behind the key, so never restore one.

Each step on the record is one of the C library, of which it is proved that the key signs one chain. Opening a guard raises
ImportError without it (`help(coniks)`).

A new directory begins with `new_directory=True`, once. A directory that ran without a guard passes its latest entry as `known`.

What holds, if the disk keeps what was synced, and only guards change the record:

- A signature is returned only if the record has it, and no other body after the same entry was or will be signed.
- The key is used for a body only if the record names it. So a crash leaves no signature that the record doesn't know of.
- After `abandon` returns, no signature of that body is returned, also not one that is under way in another process.

A body that was requested is open until it is signed or abandoned: no other one is accepted meanwhile. The same body can be asked
for again. All calls can be used from several threads and processes, and an interrupt ends only the call that it hits.
"""

from __future__ import annotations

import errno
import fcntl
import io
import os
import stat
import time
from typing import Callable, Optional

from . import BODY_LENGTH, ENTRY_LENGTH
from ._files import Path, identity_at, identity_of, rewrite, sync_folder
from ._formats import SIGNATURE_LENGTH
from ._formats import GuardRefusal as Refusal
from ._guarding import Record, Reply, StepRefused, epochs, load
from ._layout import body_of, signature_of
from ._lines import sized

__all__ = ["BodyAbandoned", "BodyRefused", "BodySigned", "Guard", "GuardError", "RecordFailed"]

# How long a call waits for another one that replaces the record.
_LOCK_SECONDS = 10


class GuardError(Exception):
    """An error of this module."""


class BodyRefused(GuardError):
    """The key must not sign this body. The text says why, and what to do next."""


class BodyAbandoned(BodyRefused):
    """The body was abandoned, so no signature of it is returned."""


class BodySigned(GuardError):
    """The body can't be abandoned, since it is signed or may be."""


class RecordFailed(GuardError):
    """The record could not be read or written, or isn't one. If it was written, the change may be stored."""


def _why(refusal: Refusal, record: Record, body: bytes) -> str:
    """Why the key must not sign a body, and what to do next."""
    before, last, open_one = epochs(body)[0], epochs(record.signed)[1], epochs(record.asked)[1]
    return {
        Refusal.MALFORMED: "no chain has such a body: look what made it",
        Refusal.NOTHING_RECORDED: f"it follows epoch {before}, and nothing is recorded as signed: name the directory's record, or pass"
        " known=",
        Refusal.BEGINS_UNASKED: "it begins a directory: pass new_directory=True if this key has signed nothing",
        Refusal.BEGINS_AGAIN: f"it begins a directory, and this key has signed epoch {last}: make a new directory under a new key",
        Refusal.OTHER_POLICY: "it has another policy digest than what this key has signed: open the directory with its own key and"
        " policy",
        Refusal.LOG_BEHIND: f"it follows epoch {before}, and this key has signed epoch {last}: the log is from an old backup, or another"
        f" service uses this key: put back the log that has epoch {last}",
        Refusal.RECORD_BEHIND: f"it follows epoch {before}, and the last recorded one is {last}: the record is from an old backup: put"
        " back the latest one, or make another one with known=",
        Refusal.OTHER_LINK: f"it follows another entry of epoch {last} than this key has signed: put back the log that has the signed"
        " one",
        Refusal.VERSION_BACK: "its version is lower than that of the entry before: look what made it",
        Refusal.NONCE_CHANGED: "its nonce isn't that of the entry before, as version 1 needs: look what made it",
        Refusal.OTHER_OPEN: f"another body is open, of epoch {open_one}: put back the log that has it, or abandon it first",
    }[refusal]


class Guard:
    """Signs bodies that follow each other, over a record in a file.

    Call it with a body, 145 bytes; it returns the signature. `sign(body)` uses the key, and is called after the record names the
    body. If `verify(body, signature)` is given, here or to the provider, what it doesn't accept is not stored, and raises
    `GuardError`; a signature that was stored without it is replaced.

    The file is replaced as a whole, under a lock on the file `PATH.lock` beside it, which stays. Only its owner may write it. A
    subclass stores the record elsewhere: it replaces `_read`, `_sync`, `_swap` and `__str__`, and calls `_begin`.
    """

    def __init__(
        self,
        path: Path,
        sign: Callable[[bytes], bytes],
        *,
        new_directory: bool = False,
        known: Optional[bytes] = None,
        verify: Optional[Callable[[bytes, bytes], bool]] = None,
    ):
        """Reads the record. Raises `BodyRefused` if `new_directory` is passed with a record that has a signed entry, or `known`
        with one that has anything but this entry. So neither can stay in the script that starts a service."""
        self._path = os.path.abspath(os.fsdecode(path))
        self._begin(sign, new_directory, known, verify)

    def _begin(
        self,
        sign: Callable[[bytes], bytes],
        new_directory: bool,
        known: Optional[bytes],
        verify: Optional[Callable[[bytes, bytes], bool]],
    ) -> None:
        if new_directory and known is not None:
            raise ValueError("a new directory has no known entry: pass one of the two")
        load()
        self._sign, self._verify, self._may_begin = sign, verify, new_directory
        if self._parsed(self._read()).signed and new_directory:
            raise BodyRefused(f"{self} has signed epochs: open it without new_directory, or make a new directory under a new key")
        if known is not None:
            entry = sized(known, ENTRY_LENGTH, "the known entry")
            self._check_signature(body_of(entry), signature_of(entry))
            self._change(lambda it: self._adopting(it, entry))

    def __str__(self) -> str:
        return f"the record {self._path}"

    def __call__(self, body: bytes) -> bytes:
        """Returns the signature of a body that follows the last signed one. If the body is the last signed one, returns the
        stored signature, and the key isn't used unless `verify` refuses that signature. Raises `BodyRefused` for another body, and
        what `sign` raises."""
        body = sized(body, BODY_LENGTH, "a body")
        reply, stored = self._change(lambda it: self._asking(it, body)).answer(body)
        if reply is Reply.UNSETTLED or self._is_wrong(body, stored):
            signature = sized(self._sign(body), SIGNATURE_LENGTH, "the signature")
            self._check_signature(body, signature)
            reply, stored = self._change(lambda it: self._signing(it, body, signature)).answer(body)
        if reply is not Reply.SIGNED:
            raise BodyAbandoned(f"the body of epoch {epochs(body)[1]} was abandoned: commit under a later epoch")
        self._may_begin = False
        return stored

    def abandon(self, body: bytes) -> None:
        """Refuses a body for ever. Raises `BodySigned` if a signature of it may have been returned."""
        body = sized(body, BODY_LENGTH, "a body")
        reply, _ = self._change(lambda it: self._abandoning(it, body)).answer(body)
        if reply is not Reply.ABANDONED:
            raise BodySigned(f"the body of epoch {epochs(body)[1]} is signed: ask for its signature again, and install it")

    def signed(self) -> Optional[bytes]:
        """Returns the last entry signed, 209 bytes. None if there is none."""
        return self._durable().signed or None

    def asked(self) -> Optional[bytes]:
        """Returns the body that was requested, and is neither signed nor abandoned. None if there is none."""
        return self._durable().asked or None

    def verify_by(self, verify: Callable[[bytes, bytes], bool]) -> None:
        """Has signatures verified by this function from now on, unless one was passed. A provider passes its own."""
        self._verify = self._verify or verify

    def _is_wrong(self, body: bytes, stored: bytes) -> bool:
        """Whether the last signed body is stored with a signature that isn't valid, as of another key. The same body convicts nobody
        if it is signed twice."""
        return bool(stored) and self._verify is not None and not self._verify(body, stored)

    def _check_signature(self, body: bytes, signature: bytes) -> None:
        if self._verify and not self._verify(body, signature):
            raise GuardError(f"the signature of epoch {epochs(body)[1]} isn't valid, and isn't stored: look which key signs")

    def _refused(self, refusal: Refusal, record: Record, body: bytes) -> BodyRefused:
        return BodyRefused(f"{self} refuses the body of epoch {epochs(body)[1]}: {_why(refusal, record, body)}")

    def _adopting(self, record: Record, entry: bytes) -> Record:
        try:
            return record.adopt(entry)
        except StepRefused as error:
            if error.refusal is Refusal.NO_ENTRY:
                raise BodyRefused("no chain has the known entry: pass the directory's latest one") from None
            raise BodyRefused(f"{self} has other bodies than the known one: open it without known") from None

    def _asking(self, record: Record, body: bytes) -> Record:
        try:
            return record.ask(body, self._may_begin)
        except StepRefused as error:
            raise self._refused(error.refusal, record, body) from None

    def _signing(self, record: Record, body: bytes, signature: bytes) -> Record:
        _, stored = record.answer(body)
        try:
            return record.sign(body, signature, self._is_wrong(body, stored))
        except StepRefused as error:
            if error.refusal is Refusal.OTHER_OPEN:
                raise self._refused(error.refusal, record, body) from None
            epoch = epochs(body)[1]
            raise BodyRefused(
                f"{self} changed while epoch {epoch} was signed: it was abandoned, or another service uses this key"
            ) from None

    def _abandoning(self, record: Record, body: bytes) -> Record:
        try:
            return record.abandon(body)
        except StepRefused as error:
            epoch, last = epochs(body)[1], epochs(record.signed)[1]
            if error.refusal is Refusal.RECORD_OLD:
                raise BodyRefused(
                    f"{self} ends with epoch {last}, before the body to abandon: put back the latest record"
                ) from None
            raise BodySigned(
                f"the body of epoch {epoch} may be signed, since {self} goes on to epoch {last}: put back that log"
            ) from None

    def _parsed(self, text: Optional[str]) -> Record:
        record = Record() if text is None else Record.read(text)
        if record is None:
            raise RecordFailed(f"{self} was cut, changed or never a record of a guard: find out why, and put back the latest one")
        return record

    def _change(self, step: Callable[[Record], Record]) -> Record:
        """Stores what a step makes of the record, and returns it. It is stored also if it is the same, since another process may
        have been killed before it was durable."""
        while True:
            text = self._read()
            record = step(self._parsed(text))
            if self._swap(text, str(record)):
                return record

    def _durable(self) -> Record:
        """Returns the record once it is durable. A process that replaced it may have been killed before that, and what a power failure
        takes back must not be returned."""
        record = self._parsed(self._read())
        self._sync()
        return record

    def _sync(self) -> None:
        """Makes the record durable that was read."""
        try:
            sync_folder(self._path)
        except OSError as error:
            raise self._failed("made durable", error) from error

    def _read(self) -> Optional[str]:
        """Returns the record's text. None if there is none."""
        flags = os.O_NOFOLLOW | os.O_NONBLOCK | os.O_NOCTTY
        try:
            with open(self._path, "rb", opener=lambda path, more: os.open(path, flags | more)) as file:
                mode = os.fstat(file.fileno()).st_mode
                if not stat.S_ISREG(mode) or mode & 0o022:
                    raise RecordFailed(f"{self} must be a regular file that only its owner may write: chmod go-w, or name another")
                return file.read().decode("latin-1")
        except FileNotFoundError:
            if os.path.isdir(os.path.dirname(self._path)):
                return None
            raise RecordFailed(f"{self} can't be made: its folder is missing") from None
        except OSError as error:
            raise self._failed("read", error) from error

    def _swap(self, before: Optional[str], after: str) -> bool:
        """Stores a text durably if the record has the text `before`. Returns whether it did."""
        flags = os.O_RDWR | os.O_CREAT | os.O_CLOEXEC | os.O_NOFOLLOW | os.O_NONBLOCK | os.O_NOCTTY
        try:
            opened = io.FileIO(f"{self._path}.lock", "r+", opener=lambda path, _: os.open(path, flags, 0o600))
        except OSError as error:
            raise self._failed(f"locked by {self._path}.lock", error) from error
        try:
            with opened as lock:
                return self._swap_under(lock, before, after)
        except OSError as error:
            raise self._failed("written", error) from error

    def _swap_under(self, lock: io.FileIO, before: Optional[str], after: str) -> bool:
        self._lock(lock)
        try:
            return self._has(lock) and self._read() == before and rewrite(self._path, after.encode(), may=lambda: self._has(lock))
        finally:
            # A process that was forked meanwhile has the file open too, so that closing it wouldn't end the lock.
            fcntl.flock(lock, fcntl.LOCK_UN)

    def _has(self, lock: io.FileIO) -> bool:
        """Whether a lock is that of the file beside the record, so that another process waits for it. A cleaner of old files may have
        removed that one, and another process made it anew."""
        return identity_at(f"{self._path}.lock") == identity_of(lock.fileno())

    def _lock(self, lock: io.FileIO) -> None:
        until = time.monotonic() + _LOCK_SECONDS
        while True:
            try:
                return fcntl.flock(lock, fcntl.LOCK_EX | fcntl.LOCK_NB)
            except BlockingIOError:
                if time.monotonic() > until:
                    raise RecordFailed(f"{self} is locked by a process that doesn't go on: end it, and try again") from None
                time.sleep(0.005)

    def _failed(self, what: str, error: OSError) -> RecordFailed:
        why = "it is a symbolic link, so name the file itself" if error.errno == errno.ELOOP else error.strerror
        return RecordFailed(f"{self} can't be {what}: {why}. No signature is returned; repair that, and try again")
