"""The state of `coniks-client` as a file under a passphrase, for another device. docs/STORED.md defines its bytes."""

from __future__ import annotations

import getpass
import os
import re
import time
import unicodedata
import warnings
from pathlib import Path
from typing import Any, Optional

from nacl.exceptions import CryptoError
from nacl.pwhash import argon2id
from nacl.secret import SecretBox
from nacl.utils import random

from ._client_state import members_of, text_of
from ._files import rewrite
from ._formats import ENTRY_LENGTH
from ._person import Person
from ._telling import Unusable, Verdict

# What Argon2id takes for a new file, and at most for one that is read: passes, and memory in KiB. The most bytes of a file.
PASSES, KIB = 3, 1 << 18
_MOST_PASSES, _MOST_KIB, _MOST = 8, 1 << 20, 1 << 30
_SALT, _NONCE = argon2id.SALTBYTES, SecretBox.NONCE_SIZE
_FORMAT = b"coniks-client-export "
_FRONT = re.compile(rb"1 ([1-9][0-9]{0,9}) ([1-9][0-9]{0,9}) ([0-9a-f]{32})")


def export(person: Person, file: Path, passphrase: Optional[Path]) -> None:
    """Writes a state to a new file."""
    if os.path.lexists(file):
        raise Unusable(Verdict.EXPORT_THERE, file=file)
    salt, nonce = random(_SALT), random(_NONCE)
    key = _key(_passphrase(passphrase, is_new=True), salt, PASSES, KIB)
    front = _FORMAT + f"1 {PASSES} {KIB} {salt.hex()}\n".encode()
    data = front + bytes(SecretBox(key).encrypt(text_of(person.state), nonce))
    if not rewrite(file, data, 0o600, lambda: not os.path.lexists(file)):
        raise Unusable(Verdict.EXPORT_THERE, file=file)
    person.tell(Verdict.EXPORTED, file=str(file))


def members(file: Path, passphrase: Optional[Path]) -> dict[str, Any]:
    """The members of the state that a file has. Raises `Unusable`."""
    with open(file, "rb") as opened:
        data = opened.read(_MOST + 1)
    front, _, rest = data.partition(b"\n")
    if not front.startswith(_FORMAT):
        raise Unusable(Verdict.IMPORT_NONE, file=file)
    version, found = front[len(_FORMAT) :].split(b" ")[0], _FRONT.fullmatch(front[len(_FORMAT) :])
    if version != b"1":
        raise Unusable(Verdict.IMPORT_VERSION, file=file)
    if not found or len(rest) < _NONCE + SecretBox.MACBYTES:
        raise Unusable(Verdict.IMPORT_NONE, file=file)
    passes, kib = int(found[1]), int(found[2])
    if passes > _MOST_PASSES or not 8 <= kib <= _MOST_KIB or len(data) > _MOST:
        raise Unusable(Verdict.IMPORT_LIMITS, file=file)
    key = _key(_passphrase(passphrase, is_new=False), bytes.fromhex(found[3].decode()), passes, kib)
    try:
        return members_of(SecretBox(key).decrypt(rest), file)
    except CryptoError:
        raise Unusable(Verdict.IMPORT_CLOSED, file=file) from None


def store(person: Person, path: Path) -> None:
    """Stores an imported state, and tells how old it is."""
    head, entries = person.chain.head(), person.chain.entries
    if head is None:
        raise Unusable(Verdict.STATE_NONE, path=path)
    person.save()
    # The time is after the last entry in the state (docs/STORED.md).
    state = person.chain.state
    at = state.rindex(entries[-1]) + ENTRY_LENGTH
    seen = int.from_bytes(state[at : at + 8], "big")
    person.tell(Verdict.IMPORTED, path=path, epoch=head.epoch, seen=seen, age=_in_words(time.time() - seen))


def _key(passphrase: bytes, salt: bytes, passes: int, kib: int) -> bytes:
    """The key of a file. Raises `Unusable` without the memory for it."""
    try:
        found: bytes = argon2id.kdf(SecretBox.KEY_SIZE, passphrase, salt, passes, kib << 10)
        return found
    except (CryptoError, MemoryError):
        raise Unusable(Verdict.PASSPHRASE_MEMORY, size=(kib + 1023) >> 10) from None


def _passphrase(file: Optional[Path], is_new: bool) -> bytes:
    """The passphrase of a file that nobody else can read, or of the terminal: a new one is asked for twice."""
    text = _read(file) if file else _asked("Passphrase: ")
    if not text:
        raise Unusable(Verdict.PASSPHRASE_NONE)
    if is_new and not file and _asked("Passphrase again: ") != text:
        raise Unusable(Verdict.PASSPHRASE_DIFFERS)
    return unicodedata.normalize("NFC", text).encode("utf-8", "surrogateescape")


def _read(file: Path) -> str:
    """The first line of a file."""
    with open(file, "rb") as opened:
        if os.fstat(opened.fileno()).st_mode & 0o077:
            raise Unusable(Verdict.PASSPHRASE_SHARED, file=file)
        return opened.readline(1 << 16).rstrip(b"\r\n").decode("utf-8", "surrogateescape")


def _asked(prompt: str) -> str:
    """What is typed at the terminal, which doesn't show it. Raises `Unusable` without one."""
    with warnings.catch_warnings():
        warnings.simplefilter("error", getpass.GetPassWarning)
        try:
            return getpass.getpass(prompt)
        except (EOFError, getpass.GetPassWarning):
            raise Unusable(Verdict.PASSPHRASE_UNASKED) from None


def _in_words(seconds: float) -> str:
    """A time in its largest unit."""
    units = [(86400, "day"), (3600, "hour"), (60, "minute")]
    size, unit = next((it for it in units if seconds >= it[0]), units[-1])
    count = max(0, int(seconds)) // size
    return f"{count} {unit}" + "s" * (count != 1)
