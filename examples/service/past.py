"""The directories before the one of a folder of keys, which have ended with a succession (docs/FORMATS.md)."""

from __future__ import annotations

import hashlib
import os
import shutil
from dataclasses import dataclass
from pathlib import Path
from typing import Mapping

from coniks import ENTRY_LENGTH, Policy
from coniks.succession import Succession

# In the folder of a directory that goes on: the text that the successor key is to sign, and the directories before it.
TEXT, BEFORE = "succession.text", "before"
_POLICY, _ENTRIES, _SUCCESSION = "policy", "entries", "succession"


@dataclass(frozen=True)
class Past:
    """A directory that has ended: its policy document, its entries up to the last epoch, and its succession."""

    policy: bytes
    entries: list[bytes]
    succession: bytes

    @classmethod
    def read(cls, folder: Path) -> Past:
        policy, entries, succession = ((folder / it).read_bytes() for it in (_POLICY, _ENTRIES, _SUCCESSION))
        return cls(policy, [entries[at : at + ENTRY_LENGTH] for at in range(0, len(entries), ENTRY_LENGTH)], succession)


def read_past(folder: Path) -> Mapping[str, Past]:
    """The directories of a folder, by their policy digests in hexadecimal digits. Raises ValueError if a succession isn't signed yet."""
    places = [*folder.glob("*")]
    for it in places:
        if not (it / _SUCCESSION).exists():
            raise ValueError(
                f"{it} has no succession: have the successor key sign it, and pass the result to serve succeed --signed"
            )
    return {it.name: Past.read(it) for it in places}


def ended_of(log: str) -> Path:
    """The file beside a log that says that its directory has ended: the text of its succession."""
    return Path(f"{log}.ended")


def check_open(log: str) -> None:
    """Raises ValueError if the directory of a log has ended: what it signed now would be void."""
    if (ended := ended_of(log)).exists():
        raise ValueError(f"this directory has ended: {ended} says where it goes on. If that is never published, remove the file")


def store(folder: Path, text: bytes, past: Past, earlier: Path) -> None:
    """Stores the directory that ends in the folder of the one that goes on, with those before it, and the text to sign. `earlier` is the
    folder of those, if there are any."""
    if earlier.exists():
        shutil.copytree(earlier, folder / BEFORE)
    place = folder / BEFORE / hashlib.sha256(past.policy).hexdigest()
    place.mkdir(parents=True)
    for path, data in [(place / _POLICY, past.policy), (place / _ENTRIES, b"".join(past.entries)), (folder / TEXT, text)]:
        write(path, data)


def write(path: Path, data: bytes) -> None:
    with open(path, "wb") as file:
        file.write(data)
        file.flush()
        os.fsync(file.fileno())


def take(folder: Path, signed: bytes) -> Succession:
    """Takes the signed succession, after which the directory of a folder can be opened. Raises ValueError."""
    succession = Succession.read(signed)
    place = folder / BEFORE / succession.policy.hex()
    if succession.signed != (folder / TEXT).read_bytes():
        raise ValueError(f"the succession has other lines than {folder / TEXT}: have exactly that file signed")
    policy = Policy.read((place / _POLICY).read_bytes())
    if not succession.is_signed(policy.successor_key):
        raise ValueError("the signature is not one of the successor key that the policy of the directory before names")
    write(place / _SUCCESSION, signed)
    return succession
