"""The file of `coniks-client`, which one run at a time has: a line with its SHA-256, and one JSON object."""

from __future__ import annotations

import hashlib
import json
import os
from pathlib import Path
from typing import Any

from ._files import lock, opened_at, rewrite
from ._telling import Unusable, Verdict

_NAME, _VERSION = "coniks-client", "3"


class StateFile:
    """The file at a path, which is replaced as a whole. A symbolic link stays, and what it leads to is replaced. Only its owner may read
    it, since a state has secret keys."""

    def __init__(self, path: Path):
        """Takes the lock, `PATH.lock`. Raises `Unusable` while another run has it."""
        self.path = Path(os.path.realpath(path))
        self._lock = opened_at(f"{self.path}.lock", os.O_RDWR | os.O_CREAT | os.O_NOFOLLOW)
        self.close = self._lock.close
        try:
            lock(self._lock.fileno())
        except BlockingIOError:
            self.close()
            raise Unusable(Verdict.STATE_TAKEN, path=path) from None

    def read(self) -> dict[str, Any]:
        """The members that are stored. Raises `Unusable` if there is no file, one that was cut or changed, or one of another version."""
        if not self.path.exists():
            raise Unusable(Verdict.STATE_LACKING, path=self.path)
        return members_of(self.path.read_bytes(), self.path)

    def write(self, members: dict[str, Any]) -> None:
        """Stores members durably in the place of the others."""
        rewrite(self.path, text_of(members), 0o600)


def text_of(members: dict[str, Any]) -> bytes:
    """What a file has."""
    text = json.dumps(members).encode()
    return f"{_NAME} {_VERSION} {hashlib.sha256(text).hexdigest()}\n".encode() + text


def members_of(whole: bytes, path: Path) -> dict[str, Any]:
    """The members of what the file at a path has. Raises `Unusable`."""
    front, _, text = whole.partition(b"\n")
    words = front.decode("latin-1").split(" ")
    if len(words) != 3 or words[0] != _NAME or words[2] != hashlib.sha256(text).hexdigest():
        raise Unusable(Verdict.STATE_NONE, path=path)
    if words[1] != _VERSION:
        raise Unusable(Verdict.STATE_VERSION, path=path)
    members: dict[str, Any] = json.loads(text)
    return members
