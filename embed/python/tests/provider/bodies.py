"""What the tests of guards share: bodies, a checker of what was signed, and a bench with a record and a signer."""

from __future__ import annotations

import hashlib
from pathlib import Path
from typing import Any, Iterable, Optional

from stand_ins import POLICY, Salted, Scheme, Signer, lines
from coniks.guard import Guard


NONCE = bytes([3]) * 32


def body(
    epoch: int, before: int, link: bytes, root: bytes = b"", version: int = 1, nonce: bytes = NONCE, policy: bytes = POLICY
) -> bytes:
    """The body of an epoch, as docs/FORMATS.md has it."""
    return bytes([version]) + epoch.to_bytes(8, "big") + before.to_bytes(8, "big") + root.ljust(32, b"\1") + link + nonce + policy


def after(entry: bytes, epoch: int = 0, root: bytes = b"", **more: Any) -> bytes:
    """The body of an epoch after an entry, of the first one if it is empty."""
    before = int.from_bytes(entry[1:9], "big")
    link = hashlib.sha256(b"\x53" + entry).digest() if entry else bytes(32)
    return body(epoch or before + 1, before, link, root, **more)


def is_chain(entries: Iterable[bytes]) -> bool:
    """Whether entries are all of one chain, from its first one on."""
    before, link = bytes(8), bytes(32)
    for it in sorted({*entries}, key=lambda it: it[1:9]):
        if it[9:17] != before or it[49:81] != link:
            return False
        before, link = it[1:9], hashlib.sha256(b"\x53" + it).digest()
    return True


class Bench:
    """A folder with a record, a signer that lists the bodies for which the key is used, and the entries that were given out."""

    def __init__(self, room: str, count: int = 0, keys: Optional[Scheme] = None) -> None:
        self.path, self.signer = Path(room) / "record", Signer(room, keys or Salted())
        self.entries: list[bytes] = []
        if count:
            self.guard = Guard(self.path, self.signer, new_directory=True)
        for _ in range(count):
            self.sign(after(self.last))
        self.guard = self.open()

    @property
    def last(self) -> bytes:
        return self.entries[-1] if self.entries else b""

    def open(self, **more: Any) -> Guard:
        return Guard(self.path, self.signer, **more)

    def sign(self, requested: bytes) -> bytes:
        self.entries.append(requested + self.guard(requested))
        return self.last

    def used(self) -> list[bytes]:
        return [bytes.fromhex(it) for it in lines(self.signer.file)]

    def text(self) -> str:
        return self.path.read_text() if self.path.exists() else ""


def bench_in(room: str, name: str, count: int = 1) -> Bench:
    """A bench in a folder of its own."""
    own = Path(room) / name
    own.mkdir()
    return Bench(str(own), count)


def is_evidence(one: bytes, other: bytes) -> bool:
    """Whether two bodies that one key has signed show two chains. Epoch numbers are small, so the sets are too."""
    spans = [(int.from_bytes(it[9:17], "big"), int.from_bytes(it[1:9], "big")) for it in (one, other)]
    if max(max(it) for it in spans) > 10_000:
        raise ValueError("the sets would be too large")
    covered = [set(range(before + 1, epoch + 1)) for before, epoch in spans]
    is_overlap = one != other and bool(covered[0] & covered[1])
    is_other_policy = one[113:145] != other[113:145]
    has_no_chain = [
        it[0] not in (1, 2) or epoch <= before or (before == 0 and it[49:81] != bytes(32))
        for it, (before, epoch) in zip((one, other), spans)
    ]
    return is_overlap or is_other_policy or any(has_no_chain)
