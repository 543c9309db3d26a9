"""Heads as signed notes, which auditors cosign: C2SP's signed-note, tlog-checkpoint and tlog-cosignature. docs/FORMATS.md has an example.

    note = read_note(document)
    note.head(policy)                                      # epoch and link
    is_agreed(note, auditors, faulty=1, since=time.time() - 600)

An auditor's cosignature says that it was fed every entry up to this head, and never signed a head that overlaps it. Auditors cosign
successions (`coniks.succession`) in the same way:

    succession, note = read_succession(document)           # of a service or of an auditor
    succession.is_signed(policy.successor_key), note.times(auditors)

The module needs PyNaCl.
"""

from __future__ import annotations

import base64
import hashlib
import math
import re
import time
from dataclasses import dataclass
from typing import Iterable, Optional, Sequence

from nacl.signing import SigningKey

from . import Head
from ._ecvrf import is_key, is_signed
from .policy import Policy
from .succession import Succession

__all__ = ["Auditor", "BadNote", "Note", "cosign", "is_agreed", "quorum", "read_note", "read_succession", "text_of"]

# The most seconds by which the clock of an auditor or of a directory may be ahead.
SKEW = 300
_COSIGNATURE = b"\x04"  # the type of tlog-cosignature
_NAME = re.compile("[!-*,-~]{1,255}")
_LINE = re.compile("\u2014 ([^ +]+) ([A-Za-z0-9+/]+={0,2})")
_TEXT = re.compile("([!-~]+)\n([1-9][0-9]{0,19})\n([A-Za-z0-9+/]{43}=)\n")


class BadNote(ValueError):
    """Bytes that are no note of this directory, or a key that is none."""


def key_id(name: str, kind: bytes, key: bytes) -> bytes:
    """The four bytes by which a signature's line names its key (signed-note)."""
    return hashlib.sha256(name.encode() + b"\n" + kind + key).digest()[:4]


@dataclass(frozen=True)
class Auditor:
    """An auditor's name and public key. Its text is a verifier key of signed-note: `NAME+ID+KEY`."""

    name: str
    key: bytes

    def __post_init__(self) -> None:
        if not _NAME.fullmatch(self.name) or not is_key(self.key):
            raise BadNote("an auditor has a name without space and plus, and a public key of prime order")

    @classmethod
    def read(cls, text: str) -> Auditor:
        """Returns the auditor of a verifier key. Raises `BadNote`."""
        name, identity, encoded = [*text.split("+", 2), "", ""][:3]
        data = _base64(encoded)
        if data[:1] != _COSIGNATURE or identity != key_id(name, data[:1], data[1:]).hex():
            raise BadNote("this is no verifier key of an auditor: take the line that coniks-audit prints")
        return cls(name, data[1:])

    def __str__(self) -> str:
        return f"{self.name}+{self.id.hex()}+{base64.b64encode(_COSIGNATURE + self.key).decode()}"

    @property
    def id(self) -> bytes:
        return key_id(self.name, _COSIGNATURE, self.key)


@dataclass(frozen=True)
class Note:
    """A head or a succession as a text, and the lines of its signatures."""

    text: str
    lines: tuple[str, ...]

    def __bytes__(self) -> bytes:
        return "".join([self.text, "\n", *(f"{it}\n" for it in self.lines)]).encode()

    def head(self, policy: Policy) -> Head:
        """Returns the head. Raises `BadNote` if it is another directory's."""
        found = _TEXT.fullmatch(self.text)
        if not found or found[1] != _origin(policy) or int(found[2]) >= 1 << 64:
            raise BadNote("the note is no head of this directory")
        return Head(int(found[2]), _base64(found[3]))

    def of(self, auditor: Auditor) -> Note:
        """Returns the note with the lines by which an auditor cosigned it, and no others."""
        return Note(self.text, tuple(it for it in self.lines if self._time(it, auditor) is not None))

    def times(self, auditors: Iterable[Auditor], until: float = math.inf) -> dict[str, int]:
        """When each of these auditors cosigned the note, in Unix seconds, by its name. Other lines count for nothing, and those of a
        time after `until`."""
        found = {it.name: [self._time(line, it) for line in self.lines] for it in auditors}
        return {
            name: max(times)
            for name, all_times in found.items()
            if (times := [it for it in all_times if it is not None and it <= until])
        }

    def _time(self, line: str, auditor: Auditor) -> Optional[int]:
        """When an auditor cosigned the note by a line, None if it did not."""
        found = _LINE.fullmatch(line)
        data = _base64(found[2]) if found and found[1] == auditor.name else b""
        seconds = int.from_bytes(data[4:12], "big")
        is_its = len(data) == 76 and data[:4] == auditor.id
        return seconds if is_its and is_signed(auditor.key, _cosigned(self.text, seconds), data[12:]) else None


def _base64(text: str) -> bytes:
    """The bytes of a text in base64, none if it isn't one."""
    try:
        return base64.b64decode(text, validate=True)
    except ValueError:
        return b""


def _origin(policy: Policy) -> str:
    """The first line of a directory's notes. Its hash is that of the signing key and of the policy digest."""
    return f"{policy.origin}/{hashlib.sha256(policy.signing_key + policy.digest).hexdigest()}"


def text_of(policy: Policy, head: Head) -> str:
    """The text of a head: origin, epoch and link."""
    return f"{_origin(policy)}\n{head.epoch}\n{base64.b64encode(head.link).decode()}\n"


def _cosigned(text: str, seconds: int) -> bytes:
    """What a cosignature signs."""
    return f"cosignature/v1\ntime {seconds}\n{text}".encode()


def cosign(name: str, key: SigningKey, text: str, seconds: int) -> str:
    """The line by which an auditor cosigns a text at a time."""
    auditor = Auditor(name, bytes(key.verify_key))
    data = auditor.id + seconds.to_bytes(8, "big") + key.sign(_cosigned(text, seconds)).signature
    return f"\u2014 {name} {base64.b64encode(data).decode()}"


def read_note(document: bytes) -> Note:
    """Returns a note's text and lines, of which nothing is verified. Raises `BadNote`."""
    try:
        text, _, rest = document.decode().rpartition("\n\n")
    except UnicodeDecodeError:
        raise BadNote("a note is UTF-8") from None
    lines = rest.split("\n")
    if not text or lines.pop() or not lines or not all(map(_LINE.fullmatch, lines)):
        raise BadNote("a note is a text, an empty line and the lines of signatures")
    return Note(text + "\n", tuple(lines))


def read_succession(document: bytes) -> tuple[Succession, Note]:
    """Returns a signed succession and its note: a service serves the text alone, so that its note has no line, and an auditor a note.
    Nothing is verified. Raises `BadNote`."""
    note = read_note(document) if b"\n\n" in document else Note(document.decode("latin-1"), ())
    try:
        succession = Succession.read(note.text.encode())
    except ValueError as error:
        raise BadNote(str(error)) from None
    if not succession.signature:
        raise BadNote("the succession is not signed")
    return succession, note


def quorum(auditors: int, faulty: int) -> int:
    """Returns how many of n auditors must agree, if at most f of them lie or are silent: the least k with 2k > n + f.

    Two quorums of k of the same n auditors share at least 2k - n of them, so more than f, and one of these is honest. It was fed every
    entry up to both heads, in one chain. So two clients that each have a quorum for a head have heads of one chain, if both name the
    same auditors and the same f: they compare the fingerprints of their trust documents (`coniks.trust`). The f silent ones must not
    stop the others, k <= n - f, so n > 3f: raises ValueError otherwise.
    """
    if not 0 <= 3 * faulty < auditors:
        raise ValueError("more than three auditors are needed for each one that may lie")
    return (auditors + faulty) // 2 + 1


def is_agreed(note: Note, auditors: Sequence[Auditor], faulty: int, since: float, until: Optional[float] = None) -> bool:
    """Whether a quorum of the auditors that a client trusts cosigned a note between two times, of which the later one is by default
    five minutes from now. Each name and each key counts once."""
    if len({it.name for it in auditors}) < len(auditors) or len({it.key for it in auditors}) < len(auditors):
        raise ValueError("an auditor is listed twice")
    times = note.times(auditors, time.time() + SKEW if until is None else until)
    return sum(it >= since for it in times.values()) >= quorum(len(auditors), faulty)
