"""The record of a guard, and the binding of include/coniks_guard.h, whose steps change it. That header and docs/STORED.md say what each
step does. The proved library decides it, and nothing is decided here."""

from __future__ import annotations

import ctypes
import enum
import re
from ctypes import POINTER, byref, c_char_p, c_size_t, c_uint8, c_uint32
from dataclasses import dataclass
from typing import Any, Callable, Optional

from . import BODY_LENGTH, ENTRY_LENGTH, _Bytes145, _Exports, _Library
from ._formats import SIGNATURE_LENGTH
from ._formats import GuardRefusal as Refusal
from ._layout import epoch_before, epoch_of

_ENTRY, _BODY = f"[0-9a-f]{{{2 * ENTRY_LENGTH}}}", f"[0-9a-f]{{{2 * BODY_LENGTH}}}"
_RECORD = re.compile(f"coniks-guard 1\n(?:signed ({_ENTRY})\n)?(?:asked ({_BODY})\n)?((?:abandoned {_BODY}\n)*)")


class StepRefused(Exception):
    """A step is refused, and the record stays."""

    def __init__(self, refusal: Refusal):
        super().__init__(refusal)
        self.refusal = refusal


class Reply(enum.IntEnum):
    """What a record says of a body."""

    UNSETTLED = 0
    SIGNED = 1
    ABANDONED = 2


class Bytes64(ctypes.Structure):
    _fields_ = [("bytes", c_uint8 * SIGNATURE_LENGTH)]


class GuardRecord(ctypes.Structure):
    _fields_ = [
        *[("has_entry", c_uint32), ("has_asked", c_uint32)],
        *[("entry", c_uint8 * ENTRY_LENGTH), ("asked", c_uint8 * BODY_LENGTH)],
    ]


_record, _body, _signature, _size = POINTER(GuardRecord), POINTER(_Bytes145), POINTER(Bytes64), POINTER(c_size_t)
_bodies, _all_bodies = [_body, c_size_t], [_body, c_size_t, _size]
_exports: _Exports = [
    ("coniks_guard_answer", c_uint32, [_record, *_bodies, _body, _signature]),
    ("coniks_guard_ask", c_uint32, [_record, *_bodies, c_uint32, _body]),
    ("coniks_guard_sign", c_uint32, [_record, *_all_bodies, c_uint32, _body, _signature]),
    ("coniks_guard_abandon", c_uint32, [_record, *_all_bodies, _body]),
    ("coniks_guard_adopt", c_uint32, [_record, *_bodies, c_char_p, c_size_t]),
]
library = _Library(_exports)


def load() -> None:
    """Loads the library. Raises ImportError if there is none."""
    getattr(library, _exports[0][0])


def epochs(body: bytes) -> tuple[int, int]:
    """The epoch before a body, and that of the body. Both are 0 if there is none."""
    return epoch_before(body), epoch_of(body)


def _body_of(body: bytes) -> _Bytes145:
    return _Bytes145.from_buffer_copy(body)


class _Memory:
    """A record as the library has it, with room for one abandoned body more."""

    def __init__(self, record: Record):
        self.room = c_size_t(len(record.abandoned) + 1)
        self.raw = GuardRecord(bool(record.signed), bool(record.asked))
        self.raw.entry[: len(record.signed)] = record.signed
        self.raw.asked[: len(record.asked)] = record.asked
        self.bodies = (_Bytes145 * self.room.value)(*map(_body_of, record.abandoned))
        self.count = c_size_t(len(record.abandoned))

    def record(self) -> Record:
        signed = bytes(self.raw.entry) if self.raw.has_entry else b""
        asked = bytes(self.raw.asked) if self.raw.has_asked else b""
        return Record(signed, asked, tuple(bytes(it.bytes) for it in self.bodies[: self.count.value]))


@dataclass(frozen=True)
class Record:
    """The last entry signed, the body that is open, each empty if there is none, and the bodies that are abandoned, after that entry
    or after the one before it. docs/STORED.md defines its text."""

    signed: bytes = b""
    asked: bytes = b""
    abandoned: tuple[bytes, ...] = ()

    def __str__(self) -> str:
        named = [("signed", self.signed), ("asked", self.asked), *(("abandoned", it) for it in self.abandoned)]
        return "coniks-guard 1\n" + "".join(f"{name} {it.hex()}\n" for name, it in named if it)

    @classmethod
    def read(cls, text: str) -> Optional[Record]:
        """Reads a record's text. None if it isn't one."""
        found = _RECORD.fullmatch(text)
        if not found:
            return None
        signed, asked = (bytes.fromhex(it or "") for it in found.group(1, 2))
        return cls(signed, asked, tuple(bytes.fromhex(it.split()[1]) for it in found[3].splitlines()))

    def answer(self, body: bytes) -> tuple[Reply, bytes]:
        """What the record says of a body, and the signature that may be returned, empty if there is none."""
        memory, signature = _Memory(self), Bytes64()
        reply = library.coniks_guard_answer(byref(memory.raw), memory.bodies, memory.count, _body_of(body), byref(signature))
        return Reply(reply), bytes(signature.bytes) if reply == Reply.SIGNED else b""

    def ask(self, body: bytes, may_begin: bool) -> Record:
        """The record after a body was asked for."""
        return self._after(lambda it: library.coniks_guard_ask(byref(it.raw), it.bodies, it.count, may_begin, _body_of(body)))

    def sign(self, body: bytes, signature: bytes, replaces: bool) -> Record:
        """The record after the signature of a body was stored, which is verified. If `replaces`, the stored one is not valid."""
        given = Bytes64.from_buffer_copy(signature)
        return self._after(
            lambda it: library.coniks_guard_sign(
                byref(it.raw), it.bodies, it.room, byref(it.count), replaces, _body_of(body), given
            )
        )

    def abandon(self, body: bytes) -> Record:
        """The record after a body was abandoned."""
        return self._after(
            lambda it: library.coniks_guard_abandon(byref(it.raw), it.bodies, it.room, byref(it.count), _body_of(body))
        )

    def adopt(self, entry: bytes) -> Record:
        """The record after the last entry that was signed without a guard was adopted."""
        return self._after(lambda it: library.coniks_guard_adopt(byref(it.raw), it.bodies, it.count, entry, len(entry)))

    def _after(self, step: Callable[[_Memory], Any]) -> Record:
        memory = _Memory(self)
        if status := step(memory):
            raise StepRefused(Refusal(status))
        return memory.record()
