"""The client's side of a CONIKS key directory: a checker of proofs, an auditor of a chain, a monitor of one name, and what
convicts a provider that equivocated.

These are the parts, for those who verify signatures and indices themselves. `coniks.client` has a client that does all steps.

The package calls libconiks.so by ctypes and decides nothing itself: the proved library decides what is accepted. The library is the
file that the variable CONIKS_LIBRARY names, else that of this package, of embed/out in the checkout, or of the system, in this
order.

    key = coniks.check(entry.nonce, entry.root, index, "alice", proof)     # bytes, or None if the name is bound to none
    auditor = coniks.Auditor()
    auditor.feed(entry_bytes, is_signed(entry_bytes))                      # raises coniks.Refused, and is unchanged then
    coniks.convicts(entry_bytes, other_bytes)                              # an `EvidenceKind`, or None for no evidence

Nonces, roots, indices, links and digests are 32 bytes, entries 209. A name is text or bytes, a proof its bytes (see
`proof_bytes`). Wrong types raise TypeError, wrong sizes and numbers that don't fit ValueError, and what the library refuses
`Refused`. Auditors and monitors can be copied and pickled, and so can `Refused`; a copy goes on by itself. Two auditors are equal if
their states are, and two monitors if their names, indices and expected keys are too. They have no hash.

The library is loaded at the first call, which raises ImportError if there is none, if it can't be loaded, or if it has another
version than this package. `Policy` and the module `coniks.provider`, which runs a directory, do not need the library. A guard of
`coniks.guard`, which signs for it, does: opening one raises the same ImportError.
"""

from __future__ import annotations

import base64
import ctypes
import ctypes.util
import enum
import os
import re
from dataclasses import dataclass
from pathlib import Path
from typing import Any, Mapping, Optional, Sequence, Union

from ._formats import BODY_LENGTH, ENTRY_LENGTH, NO_EVIDENCE, EvidenceKind, Status
from .policy import Policy

__version__ = "1.0.0"
__all__ = [
    "BODY_LENGTH",
    "ENTRY_LENGTH",
    "Auditor",
    "Body",
    "EvidenceKind",
    "Head",
    "Monitor",
    "Name",
    "Policy",
    "Refused",
    "Seen",
    "Status",
    "check",
    "convicts",
    "library_version",
    "link",
    "proof_bytes",
    "text",
]

Name = Union[str, bytes]


class Seen(enum.Enum):
    """What a proof shows, compared with the expected key."""

    SAME = 0
    ABSENT = 1
    CHANGED = 9


class Refused(Exception):
    """The library refuses a proof or an entry. `status` is the reason, and the message its text."""

    def __init__(self, status: int):
        self.status = Status(status)
        super().__init__(text(status))

    def __reduce__(self) -> tuple[type[Refused], tuple[int]]:
        return type(self), (self.status.value,)


class _Bytes32(ctypes.Structure):
    _fields_ = [("bytes", ctypes.c_uint8 * 32)]


class _Bytes145(ctypes.Structure):
    _fields_ = [("bytes", ctypes.c_uint8 * 145)]


class _State(ctypes.Structure):
    _fields_ = [
        ("epoch", ctypes.c_uint64),
        ("link", _Bytes32),
        ("nonce", _Bytes32),
        ("version", ctypes.c_uint8),
        ("unused", ctypes.c_uint8 * 7),
    ]


class _Body(ctypes.Structure):
    _fields_ = [
        ("epoch", ctypes.c_uint64),
        ("previous_epoch", ctypes.c_uint64),
        ("root", _Bytes32),
        ("previous_link", _Bytes32),
        ("nonce", _Bytes32),
        ("policy", _Bytes32),
        ("version", ctypes.c_uint8),
        ("unused", ctypes.c_uint8 * 7),
    ]


def _place() -> str:
    """The file of the library, or its name in the system."""
    here, chosen = Path(__file__).resolve().parent, os.environ.get("CONIKS_LIBRARY")
    if chosen:
        return chosen
    for place in [here / "libconiks.so", here.parent.parent.parent / "out" / "libconiks.so"]:
        if place.exists():
            return str(place)
    found = ctypes.util.find_library("coniks")
    if found:
        return found
    raise ImportError("libconiks.so isn't there: run embed/build, or set CONIKS_LIBRARY")


_run = [ctypes.c_char_p, ctypes.c_size_t]
_32 = ctypes.POINTER(_Bytes32)
_size = ctypes.POINTER(ctypes.c_size_t)
_Exports = Sequence[tuple[str, Any, list[Any]]]
_exports: _Exports = [
    ("coniks_check", ctypes.c_uint32, [_32, _32, _32, *_run, *_run, _size, _size]),
    ("coniks_auditor_begin", None, [ctypes.POINTER(_State)]),
    ("coniks_auditor_feed", ctypes.c_uint32, [ctypes.POINTER(_State), *_run, ctypes.c_uint32]),
    ("coniks_auditor_head", ctypes.c_uint32, [ctypes.POINTER(_State), ctypes.POINTER(ctypes.c_uint64), _32]),
    ("coniks_monitor_step", ctypes.c_uint32, [ctypes.POINTER(_State), _32, *_run, *_run, *_run, ctypes.c_uint32, *_run]),
    ("coniks_entry_body", ctypes.c_uint32, [*_run, ctypes.POINTER(_Body)]),
    ("coniks_body_bytes", None, [ctypes.POINTER(_Body), ctypes.POINTER(_Bytes145)]),
    ("coniks_link", ctypes.c_uint32, [*_run, _32]),
    ("coniks_convicts", ctypes.c_uint32, [*_run, *_run, ctypes.POINTER(ctypes.c_uint32)]),
    ("coniks_text", ctypes.c_size_t, [ctypes.c_uint32, ctypes.c_char_p, ctypes.c_size_t]),
    ("coniks_version", ctypes.c_uint32, []),
]


def _load(exports: _Exports) -> dict[str, Any]:
    """Exports of the library. Raises ImportError if it can't be loaded, or is of another version than this package."""
    place, calls = _place(), {}
    try:
        library = ctypes.CDLL(place)
    except OSError as error:
        raise ImportError(f"the library can't be loaded: {error}: run embed/build, or set CONIKS_LIBRARY") from error
    try:
        version = _version_text(library.coniks_version())
        if version != __version__:
            raise ImportError(f"the library {place} has version {version}, and this package has version {__version__}")
        for export, result, arguments in exports:
            calls[export] = getattr(library, export)
            calls[export].restype, calls[export].argtypes = result, arguments
    except AttributeError as error:
        raise ImportError(f"{place} isn't the library of this package: {error}") from error
    return calls


def _version_text(number: int) -> str:
    return f"{number // 10000}.{number // 100 % 100}.{number % 100}"


class _Library:
    """Exports of the shared library, which is loaded when the first of them is taken."""

    def __init__(self, exports: _Exports):
        self._exports = exports

    def __getattr__(self, name: str) -> Any:
        calls = _load(self._exports)
        vars(self).update(calls)
        if name not in calls:
            raise AttributeError(name)
        return calls[name]


_library = _Library(_exports)


def _bytes(value: Any, what: str) -> bytes:
    if not isinstance(value, (bytes, bytearray, memoryview)):
        raise TypeError(f"{what} is bytes, not {type(value).__name__}")
    return bytes(value)


def _bytes32(value: Any, what: str) -> _Bytes32:
    value = _bytes(value, what)
    if len(value) != 32:
        raise ValueError(f"{what} has 32 bytes, not {len(value)}")
    return _Bytes32.from_buffer_copy(value)


def _name(name: Name) -> bytes:
    return name.encode() if isinstance(name, str) else _bytes(name, "the name")


def _number(value: Any, bits: int, what: str) -> int:
    if not isinstance(value, int) or isinstance(value, bool):
        raise TypeError(f"{what} is a whole number, not {type(value).__name__}")
    if not 0 <= value < 1 << bits:
        raise ValueError(f"{what} is from 0 to 2^{bits} - 1, not {value}")
    return value


def _verdict(value: Any) -> bool:
    if not isinstance(value, bool):
        raise TypeError(f"whether the signature is good is True or False, not {type(value).__name__}")
    return value


def library_version() -> str:
    """Returns the version of the library that is called. It is `__version__`, since a library of another version isn't loaded."""
    return _version_text(_library.coniks_version())


def text(status: int) -> str:
    """Returns the text of an error's status, and the empty text for other numbers."""
    room = ctypes.create_string_buffer(128)
    size = _library.coniks_text(_number(status, 32, "a status"), room, len(room))
    return room.raw[:size].decode()


def check(nonce: bytes, root: bytes, index: bytes, name: Name, proof: bytes) -> Optional[bytes]:
    """Returns the key that a proof shows for a name at its index, under a root and a nonce, or None if it shows that the name
    is bound to none. Raises `Refused` if the proof is not accepted."""
    name, proof = _name(name), _bytes(proof, "the proof")
    start, length = ctypes.c_size_t(), ctypes.c_size_t()
    status = _library.coniks_check(
        _bytes32(nonce, "the nonce"), _bytes32(root, "the root"), _bytes32(index, "the index"),
        name, len(name), proof, len(proof), ctypes.byref(start), ctypes.byref(length),
    )  # fmt: skip
    if status == 0:
        return proof[start.value : start.value + length.value]
    if status == 1:
        return None
    raise Refused(status)


@dataclass(frozen=True)
class Head:
    """The last entry accepted: its epoch and its link."""

    epoch: int
    link: bytes


class Auditor:
    """Audits a chain of entries. Verify each signature first, with the directory's public key."""

    def __init__(self, state: Optional[bytes] = None):
        """An auditor that has seen no entry, or one that goes on from a `state` that another one had."""
        self._state = _State()
        if state is None:
            _library.coniks_auditor_begin(ctypes.byref(self._state))
            return
        state = _bytes(state, "the state")
        if len(state) != ctypes.sizeof(_State):
            raise ValueError(f"a state has {ctypes.sizeof(_State)} bytes, not {len(state)}")
        self._state = _State.from_buffer_copy(state)
        self._state.unused = type(self._state.unused)()

    def _arguments(self) -> tuple[Any, ...]:
        return (self.state,)

    def __reduce__(self) -> tuple[type[Auditor], tuple[Any, ...]]:
        return type(self), self._arguments()

    def __eq__(self, other: object) -> bool:
        if not isinstance(other, Auditor) or type(other) is not type(self):
            return NotImplemented
        return self._arguments() == other._arguments()

    # A change of the state would change it.
    __hash__ = None  # type: ignore[assignment]

    @property
    def state(self) -> bytes:
        """All that the auditor keeps, to be stored and handed to another one."""
        return bytes(self._state)

    @property
    def head(self) -> Optional[Head]:
        """The head of the last entry accepted, None before the first."""
        epoch, link = ctypes.c_uint64(), _Bytes32()
        if _library.coniks_auditor_head(ctypes.byref(self._state), ctypes.byref(epoch), ctypes.byref(link)):
            return None
        return Head(epoch.value, bytes(link.bytes))

    def feed(self, entry: bytes, signature_is_good: bool) -> None:
        """Accepts an entry that follows the last one. Else raises `Refused`, and the auditor is unchanged."""
        entry = _bytes(entry, "the entry")
        status = _library.coniks_auditor_feed(ctypes.byref(self._state), entry, len(entry), _verdict(signature_is_good))
        if status:
            raise Refused(status)


class Monitor(Auditor):
    """Watches one name over a chain, for a client that expects a key of it, or none: `expected` is None then. An expected
    key has at least one byte, since no accepted proof shows an empty one."""

    def __init__(self, name: Name, index: bytes, expected: Optional[bytes], state: Optional[bytes] = None):
        super().__init__(state)
        self._name, self._index = _name(name), _bytes32(index, "the index")
        self.expected = expected

    def _arguments(self) -> tuple[Any, ...]:
        return self._name, bytes(self._index.bytes), self.expected, self.state

    @property
    def expected(self) -> Optional[bytes]:
        """The expected key, None if none is expected."""
        return self._expected

    @expected.setter
    def expected(self, key: Optional[bytes]) -> None:
        if key is not None and not _bytes(key, "the expected key"):
            raise ValueError("an expected key has at least one byte; None expects none")
        self._expected = None if key is None else bytes(key)

    def step(self, entry: bytes, signature_is_good: bool, proof: bytes) -> Seen:
        """Returns what the proof shows at the entry's epoch, if both are accepted. Else raises `Refused`, and the monitor is
        unchanged."""
        entry, proof = _bytes(entry, "the entry"), _bytes(proof, "the proof")
        expected = self.expected or b""
        status = _library.coniks_monitor_step(
            ctypes.byref(self._state), self._index, self._name, len(self._name), expected, len(expected),
            entry, len(entry), _verdict(signature_is_good), proof, len(proof),
        )  # fmt: skip
        try:
            return Seen(status)
        except ValueError:
            raise Refused(status) from None


@dataclass(frozen=True)
class Body:
    """An entry without its signature: the signed tree root (STR) of an epoch."""

    version: int
    epoch: int
    previous_epoch: int
    root: bytes
    previous_link: bytes
    nonce: bytes
    policy: bytes

    @classmethod
    def of_entry(cls, entry: bytes) -> Body:
        """Returns the body of an entry's 209 bytes. Nothing is verified."""
        entry, body = _bytes(entry, "the entry"), _Body()
        status = _library.coniks_entry_body(entry, len(entry), ctypes.byref(body))
        if status:
            raise Refused(status)
        parts = [bytes(it.bytes) for it in (body.root, body.previous_link, body.nonce, body.policy)]
        return cls(body.version, body.epoch, body.previous_epoch, *parts)

    def __bytes__(self) -> bytes:
        """The 145 bytes that are signed."""
        body, out = _Body(_number(self.epoch, 64, "the epoch"), _number(self.previous_epoch, 64, "the epoch before")), _Bytes145()
        body.version = _number(self.version, 8, "the version")
        body.root, body.previous_link = _bytes32(self.root, "the root"), _bytes32(self.previous_link, "the link")
        body.nonce, body.policy = _bytes32(self.nonce, "the nonce"), _bytes32(self.policy, "the policy")
        _library.coniks_body_bytes(ctypes.byref(body), ctypes.byref(out))
        return bytes(out.bytes)


def link(entry: bytes) -> bytes:
    """Returns the link of an entry, which the next one contains."""
    entry, out = _bytes(entry, "the entry"), _Bytes32()
    status = _library.coniks_link(entry, len(entry), ctypes.byref(out))
    if status:
        raise Refused(status)
    return bytes(out.bytes)


def convicts(a: bytes, b: bytes) -> Optional[EvidenceKind]:
    """Returns why two entries are evidence that the owner of a signing key equivocated, or None if they are none. Verify both
    signatures with that key first. Raises `Refused` for another length."""
    a, b, kind = _bytes(a, "an entry"), _bytes(b, "an entry"), ctypes.c_uint32()
    status = _library.coniks_convicts(a, len(a), b, len(b), ctypes.byref(kind))
    if status == NO_EVIDENCE:
        return None
    if status:
        raise Refused(status)
    return EvidenceKind(kind.value)


def _member(members: Any, name: str, kind: type) -> Any:
    if not isinstance(members, Mapping):
        raise TypeError(f"what has the member {name} is an object, not {type(members).__name__}")
    value = members.get(name)
    if not isinstance(value, kind):
        raise ValueError(f"the member {name} is missing or isn't what it should be")
    return value


def _digest(value: Any, what: str) -> bytes:
    if not isinstance(value, str) or not re.fullmatch("[0-9a-fA-F]{64}", value):
        raise ValueError(f"{what} isn't 64 hexadecimal digits")
    return bytes.fromhex(value)


def _digests(listed: list[Any]) -> bytes:
    """The bytes of siblings: of all at once if they are as they should be."""
    if all(type(it) is str and len(it) == 64 for it in listed) and re.fullmatch("[0-9a-fA-F]*", digits := "".join(listed)):
        return bytes.fromhex(digits)
    return b"".join([_digest(it, "a sibling") for it in listed])


def _base64(value: str, what: str) -> bytes:
    try:
        decoded = base64.b64decode(value, validate=True)
    except ValueError:
        decoded = None
    if decoded is None or base64.b64encode(decoded) != value.encode():
        raise ValueError(f"{what} isn't base64 with its padding")
    return decoded


def _sized(value: bytes, size: int, what: str) -> bytes:
    return _number(len(value), 8 * size, f"the length of {what}").to_bytes(size, "big") + value


def proof_bytes(proof: Mapping[str, Any]) -> bytes:
    """The bytes of a proof that `keydir run` printed as an object. Raises ValueError for what `keydir check` refuses as the
    member `proof`, and for one that has no room in bytes."""
    end, listed = _member(proof, "end", Mapping), _member(proof, "siblings", list)
    siblings = _digests(listed)
    kinds = ["empty", "other", "here"]
    kind = _member(end, "kind", str)
    if kind not in kinds:
        raise ValueError(f"an end is one of {', '.join(kinds)}, not {kind}")
    count = _number(len(listed), 16, "the number of siblings").to_bytes(2, "big")
    front = bytes([kinds.index(kind)]) + count + siblings
    if kind == "empty":
        return front
    if kind == "other":
        return front + _digest(end.get("index"), "the index") + _digest(end.get("commitment"), "the commitment")
    name, key = _member(end, "name", str).encode(), _base64(_member(end, "key", str), "the key")
    return front + _digest(end.get("opening"), "the opening") + _sized(name, 2, "the name") + _sized(key, 4, "the key")
