"""The binding of include/coniks_core.h, the core of a client. That header says what each struct and each call is, and the core decides
what a client accepts. Nothing is decided here."""

from __future__ import annotations

import ctypes
from ctypes import POINTER, c_char_p, c_size_t, c_uint8, c_uint32, c_uint64, c_void_p
from typing import Any, Iterator

from . import ENTRY_LENGTH, _Bytes32, _Exports, _Library
from ._formats import MAX_SIBLINGS

# SIZE_MAX.
NOWHERE: int = 2 ** (8 * ctypes.sizeof(c_size_t)) - 1


class _Array:
    """An array as a sequence of its first `count` items."""

    items: Any
    count: int

    def __len__(self) -> int:
        return self.count

    def __iter__(self) -> Iterator[Any]:
        return iter(self.items[: self.count])

    def __getitem__(self, place: int) -> Any:
        return self.items[range(self.count)[place]]


class StoredEntry(ctypes.Structure):
    _fields_ = [("entry", c_uint8 * ENTRY_LENGTH), ("first_seen", c_uint8 * 8), ("seen", c_uint8)]


class Change(ctypes.Structure):
    _fields_ = [("last_old", c_uint64), ("first_new", c_uint64), ("key", c_void_p), ("key_length", c_size_t)]


class Alarm(ctypes.Structure):
    _fields_ = [("epoch", c_uint64), ("seen", c_uint8)]


class Watch(ctypes.Structure):
    _fields_ = [
        *[("is_watched", c_uint32), ("name", c_void_p), ("name_length", c_size_t), ("since", c_uint64)],
        *[("key", c_void_p), ("key_length", c_size_t)],
    ]


class Clock(ctypes.Structure):
    _fields_ = [
        *[("is_there", c_uint32), ("start", c_uint64), ("period", c_uint64), ("max_age", c_uint64), ("skew", c_uint64)],
    ]


class Promise(ctypes.Structure):
    _fields_ = [("is_limited", c_uint32), ("seconds", c_uint64)]


class Rules(ctypes.Structure):
    _fields_ = [("policy", _Bytes32), ("trust", _Bytes32), ("clock", Clock), ("promise", Promise), ("quorum", c_size_t)]


class Stored(_Array, ctypes.Structure):
    _fields_ = [("items", POINTER(StoredEntry)), ("room", c_size_t), ("count", c_size_t)]


class Changes(_Array, ctypes.Structure):
    _fields_ = [("items", POINTER(Change)), ("room", c_size_t), ("count", c_size_t)]


class Alarms(_Array, ctypes.Structure):
    _fields_ = [("items", POINTER(Alarm)), ("room", c_size_t), ("count", c_size_t)]


class Core(ctypes.Structure):
    _fields_ = [
        *[("rules", Rules), ("watch", Watch), ("stored", Stored), ("changes", Changes), ("alarms", Alarms)],
        *[("marks", POINTER(c_uint64)), ("mark_count", c_size_t)],
    ]


class Received(ctypes.Structure):
    _fields_ = [("entry", c_char_p), ("entry_length", c_size_t), ("signature", c_uint32), ("time", c_uint64)]


class Asking(ctypes.Structure):
    _fields_ = [
        *[("name", c_char_p), ("name_length", c_size_t), ("reply", c_char_p), ("reply_length", c_size_t)],
        *[("is_requested", c_uint32), ("epoch", c_uint64), ("time", c_uint64)],
    ]


class Verdicts(ctypes.Structure):
    _fields_ = [("signature", c_uint32), ("index", c_uint32), ("at", _Bytes32)]


class Needs(ctypes.Structure):
    _fields_ = [("signature", c_uint32), ("entry_start", c_size_t), ("vrf_start", c_size_t), ("vrf_length", c_size_t)]


class Found(ctypes.Structure):
    _fields_ = [("place", c_size_t), ("shows", c_uint32), ("seen", c_uint32), ("key_start", c_size_t), ("key_length", c_size_t)]


class Why(ctypes.Structure):
    _fields_ = [("status", c_uint32), ("kind", c_uint32), ("mine", c_size_t)]


class Head(ctypes.Structure):
    _fields_ = [("is_there", c_uint32), ("epoch", c_uint64), ("link", _Bytes32)]


class Report(ctypes.Structure):
    _fields_ = [("verdict", c_uint32), ("first", c_uint64), ("last", c_uint64)]


class Covered(ctypes.Structure):
    _fields_ = [("epochs", c_size_t), ("first", c_uint64), ("last", c_uint64), ("changes", c_size_t), ("alarms", c_size_t)]


class History(ctypes.Structure):
    _fields_ = [("name", c_char_p), ("name_length", c_size_t), ("history", c_char_p), ("history_length", c_size_t)]


class HistoryNeeds(ctypes.Structure):
    _fields_ = [("vrf_start", c_size_t), ("vrf_length", c_size_t)]


class Siblings(ctypes.Structure):
    _fields_ = [("strings", c_uint8 * 32 * MAX_SIBLINGS)]


class Step(ctypes.Structure):
    _fields_ = [("place", c_size_t), ("key", c_void_p), ("key_length", c_size_t), ("shows", c_uint32), ("seen", c_uint32)]


class Steps(_Array, ctypes.Structure):
    _fields_ = [("items", POINTER(Step)), ("room", c_size_t), ("count", c_size_t)]


class StateNeeds(ctypes.Structure):
    _fields_ = [
        *[("stored", c_size_t), ("changes", c_size_t), ("alarms", c_size_t), ("entry_start", c_size_t), ("entry_step", c_size_t)]
    ]


class Succession(ctypes.Structure):
    _fields_ = [
        *[("signature", c_uint32), ("policy", _Bytes32), ("last_epoch", c_uint64), ("last_link", _Bytes32)],
        *[("next_policy", _Bytes32), ("first_epoch", c_uint64), ("first_link", _Bytes32)],
    ]


# What several calls take.
_core, _run, _size, _why = POINTER(Core), [c_char_p, c_size_t], POINTER(c_size_t), POINTER(Why)
_received, _verdicts, _32 = POINTER(Received), POINTER(Verdicts), POINTER(_Bytes32)
_exports: _Exports = [
    ("coniks_core_feed", c_uint32, [_core, _received, _why]),
    ("coniks_core_reply_needs", c_uint32, [_core, *_run, POINTER(Needs)]),
    ("coniks_core_lookup", c_uint32, [_core, POINTER(Asking), _verdicts, POINTER(Found), _why]),
    ("coniks_core_watch", c_uint32, [_core, POINTER(Watch), c_uint32]),
    ("coniks_core_expect", c_uint32, [_core, *_run, c_uint64]),
    ("coniks_core_compare", c_uint32, [_core, c_uint64, _32, _size]),
    ("coniks_core_evidence", c_uint32, [_core, _received, _why]),
    ("coniks_core_quorum", c_size_t, [c_size_t, c_size_t]),
    ("coniks_core_mark", c_uint32, [_core, c_size_t, c_uint64, _32]),
    ("coniks_core_confirmed", c_uint32, [_core, POINTER(c_uint64)]),
    ("coniks_core_relied", c_uint32, [_core, c_size_t]),
    ("coniks_core_start", c_uint32, [_core, POINTER(Head), c_size_t, _received, _why]),
    ("coniks_core_succeed", c_uint32, [_core, POINTER(Succession), _received, _core, _size]),
    ("coniks_core_cover", c_uint32, [_core, c_uint64, POINTER(Covered)]),
    ("coniks_core_note", c_uint32, [_core, c_uint64]),
    ("coniks_core_report", c_uint32, [_core, c_uint64, POINTER(Report)]),
    ("coniks_core_lost", c_uint32, [_core, c_uint64, c_size_t]),
    ("coniks_core_catch_up", c_uint32, [*_run, _size]),
    ("coniks_core_history_needs", c_uint32, [*_run, POINTER(HistoryNeeds)]),
    ("coniks_core_history", c_uint32, [_core, POINTER(History), _verdicts, POINTER(Siblings), POINTER(Steps)]),
    ("coniks_core_state_size", c_uint32, [_core, _size]),
    ("coniks_core_state_write", c_uint32, [_core, c_void_p, c_size_t, _size]),
    ("coniks_core_state_needs", c_uint32, [_core, *_run, POINTER(StateNeeds)]),
    ("coniks_core_state_read", c_uint32, [_core, *_run, POINTER(c_uint32), c_size_t]),
]
library = _Library(_exports)
