"""What a client keeps, as memory that the core writes. One call of the core makes all of a change, so an interrupt before or after it
leaves a whole client."""

from __future__ import annotations

import ctypes
from typing import Mapping, Sequence

from . import _core
from ._formats import EPOCH

_ARRAYS = ("stored", "changes", "alarms")
_STORED = ctypes.sizeof(_core.StoredEntry)


class Memory(_core.Core):
    """The struct of a client, and the memory that it points at. The arrays stay where they are: a copy has more room, and the client
    takes it in one step."""

    def __init__(self, rules: _core.Rules, auditors: int, state: bytes = b"", **rooms: int):
        super().__init__(rules)
        # The bytes that the watch and the changes point at, by their places in memory. Those of a state are parts of it.
        self._texts: dict[int, bytes] = {}
        self._state = state
        self._place(rooms)
        self.set_marks([0] * auditors, rules.quorum)

    def _place(self, rooms: Mapping[str, int]) -> None:
        """Puts the items of each array in memory of their own, which has this room, or as much as the array has."""
        for name in _ARRAYS:
            array = getattr(self, name)
            items = (type(array.items)._type_ * rooms.get(name, array.room))()
            ctypes.memmove(items, array.items, len(array) * ctypes.sizeof(items._type_))
            array.items, array.room = items, len(items)

    def set_marks(self, marks: Sequence[int], quorum: int) -> None:
        self.marks, self.mark_count, self.rules.quorum = (ctypes.c_uint64 * len(marks))(*marks), len(marks), quorum

    def copied(self, **rooms: int) -> Memory:
        """Returns another one with the same, and with this room in the arrays that are named."""
        other = Memory.from_buffer_copy(self)
        other._texts, other._state = self._texts, self._state
        other._place(rooms)
        other.set_marks(self.marks[: self.mark_count], self.rules.quorum)
        return other

    def with_room(self, **more: int) -> Memory:
        """Returns this one, or a copy if an array has no room for so many items more. The room is doubled at least."""
        arrays = [(name, len(getattr(self, name)) + it, getattr(self, name).room) for name, it in more.items()]
        lacking = {name: max(needed, 2 * room) for name, needed, room in arrays if needed > room}
        return self.copied(**lacking) if lacking else self

    def hold(self, *texts: bytes) -> list[tuple[int, int]]:
        """Returns the places of bytes, and their lengths. They stay for as long as the watch or a change points at them, and at least
        until the next call of this."""
        used = {self.watch.name, self.watch.key, *(it.key for it in self.changes)}
        places = [ctypes.cast(ctypes.c_char_p(it), ctypes.c_void_p).value or 0 for it in texts]
        self._texts = {**{at: it for at, it in self._texts.items() if at in used}, **dict(zip(places, texts))}
        return [(at, len(it)) for at, it in zip(places, texts)]

    def share(self, other: Memory) -> None:
        """Keeps the bytes that the watch and the changes of another one point at."""
        self._texts, self._state = dict(other._texts), other._state

    # The stored epochs.

    def entry(self, place: int) -> bytes:
        return bytes(self.stored[place].entry)

    def epoch(self, place: int) -> int:
        return int.from_bytes(self.stored[place].entry[EPOCH], "big")

    def column(self, start: int, end: int) -> list[bytes]:
        """Some bytes of each stored epoch."""
        whole = ctypes.string_at(self.stored.items, len(self.stored) * _STORED)
        return [whole[at + start : at + end] for at in range(0, len(whole), _STORED)]

    def epochs(self) -> list[int]:
        return [int.from_bytes(it, "big") for it in self.column(1, 9)]

    def place(self, epoch: int) -> int:
        """The place of an epoch, `NOWHERE` if it is not kept."""
        low, high = 0, len(self.stored)
        while low < high:
            middle = (low + high) // 2
            low, high = (middle + 1, high) if self.epoch(middle) < epoch else (low, middle)
        return low if low < len(self.stored) and self.epoch(low) == epoch else _core.NOWHERE
