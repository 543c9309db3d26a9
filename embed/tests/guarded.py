"""Calls of a library for C with each argument beside inaccessible memory: a byte that is read or written too far ends the tests.

What an argument points at is copied to a place that ends right before an inaccessible page, or begins right after one, by turns. So is
what the members of a struct point at, if the next member is a number: of bytes, or of the items for which an array has room. After the call
it is copied back. A struct that is passed itself, not by `byref`, may only be read, with what it points at, and so may bytes: they are
compared.
"""

from __future__ import annotations

import ctypes
import mmap
from itertools import cycle
from typing import Any, Iterator, NamedTuple, Optional

_LIBC = ctypes.CDLL(None, use_errno=True)
_PAGE, _AREAS, _ROOM = mmap.PAGESIZE, 256, 1 << 19


class Area:
    """Some pages between two that nothing may read or write."""

    def __init__(self) -> None:
        self._pages = mmap.mmap(-1, _ROOM + 2 * _PAGE)
        self.first = ctypes.addressof(ctypes.c_char.from_buffer(self._pages)) + _PAGE
        for page in (self.first - _PAGE, self.first + _ROOM):
            if _LIBC.mprotect(ctypes.c_void_p(page), ctypes.c_size_t(_PAGE), 0):
                raise OSError(ctypes.get_errno(), "mprotect")


class Block(NamedTuple):
    """Bytes of the caller, and their copy beside an inaccessible page."""

    own: int
    copy: int
    length: int


class Placed:
    """The arguments of one call, in areas of their own."""

    def __init__(self, areas: Iterator[Area], is_last: bool) -> None:
        self._areas, self._is_last = areas, is_last
        self.blocks, self._written, self._read = list[Block](), list[tuple[Any, Block]](), list[tuple[Block, bytes]]()

    def place(self, own: int, length: int) -> Block:
        assert length <= _ROOM
        first = next(self._areas).first
        block = Block(own, first + _ROOM - length if self._is_last else first, length)
        ctypes.memmove(block.copy, own, length)
        self.blocks.append(block)
        return block

    def put(self, own: int, kind: Any, length: int, is_written: bool) -> int:
        """Places values of this type, and what they point at. Bytes that they point at are only read."""
        block = self.place(own, length)
        for offset, of in pointers(kind, length):
            member = ctypes.c_void_p.from_address(block.copy + offset)
            count = ctypes.c_size_t.from_address(block.copy + offset + 8).value
            if member.value:
                member.value = self.put(member.value, of, count * ctypes.sizeof(of), is_written and of is not ctypes.c_char)
        if is_written:
            self._written.append((kind, block))
        else:
            self._read.append((block, ctypes.string_at(block.copy, length)))
        return block.copy

    def given(self, argument: Any, following: Any) -> Any:
        """What the call is given for an argument."""
        if isinstance(argument, bytes):
            own = ctypes.cast(ctypes.c_char_p(argument), ctypes.c_void_p).value
            assert own
            return ctypes.c_void_p(self.put(own, ctypes.c_char, len(argument), False))
        value = getattr(argument, "_obj", argument)
        if not isinstance(value, (ctypes.Array, ctypes.Structure)) and value is argument:
            return argument
        kind = value._type_ if isinstance(value, ctypes.Array) else type(value)
        is_written = not isinstance(argument, ctypes.Structure)
        return ctypes.c_void_p(self.put(ctypes.addressof(value), kind, size_of(value, following), is_written))

    def take_back(self) -> None:
        """Gives the caller what was written."""
        for block, before in self._read:
            assert ctypes.string_at(block.copy, block.length) == before, "bytes that are only read were written"
        for kind, block in self._written:
            ctypes.memmove(block.own, block.copy, block.length)
            for offset, _ in pointers(kind, block.length):
                member = ctypes.c_void_p.from_address(block.own + offset)
                member.value = self.own_address(member.value)

    def own_address(self, address: Optional[int]) -> Optional[int]:
        """The address in the caller's memory of one in a copy."""
        for block in self.blocks:
            if address and block.copy <= address <= block.copy + block.length:
                return block.own + address - block.copy
        return address


def size_of(value: Any, following: Any) -> int:
    """The bytes that a call may use: so many elements of an array as the next argument says, if that is a number of elements."""
    if not isinstance(value, ctypes.Array) or not isinstance(following, ctypes.c_size_t):
        return ctypes.sizeof(value)
    return min(following.value * ctypes.sizeof(value._type_), ctypes.sizeof(value))


def pointers(kind: Any, length: int) -> Iterator[tuple[int, Any]]:
    """The places of such pointers in values of a type that take these bytes, and the types of what they point at."""
    if is_struct(kind):
        for start in range(0, length, ctypes.sizeof(kind)):
            yield from ((start + place, of) for place, of in members(kind))


def members(kind: Any) -> Iterator[tuple[int, Any]]:
    """The places of such pointers in a struct, and in the structs in it, and the types of what they point at."""
    fields = kind._fields_
    for (name, of), (_, following) in zip(fields, [*fields[1:], (None, None)]):
        place = getattr(kind, name).offset
        if is_struct(of):
            yield from ((place + within, it) for within, it in members(of))
        elif following is ctypes.c_size_t and issubclass(of, (ctypes.c_char_p, ctypes.c_void_p)):
            yield place, ctypes.c_char
        elif following is ctypes.c_size_t and issubclass(of, ctypes._Pointer):
            yield place, of._type_


def is_struct(kind: Any) -> bool:
    return isinstance(kind, type) and issubclass(kind, ctypes.Structure)


class Call:
    """A call of the library."""

    def __init__(self, function: Any, areas: Iterator[Area]) -> None:
        self.function, self._areas, self._count = function, areas, 0

    def __call__(self, *arguments: Any) -> Any:
        self._count += 1
        placed = Placed(self._areas, self._count % 2 == 1)
        result = self.function(*(placed.given(it, following) for it, following in zip(arguments, [*arguments[1:], None])))
        placed.take_back()
        return result


class Library:
    """A library, each of whose calls is made so."""

    def __init__(self, path: str) -> None:
        self._library, self._areas = ctypes.CDLL(path), cycle([Area() for _ in range(_AREAS)])

    def __getattr__(self, name: str) -> Call:
        call = Call(getattr(self._library, name), self._areas)
        setattr(self, name, call)
        return call
