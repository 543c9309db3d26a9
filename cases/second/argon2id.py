"""Argon2id, from RFC 9106, with any number of lanes. It takes milliseconds for each KiB of memory in each pass."""

from __future__ import annotations

import itertools
from hashlib import blake2b
from typing import NamedTuple, Sequence

MASK = (1 << 64) - 1
VERSION, KIND, SIZE = 0x13, 2, 32
# The words that a round of the permutation mixes, in each of its eight steps (RFC 9106, section 3.6).
STEPS = [(0, 4, 8, 12), (1, 5, 9, 13), (2, 6, 10, 14), (3, 7, 11, 15), (0, 5, 10, 15), (1, 6, 11, 12), (2, 7, 8, 13), (3, 4, 9, 14)]
Block = list[int]


def little(value: int, size: int = 4) -> bytes:
    return value.to_bytes(size, "little")


def sized(text: bytes) -> bytes:
    return little(len(text)) + text


def long_hash(text: bytes, size: int) -> bytes:
    """H', section 3.3."""
    if size <= 64:
        return blake2b(little(size) + text, digest_size=size).digest()
    found, value = b"", blake2b(little(size) + text).digest()
    while size - len(found) > 64:
        found += value[:32]
        rest = size - len(found)
        value = blake2b(value, digest_size=min(64, rest)).digest()
    return found + value


def mixed(words: list[int], places: Sequence[int]) -> None:
    """P, section 3.6, over the words at 16 places."""
    v = [words[it] for it in places]
    for a, b, c, d in STEPS:
        x, y, z, w = v[a], v[b], v[c], v[d]
        x = (x + y + 2 * (x & 0xFFFFFFFF) * (y & 0xFFFFFFFF)) & MASK
        w ^= x
        w = (w >> 32 | w << 32) & MASK
        z = (z + w + 2 * (z & 0xFFFFFFFF) * (w & 0xFFFFFFFF)) & MASK
        y ^= z
        y = (y >> 24 | y << 40) & MASK
        x = (x + y + 2 * (x & 0xFFFFFFFF) * (y & 0xFFFFFFFF)) & MASK
        w ^= x
        w = (w >> 16 | w << 48) & MASK
        z = (z + w + 2 * (z & 0xFFFFFFFF) * (w & 0xFFFFFFFF)) & MASK
        y ^= z
        v[a], v[b], v[c], v[d] = x, (y >> 63 | y << 1) & MASK, z, w
    for place, value in zip(places, v):
        words[place] = value


ROWS = [range(16 * it, 16 * it + 16) for it in range(8)]
COLUMNS = [[16 * row + 2 * column + it for row in range(8) for it in (0, 1)] for column in range(8)]


def compressed(one: Block, other: Block) -> Block:
    """G, section 3.5."""
    front = [a ^ b for a, b in zip(one, other)]
    words = list(front)
    for places in [*ROWS, *COLUMNS]:
        mixed(words, places)
    return [a ^ b for a, b in zip(front, words)]


def block_of(data: bytes) -> Block:
    return [int.from_bytes(data[at : at + 8], "little") for at in range(0, 1024, 8)]


class Cost(NamedTuple):
    """What a tag takes: passes, memory in KiB, and lanes."""

    passes: int
    kib: int
    lanes: int = 1


class Segment(NamedTuple):
    """A part of a lane: the number of the pass, the slice, and the lane."""

    number: int
    part: int
    lane: int


class Memory:
    """The blocks of a computation: `lanes` rows, of four slices each."""

    def __init__(self, first: bytes, cost: Cost) -> None:
        self.lanes, self.passes, self.segment = cost.lanes, cost.passes, cost.kib // (4 * cost.lanes)
        self.columns = 4 * self.segment
        self.rows: list[list[Block]] = []
        for lane in range(self.lanes):
            begun = [block_of(long_hash(first + little(column) + little(lane), 1024)) for column in (0, 1)]
            self.rows.append(begun + [[]] * (self.columns - 2))

    def fill(self) -> None:
        for it in itertools.product(range(self.passes), range(4), range(self.lanes)):
            self.fill_segment(Segment(*it))

    def fill_segment(self, it: Segment) -> None:
        row, addresses = self.rows[it.lane], self.addresses(it)
        for place in range(2 if it.number == it.part == 0 else 0, self.segment):
            column = it.part * self.segment + place
            before = row[column - 1]
            value = addresses[place] if addresses else before[0]
            lane, at = self.reference(it, place, value)
            made = compressed(before, self.rows[lane][at])
            row[column] = [a ^ b for a, b in zip(made, row[column])] if it.number else made

    def addresses(self, it: Segment) -> Block:
        """Argon2id takes the places of the first two slices of the first pass from no block that depends on the text (section 3.4.1.3)."""
        if it.number or it.part >= 2:
            return []
        found, zero, counter = Block(), [0] * 128, 0
        while len(found) < self.segment:
            counter += 1
            front = [it.number, it.lane, it.part, self.lanes * self.columns, self.passes, KIND, counter]
            found += compressed(zero, compressed(zero, front + [0] * 121))
        return found

    def reference(self, it: Segment, place: int, value: int) -> tuple[int, int]:
        """The lane and column of the other block (section 3.4.2)."""
        low, lane = value & 0xFFFFFFFF, it.lane if it.number == it.part == 0 else (value >> 32) % self.lanes
        size = it.part * self.segment if it.number == 0 else self.columns - self.segment
        if lane == it.lane:
            size += place - 1
        elif place == 0:
            size -= 1
        start = 0 if it.number == 0 or it.part == 3 else (it.part + 1) * self.segment
        position = size - 1 - (size * (low * low >> 32) >> 32)
        return lane, (start + position) % self.columns


def argon2id(text: bytes, salt: bytes, cost: Cost, secret: bytes = b"", data: bytes = b"") -> bytes:
    """The tag of a text, of 32 bytes (section 3.2)."""
    numbers = b"".join(map(little, (cost.lanes, SIZE, cost.kib, cost.passes, VERSION, KIND)))
    first = blake2b(numbers + sized(text) + sized(salt) + sized(secret) + sized(data)).digest()
    memory = Memory(first, cost)
    memory.fill()
    last = memory.rows[0][-1]
    for row in memory.rows[1:]:
        last = [a ^ b for a, b in zip(last, row[-1])]
    return long_hash(b"".join(little(it, 8) for it in last), SIZE)
