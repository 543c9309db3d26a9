"""Evidence by two entries of one signing key, and small chains that part, from docs/FORMATS.md."""

from __future__ import annotations

from itertools import combinations, product
from typing import Optional, Sequence

from bytelists import ZEROS, demonstration_seal, link, number
from chain import Entry

# The kinds in the order in which they are told, the first from 1 on in the calls for C.
KINDS = ["overlap", "other policy", "malformed"]

KEY = bytes(32)
NONCE, POLICY = b"\x11" * 32, b"\x33" * 32

Chain = tuple[bytes, ...]


def covered(entry: Entry) -> range:
    """The epoch numbers that an entry covers: those after the epoch before it, up to its own."""
    return range(entry.epoch_before + 1, entry.epoch + 1)


def have_common(one: range, other: range) -> bool:
    return bool(range(max(one.start, other.start), min(one.stop, other.stop)))


def is_malformed(entry: Entry) -> bool:
    """Whether no chain has such an entry, whatever is before it."""
    has_wrong_link = entry.epoch_before == 0 and entry.previous_link != ZEROS
    return entry.version not in (1, 2) or not covered(entry) or has_wrong_link


def kind(a: bytes, b: bytes) -> Optional[str]:
    """Why two entries are evidence, None if they are none."""
    one, other = Entry(a), Entry(b)
    if one.body != other.body and have_common(covered(one), covered(other)):
        return KINDS[0]
    if one.body[113:] != other.body[113:]:
        return KINDS[1]
    return KINDS[2] if is_malformed(one) or is_malformed(other) else None


def entry(epoch: int, before: int, root: int = 0, previous: bytes = b"\7" * 32, version: int = 2, policy: bytes = POLICY) -> bytes:
    """An entry with the demonstration seal of a key of 32 zero bytes. The first entry has the zero link."""
    body = number(version, 1) + number(epoch, 8) + number(before, 8) + number(root, 32)
    body += (previous if before else ZEROS) + NONCE + policy
    return body + demonstration_seal(KEY, body)


def chains(numbers: int, length: int) -> list[Chain]:
    """All chains of at most `length` entries with epochs up to `numbers` and one of two roots in each entry, and the chain of none."""
    made: list[Chain] = [()]
    for count in range(1, length + 1):
        for epochs in combinations(range(1, numbers + 1), count):
            made += [chain(epochs, roots) for roots in product(range(2), repeat=count)]
    return made


def chain(epochs: Sequence[int], roots: Sequence[int]) -> Chain:
    entries: list[bytes] = []
    for epoch, before, root in zip(epochs, [0, *epochs], roots):
        entries.append(entry(epoch, before, root, link(entries[-1]) if entries else ZEROS))
    return tuple(entries)


def begins(one: Chain, other: Chain) -> bool:
    return [it[:145] for it in one] == [it[:145] for it in other[: len(one)]]
