"""The prefix tree of an epoch, as recursions over its entries: pairs of an index and a commitment."""

from __future__ import annotations

from typing import TYPE_CHECKING, Sequence

from bytelists import bit, commitment, empty_node, interior_node, leaf

if TYPE_CHECKING:
    from proofs import Proof

Entries = Sequence[tuple[bytes, bytes]]
Prefix = tuple[int, ...]


def halves(entries: Entries, level: int) -> tuple[Entries, Entries]:
    left = [entry for entry in entries if bit(entry[0], level) == 0]
    right = [entry for entry in entries if bit(entry[0], level) == 1]
    return left, right


def node(nonce: bytes, prefix: Prefix, entries: Entries) -> bytes:
    """The hash of the node at a prefix, a tuple of bits, over the entries under it."""
    if not entries:
        return empty_node(nonce, prefix)
    if len(entries) == 1:
        [(index, committed)] = entries
        return leaf(nonce, index, len(prefix), committed)
    left, right = halves(entries, len(prefix))
    return interior_node(node(nonce, prefix + (0,), left), node(nonce, prefix + (1,), right))


def path(nonce: bytes, prefix: Prefix, entries: Entries, index: bytes) -> tuple[list[bytes], Entries]:
    """The siblings of the path to an index, from the root down, and the entries at its end: one or none."""
    if len(entries) <= 1:
        return [], entries
    parts = halves(entries, len(prefix))
    side = bit(index, len(prefix))
    beside = node(nonce, prefix + (1 - side,), parts[1 - side])
    siblings, end = path(nonce, prefix + (side,), parts[side], index)
    return [beside] + siblings, end


def climb(nonce: bytes, index: bytes, name: bytes, proof: Proof) -> bytes:
    """The root that a proof leads to."""
    level = len(proof.siblings)
    if proof.kind == "empty":
        found = empty_node(nonce, [bit(index, k) for k in range(level)])
    elif proof.kind == "other":
        found = leaf(nonce, proof.index, level, proof.commitment)
    else:
        found = leaf(nonce, index, level, commitment(proof.opening, name, proof.key))
    for k in reversed(range(level)):
        if bit(index, k) == 0:
            found = interior_node(found, proof.siblings[k])
        else:
            found = interior_node(proof.siblings[k], found)
    return found
