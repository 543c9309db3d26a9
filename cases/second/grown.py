"""Trees whose epochs share unchanged nodes, and a `keydir run` over them for many names."""

from __future__ import annotations

from typing import Optional

from bytelists import bit, empty_node, interior_node, leaf
from directory import Directory, Epoch, Registry
from tree import Entries, Prefix


class Node:
    """A node: its hash and its two children, none of an empty node or a leaf, and the entries of these: one or none."""

    __slots__ = ("hash", "children", "entries")

    def __init__(self, digest: bytes, children: Optional[tuple[Node, Node]], entries: Entries) -> None:
        self.hash, self.children, self.entries = digest, children, entries


def halves(entries: Entries, level: int) -> tuple[Entries, Entries]:
    """Entries in the order of their indices, cut in two by a bit; all agree in the bits before it."""
    low, high = 0, len(entries)
    while low < high:
        middle = (low + high) // 2
        if bit(entries[middle][0], level):
            high = middle
        else:
            low = middle + 1
    return entries[:low], entries[low:]


def built(nonce: bytes, prefix: Prefix, entries: Entries) -> Node:
    """The node at a prefix over the entries under it."""
    if not entries:
        return Node(empty_node(nonce, prefix), None, entries)
    if len(entries) == 1:
        [(index, committed)] = entries
        return Node(leaf(nonce, index, len(prefix), committed), None, entries)
    left, right = halves(entries, len(prefix))
    return joined(built(nonce, prefix + (0,), left), built(nonce, prefix + (1,), right))


def joined(left: Node, right: Node) -> Node:
    return Node(interior_node(left.hash, right.hash), (left, right), ())


def grown(node: Node, nonce: bytes, prefix: Prefix, changes: Entries) -> Node:
    """The node at a prefix after changes, which are in the order of their indices: one that has none is taken as it is."""
    if not changes:
        return node
    if node.children is None:
        return built(nonce, prefix, sorted({**dict(node.entries), **dict(changes)}.items()))
    parts = halves(changes, len(prefix))
    return joined(*(grown(child, nonce, prefix + (side,), parts[side]) for side, child in enumerate(node.children)))


def path_to(node: Node, index: bytes) -> tuple[list[bytes], Entries]:
    """The siblings of the path to an index, from the root down, and the entries at its end: one or none."""
    siblings: list[bytes] = []
    while node.children is not None:
        side = bit(index, len(siblings))
        siblings.append(node.children[1 - side].hash)
        node = node.children[side]
    return siblings, node.entries


def nodes_under(changes: Entries, node: Node, level: int) -> int:
    """How many nodes of a grown tree are new, at a node and below it.

    A node is new if something changes under it. Beside a new node, an unchanged leaf or empty node is made again. An unchanged
    node with two entries or more is kept, with all nodes below it.
    """
    if not changes:
        return 0 if node.children else 1
    if not node.children:
        return 1
    return 1 + sum(nodes_under(part, child, level + 1) for part, child in zip(halves(changes, level), node.children))


class GrownDirectory(Directory):
    """As `Directory`, but an epoch's tree grows from the one before, if the nonce stays."""

    def tree_after(self, before: Optional[Epoch], registry: Registry, changed: Registry, is_rotated: bool) -> Node:
        if before is None or is_rotated:
            return built(self.nonce, (), self.entries(registry))
        return grown(before.tree, self.nonce, (), self.entries(changed))

    def root(self, tree: Node) -> bytes:
        return tree.hash

    def path(self, epoch: Epoch, index: bytes) -> tuple[list[bytes], Entries]:
        return path_to(epoch.tree, index)
