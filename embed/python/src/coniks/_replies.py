"""What a provider's service sends to clients: replies, catch-ups and histories, in the bytes of docs/FORMATS.md."""

from __future__ import annotations

from bisect import bisect_left, bisect_right
from typing import TYPE_CHECKING, Iterator, Sequence

from . import _bytes, _number, proof_bytes
from ._layout import epoch_of
from ._lines import Lookup, grouped, lookup_line
from ._messages import Reply, history_bytes
from .faults import Fault

if TYPE_CHECKING:
    from ._directory import Directory


def reply(found: Lookup, vrf_proof: bytes) -> bytes:
    """The reply for a name that was looked up."""
    return bytes(Reply(found.entry, proof_of_vrf(vrf_proof), proof_bytes(found.proof)))


def catch_up(chain: Sequence[bytes], epoch: int) -> bytes:
    """The entries of a chain after an epoch."""
    return b"".join(chain[bisect_right(numbers(chain), _number(epoch, 64, "the epoch")) :])


def history(directory: Directory, name: str, vrf_proof: bytes, first: int, last: int) -> bytes:
    """The proofs of a name at the epochs from one number to another."""
    vrf, epochs = proof_of_vrf(vrf_proof), numbers(directory.chain())
    start, end = bisect_left(epochs, _number(first, 64, "the first epoch")), bisect_right(
        epochs, _number(last, 64, "the last epoch")
    )
    return history_bytes(vrf, proofs(directory, name, epochs[start:end]))


def proofs(directory: Directory, name: str, epochs: Sequence[int]) -> Iterator[tuple[int, bytes]]:
    """The proofs of a name in bytes, by their epochs."""
    index = directory._index_of(name)
    lines = grouped((lookup_line(name, index, it) for it in epochs), directory._host.group_size)
    for answers in directory._host.serve(lines):
        for found in map(directory._reported, answers):
            if isinstance(found, Fault):
                raise found
            yield found.epoch, proof_bytes(found.proof)


def numbers(chain: Sequence[bytes]) -> list[int]:
    """The epochs of entries."""
    return [*map(epoch_of, chain)]


def proof_of_vrf(vrf_proof: bytes) -> bytes:
    """The bytes of a VRF proof, for which a reply has a length of two bytes."""
    proof = _bytes(vrf_proof, "the VRF proof")
    _number(len(proof), 16, "the length of the VRF proof")
    return proof
