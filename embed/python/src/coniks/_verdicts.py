"""The verdicts on signatures and VRF proofs, which a client passes to the core. Each of them is made here, and nowhere else.

A scheme's verdict counts only if it is `True` itself. The core proves nothing about signatures: an entry or an index that is wrongly
taken for valid here is accepted.
"""

from __future__ import annotations

import ctypes
from types import ModuleType
from typing import TYPE_CHECKING, Any, Optional, Protocol, Sequence, Union

from . import ENTRY_LENGTH, _Bytes32, _bytes32, _core
from ._formats import Cause
from ._layout import body_of, signature_of
from ._messages import Refusal

if TYPE_CHECKING:
    from .succession import Succession


class SignatureScheme(Protocol):
    """A signature scheme with its public key, in place of an Ed25519 key."""

    def verify(self, body: bytes, signature: bytes) -> bool:
        """Returns True if 64 bytes are a valid signature of 145 bytes."""
        ...


class IndexScheme(Protocol):
    """Where names are stored, in place of a VRF's key."""

    def verify(self, name: bytes, proof: bytes) -> bool:
        """Returns True if the proof is one of this name. A directory without a VRF has the proof of no byte."""
        ...

    def index(self, name: bytes, proof: bytes) -> bytes:
        """Returns the index of a name, 32 bytes, whose proof was verified."""
        ...


class Verifier:
    """Verifies the signatures of one key, and the proofs of one VRF."""

    def __init__(self, signing_key: Union[bytes, SignatureScheme], vrf_key: Union[bytes, IndexScheme, None]):
        self._signatures, self._indices = signatures_of(signing_key), indices_of(vrf_key)

    def of_entry(self, entry: bytes) -> bool:
        """Returns whether an entry has its length, and a valid signature."""
        has_parts = len(entry) == ENTRY_LENGTH
        return has_parts and self._signatures.verify(body_of(entry), signature_of(entry)) is True

    def of_received(self, entry: bytes) -> _core.Received:
        """Verifies the signature of an entry that the client received. Its time is left out."""
        return _core.Received(entry, len(entry), self.of_entry(entry))

    def of_state(self, state: bytes, needs: _core.StateNeeds) -> Any:
        """Verifies the signature of each entry of a state."""
        starts = (needs.entry_start + it * needs.entry_step for it in range(needs.stored))
        return (ctypes.c_uint32 * needs.stored)(*(self.of_entry(part(state, it, ENTRY_LENGTH)) for it in starts))

    def of_reply(self, name: bytes, reply: bytes, needs: _core.Needs) -> _core.Verdicts:
        """Verifies the signature of a reply's entry if it is needed, and the VRF proof."""
        is_signed = needs.signature == 1 and self.of_entry(part(reply, needs.entry_start, ENTRY_LENGTH))
        return self._of_index(name, part(reply, needs.vrf_start, needs.vrf_length), is_signed)

    def of_history(self, name: bytes, history: bytes, needs: _core.HistoryNeeds) -> _core.Verdicts:
        """Verifies the VRF proof of a history."""
        return self._of_index(name, part(history, needs.vrf_start, needs.vrf_length), False)

    def _of_index(self, name: bytes, proof: bytes, is_signed: bool) -> _core.Verdicts:
        if self._indices.verify(name, proof) is not True:
            return _core.Verdicts(is_signed, False)
        index: Any = self._indices.index(name, proof)
        if not isinstance(index, bytes) or len(index) != 32:
            raise TypeError("an index is 32 bytes: look at the object that returns it")
        return _core.Verdicts(is_signed, True, _Bytes32.from_buffer_copy(index))


def of_succession(it: Succession, key: Optional[bytes]) -> _core.Succession:
    """Verifies the signature of a succession by the successor key of a policy, if there is one."""
    last, first = (_bytes32(at.link, "the link") for at in (it.last, it.first))
    ends, goes_on = (_bytes32(at, "a policy digest") for at in (it.policy, it.next_policy))
    return _core.Succession(it.is_signed(key) is True, ends, it.last.epoch, last, goes_on, it.first.epoch, first)


def part(whole: bytes, start: int, length: int) -> bytes:
    return whole[start : start + length]


def signatures_of(key: Union[bytes, SignatureScheme]) -> SignatureScheme:
    """What verifies the signatures of a key, or the object in place of one."""
    if isinstance(key, bytes):
        return Ed25519(key)
    check_calls(key, ["verify"])
    return key


def indices_of(key: Union[bytes, IndexScheme, None]) -> IndexScheme:
    """What verifies the proofs of a VRF's key, or the object in place of one."""
    if key is None:
        return NoVrf()
    if isinstance(key, bytes):
        return Vrf(key)
    check_calls(key, ["verify", "index"])
    return key


def check_calls(given: object, calls: Sequence[str]) -> None:
    if not all(callable(getattr(given, it, None)) for it in calls):
        raise TypeError(f"a key is bytes, or an object with {' and '.join(calls)}, not {type(given).__name__}")


def ecvrf_module() -> ModuleType:
    """The module over libsodium, which needs PyNaCl."""
    try:
        from . import _ecvrf
    except ImportError as error:
        raise ImportError(f"{error}: install PyNaCl, by pip install coniks[client], or pass objects in place of keys") from error
    return _ecvrf


class Ed25519:
    """Verifies signatures of one key by libsodium."""

    def __init__(self, key: bytes):
        self._key, self._ecvrf = key, ecvrf_module()
        if not self._ecvrf.is_key(key):
            raise Refusal(Cause.SIGNING_KEY)

    def verify(self, body: bytes, signature: bytes) -> bool:
        return bool(self._ecvrf.is_signed(self._key, body, signature))


class NoVrf:
    """A directory without a VRF, whose indices nobody has given."""

    def verify(self, name: bytes, proof: bytes) -> bool:
        return False

    def index(self, name: bytes, proof: bytes) -> bytes:
        raise Refusal(Cause.VRF_PROOF)


class Vrf:
    """Verifies proofs of one VRF key over libsodium."""

    def __init__(self, key: bytes):
        self._key, self._ecvrf = key, ecvrf_module()
        if not self._ecvrf.is_key(key):
            raise Refusal(Cause.VRF_KEY)
        # The index of the name and proof that were verified last.
        self._verified: dict[tuple[bytes, bytes], bytes] = {}

    def verify(self, name: bytes, proof: bytes) -> bool:
        try:
            self._verified = {(name, proof): self._ecvrf.verify(self._key, name, proof)[:32]}
        except self._ecvrf.InvalidProof:
            return False
        return True

    def index(self, name: bytes, proof: bytes) -> bytes:
        return self._verified[name, proof]
