"""Directories for the cases of clients: their chains, proofs and replies, under fixed keys."""

from __future__ import annotations

from dataclasses import dataclass
from typing import Any, Optional, Sequence

import curve
from bytelists import commitment, number, sha256
from chain import Entry, body_after
from replies import history, reply
from tree import node, path

SIGNING, VRF = sha256(b"signing key"), sha256(b"key of the VRF")
SIGNING_KEY, VRF_KEY = curve.public_key(SIGNING), curve.public_key(VRF)
NONCE, LATER_NONCE = sha256(b"nonce"), sha256(b"later nonce")
START, PERIOD = 1767225600, 3600

Batch = dict[str, bytes]


def policy_text(
    signing: bytes = SIGNING_KEY,
    vrf: Optional[bytes] = VRF_KEY,
    has_clock: bool = True,
    *,
    start: int = START,
    period: int = PERIOD,
    stored: Optional[int] = None,
    records_vouched: bool = False,
    successor: Optional[bytes] = None,
    origin: str = "keys.example.com",
) -> str:
    """The text of a policy document. A successor key of no byte stands for the line that says that there is none."""
    scheme = ["vrf none"] if vrf is None else ["vrf ECVRF-EDWARDS25519-SHA512-TAI", f"vrf-key {vrf.hex()}"]
    clock = [f"epoch-start {start}", f"epoch-period {period}"] if has_clock else []
    front = ["policy coniks-1", f"origin {origin}", "signature Ed25519", f"signing-key {signing.hex()}"]
    records = ["records vouched"] if records_vouched else []
    line = [] if successor is None else [f"successor-key {successor.hex() or 'none'}"]
    end = ["evidence one-chain", *records, *line, f"proofs-kept {'forever' if stored is None else stored}"]
    return "".join(f"{it}\n" for it in [*front, *scheme, *clock, *end])


POLICY = policy_text()


def digest(text: str = POLICY) -> bytes:
    return sha256(text.encode())


def vrf_proof(name: str) -> bytes:
    return curve.prove(VRF, name.encode())


def index(name: str) -> bytes:
    output = curve.vrf_output(VRF_KEY, name.encode(), vrf_proof(name))
    assert output
    return output[:32]


def signed(body: bytes, key: bytes = SIGNING, nonce: Optional[int] = None) -> bytes:
    return body + curve.sign(key, body, nonce)


def hour(epoch: int, seconds: int = 600) -> int:
    """A time in an epoch, in Unix seconds: so many seconds after its beginning."""
    return START + (epoch - 1) * PERIOD + seconds


@dataclass
class Epoch:
    """An epoch: its entry, and the name, opening and key at each index."""

    entry: bytes
    nonce: bytes
    names: dict[bytes, tuple[bytes, bytes, bytes]]

    @property
    def leaves(self) -> list[tuple[bytes, bytes]]:
        return sorted((it, commitment(opening, name, key)) for it, (name, opening, key) in self.names.items())


class World:
    """A directory. `batches` has the number of each epoch and the keys that its names get; from `rotated` on there is another
    nonce, and entries have version 2. `signing` is the secret key."""

    def __init__(
        self,
        batches: Sequence[tuple[int, Batch]],
        rotated: Optional[int] = None,
        policy: bytes = digest(),
        signing: bytes = SIGNING,
    ) -> None:
        self.signing = signing
        self.epochs: dict[int, Epoch] = {}
        names: dict[bytes, tuple[bytes, bytes, bytes]] = {}
        before: Optional[Entry] = None
        for epoch, batch in batches:
            is_later = rotated is not None and epoch >= rotated
            nonce = LATER_NONCE if is_later else NONCE
            for name, key in batch.items():
                names[index(name)] = name.encode(), sha256(b"opening", name.encode(), number(epoch, 8)), key
            made = Epoch(b"", nonce, dict(names))
            root = node(nonce, (), made.leaves)
            made.entry = signed(body_after(before, 2 if is_later else 1, epoch, root, nonce, policy), signing)
            self.epochs[epoch], before = made, Entry(made.entry)

    def sign_again(self, epoch: int) -> None:
        """Signs the body of an epoch again, and those of the later ones over it."""
        self.epochs[epoch].entry = signed(self[epoch][:145], self.signing, nonce=7)
        later = [it for it in self.epochs if it > epoch]
        for before, it in zip([epoch, *later], later):
            self.epochs[it].entry = signed(self[it][:49] + self.link(before) + self[it][81:145], self.signing)

    def __getitem__(self, epoch: int) -> bytes:
        return self.epochs[epoch].entry

    def entries(self, *numbers: int) -> list[bytes]:
        """The entries of these epochs, of all if none is named."""
        return [self[it] for it in numbers or self.epochs]

    def link(self, epoch: int) -> bytes:
        return Entry(self[epoch]).link

    def proof(self, name: str, epoch: int, at: Optional[bytes] = None) -> bytes:
        """The proof in bytes of a name at an epoch, or of an index."""
        it, place = self.epochs[epoch], at or index(name)
        siblings, found = path(it.nonce, (), it.leaves, place)
        front = number(len(siblings), 2) + b"".join(siblings)
        if not found:
            return b"\0" + front
        if found[0][0] != place:
            return b"\1" + front + found[0][0] + found[0][1]
        shown, opening, key = it.names[place]
        return b"\2" + front + opening + number(len(shown), 2) + shown + number(len(key), 4) + key

    def reply(self, name: str, epoch: int, **other: Any) -> bytes:
        """A reply, of which some parts may be others."""
        parts = {"entry": self[epoch], "vrf": vrf_proof(name), "proof": self.proof(name, epoch), **other}
        return reply(parts["entry"], parts["vrf"], parts["proof"])

    def history(self, name: str, *epochs: int) -> bytes:
        return history(vrf_proof(name), [(it, self.proof(name, it)) for it in epochs])


OTHERS = [f"user{it}" for it in range(9)]
FIRST: Batch = {"alice": b"key of alice", "bob": b"key of bob", **{it: f"key of {it}".encode() for it in OTHERS}}
BATCHES: list[tuple[int, Batch]] = [
    (1, FIRST),
    (2, {"carol": b"key of carol"}),
    (3, {"alice": b"second key of alice"}),
    (5, {}),
    (6, {"user3": b"second key of user3"}),
]
