"""Replies, catch-ups and histories that `coniks.provider` makes over the program `provider`, read by `coniks.client`; how long a
lookup takes, and how large a history is."""

from __future__ import annotations

import hashlib
import json
import tempfile
import time
from contextlib import contextmanager
from pathlib import Path
from typing import Callable, Iterator

import pytest

pytest.importorskip("nacl.signing")

import case_runner
import client_world
import curve
import replies
from case_runner import Clock
from client_attacks import NOT_POINTS, SMALL, WORLD
from nacl.signing import SigningKey
import coniks
from coniks import _ecvrf
from coniks.client import Client, Watched
from coniks.guard import Guard
from coniks.provider import Change, FileLog, Operation, Provider, ProviderError, Register, UnknownEpoch, Settings


POLICY = coniks.Policy.read(client_world.POLICY.encode())
SIGNER = SigningKey(client_world.SIGNING)
NAMES = [f"name{it}" for it in range(40)]


def vrf_proof(name: str) -> bytes:
    return client_world.vrf_proof(name)


def index(name: str) -> bytes:
    """The index of a watched name is its VRF's. Others are hashed, since proofs in Python are slow and nobody looks them up."""
    if name in NAMES:
        return hashlib.sha256(name.encode()).digest()
    return client_world.index(name)


@contextmanager
def opened(program: str) -> Iterator[Provider]:
    with tempfile.TemporaryDirectory() as room:
        guard = Guard(Path(room) / "guard", lambda body: SIGNER.sign(body).signature, new_directory=True)
        with FileLog.create(Path(room) / "log") as log:
            with Provider(Settings(program, index, POLICY, nonce=bytes(32)), guard, log) as provider:
                yield provider


def batches() -> Iterator[tuple[int, list[Operation], bool]]:
    """Epochs with their operations, and whether the nonce is another one."""
    yield 1, [Register(it, it.encode()) for it in [*NAMES, "alice"]], False
    for epoch in range(2, 20):
        changed: list[Operation] = [Change(NAMES[epoch], b"key %d" % epoch)]
        yield 2 * epoch, [*changed, Change("alice", b"a" * epoch)] if epoch % 6 == 0 else changed, epoch == 10


def test_service(program: str, say: Callable[[str], None]) -> None:
    clock = Clock()
    clock.now = client_world.hour(38)
    with opened(program) as provider:
        for epoch, operations, is_rotated in batches():
            provider.commit(epoch, operations, bytes([epoch]) * 32 if is_rotated else None, force=True)
        client = Client(client_world.SIGNING_KEY, client_world.VRF_KEY, POLICY, clock=clock)
        client.watch("alice", b"alice")
        assert provider.catch_up(0) == b"".join(provider.chain()), "catch-up: after 0"
        fed = client.feed(provider.catch_up(0))
        assert len(fed) == 19 and client.entries == provider.chain(), "catch-up: it is fed"
        assert provider.catch_up(38) == b"" and provider.catch_up(2**64 - 1) == b"", "catch-up: after the latest"
        assert provider.catch_up(35) == provider.catch_up(34) == b"".join(provider.chain()[-2:]), "catch-up: between epochs"
        check_replies(provider, client)
        check_histories(provider, client, say)
        check_refusals(provider)


def check_replies(provider: Provider, client: Client) -> None:
    proof = vrf_proof("alice")
    latest = provider.reply("alice", proof)
    found = provider.lookup("alice")
    assert latest == replies.reply(found.entry, proof, coniks.proof_bytes(found.proof)), "reply: its bytes"
    assert client.lookup("alice", latest).key == b"a" * 18, "reply: of the latest epoch"
    first = client.lookup("alice", provider.reply("alice", proof, 1), 1)
    assert first.key == b"alice" and first.seen is Watched.SAME, "reply: of the first epoch"
    absent = client.lookup("dave", provider.reply("dave", vrf_proof("dave")))
    assert absent.key is None and absent.seen is None, "reply: of an absent name"


def check_histories(provider: Provider, client: Client, say: Callable[[str], None]) -> None:
    proof, epochs = vrf_proof("alice"), [int.from_bytes(it[1:9], "big") for it in provider.chain()]
    whole = provider.history("alice", proof, 0, 2**64 - 1)
    proofs = [(it, coniks.proof_bytes(provider.lookup("alice", it).proof)) for it in epochs]
    assert whole == replies.history(proof, proofs), "history: its bytes"
    assert replies.History(whole).steps == proofs, "history: the second implementation reads it"
    found = client.history("alice", whole)
    assert [it.epoch for it in found] == epochs and client.missing == [], "history: all epochs"
    keys = [b"alice"] * 5 + [b"a" * 6] * 6 + [b"a" * 12] * 6 + [b"a" * 18] * 2
    assert [it.key for it in found] == keys, f"history: its keys: {[it.key for it in found]}"
    assert [it.epoch for it in client.history("alice", provider.history("alice", proof, 5, 9))] == [6, 8], "history: some epochs"
    assert client.history("alice", provider.history("alice", proof, 5, 5)) == [], "history: no epoch"
    assert client.history("alice", provider.history("alice", proof, 9, 5)) == [], "history: the wrong way round"
    separate = sum(len(it) for _, it in proofs)
    assert len(whole) < separate / 2, f"history: it is smaller than its proofs: {(len(whole), separate)}"
    say(f"a history of {len(epochs)} epochs has {len(whole)} bytes, their proofs {separate}")


def check_refusals(provider: Provider) -> None:
    proof = vrf_proof("alice")
    wrong: list[tuple[str, type, Callable[[], object]]] = [
        ("an unknown epoch", UnknownEpoch, lambda: provider.reply("alice", proof, 3)),
        ("a later epoch", UnknownEpoch, lambda: provider.reply("alice", proof, 99)),
        ("no VRF proof", TypeError, lambda: provider.reply("alice", None)),  # type: ignore[arg-type]
        ("a VRF proof of 65,536 bytes", ValueError, lambda: provider.reply("alice", bytes(65536))),
        ("a long name", ProviderError, lambda: provider.reply("a" * 256, proof)),
        ("a long name's history", ProviderError, lambda: provider.history("a" * 256, proof, 1, 9)),
        ("a lone surrogate's history", ProviderError, lambda: provider.history("\ud800", proof, 1, 9)),
        ("an epoch below 0", ValueError, lambda: provider.catch_up(-1)),
    ]
    for what, wanted, call in wrong:
        try:
            found: object = call()
        except Exception as error:
            found = error
        assert isinstance(found, wanted), f"service: {what}: {found}"
    assert len(provider.reply("alice", proof)) > 300, "service: lookups go on"


def test_speed(say: Callable[[str], None], bar: float = 2.0) -> None:
    """The processor time of one lookup, the least of some rounds, in milliseconds."""
    clock = Clock()
    clock.now = client_world.hour(3)
    client = Client(client_world.SIGNING_KEY, client_world.VRF_KEY, POLICY, clock=clock)
    client.feed(WORLD.entries(1, 2, 3))
    reply, rounds = WORLD.reply("alice", 3), []
    for _ in range(10):
        start = time.thread_time()
        for _ in range(20):
            client.lookup("alice", reply)
        rounds.append((time.thread_time() - start) / 20 * 1000)
    say(f"a lookup takes {min(rounds):.2f} ms of processor time")
    assert min(rounds) <= bar, f"a lookup takes at most {bar} ms: {min(rounds)}"


def test_vectors() -> None:
    """The client's VRF and signatures on the vectors of the RFCs, which the second implementation passes too."""
    rows = json.loads((case_runner.TOP / "examples/provider/vectors.json").read_text("utf-8"))
    for row in rows["vrf"]:
        public, text, proof, output = (bytes.fromhex(row[it]) for it in ("public", "input", "proof", "output"))
        assert _ecvrf.verify(public, text, proof) == curve.vrf_output(public, text, proof) == output, f"{row['of']}"
    for text in [*map(bytes.fromhex, [*SMALL.values(), *NOT_POINTS.values()])]:
        assert _ecvrf.hashed_point(text) is None and not _ecvrf.is_key(text), f"no point of prime order: {text.hex()}"
    for row in rows["signatures"]:
        public, text, signature = (bytes.fromhex(row[it]) for it in ("public", "message", "signature"))
        assert _ecvrf.is_signed(public, text, signature) and curve.is_signed(public, text, signature), f"{row['of']}"
