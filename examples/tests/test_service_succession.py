"""A directory that goes on with the names of another one: `serve succeed`, and what the new service shows of the old directory."""

from __future__ import annotations

import subprocess
from contextlib import suppress
from pathlib import Path
from typing import Any, Optional

import pytest
from coniks import Body, Policy, link
from coniks.client import Client, Refusal
from coniks.succession import Succession
from nacl.signing import SigningKey
from services import HOME, PYTHON, Running, named, until

SECRET = SigningKey(bytes(range(32)))
SUCCESSOR = bytes(SECRET.verify_key).hex()
NAMES = {"alice": b"key of alice", "bob": b"key of bob", "\u0101b": b"\x00" * 40}


class Successor:
    """A directory that ends in a folder, and the one that goes on in another."""

    def __init__(self, room: Path, program: str, period: int = 1):
        (room / "old").mkdir()
        (room / "new").mkdir()
        # The epochs that registered the names.
        self.epochs: list[int] = []
        self.old, self.new = Running(room / "old", program, period), Running(room / "new", program, period)

    def run(self, *words: str) -> "subprocess.CompletedProcess[str]":
        return subprocess.run([*self.new._words("succeed"), *words], capture_output=True, text=True)

    def succeed(self, *options: str) -> Succession:
        """Makes the new directory, signs the succession as its operator does offline, and takes it."""
        ran = self.run("--before", str(self.old.room / "keys"), "--before-log", str(self.old.room / "log"), *options)
        assert ran.returncode == 0, ran.stderr
        (self.new.room / "successor.key").write_bytes(bytes(SECRET))
        signed = subprocess.run(
            [PYTHON, "-m", "coniks.succession", "sign", str(self.new.room / "successor.key")],
            input=ran.stdout.encode(),
            capture_output=True,
            env={"PYTHONPATH": str(HOME.parents[1] / "embed/python/src")},
        )
        assert signed.returncode == 0, signed.stderr
        (self.new.room / "signed").write_bytes(signed.stdout)
        taken = self.run("--signed", str(self.new.room / "signed"))
        assert taken.returncode == 0, taken.stderr
        return Succession.read(signed.stdout)

    def policy(self, at: Running) -> Policy:
        return Policy.read((at.room / "keys/policy").read_bytes())


@pytest.fixture
def pair(tmp_path: Path, program: str) -> Any:
    found = Successor(tmp_path, program)
    found.old.make("--successor-key", SUCCESSOR)
    found.old.start()
    receipts = [found.old.operate("register", name, key) for name, key in NAMES.items()]
    assert [it.status for it in receipts] == [200] * len(NAMES)
    found.epochs = [it.json["epoch"] for it in receipts]
    assert found.old.end() == 0
    yield found
    for it in (found.old, found.new):
        if hasattr(it, "process") and it.process.poll() is None:
            it.end()


def shown(service: Running, client: Client, name: str) -> Optional[bytes]:
    """What the latest epoch of a service shows of a name to a client."""

    def looked() -> Optional[tuple[Optional[bytes]]]:
        client.feed(service.get(f"/v1/entries?after={client.head().epoch if client.head() else 0}").body)  # type: ignore[union-attr]
        # An epoch may begin between both.
        with suppress(Refusal):
            return (client.lookup(name, service.get(named(name)).body).key,)
        return None

    return until(looked)[0]


@pytest.mark.parametrize("options", [(), ("--keep-vrf",), ("--period", "2"), ("--origin", "other.example.com", "--kept", "100")])
def test_goes_on(pair: Successor, options: tuple[str, ...]) -> None:
    """The new directory has the same names with the same keys, and shows the chain of the old one."""
    succession = pair.succeed(*options)
    old, new = pair.policy(pair.old), pair.policy(pair.new)
    chain = (pair.new.room / "keys/before" / old.digest.hex() / "entries").read_bytes()
    last = chain[-209:]
    assert (
        succession.is_signed(bytes.fromhex(SUCCESSOR)) and succession.policy == old.digest and succession.next_policy == new.digest
    )
    assert (succession.last.epoch, succession.last.link) == (
        Body.of_entry(last).epoch,
        link(last),
    ), "succession: the old chain's head"
    pair.new.start()
    first = pair.new.entry(succession.first.epoch)
    assert link(first) == succession.first.link, "succession: the first entry that counts"
    is_kept = "--keep-vrf" in options
    assert (Body.of_entry(first).root == Body.of_entry(last).root) is is_kept, "succession: the root stays with the VRF key alone"
    assert (new.vrf_key == old.vrf_key) is is_kept and new.signing_key != old.signing_key
    client = Client(new.signing_key, new.vrf_key, new)
    client.feed(pair.new.get("/v1/entries").body)
    for name, key in NAMES.items():
        assert shown(pair.new, client, name) == key, f"succession: the key of {name}"
    assert shown(pair.new, client, "carol") is None
    digest = old.digest.hex()
    assert pair.new.get(f"/v1/policy?policy={digest}").body == bytes(old), "succession: the old policy"
    assert pair.new.get(f"/v1/entries?policy={digest}").body == chain, "succession: the old chain"
    assert pair.new.get(f"/v1/entries?after={Body.of_entry(last).epoch}&policy={digest}").body == b""
    assert pair.new.get(f"/v1/succession?policy={digest}").body == bytes(succession)
    assert pair.new.get(f"/v1/policy?policy={new.digest.hex()}").body == pair.new.get("/v1/policy").body == bytes(new)
    for target in (f"/v1/succession?policy={new.digest.hex()}", "/v1/succession"):
        assert pair.new.get(target).fault == "NoSuccession"
    assert pair.new.get(f"/v1/succession?policy={'0' * 64}").fault == "UnknownPolicy"
    assert pair.new.operate("register", "carol", b"key of carol").status == 200, "succession: it takes operations"


def test_ended(pair: Successor) -> None:
    """The old directory can't be opened once it has ended, nor the new one before its succession is signed by the right key."""
    words = "--before", str(pair.old.room / "keys"), "--before-log", str(pair.old.room / "log")
    ran = pair.run(*words)
    assert ran.returncode == 0, ran.stderr
    for it, why in ((pair.old, "has ended"), (pair.new, "has no succession")):
        opened = subprocess.run([*it._words("run"), "--listen", "127.0.0.1:0"], capture_output=True, text=True)
        assert opened.returncode == 1 and why in opened.stderr, why
    succession = Succession.unsigned(ran.stdout.encode())
    (pair.new.room / "signed").write_bytes(bytes(succession.sign(SigningKey(bytes(32)))))
    assert "successor key" in pair.run("--signed", str(pair.new.room / "signed")).stderr, "succession: another key"
    (pair.new.room / "signed").write_bytes(ran.stdout.encode())
    assert pair.run("--signed", str(pair.new.room / "signed")).returncode == 1, "succession: without a signature"
    other = Succession(succession.policy, succession.last, succession.next_policy, succession.last).sign(SECRET)
    (pair.new.room / "signed").write_bytes(bytes(other))
    assert "other lines" in pair.run("--signed", str(pair.new.room / "signed")).stderr, "succession: another text"
    assert pair.run(*words).returncode == 1, "succession: files of a directory are never written over"


def test_last_epoch(pair: Successor) -> None:
    """A directory can end at an earlier epoch: names of later ones are not taken over."""
    succession = pair.succeed("--last", str(pair.epochs[0]))
    assert succession.last.epoch == pair.epochs[0]
    assert pair.epochs[0] < pair.epochs[1], "the names are of several epochs"
    pair.new.start()
    new = pair.policy(pair.new)
    client = Client(new.signing_key, new.vrf_key, new)
    client.feed(pair.new.get("/v1/entries").body)
    assert [shown(pair.new, client, it) for it in NAMES] == [NAMES["alice"], None, None], "succession: only names of that epoch"


def test_without_a_successor(tmp_path: Path, program: str) -> None:
    """Without a successor key in the policy no client would take a succession."""
    found = Successor(tmp_path, program)
    found.old.make()
    ran = found.run("--before", str(found.old.room / "keys"), "--before-log", str(found.old.room / "log"))
    assert ran.returncode == 1 and "names no successor key" in ran.stderr
    assert not (found.new.room / "keys").exists() and not (found.old.room / "log.ended").exists()
