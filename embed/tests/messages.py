"""What `coniks.provider` returns for clients, and the keys that it registered, for the tests of clients in other languages.

    embed/tests/messages.py PROVIDER FILE    writes them to a file, over the program `provider`
"""

from __future__ import annotations

import json
import sys
import tempfile
from pathlib import Path
from typing import Any

import ecvrf
from coniks import Policy
from coniks.provider import Change, FileLog, Operation, Provider, Register, Settings
from nacl.signing import SigningKey

EPOCHS = [1, 2, 3, 5, 8, 13, 300]


def vrf_proof(name: str) -> bytes:
    return ecvrf.prove(bytes(32), name.encode())


def index(name: str) -> bytes:
    return ecvrf.output(vrf_proof(name))[:32]


def messages(program: str, log: Path) -> dict[str, Any]:
    """A directory in which alice changes her key at some epochs, among others who register."""
    signer = SigningKey(bytes(32))
    policy = Policy("keys.example.com", bytes(signer.verify_key), ecvrf.public_key(bytes(32)), 1767225600, 3600)
    keys: list[bytes] = []
    settings = Settings(program, index, policy)
    with FileLog.create(log) as file, Provider(settings, lambda body: signer.sign(body).signature, file) as own:
        for at, epoch in enumerate(EPOCHS):
            key = b"key %d of alice" % (at // 2)
            batch: list[Operation] = [Register(f"user {it} of {epoch}", b"key") for it in range(10 * at)]
            if not keys or keys[-1] != key:
                batch.append(Change("alice", key) if keys else Register("alice", key))
            own.commit(epoch, batch, force=True, far=True)
            keys.append(key)
        whole = {"catchup": own.catch_up(0), "reply": own.reply("alice", vrf_proof("alice"))}
        whole["absent"] = own.reply("nobody", vrf_proof("nobody"))
        whole["history"] = own.history("alice", vrf_proof("alice"), 0, 2**64 - 1)
    digits = {name: it.hex() for name, it in whole.items()}
    shown = {
        "policy": bytes(policy).decode(),
        "name": "alice",
        "nokey": "nobody",
        "epochs": EPOCHS,
        "keys": [it.hex() for it in keys],
    }
    return {**digits, **shown}


def write(program: str, file: Path) -> None:
    """Writes them to a file, over the program `provider`."""
    with tempfile.TemporaryDirectory() as room:
        file.write_text(json.dumps(messages(program, Path(room) / "log")), "utf-8")


if __name__ == "__main__":
    write(sys.argv[1], Path(sys.argv[2]))
