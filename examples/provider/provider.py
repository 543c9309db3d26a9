"""A provider: a directory run by the program `provider`, a signing key, and the secret key of a VRF."""

from __future__ import annotations

from contextlib import ExitStack
from pathlib import Path
from typing import Any, Iterable

import ecvrf
from coniks.guard import Guard
from coniks.provider import Epoch, FileLog, Latest, Operation, Provider, Settings
from keys import PublicKeys, is_signed
from nacl.signing import SigningKey


class Secrets:
    """A provider's secret keys: they compute indices, prove them, and sign."""

    def __init__(self, signing: bytes, vrf: bytes):
        self._signer, self._vrf = SigningKey(signing), vrf
        self.keys = PublicKeys(bytes(self._signer.verify_key), ecvrf.public_key(vrf))
        self.policy = self.keys.policy

    def proof(self, name: str) -> bytes:
        return ecvrf.prove(self._vrf, name.encode())

    def index(self, name: str) -> bytes:
        return ecvrf.output(self.proof(name))[:32]

    def sign(self, body: bytes) -> bytes:
        return self._signer.sign(body).signature

    def verify(self, body: bytes, signature: bytes) -> bool:
        """Whether a signature is valid. `provider` stores signatures without verifying them."""
        return is_signed(self.keys.signing, body + signature)


class KeyServer:
    """Registers names and looks them up. The log is its store: a provider that starts goes on where the log ends. A guard with a
    record of its own lets the signing key sign one chain. A directory is made only if `create` is true."""

    def __init__(self, program: Path, log: Path, record: Path, secrets: Secrets, nonce: bytes, create: bool = False):
        self._secrets = secrets
        guard = Guard(record, secrets.sign, new_directory=create, verify=secrets.verify)
        with ExitStack() as opened:
            file = opened.enter_context(FileLog.create(log) if create else FileLog(log))
            keys: dict[str, Any] = {"nonce": nonce, "vrf_public_key": secrets.keys.vrf, "verify": secrets.verify}
            provider = Provider(Settings(program, secrets.index, secrets.policy, **keys), guard, file)
            self._directory = opened.enter_context(provider)
            self._opened = opened.pop_all()

    def commit(self, epoch: int, operations: Iterable[Operation]) -> Epoch:
        return self._directory.commit(epoch, operations)

    def reply(self, name: str, epoch: int) -> bytes:
        """What a client gets for a name: the entry, the proof of the name's index, and the proof of its path."""
        return self._directory.reply(name, self._secrets.proof(name), epoch)

    def line(self, name: str, epoch: int) -> str:
        """The line that the program prints for a name, with the proof of the name's index."""
        line = self._directory.lookup(name, epoch).line.decode()
        return f'{line[:-1]},"vrf":"{self._secrets.proof(name).hex()}"}}'

    def catch_up(self, epoch: int) -> bytes:
        """The entries after an epoch."""
        return self._directory.catch_up(epoch)

    def chain(self) -> list[bytes]:
        return self._directory.chain()

    def latest(self) -> Latest:
        return self._directory.latest()

    def close(self) -> None:
        self._opened.close()
