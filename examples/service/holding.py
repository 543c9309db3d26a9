"""What the service holds: its secret keys, the log, and the directory over it, as the writer or as a replica."""

from __future__ import annotations

import hashlib
import logging
import os
import secrets
import stat
import sys
import threading
import time
from contextlib import ExitStack
from dataclasses import dataclass
from pathlib import Path
from typing import Any, Optional, Union

import ecvrf
from coniks import Policy
from coniks.guard import Guard
from coniks.provider import FileLog, Provider, Settings
from coniks.replica import Replica
from keys import PublicKeys, is_signed
from nacl.signing import SigningKey
from outside import KeyFailed, Outside
from queueing import Queue, in_file, in_postgres
from past import check_open, read_past

LOG = logging.getLogger("service")
# How many names have their VRF proof kept, of some 500 bytes each.
_ROOM = 100_000
_SIGNING, _VRF, _POLICY = "signing.key", "vrf.key", "policy"


@dataclass(frozen=True)
class Sources:
    """The processes that have a key in the place of the folder: one that signs, and one that makes VRF proofs."""

    signer: Optional[Outside] = None
    prover: Optional[Outside] = None


class Keys:
    """The policy, and what uses the secret keys: those in a folder, or other processes in their place. What comes from these is verified
    under the policy's keys before it is used. A replica signs nothing: its folder needs no signing key, and none is read. The VRF proof
    of a name is computed once, and kept while there is room."""

    def __init__(self, folder: Path, is_replica: bool = False, sources: Sources = Sources()):
        self._vrf = b"" if sources.prover else secret_of(folder / _VRF)
        self._signer = None if is_replica or sources.signer else SigningKey(secret_of(folder / _SIGNING))
        self.policy = policy = Policy.read((folder / _POLICY).read_bytes())
        if policy.vrf_key is None:
            raise ValueError(f"{folder / _POLICY} has no VRF, whose proofs the service sends: make a directory with one")
        self.keys, self._sources = PublicKeys(policy.signing_key, policy.vrf_key), sources
        signing = bytes(self._signer.verify_key) if self._signer else policy.signing_key
        if self.keys != PublicKeys(signing, ecvrf.public_key(self._vrf) if self._vrf else policy.vrf_key):
            raise ValueError(f"the keys in {folder} are not those of its policy: start with the directory's own keys")
        if policy.epoch_start is None or policy.epoch_period is None:
            raise ValueError(f"{folder / _POLICY} has no clock, by which the service commits: make a directory with one")
        self.start, self.period = policy.epoch_start, policy.epoch_period
        # The VRF proof and the index of each name that was proved last.
        self._stored: dict[str, tuple[bytes, bytes]] = {}
        self._keeping = threading.Lock()

    def sign(self, body: bytes) -> bytes:
        if self._signer:
            return self._signer.sign(body).signature
        assert self._sources.signer
        signature = self._sources.signer.ask("signature", 64, cmd="sign", body=body.hex())
        if not self.verify(body, signature):
            raise KeyFailed(f"{self._sources.signer} returned no signature of this body by the policy's key: see which key it has")
        return signature

    def verify(self, body: bytes, signature: bytes) -> bool:
        return is_signed(self.keys.signing, body + signature)

    def index(self, name: str) -> bytes:
        return self._proved(name)[1]

    def proof(self, name: str) -> bytes:
        return self._proved(name)[0]

    def stored_proof(self, name: str) -> Optional[bytes]:
        """The VRF proof of a name if it is kept, so that nothing is computed or waited for."""
        stored = self._stored.get(name)
        return stored and stored[0]

    def _proved(self, name: str) -> tuple[bytes, bytes]:
        """The VRF proof of a name, and its index."""
        if stored := self._stored.get(name):
            return stored
        proved = self._prove(name)
        with self._keeping:
            if len(self._stored) >= _ROOM:
                # The one that was proved first.
                del self._stored[next(iter(self._stored))]
            self._stored[name] = proved
        return proved

    def _prove(self, name: str) -> tuple[bytes, bytes]:
        prover = self._sources.prover
        if prover is None:
            proof = ecvrf.prove(self._vrf, name.encode())
            return proof, ecvrf.output(proof)[:32]
        proof = prover.ask("proof", ecvrf.PROOF_LENGTH, cmd="prove", name=name)
        try:
            return proof, ecvrf.verify(self.keys.vrf, name.encode(), proof)[:32]
        except ecvrf.InvalidProof:
            raise KeyFailed(f"{prover} returned no proof of this name by the policy's VRF key: see which key it has") from None


def secret_of(path: Path) -> bytes:
    """The 32 bytes of a key's file, which only its owner may read. A credential of systemd has an access control list for the user of the
    service, whose mask is shown as the rights of the group."""
    rights, key = stat.S_IMODE(path.stat().st_mode), path.read_bytes()
    is_credential = os.environ.get("CREDENTIALS_DIRECTORY") == str(path.parent)
    if rights & (0o037 if is_credential else 0o077) or len(key) != 32:
        raise ValueError(f"{path} has {len(key)} bytes and the rights {rights:04o}: a key has 32, and chmod 600")
    return key


@dataclass(frozen=True)
class Terms:
    """What the policy of a new directory says besides its keys: the fields of `coniks.Policy`."""

    origin: str
    epoch_start: int
    epoch_period: int
    proofs_kept: Optional[int]
    records_vouched: bool = False
    successor_key: Optional[bytes] = b""


# The bytes that an epoch without operations takes: in this process, in its two children, and in the two that replace these at a `compact`.
EPOCH = 1800


def kept_of(period: int, kept: Optional[int]) -> int:
    """For how many seconds proofs are promised, if this machine has the memory for it. Raises ValueError."""
    most = os.sysconf("SC_PAGE_SIZE") * os.sysconf("SC_PHYS_PAGES") // EPOCH * period
    stored = min(most, 90 * 86400) if kept is None else kept
    if not 0 <= stored <= most or not most:
        raise ValueError(
            f"--kept {stored} at --period {period} would run out of memory: this machine has {most // max(1, period)} times "
            f"the {EPOCH} bytes of an epoch, so take --kept {most} or less, or a longer --period. Neither can be changed later"
        )
    size = stored // period * EPOCH // 10**6
    print(
        f"serve: the epochs whose proofs are promised take up to {size} MB of memory, and their operations come to that",
        file=sys.stderr,
    )
    return stored


def make_keys(folder: Path, terms: Terms, sources: Sources = Sources(), vrf: Optional[bytes] = None) -> Policy:
    """Draws the keys that no other process has, but for the secret key of a VRF that is given, and writes the policy. Returns it. Raises
    `FileExistsError` if there is one of these files."""
    signing, vrf = secrets.token_bytes(32), vrf or secrets.token_bytes(32)
    signing_key, vrf_key = bytes(SigningKey(signing).verify_key), ecvrf.public_key(vrf)
    if sources.signer:
        signing_key = _public_key_of(sources.signer, "signing-key")
    if sources.prover:
        vrf_key = _public_key_of(sources.prover, "vrf-key")
    policy = Policy(signing_key=signing_key, vrf_key=vrf_key, **vars(terms))
    files = [(_SIGNING, signing, sources.signer), (_VRF, vrf, sources.prover), (_POLICY, bytes(policy), None)]
    folder.mkdir(mode=0o700, parents=True, exist_ok=True)
    for name, data, other in files:
        if other is None:
            _write(folder / name, data)
    return policy


def _public_key_of(source: Outside, command: str) -> bytes:
    key = source.ask("key", 32, cmd=command)
    if not ecvrf.is_key(key):
        raise KeyFailed(f"{source} returned no key of its scheme: see which key it has")
    return key


def _write(path: Path, data: bytes) -> None:
    """Writes a file that only its owner may read."""
    with open(path, "xb", opener=lambda path, flags: os.open(path, flags, 0o600)) as file:
        file.write(data)
        file.flush()
        os.fsync(file.fileno())


@dataclass(frozen=True)
class Places:
    """Where the log and the guard's record are, each a path; with `is_database` they are in PostgreSQL, and both are connection
    strings. The queue is beside the log. `program` is the program `provider`, and `past` the folder of the directories before this one.
    """

    log: str
    guard: str
    program: str
    is_database: bool = False
    past: Optional[Path] = None

    def check_open(self) -> None:
        """Raises ValueError if the directory has ended."""
        if not self.is_database:
            check_open(self.log)

    def open_log(self, create: bool = False) -> Any:
        kind: Any = FileLog
        if self.is_database:
            from coniks.postgres import PostgresLog

            kind = PostgresLog
        return kind.create(self.log) if create else kind(self.log)

    def open_guard(self, keys: Keys, **more: Any) -> Guard:
        """The guard, with the options of a `Guard`. With one of them its record may be a new one."""
        more["verify"] = keys.verify
        if not self.is_database:
            return Guard(self.guard, keys.sign, **more)
        from coniks.postgres import PostgresGuard

        return PostgresGuard(self.guard, keys.policy.origin, keys.sign, create=len(more) > 1, **more)

    def open_queue(self, policy: Policy) -> Queue:
        """The queue of a directory. That of another one beside the same log has another table."""
        name = f"coniks_queue_{policy.digest[:8].hex()}"
        return Queue(in_postgres(self.log, name) if self.is_database else in_file(f"{self.log}.queue", name))


class Holder:
    """Keeps the directory open, which is a provider, or a replica in its place. All calls can be used from several threads."""

    def __init__(self, places: Places, keys: Keys, is_replica: bool = False, create: bool = False, nonce: Optional[bytes] = None):
        """Opens the directory, or makes it, then with this nonce if one is given."""
        self.keys, public = keys, keys.keys
        places.check_open()
        self.past = read_past(places.past) if places.past else {}
        if is_replica and not places.is_database:
            raise ValueError("a replica needs a log in PostgreSQL: pass --database")
        settings = Settings(
            places.program, keys.index, keys.policy, nonce, vrf_public_key=public.vrf, verify=keys.verify, timeout=30
        )
        with ExitStack() as opened:
            self.log = log = opened.enter_context(places.open_log(create))
            # The directory, and what waits for it, if this process writes.
            self.provider: Optional[Provider] = None
            self.queue: Optional[Queue] = None
            if not is_replica:
                guard = places.open_guard(keys, **{"new_directory": True} if create else {})
                # An update whose signature fails keeps no lookup back: the first commit has it signed.
                self.provider = Provider(settings, guard, log, sign_pending=False)
            self.directory: Union[Provider, Replica] = self.provider or Replica(settings, log)
            opened.enter_context(self.directory)
            if self.provider:
                self.queue = places.open_queue(keys.policy)
                opened.callback(self.queue.close)
            self.close = opened.pop_all().close

    def age(self) -> float:
        """How many seconds ago the latest epoch began by the policy's clock."""
        return time.time() - (self.keys.start + (self.directory.latest().epoch - 1) * self.keys.period)

    def until_next(self) -> float:
        """In how many seconds the next epoch begins by the policy's clock."""
        return self.keys.period - (time.time() - self.keys.start) % self.keys.period

    def reply(self, name: str, epoch: Optional[int]) -> bytes:
        return self.directory.reply(name, self.keys.proof(name), epoch)


def link_of(entry: bytes) -> bytes:
    return hashlib.sha256(b"S" + entry).digest()


def error_of(error: Exception, **more: Union[str, int]) -> dict[str, Any]:
    """What the log has of an error."""
    return {"members": {"error": f"{type(error).__name__}: {error}", **more}}
