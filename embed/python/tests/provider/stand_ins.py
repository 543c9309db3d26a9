"""What the tests of `coniks.provider` use in place of a service: indices, signers that list each body, and an auditor."""

from __future__ import annotations

import hashlib
import json
import os
import signal
import subprocess
import tempfile
import time
from contextlib import closing, contextmanager, suppress
from pathlib import Path
from typing import Any, Callable, Iterable, Iterator, Optional, Protocol, TypeVar, Union

import chain
import coniks
from bytelists import link
from coniks import provider
from coniks.guard import BodyRefused, Guard
from coniks.replica import Replica
from members import Fault as SecondFault
from proofs import Proof, judge

try:
    import nacl.exceptions
    import nacl.signing

    HAS_NACL = True
except ImportError:
    HAS_NACL = False

HERE = Path(__file__).resolve().parent
TOP = HERE.parents[3]
# The files of the package.
PACKAGE = str(Path(coniks.__file__).resolve().parent) + os.sep
# How a line ends that `append` wrote whole.
END = " ."
POLICY = bytes([7]) * 32
KEY = bytes([9]) * 32


class Closing(Protocol):
    """What is closed at the end."""

    def close(self) -> None:
        ...


Made = TypeVar("Made", bound=Closing)


@contextmanager
def in_room(make: Callable[[str], Made]) -> Iterator[Made]:
    """What is made in a new folder, and closed before that is removed."""
    with tempfile.TemporaryDirectory() as room, closing(make(room)) as made:
        yield made


class Scheme(Protocol):
    """A signature scheme with a key."""

    def sign(self, body: bytes) -> bytes:
        ...

    def verify(self, body: bytes, signature: bytes) -> bool:
        ...


def index(name: str) -> bytes:
    return hashlib.sha256(b"index of " + name.encode()).digest()


def other_index(name: str) -> bytes:
    """The index under another key of the VRF."""
    return index("another key, " + name)


def append(file: Path, text: str) -> None:
    """Appends a line, so that it is there if the process is killed afterwards. One that is killed meanwhile may cut it."""
    place = os.open(file, os.O_WRONLY | os.O_CREAT | os.O_APPEND, 0o600)
    os.write(place, f"\n{text}{END}".encode())
    os.fsync(place)
    os.close(place)


def lines(file: Union[str, Path]) -> list[str]:
    """The lines that were appended whole."""
    there = Path(file).read_text().splitlines() if Path(file).exists() else []
    return [it[: -len(END)] for it in there if it.endswith(END)]


def soon(call: Callable[[], object], seconds: float = 20) -> bool:
    """Waits until a call returns something true. Returns whether it did."""
    until = time.monotonic() + seconds
    while not (is_so := bool(call())) and time.monotonic() < until:
        time.sleep(0.005)
    return is_so


@contextmanager
def small_disk(size: str) -> Iterator[Path]:
    """A temporary folder. It is the mount point of a tmpfs of this size, if this process has the right to mount one."""
    with tempfile.TemporaryDirectory() as folder:
        subprocess.run(["mount", "-t", "tmpfs", "-o", f"size={size}", "tmpfs", folder], capture_output=True)
        try:
            yield Path(folder)
        finally:
            subprocess.run(["umount", "--lazy", folder], capture_output=True)


class Salted:
    """Signs by a hash with a random half, so that two signatures of one body differ. It has no security."""

    def sign(self, body: bytes) -> bytes:
        salt = os.urandom(32)
        return salt + hashlib.sha256(KEY + salt + body).digest()

    def verify(self, body: bytes, signature: bytes) -> bool:
        return signature[32:] == hashlib.sha256(KEY + signature[:32] + body).digest()


class Ed25519:
    """Signs by Ed25519, over PyNaCl."""

    def __init__(self) -> None:
        self._key = nacl.signing.SigningKey(KEY)

    def sign(self, body: bytes) -> bytes:
        return self._key.sign(body).signature

    def verify(self, body: bytes, signature: bytes) -> bool:
        try:
            return bool(self._key.verify_key.verify(body, signature))
        except nacl.exceptions.BadSignatureError:
            return False


class Signer:
    """Lists each body that it is asked for, and then signs it, unless it is told to fail. It has what a service has beside that."""

    policy, nonce, index = POLICY, None, staticmethod(index)

    def __init__(self, room: Union[str, Path], keys: Scheme) -> None:
        self.file, self.keys, self.fails = Path(room) / "asked", keys, 0
        self.before: Optional[Callable[[], object]] = None

    def __call__(self, body: bytes) -> bytes:
        append(self.file, body.hex())
        if self.before:
            self.before()
        if self.fails:
            self.fails -= 1
            raise TimeoutError("the signer is told to fail")
        return self.keys.sign(body)

    sign = __call__

    def verify(self, body: bytes, signature: bytes) -> bool:
        return self.keys.verify(body, signature)

    def requested(self) -> dict[int, set[bytes]]:
        """The bodies asked for, by their epochs."""
        bodies: dict[int, set[bytes]] = {}
        for it in map(bytes.fromhex, lines(self.file)):
            bodies.setdefault(int.from_bytes(it[1:9], "big"), set()).add(it)
        return bodies

    def is_requested_once(self) -> bool:
        return all(len(it) == 1 for it in self.requested().values())


def guarded(signer: Signer, name: str = "guard", **more: Any) -> Guard:
    """A guard over a signer, whose record is beside the list of bodies. The directory is a new one until a body is signed, unless
    its latest entry is known."""
    path = signer.file.with_name(name)
    settings: dict[str, Any] = {"verify": signer.verify, **more}
    try:
        return Guard(path, signer, new_directory="known" not in more, **settings)
    except BodyRefused:
        return Guard(path, signer, **settings)


def opened(
    program: str, log: provider.Log, signer: Signer, sign: Optional[Callable[[bytes], bytes]] = None, **more: Any
) -> provider.Provider:
    """A provider that signs by a signer, or through a guard over it."""
    settings: dict[str, Any] = {"policy": POLICY, "verify": signer.verify, **more}
    return provided(program, index, sign or signer, log, **settings)


def provided(program: Any, index: Callable[[str], bytes], sign: Any, log: provider.Log, **more: Any) -> provider.Provider:
    """A provider with some settings, and what is no setting."""
    given = {it: more.pop(it) for it in ("create", "head", "sign_pending") if it in more}
    return provider.Provider(provider.Settings(program, index, **more), sign, log, **given)


def replicated(log: provider.SharedLog, program: Any, index: Callable[[str], bytes], **more: Any) -> Replica:
    """A replica with some settings, and perhaps a head."""
    given = {it: more.pop(it) for it in ("head",) if it in more}
    return Replica(provider.Settings(program, index, **more), log, **given)


def is_new(log: provider.Log) -> bool:
    """Whether a log has no line, or doesn't exist."""
    try:
        return next(iter(log.read(0)), None) is None
    except provider.NoDirectory:
        return True
    except provider.LinesDropped:
        return False


def kill_child(own: provider.Directory) -> None:
    """Kills the child, and waits until it has ended."""
    pid = own.pid or 0
    os.kill(pid, signal.SIGKILL)
    soon(lambda: own.pid != pid or has_ended(pid))


def children_of(process: int) -> list[int]:
    """The processes that the threads of a process started."""
    found: list[int] = []
    for task in Path(f"/proc/{process}/task").glob("*/children"):
        # A thread may have ended.
        with suppress(OSError):
            found += map(int, task.read_text().split())
    return found


def has_ended(pid: int) -> bool:
    try:
        return Path(f"/proc/{pid}/stat").read_text().split()[2] == "Z"
    except OSError:
        return True


def has_library() -> bool:
    try:
        return bool(coniks.library_version())
    except ImportError:
        return False


def audited(entries: Iterable[bytes], keys: Scheme, library: bool) -> bool:
    """Whether a chain is accepted: by the second implementation's auditor, and by the proved one if the library is built."""
    before: Optional[chain.Entry] = None
    auditor = coniks.Auditor() if library else None
    for whole in entries:
        entry = chain.Entry(whole)
        try:
            chain.audit(entry, before, KEY)
        except SecondFault as fault:
            # The last thing that it compares is the demonstration's seal, in place of which is a signature here.
            if fault.answer["fault"] != "Verdict":
                return False
        if not keys.verify(entry.body, entry.signature) or entry.epoch == 0:
            return False
        if auditor:
            auditor.feed(whole, True)
        before = entry
    return not auditor or before is None or (auditor.head is not None and auditor.head.link == link(before.whole))


def shown(found: provider.Lookup) -> Optional[bytes]:
    """The key that a lookup's proof shows by the second implementation's checker; None if it shows that there is none."""
    entry = chain.Entry(found.entry)
    assert (entry.root, entry.nonce, entry.epoch) == (found.root, found.nonce, found.epoch)
    return judge(Proof(json.loads(found.line)["proof"]), found.index, found.name.encode(), found.nonce, found.root)
