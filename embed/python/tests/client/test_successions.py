"""The succession of a directory: its parts, what convicts, the client that goes on, and the command of the operator."""

from __future__ import annotations

import dataclasses
import gc
import json
import stat
import subprocess
import sys
from pathlib import Path
from typing import Any, Optional

import pytest

pytest.importorskip("nacl.signing")

import nacl.signing
from case_runner import TOP, Clock
from client_successions import ENDED, GOING, NEXT, NEXT_SUCCESSOR, OLD, SUCCESSOR, TEXT
from client_world import SIGNING_KEY, VRF_KEY, hour
import curve
from made import raised
from coniks import Head, Policy
from coniks.client import Cause, Client, Watched
from coniks.succession import Succession, convicts

ENDS, GOES_ON = Policy.read(OLD.encode()), Policy.read(NEXT.encode())
OURS = Succession(ENDS.digest, Head(5, ENDED.link(5)), GOES_ON.digest, Head(4, GOING.link(4)))
SIGNED = Succession.read(TEXT.encode())


def test_parts() -> None:
    assert OURS.sign(nacl.signing.SigningKey(SUCCESSOR)) == SIGNED and bytes(SIGNED) == TEXT.encode()
    assert raised(lambda: Succession.read(SIGNED.signed)) is ValueError, "one that is not signed"
    assert raised(lambda: Succession.unsigned(bytes(SIGNED))) is ValueError, "one that is signed already"
    change: Any = dataclasses.replace
    for wrong in [
        *({"policy": it} for it in (bytes(31), bytes(33), GOES_ON.digest)),
        *({"last": it} for it in (Head(0, bytes(32)), Head(1 << 64, bytes(32)), Head(1, bytes(31)))),
        *({"first": it} for it in (Head(0, bytes(32)), Head(-1, bytes(32)), Head(1, b""))),
        *({"signature": bytes(it)} for it in (1, 63, 65, 128)),
    ]:
        assert raised(lambda: change(SIGNED, **wrong)) is ValueError, wrong
    for argument in (TEXT, None, 7):
        given: Any = argument
        assert raised(lambda: Succession.read(given)) is TypeError, given


def test_signatures() -> None:
    assert SIGNED.is_signed(ENDS.successor_key)
    for key in (None, b"", ENDS.signing_key, GOES_ON.successor_key, bytes(32), b"\1" + bytes(31)):
        assert SIGNED.is_signed(key) is False, key
    assert OURS.is_signed(ENDS.successor_key) is False, "one that is not signed"


def test_evidence(tmp_path: Path) -> None:
    """Two successions convict a directory, and the second implementation says so too."""
    own, other = nacl.signing.SigningKey(SUCCESSOR), nacl.signing.SigningKey(NEXT_SUCCESSOR)
    early = dataclasses.replace(OURS, last=Head(3, ENDED.link(3))).sign(own)
    again = dataclasses.replace(OURS, signature=curve.sign(SUCCESSOR, OURS.signed, nonce=7))
    assert again.is_signed(ENDS.successor_key) and again != SIGNED, "the same lines, signed again"
    elsewhere = dataclasses.replace(OURS, policy=bytes(32)).sign(own)
    pairs = [(SIGNED, early), (early, SIGNED), (SIGNED, SIGNED), (SIGNED, again), (early, again)]
    pairs += [(SIGNED, dataclasses.replace(early, signature=SIGNED.signature)), (SIGNED, early.sign(other)), (SIGNED, elsewhere)]
    wanted = [True, True, False, False, True, False, False, False]
    assert [convicts(ENDS, *it) for it in pairs] == wanted
    assert [convicts(GOES_ON, *it) for it in pairs] == [False] * len(pairs), "the directory of another policy"
    rows: list[dict[str, Any]] = [{"kind": "successions", "evidence": [bytes(one).hex(), bytes(two).hex()]} for one, two in pairs]
    found = examined(tmp_path, ENDS, rows)
    assert found == ["successions: the successor key signed both, and they differ" if it else "no evidence" for it in wanted]
    none: list[dict[str, Any]] = [
        {"kind": "successions", "evidence": [bytes(SIGNED).hex(), early.signed.hex()]},
        {"kind": "successions"},
    ]
    assert examined(tmp_path, ENDS, none) == ["no evidence"] * 2, "what is no succession"


def examined(room: Path, policy: Policy, rows: list[dict[str, Any]]) -> list[str]:
    (room / "policy").write_bytes(bytes(policy))
    words = [sys.executable, str(TOP / "cases/second/convicts"), str(room / "policy")]
    text = "".join(f"{json.dumps(it)}\n" for it in rows)
    return subprocess.run(words, input=text, capture_output=True, text=True, timeout=60).stdout.splitlines()


def ended(clock: Optional[Clock] = None) -> Client:
    """A client that has all entries of the directory that ends, and of which epoch 5 is the last one."""
    clock = clock or Clock()
    clock.now = hour(7)
    client = Client(SIGNING_KEY, VRF_KEY, ENDS, clock=clock)
    client.watch("alice", b"A", since=1)
    client.feed(ENDED.entries(1, 2))
    client.expect(b"B", by=9)
    client.feed(ENDED.entries(3, 5, 6, 7))
    return client


def test_client() -> None:
    """What the next client has, and that it needs nothing of the one before."""
    clock = Clock()
    client = ended(clock)
    state = client.state
    succeeded = client.succeed(SIGNED, GOES_ON, GOING[4])
    assert succeeded.void == ENDED.entries(6, 7) and client.state == state, "the client before stays as it is"
    following = succeeded.client
    assert following.entries == [GOING[4]] and following.missing == [4] and following.alarms == [] and following.confirmed is None
    clock.now += 60
    del client, succeeded
    gc.collect()
    resumed = Client(GOES_ON.signing_key, VRF_KEY, GOES_ON, following.state, clock=clock)
    for it in (following, resumed):
        assert it.lookup("alice", GOING.reply("alice", 4), 4).seen is Watched.SAME, "the new key"
        it.feed(GOING.entries(5, 8))
        assert it.lookup("alice", GOING.reply("alice", 8), 8).seen is Watched.CHANGED, "a third key"
        assert it.lookup("alice", GOING.reply("alice", 4), 4).first_seen == hour(7), "when the first entry was received"
    assert following.state == resumed.state


def test_clock() -> None:
    """The clock is that of the client before, unless another one is given."""
    old, new = Clock(), Clock()
    client, reply = ended(old), GOING.reply("alice", 4)
    old.now, new.now = hour(4), hour(9)
    assert client.succeed(SIGNED, GOES_ON, GOING[4]).client.lookup("alice", reply).first_seen == hour(4)
    stale = client.succeed(SIGNED, GOES_ON, GOING[4], clock=new).client
    assert raised(lambda: stale.lookup("alice", reply)) is Cause.STALE
    assert client.succeed(SIGNED, GOES_ON, GOING[4], clock=new, max_age=6 * 3600).client.lookup("alice", reply).key == b"B"


def test_digest_alone() -> None:
    """A client that has no document of its policy knows no successor key."""
    client = Client(SIGNING_KEY, VRF_KEY, ENDS.digest)
    client.feed(ENDED.entries(1, 2, 3, 5))
    assert raised(lambda: client.succeed(SIGNED, GOES_ON, GOING[4])) is Cause.SUCCESSION_SIGNATURE


def test_verdicts() -> None:
    """The verdict on the signature counts only if it is True itself."""

    class Wrong(Succession):
        def is_signed(self, key: Optional[bytes]) -> Any:
            return 1

    wrong = Wrong(*(getattr(SIGNED, it.name) for it in dataclasses.fields(SIGNED)))
    assert raised(lambda: ended().succeed(wrong, GOES_ON, GOING[4])) is Cause.SUCCESSION_SIGNATURE


def run(*words: str, given: bytes = b"") -> subprocess.CompletedProcess[bytes]:
    """The operator's command."""
    return subprocess.run([sys.executable, "-m", "coniks.succession", *words], input=given, capture_output=True, timeout=60)


def test_command(tmp_path: Path) -> None:
    file = tmp_path / "successor.key"
    made = run("new", str(file))
    key = bytes.fromhex(made.stdout.decode())
    assert made.returncode == 0 and made.stdout == key.hex().encode() + b"\n" and made.stderr == b""
    assert stat.S_IMODE(file.stat().st_mode) == 0o600 and curve.public_key(file.read_bytes()) == key
    secret = file.read_bytes()
    assert run("new", str(file)).returncode == 1 and file.read_bytes() == secret, "a key is never written over"
    other = run("new", str(tmp_path / "other.key"))
    assert other.returncode == 0 and other.stdout != made.stdout
    signed = run("sign", str(file), given=OURS.signed)
    assert signed.returncode == 0 and signed.stdout.startswith(OURS.signed + b"signature ")
    assert curve.is_signed(key, OURS.signed, Succession.read(signed.stdout).signature)
    for given in (b"", signed.stdout, OURS.signed[:-1], OURS.signed + b"\n"):
        refused = run("sign", str(file), given=given)
        assert (refused.returncode, refused.stdout) == (1, b"") and refused.stderr.startswith(b"coniks.succession: "), given
    (tmp_path / "short.key").write_bytes(secret[:31])
    for path in ("short.key", "none.key"):
        refused = run("sign", str(tmp_path / path), given=OURS.signed)
        assert (refused.returncode, refused.stdout) == (1, b"") and b"Traceback" not in refused.stderr, path
    wrong: list[list[str]] = [[], ["new"], ["sign"], ["draw", str(file)], ["sign", str(file), "more"]]
    for words in wrong:
        assert run(*words).returncode == 2, words
