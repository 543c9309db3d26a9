"""That a signing key and a VRF key can be in other processes, and that these can end, hang, lie and come back: nothing is published that
isn't signed, each call ends, and then the service goes on."""

from __future__ import annotations

import json
import os
import re
import signal
import socket
import subprocess
import threading
import time
from concurrent.futures import ThreadPoolExecutor
from contextlib import suppress
from pathlib import Path
from typing import Callable, Iterator, Optional

import pytest

pytest.importorskip("aiohttp")
pytest.importorskip("nacl.signing")

import coniks
import ecvrf
import tools
from coniks.client import Client
from holding import Keys, Sources, Terms
from nacl.signing import SigningKey
from outside import KeyFailed, Outside
from services import HOME, PYTHON, TOP, Running, named, until

SIGNERS = HOME / "signers"
# The keys and values of RFC 8032, section 7.1, test 1, and RFC 9381, appendix B.3, example 17.
SIGNING = bytes.fromhex("9d61b19deffd5a60ba844af492ec2cc44449c5697b326919703bac031cae7f60")
VRF = bytes.fromhex("4ccd089b28ff96da9db6c346ec114e0f5b8a319f35aba624da8cf6ed4fb8a6fb")
LANGUAGES = ["python", "go"]
Reply = Callable[[bytes], Optional[bytes]]


class Listener:
    """A process with a key, played by the test: it replies to each line what `reply` returns. Nothing is a hang, and what has no LF is
    followed by the end of the connection."""

    def __init__(self, path: Path, reply: Reply):
        self.path, self.reply = path, reply
        self._open: list[socket.socket] = []
        self._socket = socket.socket(socket.AF_UNIX)
        self._socket.bind(str(path))
        self._socket.listen(64)
        threading.Thread(target=self._run, daemon=True).start()

    def _run(self) -> None:
        with suppress(OSError):
            while True:
                self._open.append(self._socket.accept()[0])
                threading.Thread(target=self._serve, args=(self._open[-1],), daemon=True).start()

    def _serve(self, connection: socket.socket) -> None:
        with connection, connection.makefile("rb") as lines, suppress(OSError):
            for line in lines:
                reply = self.reply(line)
                if reply is None:
                    # It hangs until the service gives up.
                    lines.read()
                    return
                connection.sendall(reply)
                if not reply.endswith(b"\n"):
                    return

    def close(self) -> None:
        """Ends as a process does."""
        self.path.unlink()
        for it in [self._socket, *self._open]:
            with suppress(OSError):
                it.shutdown(socket.SHUT_RDWR)
        self._socket.close()


@pytest.fixture
def place(tmp_path: Path) -> Path:
    return tmp_path / "socket"


GOOD = b'{"signature":"%s","more":[]}\n' % (b"07" * 64)
BAD = {
    "it is closed": b"",
    "a line that is cut": GOOD[:-20],
    "a line without its end": GOOD[:-1],
    "two lines": GOOD + GOOD,
    "a line and a half": GOOD + b'{"sig',
    "no UTF-8": b"\xff\n",
    "no JSON": b"signature\n",
    "an empty line": b"\n",
    "no object": b'["signature"]\n',
    "nested deeply": b"[" * 4000 + b"\n",
    "too long": b'{"signature":"%s","more":"%s"}\n' % (b"07" * 64, b"x" * 4096),
    "no such member": b'{"proof":"%s"}\n' % (b"07" * 64),
    "a number": b'{"signature":7}\n',
    "nothing": b'{"signature":null}\n',
    "too short": b'{"signature":"%s"}\n' % (b"07" * 63),
    "an odd digit": b'{"signature":"%s0"}\n' % (b"07" * 64),
    "capital digits": b'{"signature":"%s"}\n' % (b"AB" * 64),
    "spaces": b'{"signature":"%s"}\n' % (b"0 7 " * 32),
    "an error": b'{"error":"the HSM is busy"}\n',
    "an error beside a signature": b'{"error":"no","signature":"%s"}\n' % (b"07" * 64),
}


@pytest.mark.parametrize("what", BAD)
def test_wrong_replies(place: Path, what: str) -> None:
    """A wrong reply is an error at once, also if it is the first one of a connection, and the next request gets its own reply."""
    replies = iter([BAD[what], BAD[what], GOOD, BAD[what], BAD[what], GOOD, GOOD])
    listener, outside = Listener(place, lambda _: next(replies)), Outside(str(place), 5)
    start, closes = time.monotonic(), b"\n" not in BAD[what]

    def fails() -> None:
        with pytest.raises(KeyFailed, match="the HSM is busy" if what == "an error" else str(place)):
            outside.ask("signature", 64, cmd="sign")

    fails()
    fails()
    assert outside.ask("signature", 64, cmd="sign") == b"\7" * 64
    # A request on a kept connection that is closed is sent once more, since it may have been closed before.
    fails()
    if closes:
        assert outside.ask("signature", 64, cmd="sign") == b"\7" * 64
    else:
        fails()
    assert outside.ask("signature", 64, cmd="sign") == b"\7" * 64
    assert time.monotonic() - start < 4
    outside.close()
    listener.close()


def test_no_reply(place: Path) -> None:
    """A call ends in time without a reply. One call at a time waits for a process that hangs, and its late reply is nobody's."""
    is_hanging = threading.Event()
    is_hanging.set()

    def reply(line: bytes) -> Optional[bytes]:
        time.sleep(0.02)
        return None if is_hanging.is_set() else b'{"proof":"%s"}\n' % json.loads(line)["name"].encode().hex().encode()

    listener, outside = Listener(place, reply), Outside(str(place), 1)

    def seconds(name: str) -> float:
        start = time.monotonic()
        with pytest.raises(KeyFailed, match="reply"):
            outside.ask("proof", len(name), cmd="prove", name=name)
        return time.monotonic() - start

    assert 0.9 < seconds("first") < 2
    with ThreadPoolExecutor(8) as pool:
        times = sorted(pool.map(seconds, map(str, range(8))))
    assert times[-2] < 0.5 and 0.9 < times[-1] < 2, times
    is_hanging.clear()
    assert outside.ask("proof", 3, cmd="prove", name="bob") == b"bob"
    with ThreadPoolExecutor(8) as pool:
        made = pool.map(lambda it: outside.ask("proof", 1, cmd="prove", name=it), "abcdefgh")
        assert b"".join(made) == b"abcdefgh"
    listener.close()


def test_restarts(place: Path) -> None:
    """A request after a restart of the process gets its reply, and while there is no process it fails at once."""
    outside = Outside(str(place), 5)
    for _ in range(3):
        with pytest.raises(KeyFailed, match="Start it"):
            outside.ask("signature", 64, cmd="sign")
        listener = Listener(place, lambda _: GOOD)
        with ThreadPoolExecutor(16) as pool:
            assert set(pool.map(lambda _: outside.ask("signature", 64, cmd="sign"), range(64))) == {b"\7" * 64}
        listener.close()


def test_unrequested_lines(place: Path) -> None:
    """What comes after a reply is no reply to the next request."""
    listener, outside = Listener(place, lambda _: GOOD), Outside(str(place), 5)
    outside.ask("signature", 64, cmd="sign")
    [stored] = outside._stored
    ours, theirs = socket.socketpair(socket.AF_UNIX)
    stored._socket = ours
    theirs.sendall(b'{"signature":"%s"}\n' % (b"08" * 64))
    assert outside.ask("signature", 64, cmd="sign") == b"\7" * 64
    listener.close()


def policy_in(folder: Path) -> None:
    """A folder whose policy has the keys of the RFCs, and no secret key."""
    terms = Terms("keys.example.com", 0, 1, 10)
    folder.mkdir()
    keys = bytes(SigningKey(SIGNING).verify_key), ecvrf.public_key(VRF)
    (folder / "policy").write_bytes(bytes(coniks.Policy(signing_key=keys[0], vrf_key=keys[1], **vars(terms))))


def test_nothing_is_used_unverified(place: Path, tmp_path: Path) -> None:
    """Signatures of another body or key, and proofs of another name or key, are errors."""
    policy_in(tmp_path / "keys")
    printed: dict[str, str] = {}
    listener, outside = Listener(place, lambda _: json.dumps(printed).encode() + b"\n"), Outside(str(place), 5)
    keys, body = Keys(tmp_path / "keys", sources=Sources(outside, outside)), bytes(range(145))
    for key, signed, is_good in [(SIGNING, body, True), (SIGNING, body[::-1], False), (VRF, body, False)]:
        printed = {"signature": SigningKey(key).sign(signed).signature.hex()}
        check(is_good, lambda: keys.sign(body), bytes.fromhex(printed["signature"]))
    for key, name, is_good in [(VRF, "bob", False), (SIGNING, "alice", False), (VRF, "alice", True)]:
        proof = ecvrf.prove(key, name.encode())
        printed = {"proof": proof.hex()}
        check(is_good, lambda: keys.proof("alice"), proof)
        if is_good:
            assert keys.index("alice") == ecvrf.output(proof)[:32]
    listener.close()


def check(is_good: bool, call: Callable[[], bytes], wanted: bytes) -> None:
    if is_good:
        assert call() == wanted
    else:
        with pytest.raises(KeyFailed, match="see which key it has"):
            call()


class Signer:
    """An example of a process with keys, which can be ended and started again."""

    def __init__(self, room: Path, language: str, signing: bytes = SIGNING, vrf: bytes = VRF):
        self.path, self._files = room / f"{language}.socket", [room / f"{language}-{it}" for it in ("signing.key", "vrf.key")]
        self._words = [PYTHON, str(SIGNERS / "signer.py")]
        if language == "go":
            if not tools.has("go"):
                pytest.skip("go is missing")
            program = room / "signer"
            settings = os.environ | {"GO111MODULE": "off"}
            if not program.exists():
                subprocess.run(["go", "build", "-o", program, SIGNERS / "signer.go"], check=True, env=settings)
            self._words = [str(program)]
        self.start(signing, vrf)

    def start(self, signing: bytes = SIGNING, vrf: bytes = VRF) -> None:
        for file, key in zip(self._files, (signing, vrf)):
            file.write_bytes(key)
        self.path.unlink(missing_ok=True)
        self.process = subprocess.Popen([*self._words, str(self.path), *map(str, self._files)])
        until(self.path.exists)

    def end(self, number: int = signal.SIGKILL) -> None:
        self.process.send_signal(number)
        if number == signal.SIGKILL:
            self.process.wait()


@pytest.fixture(params=LANGUAGES)
def signer(packages: None, tmp_path: Path, request: pytest.FixtureRequest) -> Iterator[Signer]:
    made = Signer(tmp_path, request.param)
    yield made
    made.end()


def requested(path: Path, line: str) -> str:
    """What a process replies to a line."""
    with socket.socket(socket.AF_UNIX) as connection:
        connection.settimeout(10)
        connection.connect(str(path))
        connection.sendall(line.encode() + b"\n")
        return connection.makefile("r", encoding="utf-8").readline().rstrip("\n")


def test_examples(signer: Signer) -> None:
    """The lines of docs/LINES.md, and requests that no process may grant."""
    section = (TOP / "docs/LINES.md").read_text("utf-8").partition("\n## Keys in other processes\n")[2].partition("\n## ")[0]
    lines = re.findall(r"^    (\{.*\})$", section, re.M)
    pairs = [it for it in zip(lines[::2], lines[1::2]) if signer.path.name.startswith("python") or "sign" in it[0]]
    assert len(pairs) in (2, 4) and '"cmd":"sign"' in lines[2]
    for line, reply in pairs:
        assert json.loads(requested(signer.path, line)) == json.loads(reply)
    wrong = [
        "",
        "[]",
        '{"cmd":"sign"}',
        '{"cmd":"sign","body":"00"}',
        lines[2].replace("01", "0x", 1),
        '{"cmd":"other"}',
        '{"cmd":7}',
    ]
    for line in [*wrong, '{"cmd":"sign","body":"%s"}' % ("00" * 146)]:
        assert list(json.loads(requested(signer.path, line))) == ["error"], line
    assert signer.path.stat().st_mode & 0o077 == 0


class Between:
    """A socket between the service and a signer, which lets through what the test says."""

    def __init__(self, path: Path, signer: Path):
        self.signer, self.how = signer, "as it is"
        self.listener = Listener(path, self.reply)

    def reply(self, line: bytes) -> Optional[bytes]:
        try:
            whole = requested(self.signer, line.decode().rstrip("\n")).encode() + b"\n"
        except OSError:
            return b""
        other = json.loads(line)
        if self.how == "another body" and "body" in other:
            other["body"] = other["body"][:-2] + ("00" if other["body"][-2:] != "00" else "01")
            return requested(self.signer, json.dumps(other)).encode() + b"\n"
        return {"cut": whole[:70], "garbage": b"\x80 {}\n", "nothing": b"", "silence": None, "twice": whole * 2}.get(
            self.how, whole
        )


class Served:
    """A service whose keys are in other processes, and a client that verifies all of it."""

    def __init__(self, room: Path, program: str, signer: Path, prover: Path):
        self.service = Running(room, program)
        self._options = ("--signer", str(signer), "--prover", str(prover))
        self.service.make(*self._options)
        self.service.start("--rate", "100000", *self._options)
        policy = coniks.Policy.read((room / "keys/policy").read_bytes())
        assert sorted(it.name for it in (room / "keys").iterdir()) == ["policy"]
        self.client = Client(policy.signing_key, policy.vrf_key, policy)

    def start(self) -> None:
        self.service.start("--rate", "100000", *self._options)

    @property
    def latest(self) -> int:
        return int(self.service.get("/v1/head").json["epoch"])

    @property
    def failures(self) -> int:
        return sum(it["event"] == "commit failed" for it in self.service.lines())

    def begin(self, name: str) -> str:
        """Asks for a name, and returns where its receipt is."""
        answer = self.service.operate("register", name, name.encode(), Prefer="")
        assert answer.status == 202, answer
        return answer.headers["location"]

    def check_stored(self, where: str) -> None:
        until(lambda: self.service.get(where, Prefer="wait=15").status == 200)

    def shows(self, name: str, key: Optional[bytes]) -> None:
        """A reply that the client verifies, after all entries."""
        reply = until(lambda: it if (it := self.service.get(named(name))).status == 200 else None)
        head = self.client.head()
        self.client.feed(self.service.get(f"/v1/entries?after={head.epoch if head else 0}").body)
        assert self.client.lookup(name, reply.body, int.from_bytes(reply.body[2:10], "big")).key == key


@pytest.fixture
def served(packages: None, library: None, program: str, signer: Signer, tmp_path: Path) -> Iterator[tuple[Served, Signer, Between]]:
    """A service, its signer, and what is between them. The VRF is a process of its own, in Python."""
    (tmp_path / "vrf").mkdir()
    prover = Signer(tmp_path / "vrf", "python")
    between = Between(tmp_path / "between", signer.path)
    made = Served(tmp_path, program, between.listener.path, prover.path)
    yield made, signer, between
    made.service.process.kill()
    made.service.process.wait()
    prover.end()


@pytest.mark.parametrize("signer", ["python"], indirect=True)
@pytest.mark.parametrize("how", ["another body", "cut", "garbage", "nothing", "twice", "silence"])
def test_signer_that_fails(served: tuple[Served, Signer, Between], how: str) -> None:
    """While a signer gives no signature, nothing is published and lookups go on. Then the service goes on."""
    service, _, between = served
    service.check_stored(service.begin("alice"))
    between.how = how
    waiting, before, failures = service.begin("bob"), service.latest, service.failures
    until(lambda: service.failures > failures)
    latest = service.latest
    assert latest <= before + 1 and service.service.get(waiting, Prefer="").status == 202
    service.shows("alice", b"alice")
    service.shows("bob", None)
    assert service.latest == latest
    between.how = "as it is"
    service.check_stored(waiting)
    service.shows("bob", b"bob")


@pytest.mark.kills
def test_kills(served: tuple[Served, Signer, Between]) -> None:
    """The signer is killed while the service waits for it, and the service while it waits for the signer."""
    service, signer, _ = served
    signer.end(signal.SIGSTOP)
    waiting = service.begin("alice")
    until(lambda: b"coniks_update_pending 1.0" in service.service.get("/metrics").body)
    signer.end(signal.SIGKILL)
    until(lambda: service.failures)
    latest = service.latest
    service.shows("alice", None)
    signer.start()
    service.check_stored(waiting)
    assert service.latest > latest
    signer.end(signal.SIGSTOP)
    waiting = service.begin("bob")
    until(lambda: b"coniks_update_pending 1.0" in service.service.get("/metrics").body)
    service.service.end(signal.SIGKILL)
    # What it has asked for is signed now, and nobody waits for that.
    signer.end(signal.SIGCONT)
    service.start()
    until(lambda: service.service.get(named("bob")).body.endswith(b"bob"))
    service.shows("alice", b"alice")
    # A start needs no signer.
    signer.end(signal.SIGKILL)
    service.service.end(signal.SIGKILL)
    service.start()
    waiting = service.begin("carol")
    signer.start()
    service.check_stored(waiting)
    service.shows("carol", b"carol")


def test_wrong_keys(served: tuple[Served, Signer, Between]) -> None:
    """A signer with another key signs nothing that is published."""
    service, signer, _ = served
    signer.end()
    signer.start(signing=VRF)
    waiting = service.begin("alice")
    until(lambda: service.failures)
    latest = service.latest
    time.sleep(2)
    assert service.latest == latest and service.service.get(waiting, Prefer="").status == 202
    [failed] = [it for it in service.service.lines() if it["event"] == "commit failed"][-1:]
    assert "see which key it has" in failed["error"]
    signer.end()
    signer.start()
    service.check_stored(waiting)
    service.shows("alice", b"alice")


def test_prover(packages: None, library: None, program: str, tmp_path: Path) -> None:
    """While the VRF is away, or has another key, names whose proof is kept are looked up and no others, and none of them is committed."""
    signer = Signer(tmp_path, "python")
    service = Served(tmp_path, program, signer.path, signer.path)
    try:
        service.check_stored(service.begin("alice"))
        service.shows("alice", b"alice")
        for vrf in (None, SIGNING):
            signer.end()
            if vrf:
                signer.start(vrf=vrf)
            for name, status in [("alice", 200), ("bob", 503)]:
                assert service.service.get(named(name)).status == status
            assert service.service.operate("register", "bob", b"bob", Prefer="").status == 503
        service.service.end()
        for text, vrf in [("see which key it has", SIGNING), ("Start it", None)]:
            signer.end()
            if vrf:
                signer.start(vrf=vrf)
            with pytest.raises(AssertionError, match=text):
                service.start()
        signer.start()
        service.start()
        service.check_stored(service.begin("bob"))
        service.shows("bob", b"bob")
    finally:
        service.service.process.kill()
        service.service.process.wait()
        signer.end()


def test_make(packages: None, program: str, tmp_path: Path) -> None:
    """Without the processes nothing is made. A signer with two keys, or with one of another scheme, leaves no directory."""
    words = ["make", "--keys", str(tmp_path / "keys"), "--log", str(tmp_path / "log"), "--guard", str(tmp_path / "guard")]
    words += ["--origin", "keys.example.com", "--program", program]
    listener = Listener(tmp_path / "wrong", lambda _: b'{"key":"%s"}\n' % (b"00" * 32))
    for option in ("--signer", "--prover"):
        for socket_path, printed in [(tmp_path / "none", "Start it"), (tmp_path / "wrong", "no key of its scheme")]:
            ran = subprocess.run([PYTHON, str(HOME / "serve"), *words, option, str(socket_path)], capture_output=True, text=True)
            assert ran.returncode == 1 and printed in ran.stderr, ran.stderr
            assert not [it for it in ("keys", "log", "guard") if (tmp_path / it).exists()]
    listener.close()
