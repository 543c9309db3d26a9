"""`coniks-client` with a running service, and the transcript of examples/service/run."""

from __future__ import annotations

import asyncio
import base64
import json
import os
import re
import socket
import subprocess
import sys
from dataclasses import replace
from pathlib import Path
from typing import Any, Iterator, Optional
from unittest.mock import Mock

import pytest

pytest.importorskip("aiohttp")
pytest.importorskip("nacl.signing")

from authorising import Request, Tokens, Vouched, authoriser
from collecting import Collector, shown_key
from coniks import Policy, provider
from coniks.provider import Register
from coniks.vouching import Change, Place, Span, first, following, judged
from connections import Bounds
from holders import made
from nacl.signing import SigningKey
from problems import Problem
from services import HOME, PYTHON, TOKEN, TOP, Running, until

README = (HOME / "README.md").read_text("utf-8")
# How the service of this module is made.
POLICY = ["--vouched"]
OWNER, THIEF = (SigningKey(name.encode().ljust(32)) for name in ("owner", "thief"))


class Person:
    """A client as a process, with its state."""

    def __init__(self, room: Path, name: str):
        self.room, self.state = room, room / f"{name}.state"

    def run(self, command: str, *words: str) -> tuple[int, list[dict[str, Any]]]:
        """The status, and the lines as JSON."""
        options = ["--state", str(self.state), "--json"]
        ran = subprocess.run([PYTHON, "-m", "coniks.contacts", command, *options, *words], capture_output=True, text=True)
        assert not ran.stderr, ran.stderr
        return ran.returncode, [json.loads(it) for it in ran.stdout.splitlines()]

    def until(self, status: int, *words: str) -> list[dict[str, Any]]:
        """What a command prints once it has a status: a slow machine makes an epoch late."""

        def lines() -> Optional[list[dict[str, Any]]]:
            ended, found = self.run(words[0], *words[1:])
            return found if ended == status else None

        return until(lines, 60)


@pytest.fixture
def people(service: Running, library: None, tmp_path: Path, monkeypatch: pytest.MonkeyPatch) -> Iterator[list[Person]]:
    """Two clients that have begun."""
    monkeypatch.setenv("PYTHONPATH", os.pathsep.join(it for it in sys.path if it))
    (tmp_path / "policy").write_bytes(service.get("/v1/policy").body)
    (tmp_path / "token").write_text(TOKEN)
    found = [Person(tmp_path, it) for it in ("alice", "bob")]
    for it in found:
        files = ["--policy", str(tmp_path / "policy"), "--token", str(tmp_path / "token")]
        assert it.run("begin", "--without-auditors", "--service", f"http://127.0.0.1:{service.port}", *files)[0] == 0
    yield found


def test_life(people: list[Person], service: Running) -> None:
    """A name is registered, looked up, verified, changed and watched over a service."""
    alice, bob = people
    assert alice.until(0, "register", "Łucja@Example.com", "age1first")[0]["key"] == "age1first"
    assert bob.until(0, "lookup", "łucja@example.COM")[0]["change"] is None
    assert bob.until(0, "verify", "łucja@example.com", "--key", "age1first") and bob.until(
        1, "verify", "łucja@example.com", "--key", "age1x"
    )
    assert alice.until(0, "register", "łucja@example.com", "age1second")[0]["key"] == "age1second"
    assert bob.until(0, "lookup", "łucja@example.com")[0]["change"] == "vouched"
    first_epoch = alice.until(0, "watch")[0]["epochs"][0]
    until(lambda: bool(service.get("/v1/head").json["epoch"] > first_epoch + 2), 60)
    reported = set[int]()

    def is_watched() -> bool:
        """Whether a run says that all is well, and it and those before have told more epochs than one: each tells what it has verified."""
        status, lines = alice.run("watch")
        reported.update(epoch for it in lines for epoch in it.get("epochs", []) if epoch > first_epoch)
        return status == 0 and len(reported) > 1

    until(is_watched)
    assert bob.until(4, "lookup", "nobody") and bob.until(0, "evidence")


def test_service_keeps_its_promise(service: Running) -> None:
    """The policy of a service that is made so promises records, and the service takes no other key, whoever has a token."""
    policy = Policy.read(service.get("/v1/policy").body)
    place = Place.of(policy, "vouched")
    record, other = (first(place, it, b"key") for it in (OWNER, THIEF))
    assert policy.records_vouched and b"\nrecords vouched\nsuccessor-key none\nproofs-kept " in bytes(policy)
    for wrong in [record[:-1] + b"x", following(place, OWNER, record, b"key"), b"plain"]:
        refused = service.operate("register", "vouched", wrong)
        assert (refused.status, refused.fault) == (403, "Forbidden") and "no record" in refused.json["detail"]
    assert service.operate("register", "vouched", record).status == 200
    for wrong in [b"plain", other, following(place, THIEF, other, b"x"), record]:
        assert service.operate("change", "vouched", wrong).status == 403
    assert service.operate("change", "vouched", following(place, OWNER, record, b"another key")).status == 200


def test_service_without_a_promise(other: Running) -> None:
    """A service whose policy promises no records takes what its tokens allow, also in the place of a record."""
    other.start()
    policy = Policy.read(other.get("/v1/policy").body)
    assert not policy.records_vouched and b"records" not in bytes(policy)
    assert other.operate("register", "alice", first(Place.of(policy, "alice"), OWNER, b"key")).status == 200
    assert other.operate("change", "alice", b"plain").status == 200
    refused = other.operate("register", "bob", b"plain", Authorization="Bearer x")
    assert refused.status == 403 and "record" not in refused.json["detail"]
    assert other.end() == 0


def test_promise_and_service_cannot_differ(packages: None, program: str, tmp_path: Path) -> None:
    """A service doesn't start whose policy promises records and which doesn't ask for them, or asks by another policy."""
    from collecting import Collector

    with made(program, tmp_path, records_vouched=True) as holder:
        policy = holder.keys.policy

        def started(authorise: Any) -> Collector:
            return Collector(holder, authorise)

        for wrong in [Tokens(None), lambda _: True, Vouched(replace(policy, origin="keys.example.org"), Tokens(None))]:
            with pytest.raises(ValueError, match="the policy says `records vouched`"):
                started(wrong)
        assert started(authoriser(policy, Tokens(None))) and started(Vouched(policy, lambda _: True))
        plain, tokens = replace(policy, records_vouched=False), Tokens(None)
        assert authoriser(plain, tokens) is tokens
        with pytest.raises(ValueError, match="does not promise records"):
            Vouched(plain, tokens)


def test_change_during_an_epoch(packages: None, program: str, tmp_path: Path) -> None:
    """A record that followed the present one when it was sent, and no longer once it would be collected, is refused: taken it would
    convict the directory. Its owner signed two records of one number."""
    from endpoints import Endpoints

    with made(program, tmp_path, records_vouched=True) as holder:
        place, between = Place.of(holder.keys.policy, "alice"), list[provider.Operation]()
        record = first(place, OWNER, b"key")
        one, other = (following(place, OWNER, record, it) for it in (b"one", b"other"))
        holder.provider.commit(2, [Register("alice", record)], force=True)

        def slow(_: Request) -> bool:
            """Whoever decides takes until the next epoch, if something is to be committed."""
            if between:
                holder.provider.commit(3, [between.pop()], force=True)
            return True

        async def sent(key: bytes) -> Any:
            served = Endpoints(Collector(holder, Vouched(holder.keys.policy, slow)), Mock(), Mock(), Bounds())
            body = json.dumps({"op": "change", "name": "alice", "key": base64.b64encode(key).decode()}).encode()
            return await served.operate(Mock(content_type="application/json", headers={}, read=lambda: soon(body)))

        between.append(provider.Change("alice", one))
        with pytest.raises(Problem, match="no record"):
            asyncio.run(sent(other))
        assert shown_key(holder.provider.lookup("alice")) == one and judged(place, one, other, Span(3, 3, 4)) is Change.UNVOUCHED
        assert asyncio.run(sent(following(place, OWNER, one, b"two"))).status == 202


async def soon(body: bytes) -> bytes:
    return body


def free() -> int:
    """A port that nobody listens to."""
    with socket.socket() as it:
        it.bind(("127.0.0.1", 0))
        return int(it.getsockname()[1])


def pattern_of(text: str) -> str:
    """The pattern of an output in which `..` matches any text of a line."""
    return "".join(".*".join(map(re.escape, it.split(".."))) + "\n" for it in text.splitlines())


def test_transcript(packages: None, program: str, library: None) -> None:
    """What examples/service/run prints is what the README shows, with `..` for what differs from run to run."""
    block = re.search(r"^```text\n(the provider makes.*?)^```$", README, re.M | re.S)
    # The example finds its modules by itself.
    found = {name: value for name, value in os.environ.items() if name != "PYTHONPATH"}
    ran = subprocess.run([HOME / "run", program], capture_output=True, text=True, env=found, timeout=600)
    assert block and re.fullmatch(pattern_of(block[1]), ran.stdout), ran.stdout + ran.stderr[-3000:]
    assert ran.returncode == 0


def test_directory_of_your_own(packages: None, program: str, library: None, tmp_path: Path) -> None:
    """The commands of the README make a directory with auditors and clients. Ports, seconds and folder are others here."""
    part = README.partition("## A directory of your own")[2].partition("\n## ")[0]
    text = "".join(re.findall(r"^```sh\n(.*?)^```$", part, re.M | re.S))
    others = {
        "mkdir directory && cd directory": f"cd '{tmp_path}'",
        "--period 60": "--period 3",
        '"--keys': f'"--program {program} --keys',
    }
    others |= {"run $where": "run $where --listen 127.0.0.1:8080", "kill $(jobs -p)\n": ""}
    others |= {f"127.0.0.1:{port}": f"127.0.0.1:{free()}" for port in (8080, 8081, 8082)}
    for it, other in others.items():
        assert it in text
        text = text.replace(it, other)
    # A slow machine makes an epoch late: then a client says so, and is asked again.
    text = re.sub(r"^(coniks-client (?!\$begin).*)$", r"until \1; do sleep 0.5; done", text, flags=re.M)
    text = re.sub(r"^(coniks-client \$begin.*)$", r"\1 || true", text, flags=re.M).replace("sleep 1", "sleep 0.2")
    text = f"set -e\ntrap 'kill $(jobs -p)' EXIT\n{text}"
    ran = subprocess.run(["bash", "-c", text], cwd=TOP, capture_output=True, text=True, timeout=600)
    wanted = [
        '"alice" has your key "key of alice"',
        '"alice" has the key "key of alice". You',
        "2 of your 2 auditors confirm",
        "ready",
    ]
    assert all(it in ran.stdout for it in wanted), ran.stdout + ran.stderr[-3000:]


def test_usage() -> None:
    for words in [["--help"], ["one", "two"]]:
        ran = subprocess.run([HOME / "run", *words], capture_output=True, text=True)
        assert ran.returncode == 2 and "examples/service/run [PROGRAM]" in ran.stderr and not ran.stdout
