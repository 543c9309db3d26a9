"""A drill: the signing key is stolen, the thief signs further epochs and serves them to half of the clients, and the successor key ends
the chain. Each client that gets the succession or the thief's epochs ends with an alarm, or in the directory that goes on."""

from __future__ import annotations

import json
import os
import shutil
import sys
from pathlib import Path
from typing import Any, Iterator

import pytest

pytest.importorskip("aiohttp")
pytest.importorskip("nacl.signing")

from auditing import Auditing
from coniks import Policy
from coniks._layout import epoch_of
from coniks.client import Client
from coniks.provider import FileLog, entries
from services import TOKEN, Running, until
from test_service_clients import Person
from test_service_succession import SUCCESSOR, Successor

# Clients by how they go on, and whose service they use in the end.
CLIENTS = [(goes_on, is_fooled) for goes_on in (True, False) for is_fooled in (True, False)]


class Drill(Successor):
    """The old and the new directory, the thief's, auditors and clients."""

    def __init__(self, room: Path, program: str):
        super().__init__(room, program, 2)
        self.room, self.thief = room, Running(stolen(room), program, 2)
        self.auditors = [Auditing(room, it) for it in range(3)]
        self.clients = [Person(room, f"client{it}") for it in range(len(CLIENTS))]
        self.alice = Person(room, "alice")

    def begin(self) -> None:
        """Everyone begins with the old directory."""
        self.old.make("--successor-key", SUCCESSOR, "--kept", "600")
        self.old.start("--rate", "100000")
        for it in self.auditors:
            it.start(self.old, [])
        (self.room / "policy").write_bytes(self.old.get("/v1/policy").body)
        (self.room / "token").write_text(TOKEN)
        until(lambda: all((it.home / "audit/note").exists() for it in self.auditors))
        for person, (goes_on, _) in zip([self.alice, *self.clients], [(True, False), *CLIENTS]):
            person.until(0, "begin", *self.words(), *(["--go-on"] if goes_on else []))

    def words(self) -> list[str]:
        named = [word for it in self.auditors for word in ("--auditor", it.url, str(it.key))]
        files = ["--policy", str(self.room / "policy"), "--token", str(self.room / "token")]
        return ["--service", url(self.old), *files, *named]

    def steal(self) -> int:
        """The thief has a copy of all. Returns the last epoch that the operator answers for."""
        assert self.old.end() == 0
        for it in ("keys", "log", "guard"):
            place = self.old.room / it
            (shutil.copytree if place.is_dir() else shutil.copy)(place, self.thief.room / it)  # type: ignore[operator]
        with FileLog(str(self.old.room / "log")) as log:
            last = epoch_of([*entries(log)][-1])
        self.thief.start("--rate", "100000")
        assert self.thief.operate("register", "carol", b"key of mallory").status == 200
        return last

    def go_on(self, last: int) -> None:
        """The operator makes the new directory, in the place of the old one, and the auditors go on."""
        self.succeed("--last", str(last))
        self.new.start("--rate", "100000", port=self.old.port)
        for it in self.auditors:
            until(lambda: (it.home / "audit/succession.note").exists())  # noqa: B023
            it.process.terminate()
            it.process.wait(60)
            it.go_on(self.new)
        until(lambda: all((it.home / "next/note").exists() for it in self.auditors))


def stolen(room: Path) -> Path:
    (room / "thief").mkdir()
    return room / "thief"


def url(service: Running) -> str:
    return f"http://127.0.0.1:{service.port}"


@pytest.fixture
def drill(packages: None, program: str, library: None, tmp_path: Path, monkeypatch: pytest.MonkeyPatch) -> Iterator[Drill]:
    monkeypatch.setenv("PYTHONPATH", os.pathsep.join(it for it in sys.path if it))
    found = Drill(tmp_path, program)
    yield found
    started: list[Any] = [it for it in (found.old, found.new, found.thief, *found.auditors) if hasattr(it, "process")]
    for it in started:
        it.process.kill()
        it.process.wait(60)


def texts(lines: list[dict[str, Any]]) -> str:
    return "\n".join(it["text"] for it in lines)


def test_drill(drill: Drill) -> None:
    drill.begin()
    drill.alice.until(0, "register", "alice", "key of alice")
    for it in drill.clients:
        assert it.until(0, "lookup", "alice")[0]["key"] == "key of alice"
    last = drill.steal()
    for it, (_, is_fooled) in zip(drill.clients, CLIENTS):
        if is_fooled:
            it.run("set", "--service", url(drill.thief))
            until(lambda: epoch_of(bytes.fromhex(stored_chain(it))) > last)  # noqa: B023
    drill.go_on(last)
    next_policy = bytes(Policy.read((drill.new.room / "keys/policy").read_bytes())).decode()
    for it, (goes_on, is_fooled) in zip(drill.clients, CLIENTS):
        status, lines = it.run("lookup", "alice")
        if goes_on and not is_fooled:
            until(lambda: it.run("lookup", "alice")[0] == 0)  # noqa: B023
            assert policy_of(it) == next_policy, "an honest service's client goes on"
            continue
        assert status == 1, f"a client that goes on {goes_on}, fooled {is_fooled}: {texts(lines)}"
        assert policy_of(it) != next_policy
        it.run("set", "--service", url(drill.new))
        status, lines = it.run("succeed")
        assert policy_of(it) == next_policy, texts(lines)
        assert ("after its last epoch" in texts(lines)) is is_fooled, "void epochs are told"
        assert it.until(0, "lookup", "alice")[0]["change"] == "same"
    for it in drill.clients:
        assert it.until(4, "lookup", "carol"), "what the thief registered is nowhere"
    drill.alice.until(0, "watch")
    assert policy_of(drill.alice) == next_policy
    drill.alice.until(0, "register", "alice", "next key of alice")
    for it in drill.clients:
        assert it.until(0, "lookup", "alice")[0]["change"] == "vouched"
    assert not [it for it in drill.auditors if (it.home / "next/alarm").exists()]


def stored(person: Person) -> Any:
    return json.loads(person.state.read_bytes().partition(b"\n")[2])


def policy_of(person: Person) -> str:
    return str(stored(person)["policy"])


def stored_chain(person: Person) -> str:
    """The latest entry of a client, after another run."""
    person.run("lookup", "alice")
    members = stored(person)
    policy = Policy.read(members["policy"].encode())
    client = Client(policy.signing_key, policy.vrf_key, policy, bytes.fromhex(members["chain"]))
    # Marks of other auditors are of no matter here.
    return client.entries[-1].hex()
