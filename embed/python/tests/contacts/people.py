"""Those who use `coniks-client`, and auditors, for the tests of it."""

from __future__ import annotations

import json
import subprocess
import sys
from pathlib import Path
from typing import Any, Callable, Optional

import pytest
from client_world import hour
from coniks import Head, Policy, contacts
from coniks.notes import Auditor, Note, cosign, text_of
from directories import BEGUN, VOUCHED, Directory, vouched_world
from nacl.signing import SigningKey

TOP = Path(__file__).resolve().parents[4]
POLICY, WORLD = Policy.read(VOUCHED.encode()), vouched_world(BEGUN)
NOW = hour(3)
KEYS = {name: SigningKey(name.encode().ljust(32)) for name in ["one", "two", "three", "four"]}
AUDITORS = {name: Auditor(name, bytes(key.verify_key)) for name, key in KEYS.items()}
# A directory that parts from the honest one: at its latest epoch, before it, and by its numbers.
FORKS = [
    vouched_world([BEGUN[0], (2, {"alice": b"key of mallory"})]),
    vouched_world([(1, {"alice": b"key of mallory"}), (2, {})]),
    vouched_world([BEGUN[0], (3, {"alice": b"key of mallory"})]),
]


class Person:
    """A client with its state, in the process of the test."""

    def __init__(self, room: Path, capture: pytest.CaptureFixture[str], policy: str = VOUCHED):
        self.room, self.state, self._capture = room, room / "state", capture
        (room / "policy").write_text(policy)
        (room / "token").write_text("a token\n")

    def run(self, command: str, *words: str) -> tuple[int, list[dict[str, Any]]]:
        """The status, and the lines as JSON."""
        status = contacts.main([command, "--state", str(self.state), "--json", *words])
        captured = self._capture.readouterr()
        assert "Traceback" not in captured.err
        return status, [json.loads(it) for it in captured.out.splitlines()]

    def begin(self, directory: Directory, *auditors: tuple[str, str], faulty: int = 0) -> int:
        words = [word for it in auditors for word in ("--auditor", *it)] or ["--without-auditors"]
        files = ["--policy", str(self.room / "policy"), "--token", str(self.room / "token"), "--faulty", str(faulty)]
        return self.run("begin", "--service", directory.url, *files, *words)[0]

    def stored(self) -> Any:
        return json.loads(self.state.read_bytes().partition(b"\n")[2])


class Clock:
    """The time, which is in the latest epoch of a directory unless it is set."""

    def __init__(self) -> None:
        self.latest: Callable[[], int] = lambda: 0
        self.seconds: Optional[int] = None

    def __call__(self) -> int:
        return max(NOW, hour(self.latest())) if self.seconds is None else self.seconds


class Auditing(Directory):
    """An auditor: it has a directory's entries, and a note of one of its heads."""

    def __init__(self, name: str, batches: Any = BEGUN, epoch: int = 2, seconds: int = NOW):
        super().__init__(batches, VOUCHED)
        self.pair, self._name = (self.url, str(AUDITORS[name])), name
        self.sign(epoch, seconds)

    def sign(self, epoch: int, seconds: int = NOW, link: Optional[bytes] = None) -> None:
        text = text_of(POLICY, Head(epoch, link or self.world.link(epoch)))
        self.note = bytes(Note(text, (cosign(self._name, KEYS[self._name], text, seconds),)))


def convicted(person: Person) -> list[str]:
    """What the second implementation says of the evidence."""
    status, lines = person.run("evidence")
    words = [sys.executable, str(TOP / "cases/second/convicts"), str(person.room / "policy")]
    ran = subprocess.run(words, input="".join(json.dumps(it) + "\n" for it in lines), capture_output=True, text=True)
    assert (status, ran.returncode) == (1, 0), ran.stdout + ran.stderr
    return [it.partition(":")[0] for it in ran.stdout.splitlines()]
