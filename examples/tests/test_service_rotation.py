"""A rotation of the VRF key at 100,000 names: a directory that goes on with all of them, and what its clients do. docs/SCALE.md has the
figures, which `python3 examples/tests/test_service_rotation.py` prints."""

from __future__ import annotations

import os
import sys
import tempfile
import time
from contextlib import closing
from pathlib import Path

HOME = Path(__file__).resolve().parent
if __name__ == "__main__":
    places = [
        "examples/tests",
        "examples/service",
        "examples/provider",
        "embed/python/src",
        "embed/python/tests",
        "cases/second",
        "scripts",
    ]
    sys.path += [str(HOME.parents[1] / it) for it in places]

import pytest

pytest.importorskip("aiohttp")
pytest.importorskip("nacl.signing")

from coniks.provider import Register
from holding import Holder, Keys, Places, Terms, make_keys
from services import TOKEN
from test_service_clients import Person
from test_service_succession import SUCCESSOR, Successor

NAMES, PERIOD, BATCH = 100_000, 60, 4096


def filled(pair: Successor, program: str) -> None:
    """Makes the old directory with its names."""
    room, epochs = pair.old.room, -(-NAMES // BATCH)
    start = int(time.time()) - (epochs + 1) * PERIOD
    make_keys(room / "keys", Terms("keys.example.com", start, PERIOD, 600, False, bytes.fromhex(SUCCESSOR)))
    with closing(Holder(Places(str(room / "log"), str(room / "guard"), program), Keys(room / "keys"), create=True)) as holder:
        assert holder.provider
        for at in range(0, NAMES, BATCH):
            batch = [Register(f"user{it}", b"key of %d" % it) for it in range(at, min(NAMES, at + BATCH))]
            holder.provider.commit(1 + at // BATCH, batch, force=True)


def rotated(room: Path, program: str) -> tuple[float, float]:
    """How many seconds the new directory takes, and a client until it has gone on."""
    pair = Successor(room, program, PERIOD)
    filled(pair, program)
    pair.old.start()
    (room / "policy").write_bytes(pair.old.get("/v1/policy").body)
    (room / "token").write_text(TOKEN)
    person = Person(room, "anna")
    files = ["--policy", str(room / "policy"), "--token", str(room / "token"), "--without-auditors", "--go-on"]
    person.until(0, "begin", "--service", f"http://127.0.0.1:{pair.old.port}", *files)
    person.until(0, "lookup", "user77777")
    pair.old.end()
    start = time.monotonic()
    succession = pair.succeed()
    made = time.monotonic() - start
    pair.new.start(port=pair.old.port)
    start = time.monotonic()
    lines = person.until(0, "lookup", "user77777")
    took = time.monotonic() - start
    found = [it for it in lines if it.get("key")]
    assert [(it["key"], it["change"]) for it in found] == [("key of 77777", "same")], lines
    assert pair.policy(pair.new).vrf_key != pair.policy(pair.old).vrf_key and succession.first.epoch >= -(-NAMES // BATCH)
    pair.new.end()
    return made, took


def test_rotation(packages: None, program: str, library: None, tmp_path: Path, monkeypatch: pytest.MonkeyPatch) -> None:
    """All names go on under another VRF key, and a client goes on in seconds."""
    monkeypatch.setenv("PYTHONPATH", os.pathsep.join(it for it in sys.path if it))
    made, took = rotated(tmp_path, program)
    assert made < 1200 and took < 60, f"{made:.0f} s for the directory, and {took:.1f} s for a client"


if __name__ == "__main__":
    os.environ["PYTHONPATH"] = os.pathsep.join(it for it in sys.path if it)
    with tempfile.TemporaryDirectory() as room:
        made, took = rotated(Path(room), sys.argv[1])
    print(f"{NAMES} names under another VRF key: {made:.0f} s. A client has gone on after {took:.1f} s")
