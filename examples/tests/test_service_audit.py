"""An auditor that follows examples/service, whose cosignatures each lookup carries, and a client that takes a quorum of them."""

from __future__ import annotations

import base64
import hashlib
import os
import sys
import time
from pathlib import Path
from typing import Iterator, Optional

import pytest

pytest.importorskip("aiohttp")
pytest.importorskip("nacl.signing")

from auditing import Auditing
from coniks import Head, Policy
from coniks.client import Client, Comparison
from coniks.notes import Auditor, BadNote, Note, cosign, is_agreed, quorum, read_note, text_of
from holders import made
from nacl.signing import SigningKey
from services import Answer, Running, named, until
from stapling import Stapler

AUDITORS = 4


@pytest.fixture
def other(packages: None, program: str, tmp_path: Path) -> Iterator[Running]:
    """A service whose epochs are long enough for auditors on a busy machine."""
    running = Running(tmp_path, program, period=3)
    running.make()
    yield running
    running.process.kill()
    running.process.wait()


@pytest.fixture
def audited(other: Running, tmp_path: Path, library: None, monkeypatch: pytest.MonkeyPatch) -> Iterator[list[Auditing]]:
    """Auditors of a service that compare their heads, of which the service knows all."""
    monkeypatch.setenv("PYTHONPATH", os.pathsep.join(it for it in sys.path if it))
    auditors = [Auditing(tmp_path, it) for it in range(AUDITORS)]
    other.start("--rate", "100000", *[word for it in auditors for word in ("--auditor", it.url, str(it.key))])
    for it in auditors:
        it.start(other, [peer for peer in auditors if peer is not it])
    yield auditors
    for it in auditors:
        it.process.terminate()
        it.process.wait(60)


def test_cosigned_lookups(other: Running, audited: list[Auditing]) -> None:
    """A client takes a head that a quorum cosigned, is fed up to it, and finds it in its chain."""
    assert other.get("/v1/note").fault in ("NoNote", None)
    other.operate("register", "alice", b"key")
    policy = Policy.read(other.get("/v1/policy").body)
    trusted, client = [it.key for it in audited], Client(policy.signing_key, policy.vrf_key, policy)
    reply = until(lambda: agreed(other.get(named("alice")), trusted))
    note = read_note(base64.b64decode(reply.headers["coniks-note"]))
    head = client.head()
    client.feed(other.get(f"/v1/entries?after={head.epoch if head else 0}").body)
    assert client.compare(note.head(policy)) is Comparison.EQUAL
    assert client.lookup("alice", reply.body, int.from_bytes(reply.body[2:10], "big")).key == b"key"
    assert len(note.times(trusted)) >= quorum(AUDITORS, 1) == 3
    assert read_note(other.get("/v1/note").body).head(policy).epoch >= note.head(policy).epoch
    own = read_note(other.get(f"/v1/note?auditor={trusted[0].name}").body)
    assert own.times(trusted).keys() == {trusted[0].name} and other.get("/v1/note?auditor=nobody").fault == "NoNote"
    assert not any(it.alarms() for it in audited), "honest auditors that ask at different times"
    assert b'coniks_auditor_failures{auditor="' in other.get("/metrics").body
    stop_one(other, audited, trusted, policy)


def agreed(reply: Answer, trusted: list[Auditor], later: int = 0) -> Optional[Answer]:
    """A reply that has a note of which a quorum has cosigned the head, of an epoch that is late enough."""
    if "coniks-note" not in reply.headers:
        return None
    note = read_note(base64.b64decode(reply.headers["coniks-note"]))
    is_late = int(note.text.split("\n")[1]) > later
    return reply if is_late and is_agreed(note, trusted, 1, since=time.time() - 60) else None


def stop_one(other: Running, audited: list[Auditing], trusted: list[Auditor], policy: Policy) -> None:
    """One auditor that ends doesn't stop the others, nor the service."""
    audited[0].process.kill()
    start = read_note(other.get("/v1/note").body).head(policy).epoch
    until(lambda: agreed(other.get(named("alice")), trusted, start + 1))


def test_stapled_notes(program: str, tmp_path: Path) -> None:
    """The service takes only what an auditor cosigned of its own chain, and prefers a head of a quorum to a later one of fewer."""
    with made(program, tmp_path) as holder:
        holder.provider.commit(3, [], force=True)
        keys = [SigningKey(bytes([it]) * 32) for it in range(4)]
        auditors = {f"http://{it}": Auditor(f"audit{it}", bytes(key.verify_key)) for it, key in enumerate(keys)}
        stapler, chain = Stapler(holder, auditors), holder.directory.chain()

        def note(signer: int, epoch: int, link: bytes) -> bytes:
            text = text_of(holder.keys.policy, Head(epoch, link))
            return bytes(Note(text, (cosign(f"audit{signer}", keys[signer], text, 1000),)))

        links = {it[8]: hashlib.sha256(b"S" + it).digest() for it in chain}
        assert stapler.note is None and links.keys() == {1, 3}
        for wrong in [note(1, 1, links[1]), note(0, 1, links[3]), note(0, 2, links[1]), note(0, 9, links[3]), b"x"]:
            with pytest.raises(BadNote):
                stapler._take("http://0", wrong)
        assert stapler.note is None
        for signer in range(3):
            stapler._take(f"http://{signer}", note(signer, 1, links[1]))
        stapler._take("http://3", note(3, 3, links[3]))
        assert stapler.note and stapler.note.head(holder.keys.policy) == Head(1, links[1])
        assert len(stapler.note.times(auditors.values())) == 3
        own = {name: stapler.note_of(name) for name in ["audit0", "audit3", "audit4"]}
        heads = {name: it and (it.head(holder.keys.policy).epoch, [*it.times(auditors.values())]) for name, it in own.items()}
        assert heads == {"audit0": (1, ["audit0"]), "audit3": (3, ["audit3"]), "audit4": None}
