"""The trust document, and the fingerprint by which two people know that they rely on the same auditors."""

from __future__ import annotations

import hashlib
import re
import subprocess
from pathlib import Path
from typing import Iterator

import pytest

pytest.importorskip("nacl.signing")

from coniks import client, contacts
from coniks.client import Client
from coniks.notes import Auditor
from coniks.trust import Trust
from directories import Directory
from people import AUDITORS, POLICY, Auditing, Person

TOP = Path(__file__).resolve().parents[4]
PAGE = (TOP / "docs/FORMATS.md").read_text("utf-8")
POLICY_DIGEST = PAGE.partition("Its SHA-256 is `")[2][:64]
FORMATS = PAGE.partition("### The trust document")[2].partition("\n## ")[0]
EXAMPLE = "".join(it[4:] + "\n" for it in FORMATS.splitlines() if it.startswith("    ")).encode()
ONE, TWO = (AUDITORS[it] for it in ("one", "two"))


def test_example() -> None:
    """The document of FORMATS, and its fingerprint by sha256sum."""
    trust = Trust.read(EXAMPLE)
    digest = subprocess.run(["sha256sum"], input=EXAMPLE, stdout=subprocess.PIPE, check=True).stdout.split()[0].decode()
    assert trust.fingerprint.replace(" ", "") == digest and f"`{trust.fingerprint}`" in FORMATS
    assert re.fullmatch("[0-9a-f]{8}( [0-9a-f]{8}){7}", trust.fingerprint)
    assert (trust.policy.hex(), trust.faulty) == (POLICY_DIGEST, 0)
    assert [it.name for it in trust.auditors] == ["audit.example.com", "audit.example.org"]
    assert bytes(Trust(trust.policy, trust.auditors[::-1], 0)) == EXAMPLE, "the order is no matter"


def test_of_client() -> None:
    """What a client needs of it: the digest, the numbers, and each auditor's place among the lines."""
    trust = Trust.read(EXAMPLE)
    assert trust.of_client == client.Trust(hashlib.sha256(EXAMPLE).digest(), 2, 0)
    turned = Trust(trust.policy, trust.auditors[::-1], 0)
    assert [turned.place(it) for it in trust.auditors] == [trust.place(it) for it in trust.auditors] == [0, 1]
    for other in (ONE, Auditor("audit.example.org", ONE.key)):
        with pytest.raises(ValueError):
            trust.place(other)
    auditors = tuple(AUDITORS.values())
    assert Trust(trust.policy, auditors, 1).of_client.faulty == 1
    named = Client(POLICY.signing_key, POLICY.vrf_key, POLICY, trust=Trust(POLICY.digest, auditors, 1).of_client)
    assert named.confirmed is None


LINES = EXAMPLE.decode().splitlines(keepends=True)
OTHER_KEY = f"auditor {Auditor('audit.example.org', ONE.key)}\n"
WRONG: dict[str, list[str]] = {
    "an order": [LINES[0], LINES[1], LINES[3], LINES[2], LINES[4]],
    "an auditor": [*LINES[:3], LINES[4]],
    "no auditor": [*LINES[:2], LINES[4]],
    "an auditor twice": [*LINES[:3], *LINES[2:]],
    "a name twice": [*LINES[:4], OTHER_KEY, LINES[4]],
    "a key twice": [*LINES[:3], f"auditor {Auditor('b', Auditor.read(LINES[2][8:-1]).key)}\n", LINES[4]],
    "one of two may lie": [*LINES[:4], "faulty 1\n"],
    "a zero before": [*LINES[:4], "faulty 00\n"],
    "no number": [*LINES[:4], "faulty\n"],
    "a line more": [*LINES, "\n"],
    "no end": [*LINES[:4], "faulty 0"],
    "another end": [*LINES[:4], "faulty 0\r\n"],
    "another format": ["trust coniks-2\n", *LINES[1:]],
    "capital digits": [LINES[0], LINES[1].replace("policy 9b", "policy 9B"), *LINES[2:]],
    "a key's number": [*LINES[:2], LINES[2].replace("+2a", "+2b"), *LINES[3:]],
    "nothing": [],
}


@pytest.mark.parametrize("what", WRONG)
def test_no_document(what: str) -> None:
    with pytest.raises(ValueError):
        Trust.read("".join(WRONG[what]).encode())


@pytest.mark.parametrize("trusted", [(b"x", (ONE, TWO), 0), (bytes(32), (ONE,), 0), (bytes(32), (ONE, TWO), -1)])
def test_no_trust(trusted: tuple[bytes, tuple[Auditor, ...], int]) -> None:
    with pytest.raises(ValueError):
        Trust(*trusted)


@pytest.fixture
def people(tmp_path: Path, capsys: pytest.CaptureFixture[str]) -> Iterator[list[Person]]:
    made = []
    for name in ("alice", "bob"):
        (tmp_path / name).mkdir()
        made.append(Person(tmp_path / name, capsys))
    yield made


def fingerprint(person: Person, *words: str) -> str:
    status, lines = person.run("trust", *words)
    assert status == 0 and f"the fingerprint {lines[0]['fingerprint']}: " in lines[0]["text"]
    found: str = lines[0]["fingerprint"]
    return found


def test_two_people(people: list[Person], directory: Directory, auditors: list[Auditing]) -> None:
    """Who begins with another one's trust document has the same auditors and the same fingerprint, and others have another one."""
    alice, bob = people
    pairs = [a.pair for a in auditors]
    assert alice.begin(directory, *pairs, faulty=1) == 0
    file = alice.room / "trust"
    mine = fingerprint(alice, str(file))
    assert Trust.read(file.read_bytes()) == Trust(
        POLICY.digest, tuple(Auditor.read(key) for _, key in sorted(pairs, key=lambda it: it[1])), 1
    )
    words = ["begin", "--service", directory.url, "--policy", str(bob.room / "policy"), "--trust", str(file)]
    status, lines = bob.run(*words, *[word for it in pairs[::-1] for word in ("--auditor", *it)])
    assert status == 0 and lines[-1]["fingerprint"] == mine == fingerprint(bob)
    assert sorted(bob.stored()["auditors"]) == sorted([*it] for it in pairs) and bob.stored()["faulty"] == 1
    bob.run("set", "--faulty", "0")
    assert fingerprint(bob) != mine
    bob.run("set", "--remove-auditor", pairs[3][0])
    assert bob.run("set", "--trust", str(file), "--add-auditor", *pairs[3])[0] == 0 and fingerprint(bob) == mine
    assert bob.run("compare")[1][-1]["text"] == "4 of your 4 auditors confirm this chain up to epoch 2"


def test_urls(people: list[Person], directory: Directory, auditors: list[Auditing]) -> None:
    """An auditor of a trust document is asked at its name, by https, unless its URL is given."""
    alice, bob = people
    alice.begin(directory, auditors[0].pair, auditors[1].pair)
    fingerprint(alice, str(alice.room / "trust"))
    words = ["--service", directory.url, "--policy", str(bob.room / "policy"), "--trust", str(alice.room / "trust")]
    status, _ = bob.run("begin", *words, "--auditor", *auditors[0].pair)
    assert status == 3 and sorted(url for url, _ in bob.stored()["auditors"]) == [auditors[0].url, "https://two"]


def test_other_documents(people: list[Person], directory: Directory, auditors: list[Auditing]) -> None:
    """A trust document of another directory, one that is none, and an auditor that it lacks are refused, and nothing is begun."""
    _, bob = people
    file = bob.room / "trust"
    words = ["--service", directory.url, "--policy", str(bob.room / "policy"), "--trust", str(file)]
    wrong: list[tuple[bytes, list[str]]] = [
        (bytes(Trust(bytes(32), (ONE, TWO), 0)), []),
        (b"trust", []),
        (bytes(Trust(POLICY.digest, (ONE, TWO), 0)), ["--auditor", *auditors[2].pair]),
    ]
    for text, more in wrong:
        file.write_bytes(text)
        assert bob.run("begin", *words, *more)[0] == 3 and not bob.state.exists()
    file.unlink()
    assert bob.run("begin", *words)[0] == 3 and not bob.state.exists()


@pytest.mark.parametrize("more", [["--faulty", "0"], ["--without-auditors"]])
@pytest.mark.parametrize("command", [["begin", "--service", "http://x", "--policy", "x"], ["set"]])
def test_wrong_command_lines(command: list[str], more: list[str], capsys: pytest.CaptureFixture[str]) -> None:
    with pytest.raises(SystemExit) as ended:
        contacts.main([*command, "--trust", "x", *more])
    assert ended.value.code == 2 and "a trust document has the auditors" in capsys.readouterr().err


def test_nobody(people: list[Person], directory: Directory) -> None:
    """Without auditors there is no document, and a command that should write one isn't status 0."""
    alice, _ = people
    assert alice.begin(directory) == 0
    assert alice.run("trust")[1][0]["text"].startswith("no auditor is named")
    assert alice.run("trust", str(alice.room / "trust"))[0] == 3 and not (alice.room / "trust").exists()
