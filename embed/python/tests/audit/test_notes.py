"""Notes against the examples of their specifications and against a second implementation of Ed25519; quorums by trying all of them."""

from __future__ import annotations

import base64
import hashlib
import random
import re
import time
from itertools import combinations
from pathlib import Path

import pytest

pytest.importorskip("nacl.signing")

import client_world
import curve
from endings import SIGNED, is_cosigned
from nacl.signing import SigningKey
from coniks import Head, Policy, notes
from coniks.notes import Auditor, BadNote, Note, cosign, is_agreed, quorum, read_note, read_succession, text_of

TOP = Path(__file__).resolve().parents[4]
POLICY = Policy.read(client_world.POLICY.encode())
HEAD = Head(17, bytes(range(32)))
KEYS = [SigningKey(bytes([it]) * 32) for it in range(7)]
AUDITORS = [Auditor(f"audit{it}.example.org", bytes(key.verify_key)) for it, key in enumerate(KEYS)]

# The note and the verifier key in the documentation of golang.org/x/mod/sumdb/note.
GO_KEY = "PeterNeumann+c74f20a3+ARpc2QcUPDhMQegwxbzhKqiBfsVkmqq/LDE4izWy10TW"
GO_NOTE = """\
If you think cryptography is the answer to your problem,
then you don't know what your problem is.

\u2014 PeterNeumann x08go/ZJkuBS9UG/SffcvIAQxVBtiFupLLr8pAcElZInNIuGUgYN1FFYC2pZSNXgKvqfqdngotpRZb6KE6RyyBwJnAM=
"""
# The signed message in C2SP's tlog-cosignature.
C2SP_TEXT = "example.com/behind-the-sofa\n20852163\nCsUYapGGPo4dkMgIAUqom/Xajj7h2fB2MPA3j2jxq2I=\n"
C2SP_MESSAGE = b"cosignature/v1\ntime 1679315147\n" + C2SP_TEXT.encode()


def cosigned(*signers: int, seconds: int = 1000, head: Head = HEAD) -> Note:
    text = text_of(POLICY, head)
    return Note(text, tuple(cosign(AUDITORS[it].name, KEYS[it], text, seconds) for it in signers))


def test_example_of_go() -> None:
    """The key's identity, the text and the signature's line are those of another implementation."""
    name, identity, key = GO_KEY.split("+", 2)
    data = base64.b64decode(key)
    assert notes.key_id(name, data[:1], data[1:]).hex() == identity
    note = read_note(GO_NOTE.encode())
    assert bytes(note) == GO_NOTE.encode() and len(note.lines) == 1
    signature = base64.b64decode(note.lines[0].split()[-1])
    assert signature[:4].hex() == identity and curve.is_signed(data[1:], note.text.encode(), signature[4:])
    with pytest.raises(BadNote):
        Auditor.read(GO_KEY)


def test_example_of_c2sp() -> None:
    """A cosignature signs the message of the specification, and its line has identity, time and signature."""
    line = cosign("witness.example.com", KEYS[0], C2SP_TEXT, 1679315147)
    mark, name, encoded = line.split(" ")
    data, public = base64.b64decode(encoded), bytes(KEYS[0].verify_key)
    assert (mark, name, len(data)) == ("\u2014", "witness.example.com", 76)
    assert data[:4] == hashlib.sha256(b"witness.example.com\n\x04" + public).digest()[:4]
    assert int.from_bytes(data[4:12], "big") == 1679315147 and curve.is_signed(public, C2SP_MESSAGE, data[12:])


def test_text() -> None:
    """The text of a head, as docs/FORMATS.md says it."""
    digest = hashlib.sha256(client_world.SIGNING_KEY + hashlib.sha256(client_world.POLICY.encode()).digest()).hexdigest()
    assert text_of(POLICY, HEAD) == f"keys.example.com/{digest}\n17\nAAECAwQFBgcICQoLDA0ODxAREhMUFRYXGBkaGxwdHh8=\n"
    assert read_note(bytes(cosigned(0, 1))).head(POLICY) == HEAD
    others = [client_world.policy_text(stored=5), client_world.policy_text(signing=client_world.VRF_KEY)]
    for other in others:
        with pytest.raises(BadNote):
            cosigned(0).head(Policy.read(other.encode()))


def test_example_of_formats() -> None:
    """The example in docs/FORMATS.md is one for the second implementation, and the same is made from its parts."""
    text = (TOP / "docs/FORMATS.md").read_text("utf-8").partition("## Heads of auditors")[2].partition("\n## ")[0]
    shown = re.findall(r"(?:^    .*\n)+\n(?:^    .*\n)+", text, re.M)[0].replace("\n    ", "\n")[4:]
    auditor = Auditor.read(re.findall("Its verifier key is `(.*)`", text)[0])
    note = read_note(shown.encode())
    data = base64.b64decode(note.lines[0].split(" ")[2])
    assert auditor.key.hex() == "fc51cd8e6218a1a38da47ed00230f0580816ed13ba3303ac5deb911548908025"
    assert curve.is_signed(auditor.key, f"cosignature/v1\ntime 1767230000\n{note.text}".encode(), data[12:])
    secret = SigningKey(bytes.fromhex("c5aa8df43f9f837bedb7442f31dcb7b166d38535076f094b85ce3a2e0b4458f7"))
    assert note.lines == (cosign("audit.example.org", secret, note.text, 1767230000),)
    assert note.times([auditor]) == {"audit.example.org": 1767230000} and note.text.split("\n")[1] == "2"


def test_example_of_an_end() -> None:
    """The example of a cosigned succession in docs/FORMATS.md has valid signatures for the second implementation, and the same is made
    from its text."""
    text = (TOP / "docs/FORMATS.md").read_text("utf-8").partition("## Heads of auditors")[2].partition("\n## ")[0]
    shown = re.findall(r"(?:^    .*\n)+\n(?:^    .*\n)+", text, re.M)[1].replace("\n    ", "\n")[4:].encode()
    succession, note = read_succession(shown)
    front, _, signature = bytes(succession).partition(b"signature ")
    successor = bytes.fromhex("ec172b93ad5e563bf4932c70e1245034c35467ef2efd4d64ebf819683467e2bf")
    assert curve.is_signed(successor, front, bytes.fromhex(signature.decode()))
    auditor = Auditor.read(re.findall("Its verifier key is `(.*)`", text)[0])
    assert is_cosigned(shown, bytes(succession), auditor.key, 1767232800) and (succession.last.epoch, succession.first.epoch) == (
        2,
        2,
    )
    secret = SigningKey(bytes.fromhex("c5aa8df43f9f837bedb7442f31dcb7b166d38535076f094b85ce3a2e0b4458f7"))
    assert note.lines == (cosign(auditor.name, secret, note.text, 1767232800),) and bytes(note) == shown


def test_keys() -> None:
    text = str(AUDITORS[0])
    assert Auditor.read(text) == AUDITORS[0] and text.count("+") >= 2
    wrong = [text[:-4], text + "A", text.replace("audit0", "audit1"), "", "a+b", "a+b+c", text.replace("audit0", "audit 0")]
    for it in wrong:
        with pytest.raises(BadNote):
            Auditor.read(it)
    small = bytes([1]) + bytes(31)
    for name, key in [("a b", AUDITORS[0].key), ("a+b", AUDITORS[0].key), ("", AUDITORS[0].key), ("a", small), ("a", b"short")]:
        with pytest.raises(BadNote):
            Auditor(name, key)


def test_times() -> None:
    """Only valid cosignatures of auditors that are asked for count, each once."""
    note = cosigned(0, 1, 0)
    assert note.times(AUDITORS) == {"audit0.example.org": 1000, "audit1.example.org": 1000}
    assert note.times(AUDITORS[1:]) == {"audit1.example.org": 1000}
    later = Note(note.text, (*note.lines, *cosigned(1, seconds=2000).lines))
    assert later.times(AUDITORS)["audit1.example.org"] == 2000
    other = Note(text_of(POLICY, Head(18, HEAD.link)), note.lines)
    assert other.times(AUDITORS) == {}
    impostor = Auditor(AUDITORS[0].name, AUDITORS[3].key)
    assert note.times([impostor]) == {}


def test_altered_notes() -> None:
    """A note of which any byte is another one is no note, or has fewer cosignatures, or says the same."""
    draw, whole = random.Random(1), bytes(cosigned(0, 1, 2))
    for _ in range(3000):
        at = draw.randrange(len(whole))
        changed = (
            whole[:at] + draw.choice([bytes([draw.randrange(256)]), b"", b"\n", b" ", b"\xff"]) + whole[at + draw.randrange(3) :]
        )
        try:
            note = read_note(changed)
        except BadNote:
            continue
        assert changed == whole or len(note.times(AUDITORS)) < 3, changed


def test_successions() -> None:
    """The succession that a service serves as a text and an auditor as a note is read by one call. Nothing is verified."""
    text, note = SIGNED.decode(), Note(SIGNED.decode(), (cosign(AUDITORS[0].name, KEYS[0], SIGNED.decode(), 1000),))
    found, alone = read_succession(SIGNED)
    assert (bytes(found), alone) == (SIGNED, Note(text, ())) and alone.times(AUDITORS) == {}
    assert read_succession(bytes(note)) == (found, note) and note.times(AUDITORS) == {AUDITORS[0].name: 1000}
    assert is_cosigned(bytes(note), SIGNED, AUDITORS[0].key, 1000)
    head = cosigned(0)
    assert Note(text, head.lines).times(AUDITORS) == {} == Note(head.text, note.lines).times(AUDITORS)
    lines = SIGNED.split(b"\n")
    wrong = [SIGNED[:-1], SIGNED + b"\n", bytes(note)[:-1], bytes(head), b"", b"\n\n", b"\xff", SIGNED.replace(b"\n", b"\r\n")]
    wrong += [b"\n".join(lines[:-2] + [b""]), b"\n".join(lines[:-2] + [b""]) + bytes(note)[len(SIGNED) :], SIGNED.upper()]
    wrong += [SIGNED.replace(b"last-epoch 6", it) for it in (b"last-epoch 0", b"last-epoch 06", b"last-epoch 18446744073709551616")]
    for document in wrong:
        with pytest.raises(BadNote):
            read_succession(document)


def test_quorum() -> None:
    """Any two quorums share more auditors than may lie, no smaller number does it, and the silent ones stop nobody."""
    for auditors in range(1, 11):
        for faulty in range(auditors):
            if 3 * faulty >= auditors:
                with pytest.raises(ValueError):
                    quorum(auditors, faulty)
                continue
            size = quorum(auditors, faulty)
            assert size <= auditors - faulty
            assert least_shared(auditors, size) > faulty and least_shared(auditors, size - 1) <= faulty
    assert [quorum(4, 1), quorum(7, 2), quorum(1, 0), quorum(3, 0)] == [3, 5, 1, 2]
    for auditors, faulty in [(0, 0), (4, -1), (3, 1)]:
        with pytest.raises(ValueError):
            quorum(auditors, faulty)


def least_shared(auditors: int, size: int) -> int:
    """How many auditors two groups of a size share at least."""
    first = set(range(size))
    return min((len(first & set(it)) for it in combinations(range(auditors), size)), default=0)


def test_agreed() -> None:
    four = AUDITORS[:4]
    assert is_agreed(cosigned(0, 1, 2), four, 1, since=1000)
    assert not is_agreed(cosigned(0, 1), four, 1, since=1000) and not is_agreed(cosigned(0, 1, 1, 0), four, 1, since=1000)
    assert not is_agreed(cosigned(0, 1, 5, 6), four, 1, since=1000), "strangers count for nothing"
    assert not is_agreed(cosigned(0, 1, 2), four, 1, since=1001), "an old cosignature counts for nothing"
    for ahead, counts in [(300, True), (301, False)]:
        assert is_agreed(cosigned(0, 1, 2, seconds=1000 + ahead), four, 1, since=1000, until=1300) is counts
    now = int(time.time())
    assert is_agreed(cosigned(0, 1, 2, seconds=now + 240), four, 1, since=now), "a clock may be ahead"
    assert not is_agreed(cosigned(0, 1, 2, seconds=4_102_444_800), four, 1, since=now), "the year 2100 is to come"
    for listed in [[*four, four[0]], [*four, Auditor("audit9", four[0].key)]]:
        with pytest.raises(ValueError):
            is_agreed(cosigned(0, 1, 2), listed, 1, since=0)
