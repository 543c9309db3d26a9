"""`coniks.audit` in a directory that goes on from another one: what it serves, its first entry that counts, and its heads."""

from __future__ import annotations

import json
import time
from pathlib import Path
from typing import Any, Optional, Sequence

import pytest

pytest.importorskip("nacl.signing")

import client_world
import curve
from bytelists import sha256
from chain import Entry, body_after
from client_world import BATCHES, NONCE, World, digest, policy_text
from endings import BEGUN, ENDED, FIRST, NEXT, NEXT_SIGNING, OLD, ROOT, SIGNED, STOLEN, chained, succession, with_successor
from sources import Source
from test_audit import KEYS
from coniks import Head, Policy
from coniks.audit import Shelf, main
from coniks.notes import Note, cosign, read_note

HERE, THERE = digest(OLD).hex(), digest(NEXT).hex()
WORDS = "epoch 3 and the last one before it have no roots to compare: VRF or nonce is another one"
EMPTY, SOME = sha256(b"no key"), sha256(b"some keys")


class Auditing:
    """An auditor with one key, and a folder for each directory in which it has gone on."""

    def __init__(self, home: Path, capture: pytest.CaptureFixture[str]):
        self.home, self._capture = home, capture
        (home / "key").write_bytes(bytes(KEYS["one"]))

    def folder(self, name: str) -> Path:
        (self.home / name).mkdir(exist_ok=True)
        return self.home / name

    def once(self, source: Source, name: str, policy: str, before: Optional[str] = None, *more: str) -> int:
        """Makes a round in a directory, and returns the status."""
        (self.home / f"policy.{name}").write_text(policy)
        words = ["--policy", str(self.home / f"policy.{name}"), "--key", str(self.home / "key"), "--name", "one", "--once"]
        words += ["--before", str(self.folder(before))] if before else []
        return main([*words, "--folder", str(self.folder(name)), "--service", source.url, *more])

    def told(self) -> list[tuple[str, str]]:
        lines = [json.loads(it) for it in self._capture.readouterr().err.splitlines()]
        return [(it["event"], it["text"]) for it in lines]

    def alarm(self, name: str) -> Any:
        path = self.folder(name) / "alarm"
        return json.loads(path.read_bytes()) if path.exists() else None

    def served(self, name: str, digest: str) -> Optional[bytes]:
        return Shelf(self.folder(name)).page(f"/v1/succession?policy={digest}")

    def head(self, file: str, policy: str) -> Head:
        return read_note((self.home / file).read_bytes()).head(Policy.read(policy.encode()))


@pytest.fixture
def auditing(tmp_path: Path, capsys: pytest.CaptureFixture[str], monkeypatch: pytest.MonkeyPatch) -> Auditing:
    """An auditor whose directory has ended."""
    monkeypatch.setattr(time, "time", lambda: client_world.hour(6))
    it = Auditing(tmp_path, capsys)
    end(it)
    return it


def end(it: Auditing, text: bytes = SIGNED) -> None:
    with Source(ENDED.entries()) as source:
        source.succession = text
        assert it.once(source, "old", OLD) == 0 and it.told()


def entries(count: int = 6, roots: Sequence[bytes] = (EMPTY, SOME, ROOT), **more: Any) -> list[bytes]:
    """The entries of the next directory, whose third epoch is the first that counts."""
    return chained([*roots, *[sha256(bytes([it])) for it in range(count - len(roots))]], **more)


def test_goes_on(auditing: Auditing) -> None:
    """It audits the next directory beside the old one, serves the old succession there too, and keeps a head for each."""
    note = auditing.served("old", HERE)
    made = entries()
    end_text = succession(first=made[FIRST - 1])
    assert note and read_note(note).text.encode() == SIGNED
    assert made[:FIRST] == BEGUN[:FIRST] and end_text == SIGNED
    with Source(made[:2]) as source:
        assert auditing.once(source, "next", NEXT, "old") == 3, "it is late"
        assert auditing.served("next", HERE) == note and auditing.served("next", THERE) is None
        source.entries = made
        assert auditing.once(source, "next", NEXT, "old") == 0 and not auditing.alarm("next")
    assert auditing.head("key.head", OLD) == Head(6, ENDED.link(6))
    assert auditing.head(f"key.{THERE[:8]}.head", NEXT) == Head(6, Entry(made[5]).link)
    assert {it.name for it in auditing.home.iterdir() if it.name.startswith("key")} == {
        "key",
        "key.head",
        "key.head.succession",
        f"key.{THERE[:8]}.head",
    }
    assert (auditing.folder("old") / "succession.note").read_bytes() == note == auditing.served("old", HERE)


def test_without_before(auditing: Auditing) -> None:
    """Without --before, or with the head of the old directory, nothing is cosigned in the next one."""
    with Source(entries()) as source:
        assert auditing.once(source, "next", NEXT) == 3 and not (auditing.folder("next") / "note").exists()
        head = str(auditing.home / "key.head")
        assert auditing.once(source, "next", NEXT, "old", "--head", head) == 3
        assert not (auditing.folder("next") / "note").exists() and auditing.head("key.head", OLD).epoch == 6
        own = str(auditing.home / "other.head")
        assert auditing.once(source, "next", NEXT, "old", "--head", own) == 0 and auditing.head("other.head", NEXT).epoch == 6


def test_lost_folder(auditing: Auditing) -> None:
    """The head of the next directory is beside the key too."""
    with Source(entries()) as source:
        assert auditing.once(source, "next", NEXT, "old") == 0
        for file in auditing.folder("next").iterdir():
            file.unlink()
        source.entries = entries(roots=(EMPTY, EMPTY, ROOT, EMPTY))
        assert auditing.once(source, "next", NEXT, "old") == 3 and "lack the head" in auditing.told()[-1][1]


@pytest.mark.parametrize("is_late", [False, True])
def test_another_start(auditing: Auditing, is_late: bool) -> None:
    """The next chain has another entry at the first epoch that counts: an alarm, whether it comes before --before or after."""
    wrong = entries(roots=(EMPTY, ROOT, ROOT))
    with Source(wrong[:2] if is_late else wrong) as source:
        status = auditing.once(source, "next", NEXT, "old")
        assert status == (3 if is_late else 1)
        source.entries = wrong
        assert auditing.once(source, "next", NEXT, "old") == 1
    alarm = auditing.alarm("next")
    assert (alarm["why"], alarm["evidence"]) == ("OTHER_START", [SIGNED.hex(), wrong[2].hex()])
    heads = [it.name for it in auditing.home.glob("key.*.head")]
    assert heads == ([f"key.{THERE[:8]}.head"] if is_late else [])


def test_start_jumped_over(auditing: Auditing) -> None:
    """A chain that has no entry of the first epoch that counts has another one that covers it."""
    first, later = BEGUN[0], body_after(Entry(BEGUN[0]), 1, 5, ROOT, NONCE, digest(NEXT))
    wrong = later + curve.sign(NEXT_SIGNING, later)
    with Source([first, wrong]) as source:
        assert auditing.once(source, "next", NEXT, "old") == 1
    assert auditing.alarm("next")["evidence"] == [SIGNED.hex(), wrong.hex()]


def test_start_signed_again(auditing: Auditing) -> None:
    """The first entry that counts may be signed again, until another one follows it."""
    body = BEGUN[2][:145]
    again = body + curve.sign(NEXT_SIGNING, body, 7)
    with Source([*BEGUN[:2], again]) as source:
        assert auditing.once(source, "next", NEXT, "old") == 1
    (auditing.folder("next") / "alarm").unlink()
    with Source([*BEGUN[:3]]) as source:
        assert auditing.once(source, "next", NEXT, "old") == 3 and not auditing.alarm("next"), "it is late"
    assert (auditing.folder("next") / "entries").read_bytes() == b"".join([*BEGUN[:2], again, BEGUN[2]])


def test_start_signed_again_later(auditing: Auditing) -> None:
    """The next chain may go on from another signature of the first entry that counts, once the auditor has had the one that is named."""
    again = BEGUN[2][:145] + curve.sign(NEXT_SIGNING, BEGUN[2][:145], 7)
    body = body_after(Entry(again), 1, 6, EMPTY, NONCE, digest(NEXT))
    with Source(BEGUN[:3]) as source:
        assert auditing.once(source, "next", NEXT, "old") == 3, "it is late"
        source.entries = [*BEGUN[:2], again, body + curve.sign(NEXT_SIGNING, body)]
        for _ in range(2):
            assert auditing.once(source, "next", NEXT, "old") == 0 and not auditing.alarm("next")


def test_another_root(tmp_path: Path, auditing: Auditing) -> None:
    """Under the same VRF and nonce the first epoch that counts has the root of the last one: else names have other keys."""
    wrong = entries(roots=(EMPTY, EMPTY, EMPTY))
    (tmp_path / "other").mkdir()
    it = Auditing(tmp_path / "other", auditing._capture)
    end(it, succession(first=wrong[2]))
    with Source(wrong) as source:
        assert it.once(source, "next", NEXT, "old") == 1
    alarm = it.alarm("next")
    assert alarm["why"] == "ROOTS_DIFFER"
    assert alarm["evidence"] == [succession(first=wrong[2]).hex(), ENDED[6].hex(), wrong[2].hex()]


OTHER_VRF = policy_text(curve.public_key(NEXT_SIGNING), curve.public_key(sha256(b"another VRF")))
NO_VRF = policy_text(curve.public_key(NEXT_SIGNING), None)


@pytest.mark.parametrize("text, nonce", [(NEXT, bytes(32)), (OTHER_VRF, NONCE), (NO_VRF, NONCE)], ids=["nonce", "VRF", "no VRF"])
def test_uncomparable(tmp_path: Path, auditing: Auditing, text: str, nonce: bytes) -> None:
    """Under another VRF or nonce the roots can't be compared, which is told once in a run and is no alarm."""
    made = entries(roots=(EMPTY, EMPTY, EMPTY), nonce=nonce, text=text)
    (tmp_path / "other").mkdir()
    it = Auditing(tmp_path / "other", auditing._capture)
    end(it, succession(first=made[2], policies=(OLD, text)))
    with Source(made) as source:
        assert it.once(source, "next", text, "old") == 0 and it.told() == [("succession", WORDS)]
    assert not it.alarm("next")


def test_both_without_a_vrf(tmp_path: Path, auditing: Auditing) -> None:
    """Two directories without a VRF take indices from elsewhere, of which an auditor knows nothing."""
    old = with_successor(policy_text(vrf=None))
    world, made = World(BATCHES, policy=digest(old)), entries(roots=(EMPTY, EMPTY, EMPTY), text=NO_VRF)
    (tmp_path / "other").mkdir()
    it = Auditing(tmp_path / "other", auditing._capture)
    with Source(world.entries()) as source, Source(made) as following:
        source.succession = succession(world[6], made[2], policies=(old, NO_VRF))
        assert it.once(source, "old", old) == 0 and it.told()
        assert it.once(following, "next", NO_VRF, "old") == 0 and it.told() == [("succession", WORDS)] and not it.alarm("next")


def test_after_a_theft(tmp_path: Path, auditing: Auditing) -> None:
    """It goes on from a directory that has void entries, also while another process appends to them."""
    (tmp_path / "other").mkdir()
    it = Auditing(tmp_path / "other", auditing._capture)
    with Source(STOLEN.entries()) as source, Source(entries()) as following:
        source.succession = SIGNED
        assert it.once(source, "old", OLD) == 1 and it.alarm("old")["why"] == "VOID"
        with open(it.folder("old") / "entries", "ab") as file:
            file.write(STOLEN[7] + STOLEN[8][:100])
        assert it.once(following, "next", NEXT, "old") == 0 and not it.alarm("next")


def test_three_directories(auditing: Auditing) -> None:
    """A directory that went on from another one ends too: all successions before are served in each later folder."""
    middle = with_successor(NEXT)
    last = policy_text(curve.public_key(sha256(b"third signing key")))
    first = entries(text=middle)
    third = chained([EMPTY, Entry(first[5]).root], text=last, secret=sha256(b"third signing key"))
    to_middle, to_last = succession(first=first[2], policies=(OLD, middle)), succession(first[5], third[1], policies=(middle, last))
    with Source(ENDED.entries()) as source:
        for file in [*auditing.folder("old").glob("succession*"), auditing.home / "key.head.succession"]:
            file.unlink()
        source.succession = to_middle
        assert auditing.once(source, "old", OLD) == 0
    with Source(first) as source:
        source.succession = to_last
        assert auditing.once(source, "middle", middle, "old") == 0
    with Source(third) as source:
        assert auditing.once(source, "last", last, "middle") == 3 and not auditing.alarm("last"), "it is late"
    notes = [auditing.served("old", HERE), auditing.served("middle", digest(middle).hex())]
    assert [read_note(it or b"").text.encode() for it in notes] == [to_middle, to_last]
    for name in ("middle", "last"):
        assert [auditing.served(name, it) for it in (HERE, digest(middle).hex())] == notes
    assert auditing.served("last", digest(last).hex()) is None and auditing.served("old", digest(middle).hex()) is None
    assert (auditing.home / f"key.{digest(middle).hex()[:8]}.head.succession").read_bytes() == notes[1]


def noted(text: bytes, name: str = "one") -> bytes:
    """A succession with an auditor's cosignature."""
    return bytes(Note(text.decode(), (cosign(name, KEYS[name], text.decode(), client_world.hour(6)),)))


BROKEN = {
    "no policy": ("policy", b""),
    "a policy without a successor": ("policy", client_world.POLICY.encode()),
    "another policy of the same successor": ("policy", with_successor(policy_text(stored=5)).encode()),
    "no succession": ("succession.note", b""),
    "an unsigned one": ("succession.note", noted(succession(secret=client_world.SIGNING))),
    "another last entry": ("succession.note", noted(succession(STOLEN[7]))),
    "one that isn't cosigned": ("succession.note", SIGNED),
    "one that another auditor cosigned": ("succession.note", noted(SIGNED, "other")),
    "no entry": ("entries", b""),
    "no last entry": ("entries", b"".join(STOLEN.entries(1, 2, 3, 5))),
}


@pytest.mark.parametrize("name", BROKEN)
def test_not_before(auditing: Auditing, name: str) -> None:
    """A folder without a policy, a cosigned succession or the last entry is none that a directory goes on from."""
    file, data = BROKEN[name]
    (auditing.folder("old") / file).write_bytes(data)
    with Source(entries()) as source:
        assert auditing.once(source, "next", NEXT, "old") == 3 and auditing.told()[-1][0] == "ended"
    assert not (auditing.folder("next") / "note").exists() and auditing.served("next", HERE) is None


def test_another_next(auditing: Auditing) -> None:
    """The succession names another policy."""
    text = policy_text(stored=5)
    with Source([]) as source:
        assert auditing.once(source, "next", text, "old") == 3 and auditing.served("next", HERE) is None


def test_command_line(tmp_path: Path) -> None:
    """--before is of an auditor, not of what serves a folder."""
    with pytest.raises(SystemExit) as ended:
        main(["--folder", str(tmp_path), "--listen", "127.0.0.1:1", "--before", str(tmp_path)])
    assert ended.value.code == 2
