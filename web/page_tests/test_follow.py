"""The page that follows a service, over directories of the second implementation that are honest, late, broken and lying."""

from __future__ import annotations

import base64
import json
import re
from pathlib import Path
from typing import Any, Callable, Iterator, Optional

import pytest

pytest.importorskip("nacl.signing")

import client_world
from browser import WEB, Browser, count, texts
from client_world import FIRST, World, hour
from coniks import Head, Policy
from coniks.notes import Auditor, Note, cosign, text_of
from coniks.vouching import Place, Record, announced, convicts, first, following, reset
from directories import VOUCHED, Batches, Directory, Reply
from nacl.signing import SigningKey

FOLLOW = WEB / "out/follow.html"
LARGEST = 200_000
POLICY = Policy.read(client_world.POLICY.encode())
KEYS = {name: SigningKey(name.encode().ljust(32)) for name in ["one", "two", "three", "four", "five", "other", "alice"]}
AUDITORS = [Auditor(name, bytes(KEYS[name].verify_key)) for name in ["one", "two"]]
# Alice's records, and a directory that has the first one.
ALICE = Place.of(POLICY, "alice")
RECORD = first(ALICE, KEYS["alice"], b"key of alice")
NEXT = following(ALICE, KEYS["alice"], RECORD, b"next key")
BEGUN = [(1, {**FIRST, "alice": RECORD}), (2, {"carol": b"key of carol"})]
# A directory that parts from that one at its latest epoch.
FORK = World([BEGUN[0], (2, {"alice": b"key of mallory"})])
DONE = "document.getElementById('state')?.dataset.done === 'true'"


def note(
    world: World,
    epoch: int,
    *names: str,
    seconds: int = 0,
    keys: Optional[dict[str, SigningKey]] = None,
    policy: Policy = POLICY,
) -> bytes:
    """A head that auditors cosigned, in the epoch after it if nothing else is said."""
    text = text_of(policy, Head(epoch, world.link(epoch)))
    lines = [cosign(it, (keys or KEYS)[it], text, seconds or hour(epoch + 1)) for it in names or ("one", "two")]
    return bytes(Note(text, tuple(lines)))


class Site(Directory):
    """A service that has the page, at an origin of its own."""

    def __init__(self, batches: Batches = BEGUN, policy: str = client_world.POLICY) -> None:
        super().__init__(batches, policy)
        page = FOLLOW.read_bytes()
        self.lies["/"] = lambda _: Reply(page, headers={"Content-Type": "text/html"})
        self.lies["/v1/head"] = lambda _: Reply(b"{}")
        self.note = note(self.world, 2, policy=Policy.read(policy.encode()))

    def confirmed(self, epoch: int, **keys: bytes) -> None:
        """Makes an epoch, and has both auditors cosign it."""
        self.commit(epoch, **keys)
        self.note = note(self.world, epoch, seconds=hour(epoch), policy=Policy.read(self.policy.encode()))

    def carry(self, **notes: bytes) -> None:
        """Carries a note of each auditor, and none of several."""
        self.lies["/v1/note"] = lambda query: Reply(notes.get(query.get("auditor", ""), b""))


class Visitor:
    """Someone with the page in a browser, whose clock is in an epoch."""

    def __init__(self, browser: Browser, site: Site):
        self.browser, self.site = browser, site
        # Of each tab, the script that sets its clock.
        self._scripts: dict[str, str] = {}
        self.now(3)

    def now(self, epoch: int) -> None:
        """Sets the clock of the pages that are opened next in this tab."""
        self.forget()
        source = f"Date.now = () => {1000 * hour(epoch)}; window.confirm = () => true;"
        made = self.browser.call("Page.addScriptToEvaluateOnNewDocument", source=source)
        self._scripts[self.browser.driver.current_window_handle] = made["identifier"]

    def forget(self) -> None:
        if script := self._scripts.pop(self.browser.driver.current_window_handle, None):
            self.browser.call("Page.removeScriptToEvaluateOnNewDocument", identifier=script)

    def open(self) -> str:
        self.browser.open(f"{self.site.url}/")
        self.browser.until(DONE)
        return self.result

    def press(self, button: str, **fields: str) -> str:
        """Fills fields, presses a button, and returns the result."""
        for name, text in fields.items():
            self.browser.value(f"document.getElementById('{name}').value = {json.dumps(text)}; 1")
        self.browser.value(f"document.getElementById('{button}').click(); 1")
        self.browser.until(DONE)
        return self.result

    def begin(self, policy: str = client_world.POLICY, *auditors: str, faulty: str = "0") -> str:
        self.open()
        return self.press("start", policy=policy, auditors="\n".join(auditors or map(str, AUDITORS)), faulty=faulty)

    def look(self, name: str) -> str:
        return self.press("look", name=name)

    @property
    def result(self) -> str:
        return "".join(texts(self.browser, "#result"))

    @property
    def opinions(self) -> list[str]:
        return texts(self.browser, "#opinions > li")

    @property
    def is_verified(self) -> bool:
        return count(self.browser, "#result .good") > 0

    def shows(self, part: str) -> bool:
        found: bool = self.browser.value(f"document.getElementById('{part}').checkVisibility()")
        return found

    def close(self) -> None:
        self.forget()
        self.browser.open("about:blank")


@pytest.fixture
def visitor(anywhere: Browser) -> Iterator[Visitor]:
    site = Site()
    with site:
        made = Visitor(anywhere, site)
        yield made
        made.close()


def test_follows(visitor: Visitor) -> None:
    """A first visit, a lookup with its path, and later visits that go on from what is stored."""
    assert visitor.open() == "" and visitor.shows("begin") and not visitor.shows("asking")
    visitor.browser.forget()
    visitor.begin()
    assert (
        not visitor.shows("begin")
        and visitor.opinions[0] == "2 of your 2 auditors agree with this chain, and a quorum confirms it up to epoch 2."
    )
    wanted = 'Verified and stored: "alice" has the key "key of alice" in record 1 of its owner at epoch 2.The authentication path'
    assert visitor.look("Alice") == wanted + path_of(visitor)
    assert visitor.opinions[1:] == [f"{it} agrees with this chain up to epoch 2" for it in ["one", "two"]]
    assert "no key at epoch 2" in visitor.look("nobody") and visitor.is_verified
    visitor.site.confirmed(3, alice=NEXT)
    visitor.open()
    assert not visitor.shows("begin") and len(texts(visitor.browser, "#entries > li")) == 2
    wanted = '"next key" in record 2 of its owner in place of "key of alice", and its owner signed the change at epoch 3.'
    assert wanted in visitor.look("alice") and visitor.is_verified
    assert texts(visitor.browser, "#since")[0].endswith(
        "3 entries, epochs 1 to 3. Each is signed, and has the link of the one before."
    )
    assert visitor.site.requested.count("/v1/entries?after=0") == 1, "the chain is taken once"
    assert all(it.startswith(visitor.site.url) for it in visitor.browser.requests()) and not visitor.browser.complaints()


def path_of(visitor: Visitor) -> str:
    """The text of the path, which has the tree's root and the key."""
    text = "".join(texts(visitor.browser, "#result figure"))
    root = visitor.site.world[2][17:49].hex()
    assert f"{root[:8]}…{root[-4:]}" in text and f"0x{RECORD.hex()[:32]}" in text and "verified by its VRF proof" in text
    return text


def test_wrong_beginnings(visitor: Visitor) -> None:
    one, two = map(str, AUDITORS)
    assert "no policy document" in visitor.begin(client_world.POLICY.replace("one-chain", "none"))
    assert "one auditor can't be compared" in visitor.begin(client_world.POLICY, one)
    assert "listed twice" in visitor.begin(client_world.POLICY, one, one)
    assert "no verifier key" in visitor.begin(client_world.POLICY, one, two[:-2] + "A=")
    assert "more than three auditors are needed for each one that may lie" in visitor.begin(faulty="1")
    for wrong in ["", "-1", "0.5", "none"]:
        assert "is a number in digits" in visitor.begin(faulty=wrong)
    other = SigningKey(bytes(32)).verify_key
    assert "no point of prime order" not in visitor.begin(client_world.POLICY, one, str(Auditor("two", bytes(other))))
    assert visitor.opinions[0].startswith("1 of your 2 auditors agree with this chain, and 2 must")


HOSTILE = [
    "<img src=x onerror=\"document.title='broken'\">", "a&epoch=1", "a#b", "../../healthz", "%00", "a b+c", "alice\u202eecila", "аlice",
    "javascript:alert(1)", "'\"`;--", "a" * 255,
]  # fmt: skip


def test_hostile_names(visitor: Visitor) -> None:
    """A name is asked for as it is and shown as text, and what is no name is not asked for."""
    visitor.begin()
    for name in HOSTILE:
        visitor.look(name)
        assert visitor.is_verified and count(visitor.browser, "#result img, #result a, #result script") == 0
    assert visitor.browser.value("document.title") == "Follow a key directory"
    assert "\\u{202e}" in visitor.look("alice\u202eecila") and "not ASCII: U+0430" in visitor.look("аlice")
    requested = len(visitor.site.requested)
    for name in ["", "a\u0085", "\ue000\u0378", "é" * 128]:
        assert "a name " in visitor.look(name) and not visitor.is_verified
    assert len(visitor.site.requested) == requested, "nothing was asked for"


# Bytes that look like a record of dave's and are none: whom the page can't call their owner.
UNSIGNED = {
    "no signature": bytes(Record((1 << 64) - 1, bytes(KEYS["alice"].verify_key), bytes(32), 0, 0, bytes(64), b"own key")),
    "another name's": RECORD,
    "another directory's": first(Place([bytes(32)], "dave", True), KEYS["alice"], b"own key"),
}


@pytest.mark.parametrize("value", UNSIGNED.values(), ids=UNSIGNED)
def test_unsigned_record(visitor: Visitor, value: bytes) -> None:
    """Bytes are a record of its owner only if the owner signed them for this name and directory."""
    visitor.site.confirmed(3, dave=value)
    visitor.begin()
    printed = visitor.look("dave")
    assert "has the key 0x766f756368656431" in printed and "of its owner" not in printed and not visitor.is_verified
    assert "at epoch 3. These bytes look like a record of an owner, and are not signed as one." in printed


def test_plain_key(visitor: Visitor) -> None:
    """A key that is in no record is not green."""
    visitor.begin()
    wanted = 'The directory shows: "carol" has the key "key of carol" at epoch 2. No owner vouches for this key.'
    assert visitor.look("carol").startswith(wanted) and not visitor.is_verified


CHANGED = {
    "plain bytes": b"key of mallory",
    "another voucher": first(ALICE, KEYS["other"], b"key of mallory"),
    "no signature": RECORD[:8] + (2).to_bytes(8, "big") + RECORD[16:],
}


@pytest.mark.parametrize("value", CHANGED.values(), ids=CHANGED)
def test_unvouched_change(visitor: Visitor, value: bytes) -> None:
    """A key in the place of a record that was shown, which its owner didn't sign, is told at each lookup. Without a promise of the policy
    it convicts nobody, and other names are looked up as before."""
    visitor.begin()
    assert visitor.look("alice").startswith("Verified and stored")
    visitor.site.confirmed(3, alice=value)
    for _ in range(2):
        printed = visitor.look("alice")
        assert "The owner of the key before did not sign the change: don't use it." in printed and not visitor.is_verified
        assert 'in place of "key of alice" at epoch 3.' in printed and "of its owner" not in printed
        assert count(visitor.browser, "#result .bad") == 1 and count(visitor.browser, "#alarms pre") == 0
        visitor.open()
    assert visitor.look("nobody") and visitor.is_verified


def test_reset(anywhere: Browser) -> None:
    """A notice is told beside the key that is as before. A reset is red and not stored, and a closed name has no key."""
    policy = Policy.read(VOUCHED.encode())
    place, alice, other = Place.of(policy, "alice"), KEYS["alice"], KEYS["other"]
    record = first(place, alice, b"key of alice", 1)
    notice = announced(record, bytes(other.verify_key), 4)
    site = Site([(1, {"alice": record, "bob": first(Place.of(policy, "bob"), alice, b"k")}), (2, {})], VOUCHED)
    with site:
        visitor = Visitor(anywhere, site)
        visitor.begin(VOUCHED)
        assert visitor.look("alice").startswith("Verified and stored") and visitor.look("bob").startswith("Verified and stored")
        site.confirmed(3, alice=notice, bob=following(Place.of(policy, "bob"), alice, bob_of(site), b""))
        wanted = (
            'Verified and stored: "alice" has the key "key of alice" in record 1 of its owner at epoch 3. A reset of this name is'
        )
        assert visitor.look("alice").startswith(f"{wanted} announced for epoch 4: ask its owner.") and visitor.is_verified
        assert visitor.look("bob").startswith('Verified and stored: "bob" has no key: record 2 of its owner closes it at epoch 3.')
        visitor.now(4)
        site.confirmed(4, alice=reset(place, other, notice, b"other key"))
        for _ in range(2):
            visitor.open()
            printed = visitor.look("alice")
            assert (
                "was reset for who has lost its secret key: verify this key with its owner" in printed and not visitor.is_verified
            )
            assert count(visitor.browser, "#result .bad") == 1 and count(visitor.browser, "#alarms pre") == 0
        visitor.close()


def bob_of(site: Site) -> bytes:
    """The record that bob has at first."""
    return site.world.epochs[1].names[client_world.index("bob")][2]


def test_broken_promise(anywhere: Browser) -> None:
    """Under a policy that promises records it is an alarm that stays, and what is kept convicts the directory."""
    policy = Policy.read(VOUCHED.encode())
    place = Place.of(policy, "alice")
    record, other = (first(place, KEYS[it], b"key of alice") for it in ("alice", "other"))
    site = Site([(1, {"alice": record}), (2, {})], VOUCHED)
    with site:
        visitor = Visitor(anywhere, site)
        visitor.begin(VOUCHED)
        assert visitor.look("alice").startswith("Verified and stored")
        site.confirmed(3, alice=other)
        visitor.look("alice")
        for _ in range(2):
            kind, before, now = texts(visitor.browser, "#alarms pre")[0].split("\n")
            assert kind == "unvouched" and convicts(policy, "alice", bytes.fromhex(before), bytes.fromhex(now))
            visitor.open()
        assert visitor.look("nobody") and not visitor.is_verified and count(visitor.browser, "#opinions .good") == 0
        visitor.close()


def test_hostile_key(visitor: Visitor) -> None:
    """Markup in a key is text."""
    markup = b"<script>document.title='broken'</script>"
    visitor.site.confirmed(3, dave=markup)
    visitor.begin()
    assert markup.decode() in visitor.look("dave") and count(visitor.browser, "#result script") == 0


LIES: dict[str, tuple[str, Callable[[World, Any], Reply], str]] = {
    "another name's reply": ("/v1/lookup", lambda world, _: Reply(world.reply("bob", 2)), "VrfProof"),
    "an older reply": ("/v1/lookup", lambda world, _: Reply(world.reply("alice", 1)), "OtherEpoch"),
    "another key": ("/v1/lookup", lambda world, _: Reply(world.reply("alice", 2, proof=FORK.proof("alice", 2))), "RootMismatch"),
    "a cut reply": ("/v1/lookup", lambda world, _: Reply(world.reply("alice", 2)[:-1]), "CutInKey"),
    "no reply": ("/v1/lookup", lambda *_: Reply(b"", 503), "status 503"),
    "a long reply": ("/v1/lookup", lambda *_: Reply(bytes(40_000)), "more than 32768 bytes"),
    "a redirect": ("/v1/lookup", lambda *_: Reply(b"", 302, {"Location": "/v1/head"}), "gives no reply"),
    "a cut catch-up": ("/v1/entries", lambda world, _: Reply(world[2][:-1]), "CatchUpLength"),
    "an older chain": ("/v1/entries", lambda world, _: Reply(b""), "shows an older chain than before"),
    "the latest entry again and again": ("/v1/entries", lambda world, _: Reply(world[2]), "do not rise"),
    "entries that do not rise": (
        "/v1/entries",
        lambda world, _: Reply(world[2] + world[1]),
        "isn't later than that of the entry before",
    ),
    "an entry that nobody signed": ("/v1/entries", lambda world, _: Reply(bytes(FORK[2][:145]) + bytes(64)), "Signature"),
}


@pytest.mark.parametrize("path, lie, why", LIES.values(), ids=LIES)
def test_lies(visitor: Visitor, path: str, lie: Callable[[World, Any], Reply], why: str) -> None:
    """Nothing of what a service makes up is shown as verified, and afterwards an honest one is followed again."""
    visitor.begin()
    world = visitor.site.world
    visitor.site.lies[path] = lambda query: lie(world, query)
    printed = visitor.look("alice")
    assert printed.startswith("Not verified: ") and why in printed and not visitor.is_verified
    del visitor.site.lies[path]
    assert visitor.look("alice").startswith("Verified") and count(visitor.browser, "#alarms > div") == 0


def test_equivocation(visitor: Visitor) -> None:
    """Two signed entries are shown, and stay when the service is honest again."""
    visitor.begin()
    honest, visitor.site.world = visitor.site.world, FORK
    assert "(Equivocation)" in visitor.look("alice") and not visitor.is_verified
    for _ in range(2):
        evidence = texts(visitor.browser, "#alarms pre")
        assert evidence == [f"overlap\n{honest[2].hex()}\n{FORK[2].hex()}"]
        visitor.site.world = honest
        visitor.open()
    assert '"key of alice"' in visitor.look("alice") and texts(visitor.browser, "#alarms pre") == evidence
    assert not visitor.is_verified and count(visitor.browser, "#opinions .good") == 0, "nothing is green beside evidence"


STALE = hour(2, -3 * 3600)
NOTES: dict[str, tuple[bytes, list[str], int]] = {
    "another link": (note(FORK, 2), ["signed another chain at epoch 2"] * 2, 0),
    "another link of one": (note(FORK, 2, "one"), ["signed another chain at epoch 2", "is in no note"], 0),
    "one of two": (note(World(BEGUN), 2, "two"), ["is in no note", "agrees"], 1),
    "another one's key": (note(World(BEGUN), 2, keys={"one": KEYS["other"], "two": KEYS["two"]}), ["is in no note", "agrees"], 1),
    "the year 2100": (note(World(BEGUN), 2, seconds=4_102_444_800), ["has cosigned epoch 2 for a time that is to come"] * 2, 0),
    "long ago": (note(World(BEGUN), 2, seconds=STALE), ["has cosigned nothing lately"] * 2, 0),
    "an epoch that is hidden": (note(World([*BEGUN, (3, {})]), 3, seconds=hour(3)), ["has seen epoch 3, which the service does not show"] * 2, 0),
    "another directory": (note(World(BEGUN), 2).replace(b"keys.example.com", b"keys.example.net"), ["is in no note"] * 2, 0),
    "no note": (b"<html>", ["is in no note"] * 2, 0),
}  # fmt: skip


@pytest.mark.parametrize("is_own", [False, True], ids=["of several", "of each"])
@pytest.mark.parametrize("document, sayings, agreeing", NOTES.values(), ids=NOTES)
def test_notes(visitor: Visitor, document: bytes, sayings: list[str], agreeing: int, is_own: bool) -> None:
    """An auditor counts only for what its own key cosigned lately of this chain. One that signed another chain is an alarm."""
    visitor.begin()
    visitor.site.note = document
    if is_own:
        visitor.site.carry(one=document, two=document)
    assert visitor.look("alice").startswith("The directory shows: ") and not visitor.is_verified
    assert "at epoch 2, which too few of your auditors confirm." in visitor.result
    assert visitor.opinions[0] == f"{agreeing} of your 2 auditors agree with this chain, and 2 must: rely on nothing new."
    assert [b.startswith(f"{a} {printed}") for a, b, printed in zip(["one", "two"], visitor.opinions[1:], sayings)] == [True, True]
    differing = sum("another chain" in it for it in sayings)
    assert count(visitor.browser, "#opinions .sum.good") == 0 and count(visitor.browser, "#alarms > div") == differing
    visitor.site.note = note(visitor.site.world, 2)
    visitor.site.lies.pop("/v1/note", None)
    visitor.look("alice")
    assert visitor.is_verified is (differing == 0), "an alarm stays"


def test_another_latest_entry(visitor: Visitor) -> None:
    """Another entry in the place of the latest one convicts the directory, also if nothing follows it."""
    visitor.begin()
    visitor.look("alice")
    visitor.site.lies["/v1/entries"] = lambda query: Reply(FORK[2] if query["after"] == "1" else b"")
    assert "convict the provider" in visitor.look("alice") and count(visitor.browser, "#alarms > div") == 1
    visitor.site.lies.clear()
    assert visitor.look("alice").startswith("The directory shows: ") and not visitor.is_verified, "an alarm stays"


def test_withheld_head(visitor: Visitor) -> None:
    """An auditor that the note of several leaves out is asked for by itself: it may have another chain."""
    visitor.begin()
    notes = {"": note(visitor.site.world, 2, "one"), "one": note(visitor.site.world, 2, "one"), "two": note(FORK, 2, "two")}
    visitor.site.lies["/v1/note"] = lambda query: Reply(notes[query.get("auditor", "")])
    assert visitor.look("alice") and not visitor.is_verified
    assert visitor.opinions[2].startswith("two signed another chain at epoch 2") and count(visitor.browser, "#alarms > div") == 1


def test_clocks_of_auditors(visitor: Visitor) -> None:
    """A cosignature counts up to five minutes ahead of the browser's clock."""
    for seconds, is_good in [(300, True), (301, False)]:
        visitor.site.note = note(visitor.site.world, 2, seconds=hour(3) + seconds)
        visitor.begin()
        assert visitor.look("alice") and visitor.is_verified is is_good
        visitor.press("forget")


def test_own_heads(visitor: Visitor) -> None:
    """The chain is confirmed up to the latest epoch that enough auditors have cosigned, or a later one, each by its own heads. What an
    auditor has cosigned stays, also if an earlier note of it is shown."""
    world = visitor.site.world
    visitor.begin()
    visitor.site.commit(3, alice=NEXT)
    later = visitor.site.world
    for one, two, epoch in [(3, 2, 2), (2, 2, 2), (2, 3, 3), (3, 3, 3)]:
        visitor.site.carry(one=note(later, one, "one", seconds=hour(3)), two=note(later, two, "two", seconds=hour(3)))
        wanted = ['"key of alice"', '"next key"'][epoch - 2]
        assert wanted in visitor.look("alice") and f"at epoch {epoch}." in visitor.result and visitor.is_verified
        assert visitor.opinions[0] == f"2 of your 2 auditors agree with this chain, and a quorum confirms it up to epoch {epoch}."
    visitor.site.carry(one=note(world, 2, "one"), two=note(world, 2, "two"))
    assert '"next key"' in visitor.look("alice") and visitor.is_verified, "what was confirmed once stays so"


def test_heads_that_do_not_count(visitor: Visitor) -> None:
    """What an auditor cosigned for a time that is to come, or too long ago, confirms no epoch, also once the auditors agree again."""
    world = visitor.site.world
    visitor.begin()
    visitor.site.commit(3, alice=NEXT)
    for seconds in (4_102_444_800, STALE):
        heads = {it: note(visitor.site.world, 3, it, seconds=seconds) for it in ("one", "two")}
        visitor.site.carry(**heads)
        assert visitor.look("alice") and not visitor.is_verified
    visitor.site.carry(**{it: note(world, 2, it, seconds=hour(3)) for it in ("one", "two")})
    assert '"key of alice"' in visitor.look("alice") and "at epoch 2." in visitor.result and visitor.is_verified


def test_retained_auditors(visitor: Visitor) -> None:
    """Auditors that are held at an early epoch confirm no later one, however often they cosign it."""
    visitor.begin()
    visitor.site.batches += [(it, {}) for it in range(3, 40)]
    visitor.site.commit(40, alice=NEXT)
    visitor.now(41)
    visitor.open()
    visitor.site.note = note(visitor.site.world, 2, seconds=hour(41))
    assert '"next key"' in visitor.look("alice") and "at epoch 40, which too few of your auditors confirm." in visitor.result
    assert not visitor.is_verified and count(visitor.browser, "#opinions .good") == 0


def test_lying_auditors(visitor: Visitor) -> None:
    """How many auditors may lie is the user's to say, and is kept."""
    names = ["one", "two", "three", "four", "five"]
    auditors = [str(Auditor(it, bytes(KEYS[it].verify_key))) for it in names]
    visitor.site.note = note(visitor.site.world, 2, *names[:3])
    visitor.begin(client_world.POLICY, *auditors, faulty="1")
    for _ in range(2):
        assert visitor.look("alice") and not visitor.is_verified
        assert visitor.opinions[0] == "3 of your 5 auditors agree with this chain, and 4 must: rely on nothing new."
        visitor.open()
        assert visitor.browser.value("document.getElementById('lying').value") == "1"
    assert "more than three auditors are needed for each one that may lie" in visitor.press("trust", lying="2")
    visitor.press("trust", lying="0")
    assert visitor.opinions[0] == "3 of your 5 auditors agree with this chain, and a quorum confirms it up to epoch 2."
    assert visitor.look("alice") and visitor.is_verified


def test_more_must_agree(visitor: Visitor) -> None:
    """If more auditors must agree than before, an epoch that was confirmed may not be any more, also that of an accepted key."""
    names = ["one", "two", "three", "four", "five"]
    auditors = [str(Auditor(it, bytes(KEYS[it].verify_key))) for it in names]
    visitor.begin(client_world.POLICY, *auditors, faulty="0")
    visitor.site.commit(3, alice=NEXT)
    epochs = dict(zip(names, [3, 3, 3, 2]))
    visitor.site.carry(**{it: note(visitor.site.world, epoch, it, seconds=hour(3)) for it, epoch in epochs.items()})
    assert '"next key"' in visitor.look("alice") and "at epoch 3." in visitor.result and visitor.is_verified
    visitor.press("trust", lying="1")
    assert visitor.opinions[0] == "4 of your 5 auditors agree with this chain, and a quorum confirms it up to epoch 2."
    assert "at epoch 3, which too few of your auditors confirm." in visitor.look("alice") and not visitor.is_verified


def test_no_auditors(visitor: Visitor) -> None:
    """Without auditors nothing is green."""
    visitor.open()
    visitor.press("start", policy=client_world.POLICY, auditors="", faulty="0")
    assert visitor.opinions == ["No auditor is named, so nobody notices if others are shown another chain."]
    assert "at epoch 2, which no auditor confirms." in visitor.look("alice") and not visitor.is_verified
    assert count(visitor.browser, "#opinions .good") == 0 and not visitor.shows("trusting")


def test_late_service(visitor: Visitor) -> None:
    """By the policy's clock the latest epoch is too old, or has not begun."""
    visitor.begin()
    for epoch, why in [(6, "Stale"), (1, "Future")]:
        visitor.now(epoch)
        visitor.open()
        assert f"({why})" in visitor.look("alice") and not visitor.is_verified


def test_stored_first(visitor: Visitor) -> None:
    """What can't be stored isn't shown, and what is shown was stored before."""
    visitor.begin()
    visitor.browser.value(
        """window.put = IDBObjectStore.prototype.put; window.seen = [];
        IDBObjectStore.prototype.put = () => { throw new DOMException('no room', 'QuotaExceededError'); }; 1"""
    )
    assert "no room" in visitor.look("alice") and not visitor.is_verified and visitor.opinions == []
    visitor.browser.value(
        """(set => {
            IDBObjectStore.prototype.put = window.put;
            const tell = () => window.seen.push(document.querySelectorAll('#result .good').length);
            Object.defineProperty(IDBTransaction.prototype, 'oncomplete', { set(it) { set.call(this, () => { tell(); it(); }); } });
        })(Object.getOwnPropertyDescriptor(IDBTransaction.prototype, 'oncomplete').set); 1"""
    )
    assert visitor.look("alice").startswith("Verified")
    assert visitor.browser.value("window.seen") == [0], "nothing is shown until it is stored"


def test_cleared(visitor: Visitor) -> None:
    """A database that is cleared, before a visit or under an open page, is a first visit again, and the page says so."""
    visitor.begin()
    visitor.browser.value("new Promise(go => { indexedDB.deleteDatabase('coniks').onsuccess = () => go(1); })")
    assert "follows no directory" in visitor.look("alice") and not visitor.is_verified
    assert visitor.shows("begin") and not visitor.shows("chain")
    visitor.open()
    assert visitor.shows("begin") and "what was stored was cleared" in "".join(texts(visitor.browser, "#begin"))


CHANGES = {
    "a bit": "it => { it[it.length >> 1] ^= 1; return it; }",
    "the digest": "it => { it[0] ^= 1; return it; }",
    "cut": "it => it.slice(0, -1)",
    "empty": "it => new Uint8Array(0)",
    "no bytes": "it => 'kept'",
    "another state": """it => { const kept = JSON.parse(new TextDecoder().decode(it.slice(32))); kept.state = kept.state.slice(0, -2) + '00';
        const text = new TextEncoder().encode(JSON.stringify(kept)); return bytes_.joined(sha256_.sha256(text), text); }""",
    "no state": """it => { const kept = JSON.parse(new TextDecoder().decode(it.slice(32))); kept.state = 'state';
        const text = new TextEncoder().encode(JSON.stringify(kept)); return bytes_.joined(sha256_.sha256(text), text); }""",
}


def check_refused(visitor: Visitor, change: str, why: str) -> None:
    """A database after a change is not used, and not taken for a first visit: the user decides to forget it."""
    visitor.begin()
    visitor.browser.value(
        f"""(async change => {{ const store = keeping_.browserStore; const before = await store.read();
        if (!await store.replace(before, change(before.slice()))) throw Error('not stored'); }})({change})"""
    )
    assert why in visitor.look("alice") and not visitor.is_verified
    assert why in visitor.open() and not visitor.shows("begin") and visitor.shows("stored")
    visitor.press("forget")
    assert visitor.shows("begin") and not visitor.shows("stored")
    visitor.begin()
    assert visitor.look("alice").startswith("Verified")


@pytest.mark.parametrize("change", CHANGES.values(), ids=CHANGES)
def test_changed(visitor: Visitor, change: str) -> None:
    check_refused(visitor, change, "what this browser has stored was changed")


# A client's state of version 1, with its digest: no name is watched in it.
EARLIER = """it => { const kept = JSON.parse(new TextDecoder().decode(it.slice(32))); const state = bytes_.fromHex(kept.state).slice(0, -32);
    state[0] = 1; kept.state = bytes_.toHex(bytes_.joined(state, sha256_.sha256(state)));
    const text = new TextEncoder().encode(JSON.stringify(kept)); return bytes_.joined(sha256_.sha256(text), text); }"""


def test_earlier_version(visitor: Visitor) -> None:
    check_refused(visitor, EARLIER, "what this browser has stored is of another version of this page: reload the page")


def test_two_tabs(visitor: Visitor) -> None:
    """Two tabs have one chain: what one has seen, the other one goes on from, also if both ask at once."""
    driver = visitor.browser.driver
    visitor.begin()
    first = driver.current_window_handle
    driver.switch_to.new_window("tab")
    visitor.now(3)
    try:
        visitor.open()
        visitor.site.confirmed(3, alice=NEXT)
        assert '"next key" in record 2 of its owner at epoch 3' in visitor.look("alice")
        second = driver.current_window_handle
        visitor.site.batches.pop()
        visitor.site.world = World(visitor.site.batches)
        driver.switch_to.window(first)
        assert "shows an older chain than before" in visitor.look("alice"), "the other tab has seen a later one"
        visitor.site.confirmed(3, alice=NEXT)
        for tab in [first, second] * 3:
            driver.switch_to.window(tab)
            visitor.browser.value("document.getElementById('name').value = 'alice'; document.getElementById('look').click(); 1")
        for tab in [first, second]:
            driver.switch_to.window(tab)
            visitor.browser.until(DONE)
            assert '"next key" in record 2 of its owner at epoch 3' in visitor.result
        driver.close()
    finally:
        driver.switch_to.window(first)


def test_slow_tab(visitor: Visitor) -> None:
    """While a reply is on its way to one tab, another one stores a later epoch: it is not stored over."""
    visitor.begin()

    def once(query: Any) -> Reply:
        reply = Reply(visitor.site.world.reply("alice", 2))
        del visitor.site.lies["/v1/lookup"]
        visitor.site.confirmed(3, alice=NEXT)
        return reply

    visitor.site.lies["/v1/lookup"] = once
    found = visitor.browser.value(
        """(async () => {
            const coniks = await coniks_.Coniks.of(await packed_.unpacked(document.getElementById('module').textContent));
            const ask = async target => { const found = await fetch(target); return { status: found.status, body: new Uint8Array(await found.arrayBuffer()) }; };
            const other = new following_.Follower(coniks, keeping_.browserStore, ask);
            let isFirst = true;
            const slow = new following_.Follower(coniks, keeping_.browserStore, async target => {
                const answer = await ask(target);
                if (target.startsWith('/v1/lookup') && isFirst) { isFirst = false; await other.lookup('alice'); }
                return answer;
            });
            const { epoch } = await slow.lookup('alice');
            return [Number(epoch), (await slow.view()).entries.length];
        })()"""
    )
    assert found == [3, 3]


def test_other_origins(anywhere: Browser, tmp_path: Path) -> None:
    """From a file, and from a server that is no service, the page says so and shows nothing."""
    anywhere.open(FOLLOW.as_uri())
    anywhere.until(DONE)
    assert "".join(texts(anywhere, "#result")).startswith("Not verified: the service gives no reply")
    site = Site()
    with site:
        site.lies["/v1/head"] = lambda _: Reply(b"", 404)
        anywhere.open(f"{site.url}/")
        anywhere.until(DONE)
        assert "not from a service of a directory" in "".join(texts(anywhere, "#result"))


def test_page() -> None:
    """The page is small, and its policy lets it run its own script alone and send requests to its origin alone."""
    text = FOLLOW.read_text("utf-8")
    assert len(text.encode()) <= LARGEST
    policy = re.findall('"Content-Security-Policy" content="(.*)"', text)[0]
    rules = dict(it.strip().split(" ", 1) for it in policy.split(";"))
    assert (
        rules["default-src"] == "'none'"
        and rules["connect-src"] == "'self'"
        and rules["form-action"] == rules["base-uri"] == "'none'"
    )
    assert re.fullmatch("'sha256-[A-Za-z0-9+/]{43}=' 'wasm-unsafe-eval'", rules["script-src"]) and "unsafe-inline" not in policy
