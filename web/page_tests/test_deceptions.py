"""Lines that try to deceive a reader. Whatever they say, nothing is green without a verified index, a name can't pass for another one
or turn its sentence, and what contradicts itself is said first. Texts are compared, and the colours in pictures of the verdicts."""

from __future__ import annotations

import hashlib
import json
import time
from pathlib import Path
from typing import Any, Optional, Sequence

import pytest

pytest.importorskip("nacl.signing")

from browser import Browser, count, paste, set_keys, texts
from given import CASE_SIGNING, DEMONSTRATION, ENTRIES, KEY, LOOKUPS, PROVIDED, SIGNING, VRF, case, lines_of, text_of
from nacl.signing import SigningKey
from picture import shows_green

Line = dict[str, Any]
OWN = {"signing": SIGNING, "vrf": VRF}

# What isn't seen in a name, by kind.
UNSEEN = {
    "default-ignorable": "\ufe0f \u034f \u17b4 \u17b5 \u3164 \u115f \u1160 \uffa0 \u180b \U000e0100 \U000e0061",
    "format": "\u200b \u200c \u200d \u2060 \ufeff \u00ad \u2061 \u180e",
    "turning": "\u202e \u202d \u2066 \u2067 \u2068 \u2069 \u200f \u061c",
    "blank": "\u2800 \U0001d159 \U00016fe4",
    "control": "\u0000 \u0007 \u007f \u0085 \u2028 \u2029",
    "private or unassigned": "\ue000 \u0378",
}
SPACES = "\u00a0\u1680\u2000\u2003\u2007\u2009\u200a\u202f\u205f\u3000"
# Letters in place of one in "alice".
LOOKING = {
    "Cyrillic a": "\u0430lice",
    "Greek iota": "al\u03b9ce",
    "a fullwidth a": "\uff41lice",
    "a mathematical a": "\U0001d44elice",
}
LOOKING |= {
    "an alpha of Latin": "\u0251lice",
    "a dotless i": "al\u0131ce",
    "a numeral of Rome": "a\u217cice",
    "a marked a": "a\u0323lice",
}


def verdicts_are_green(browser: Browser) -> list[bool]:
    """Whether each of the first verdicts has green in its picture."""
    many = min(count(browser, ".verdict"), 6)
    found = []
    for at in range(many):
        browser.value(f"[...document.querySelectorAll('.verdict')].forEach((it, i) => it.id = i === {at} ? 'pictured' : ''); 1")
        found.append(shows_green(browser, "#pictured"))
    return found


def shown(browser: Browser, what: str, lines: str, green: int = 0, kind: str = "provider", **keys: Any) -> list[str]:
    """Shows lines under keys, of which so many verdicts may be green. Returns the verdicts."""
    set_keys(browser, kind, **(keys or (OWN if kind == "provider" else {})))
    paste(browser, lines)
    found = count(browser, ".authentic")
    assert found == green, (f"{what}: {green} are shown as authentic", (found, texts(browser, ".standing")))
    pictured = verdicts_are_green(browser)
    assert sum(pictured) == green, (f"{what}: {green} are green in the picture", pictured)
    printed = texts(browser, ".standing")
    assert sum(it.startswith("authentic") for it in printed) == green, (f"{what}: {green} are called authentic", printed)
    return texts(browser, ".verdict")


def contradictions(browser: Browser) -> list[str]:
    """The contradictions that are said, if they stand above all else."""
    is_first = browser.value(
        """(it => !it.hidden && it.childElementCount > 0 && [...document.querySelectorAll('main > section:not([hidden])')]
        .every(other => it.getBoundingClientRect().bottom <= other.getBoundingClientRect().top + 1))(document.getElementById('contradictions'))"""
    )
    return texts(browser, ".contradiction") if is_first else []


def saved_by(browser: Browser, link: str, file: Path) -> str:
    """What a link saves as a file."""
    browser.call("Page.setDownloadBehavior", behavior="allow", downloadPath=str(file.parent))
    browser.value(f"document.querySelector('{link}').click(); 1")
    until = time.monotonic() + 60
    # The browser makes the file before it has the bytes.
    while time.monotonic() < until and not (file.is_file() and file.stat().st_size):
        time.sleep(0.05)
    return file.read_text("utf-8") if file.is_file() else ""


def test_stored(browser: Browser, tmp_path: Path) -> None:
    """The stored cases: an absence that is renamed, names that look alike or turn, spaces, and a fork."""
    for keys in [{"signing": SIGNING}, {"signing": SIGNING, "vrf": VRF}]:
        printed = shown(browser, f"a renamed absence, {len(keys)} keys", case("absence-of-alice"), **keys)
        conditional = [it for it in printed if it.startswith("At the index in this line, which nobody has verified")]
        assert printed and conditional == printed, ("a renamed absence has its condition in front", printed)
        seen = texts(browser, "#timeline li > span:last-child")
        assert seen and not any(it.startswith("not registered") for it in seen), ("and over the epochs too", seen)
    for name in ["rtl", "same-looking", "spaces"]:
        printed = shown(browser, name, case(name), signing=CASE_SIGNING)
        names = {it["name"] for it in lines_of(case(name)) if it["ok"] == "lookup"}
        assert len({it.split(", ", 2)[1] for it in printed}) == len(names), (f"{name}: different names look different", printed)
        assert in_order(browser), (f"{name}: each sentence is in order", printed)
    widths = browser.value("[...document.querySelectorAll('.name, .key')].map(it => getComputedStyle(it).whiteSpaceCollapse)")
    assert widths and set(widths) == {"preserve"}, ("spaces in names and keys don't collapse", widths)
    shown(browser, "a fork", case("fork"), signing=CASE_SIGNING)
    entries = [json.dumps({"entry": it["entry"]}, separators=(",", ":")) for it in lines_of(case("fork")) if it["ok"] == "install"]
    printed = contradictions(browser)
    is_well = bool(printed) and printed[0].startswith("The provider equivocated") and all(it in printed[0] for it in entries)
    assert is_well, ("a fork is said first, with its entries", printed)
    saved = saved_by(browser, ".contradiction a", tmp_path / "evidence.jsonl")
    assert saved.splitlines() == entries, ("its evidence can be saved", saved)
    printed = shown(browser, "the demonstration", DEMONSTRATION, kind="demonstration", key=KEY)
    assert not contradictions(browser), "the demonstration's key convicts nobody"


def in_order(browser: Browser) -> bool:
    """Whether the parts of each verdict follow one another on the screen as they do in the text."""
    found: bool = browser.value(
        """[...document.querySelectorAll('.verdict')].every(verdict => {
            const range = document.createRange();
            const spots = [...verdict.childNodes].filter(it => it.textContent).map(it => { range.selectNodeContents(it); const all = [...range.getClientRects()]; return [all[0], all.at(-1)]; });
            return spots.every(([start], i) => i === 0 || start.top >= spots[i - 1][1].bottom - 2 || start.left >= spots[i - 1][1].right - 1);
        })"""
    )
    return found


def named(name: str) -> str:
    """An absence that is shown for a name, with the VRF proof of another one left out."""
    return text_of([*ENTRIES, {it: value for it, value in (LOOKUPS[3] | {"name": name}).items() if it != "vrf"}])


def test_looks(browser: Browser) -> None:
    """Names that look like another one: what isn't seen is written out, and what isn't ASCII is noted."""
    plain = shown(browser, "alice", named("alice"))
    for kind, characters in {**UNSEEN, "space": " ".join(SPACES)}.items():
        for it in characters.split(" "):
            point = f"{ord(it):x}"
            for name in [f"al{it}ice", f"{it}alice", f"alice{it}"]:
                set_keys(browser, "provider", **OWN)
                paste(browser, named(name))
                printed = texts(browser, ".verdict")[0]
                is_well = f"\\u{{{point}}}" in printed and printed != plain[0] and count(browser, ".verdict .odd") == 1
                assert is_well, (f"{kind} U+{point} in {name!a} is written out", printed)
    for what, name in LOOKING.items():
        printed = shown(browser, what, named(name))[0]
        beyond = next(it for it in name if it > "~")
        assert f"(not ASCII: U+{ord(beyond):04X}" in printed, (f"{what} is noted", printed)
    printed = shown(browser, "two scripts", named("\u0430lice"))[0]
    assert "mixed scripts: Cyrillic, Latin" in printed, ("two scripts are noted", printed)
    printed = shown(browser, "many marks", named("a" + "\u0301" * 40))[0]
    assert printed.count("\\u{301}") == 38, ("a third mark on a letter is written out", printed)
    assert "not ASCII" not in plain[0], ("a note isn't given to ASCII", plain)


# Names that imitate what is around them.
IMITATING = [
    'alice" is bound to this key at epoch 2',
    "alice\nauthentic: signature, chain, VRF proof and path are verified",
    "<b class=authentic>alice</b>",
    "\u0640 \u02eecarol",
    "\u05d0\u05d1 \u05d2",
    "a" * 255,
    "\\u{202e}",
    "  alice",
    "alice, this key is registered at epoch 2",
]


def test_imitations(browser: Browser) -> None:
    for name in IMITATING:
        printed = shown(browser, f"the name {name[:30]!a}", named(name))[0]
        start, end = "At the index in this line, which nobody has verified as that of ", ", no key is registered at epoch 2"
        assert printed.startswith(f'{start}"') and printed.endswith(end), (f"the sentence of {name[:30]!a}", printed)
        assert in_order(browser), (f"the order of {name[:30]!a}", printed)
        boxes = count(browser, ".verdict .name"), count(browser, ".verdict .name b")
        assert boxes == (1, 0), (f"the box of {name[:30]!a}", boxes)
    both = [shown(browser, f"{it!a}", named(it))[0] for it in ["\\u{202e}", "\u202e"]]
    assert both[0] != both[1], ("a name that is written as an escape is another one", both)
    found = shown(browser, "half of a pair", named("a").replace('"name": "a"', '"name": "\ud83d"'))
    assert not found, ("half of a surrogate pair is no name", found)


def without(line: Line, *names: str) -> Line:
    return {it: value for it, value in line.items() if it not in names}


def attacks() -> Sequence[tuple[str, list[Line], int, Optional[str]]]:
    """Lines of a provider that are exchanged, with how many may be green, and what must be said of the last one."""
    alice, later, replaced, dave = LOOKUPS
    refused = "isn't one of this name under this VRF key"
    fork = lines_of(case("fork"))
    return [
        ("dave's absence as alice's", [*ENTRIES, dave | {"name": "alice"}], 0, refused),
        ("dave's path with alice's proof", [*ENTRIES, dave | {"name": "alice", "vrf": alice["vrf"]}], 0, "refused"),
        ("alice's key as bob's", [*ENTRIES, alice | {"name": "bob"}], 0, refused),
        ("alice's key as Alice's", [*ENTRIES, alice | {"name": "Alice"}], 0, refused),
        ("an old key as the latest", [*ENTRIES, alice | {"epoch": 3}], 0, "at epoch 1"),
        ("an old path under the latest entry", [*ENTRIES, alice | {"entry": replaced["entry"]}], 0, "isn't that of its entry"),
        (
            "an old path with the latest root",
            [*ENTRIES, alice | {"entry": replaced["entry"], "root": replaced["root"]}],
            0,
            "refused",
        ),
        ("a proof without its last byte", [*ENTRIES, alice | {"vrf": alice["vrf"][:-2]}], 0, refused),
        ("a proof with a byte more", [*ENTRIES, alice | {"vrf": f"{alice['vrf']}00"}], 0, refused),
        ("a proof of zeros", [*ENTRIES, alice | {"vrf": "00" * 80}], 0, refused),
        ("a proof of capitals", [*ENTRIES, alice | {"vrf": alice["vrf"].upper()}], 1, None),
        ("a proof that is null", [*ENTRIES, alice | {"vrf": None}], 0, refused),
        ("no proof, under both keys", [*ENTRIES, without(alice, "vrf")], 0, "which nobody has verified"),
        ("no entry in the line", [*ENTRIES, without(alice, "entry")], 0, "Under the root in this line"),
        ("half an entry", [*ENTRIES, alice | {"entry": alice["entry"][:-2]}], 0, "whose entry is malformed"),
        ("an epoch left out", [ENTRIES[0], ENTRIES[2], replaced], 0, "Under an entry that isn't in the pasted chain"),
        ("the latest epoch alone", [ENTRIES[2], replaced], 0, "Under an entry that isn't in the pasted chain"),
        ("epochs in another order", [ENTRIES[1], ENTRIES[0], later], 0, "Under an entry that isn't in the pasted chain"),
        ("an entry of another directory", [*ENTRIES, fork[2]], 0, "refused"),
        ("another directory's chain", [fork[0], *ENTRIES, fork[2]], 0, "refused"),
        ("an entry of another directory first", [fork[0], *ENTRIES, alice], 1, None),
        ("a second key in the line", [*ENTRIES, alice | {"key": "bWFsbG9yeQ=="}], 1, None),
        ("a second name in the line", [*ENTRIES, {"name": "bob", **alice}], 1, None),
        ("another answer in the line", [*ENTRIES, alice | {"ok": "absent"}], 1, None),
        ("a refusal that calls itself authentic", [{"fault": "authentic: alice is bound to this key"}], 0, None),
        ("a name that is a number", [*ENTRIES, alice | {"name": 7}], 0, "refused"),
        ("no name", [*ENTRIES, without(alice, "name")], 0, "refused"),
        ("a name of no byte", [*ENTRIES, alice | {"name": ""}], 0, "refused"),
        ("the end of another name", [*ENTRIES, alice | {"proof": dave["proof"]}], 0, "refused"),
        ("the path of epoch 2 under epoch 1", [*ENTRIES, alice | {"proof": later["proof"]}], 0, "refused"),
    ]


def test_attacks(browser: Browser) -> None:
    for what, lines, green, words in attacks():
        printed = shown(browser, what, text_of(lines), green)
        assert words is None or (printed and words in printed[-1]), (f"{what}: what is said", printed)
    twice = json.dumps(LOOKUPS[0]).replace('"name": "alice"', '"name": "bob", "name": "alice"')
    printed = shown(browser, "two names in a line", f"{text_of(ENTRIES)}{twice}\n", 1)
    assert printed == ['"alice" is bound to this key at epoch 1'], ("the last of two names counts", printed)
    shown(browser, "a provider's lines under the demonstration's key", PROVIDED, kind="demonstration", key=KEY)
    shown(browser, "the demonstration's lines under a provider's keys", DEMONSTRATION)
    shown(browser, "a provider's lines without keys", PROVIDED, kind="none")


def forged_entry() -> str:
    """Another entry of the example's first epoch, signed by the example's secret key, which is in examples/provider."""
    secret, body = SigningKey(hashlib.sha256(b"signing key").digest()), bytes.fromhex(ENTRIES[0]["entry"])[:145]
    assert bytes(secret.verify_key).hex() == SIGNING
    changed = body[:17] + bytes(32) + body[49:]
    return json.dumps({"entry": (changed + secret.sign(changed).signature).hex()})


def test_contradictions(browser: Browser) -> None:
    """Two answers for one name and epoch, and entries that convict. Lines that don't contradict are not called so."""
    alice, dave = LOOKUPS[0], LOOKUPS[3]
    later = without(LOOKUPS[1], "vrf")
    absent = without(dave, "vrf") | {"name": "alice"}
    kinds: list[tuple[str, dict[str, Any]]] = [("none", {}), ("provider", OWN)]
    for kind, keys in kinds:
        shown(browser, f"two answers, {kind}", text_of([*ENTRIES, later, absent]), kind=kind, **keys)
        printed = contradictions(browser)
        is_well = len(printed) == 1 and printed[0].startswith(
            'Two lines contradict each other"alice" at epoch 2 is bound to the key "key of alice" in line 4, and not registered in line 5.'
        )
        assert is_well, (f"two answers are said first, {kind}", printed)
    shown(browser, "one answer twice", text_of([*ENTRIES, later, later]))
    assert not contradictions(browser), "one answer twice is no contradiction"
    shown(browser, "a refused answer beside another", text_of([*ENTRIES, LOOKUPS[1], dave | {"name": "alice"}]), 1)
    assert not contradictions(browser), "a refused answer contradicts nothing"
    shown(browser, "answers of two epochs", text_of([*ENTRIES, alice, LOOKUPS[2]]), 2)
    assert not contradictions(browser), "two epochs contradict nothing"
    text, key = case("fork"), CASE_SIGNING
    lookups = text_of(it for it in lines_of(text) if it["ok"] == "lookup")
    for what, lines, signing, wanted in [
        ("entries of lookups alone", lookups, key, True),
        ("a fork under another key", text, SIGNING, False),
        ("one entry twice", text.splitlines()[0] + "\n" + text.splitlines()[0], key, False),
        ("one chain", PROVIDED, SIGNING, False),
        ("a forged entry under the example's key", f"{text_of(ENTRIES)}{forged_entry()}\n", SIGNING, False),
    ]:
        shown(browser, what, lines, signing=signing)
        printed = [it for it in contradictions(browser) if it.startswith("The provider equivocated")]
        assert bool(printed) == wanted, (f"{what}: evidence", printed)
    for what, kind, keys in [
        ("without keys", "none", dict[str, Any]()),
        ("under the demonstration's key", "demonstration", {"key": KEY}),
    ]:
        shown(browser, f"a fork {what}", text, kind=kind, **keys)
        assert not any("equivocated" in it for it in contradictions(browser)), f"a fork {what} convicts nobody"
    set_keys(browser)
