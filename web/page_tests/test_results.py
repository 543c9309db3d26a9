"""What the page shows of the lines of a demonstration and of a provider, under each kind of keys."""

from __future__ import annotations

import json
import time
from pathlib import Path
from typing import Any, Sequence

import samples
from browser import FRESH, PAGE, Browser, count, note, paste, press, set_keys, standings, texts, wait
from given import (
    AUTHENTIC,
    CASE_SIGNING,
    DEMONSTRATION,
    ENTRIES,
    FORGEABLE,
    KEY,
    LOOKUPS,
    NO_VRF_KEY,
    OTHER_KEY,
    OTHER_SIGNING,
    OTHER_VRF,
    PROVIDED,
    SIGNING,
    UNPROVED,
    UNSIGNED,
    VRF,
    case,
    lines_of,
    text_of,
)

AT_AN_INDEX = "At the index in this line, which nobody has verified as that of "
NOT_A_KEY = "not a key: a key has 64 hexadecimal digits, and this text has "
FOLLOWS = "epoch {} follows in the chain; its signature is {}verified"


def test_example(browser: Browser) -> None:
    """The page begins with a provider's lines under its keys."""
    browser.open(PAGE.as_uri())
    wait(browser)
    wanted = [f'"alice" is bound to this key at epoch {it}' for it in (1, 2, 3)] + ['"dave" is not registered at epoch 2']
    assert texts(browser, ".verdict") == wanted, ("the example's verdicts", texts(browser, ".verdict"))
    keys = ['"key of alice"', '"key of alice"', '"key of mallory"']
    assert texts(browser, "summary .key") == keys, ("the example's keys", texts(browser, "summary .key"))
    assert standings(browser) == [AUTHENTIC] * 4, ("all of them are authentic", standings(browser))
    later = [it.removeprefix(AUTHENTIC) for it in texts(browser, ".standing")]
    wanted = ["; later epochs follow, up to 3"] * 4
    wanted[2] = "; this is of epoch 3; later epochs may exist"
    assert later == wanted, ("the epochs that follow are told, or that they may exist", later)
    assert count(browser, ".lookup.authentic") == 4, "and shown as authentic"
    seen = [
        'epoch 1authentic under the example\'s keys: first key "key of alice"',
        'epoch 2authentic under the example\'s keys: same key "key of alice"',
        'epoch 3authentic under the example\'s keys: changed from "key of alice" to "key of mallory"',
    ]
    assert texts(browser, "#timeline li") == seen, ("alice over the epochs", texts(browser, "#timeline li"))
    levels = len(LOOKUPS[0]["proof"]["siblings"])
    assert count(browser, ".level") == levels, ("the path of the first lookup is drawn", count(browser, ".level"))
    root = LOOKUPS[0]["root"]
    whole = browser.value("(it => { it.click(); return [it.textContent, it.ariaLabel]; })(document.querySelector('.root .hash'))")
    assert whole == [root, f"the root {root}"], ("a pressed hash shows whole, and is read whole", whole)
    summary = (
        "4 lookups: 4 authentic under the example's keys, 0 consistent but not authenticated, 0 refused. "
        "3 entries: 3 follow in the chain, their signatures are verified (the example's key)."
    )
    assert texts(browser, "#summary") == [summary], ("the example is counted", texts(browser, "#summary"))
    assert browser.value("document.getElementById('pasted').open") is False, "the example is folded"
    assert browser.value("document.getElementById('contradictions').hidden") is True, "no contradiction is shown"


def test_unkeyed(browser: Browser) -> None:
    """Without keys each verdict has its condition in front."""
    press(browser, "unkeyed")
    wanted = [f'{AT_AN_INDEX}"alice", this key is registered at epoch {it}' for it in (1, 2, 3)]
    wanted.append(f'{AT_AN_INDEX}"dave", no key is registered at epoch 2')
    assert texts(browser, ".verdict") == wanted, ("verdicts without keys", texts(browser, ".verdict"))
    assert set(standings(browser)) == {UNSIGNED}, ("standings without keys", standings(browser))
    assert count(browser, ".authentic") == 0, "nothing is authentic without keys"
    wanted = [FOLLOWS.format(it, "not ") for it in (1, 2, 3)]
    assert texts(browser, "#results .entry") == wanted, ("entries without keys", texts(browser, "#results .entry"))
    seen = ['first key "key of alice"', 'same key "key of alice"', 'changed from "key of alice" to "key of mallory"']
    found = texts(browser, "#timeline li > span:last-child")
    assert found == [f"not authenticated: {it}" for it in seen], ("alice over the epochs without keys", found)
    summary = "4 lookups: 0 authentic, 4 consistent but not authenticated, 0 refused. 3 entries: 3 follow in the chain, their signatures are not verified."
    assert texts(browser, "#summary") == [summary], ("they are counted", texts(browser, "#summary"))


def check_demonstration(browser: Browser, where: str) -> None:
    """Under the demonstration's key lines are valid, and never authentic; under another one they are refused."""
    set_keys(browser, "demonstration", key=KEY)
    paste(browser, DEMONSTRATION)
    assert set(standings(browser)) == {FORGEABLE}, (f"the demonstration, {where}", standings(browser))
    wanted = [f"epoch {it} follows in the chain; its seal is valid, which anyone can forge" for it in (1, 2, 3)]
    assert texts(browser, "#results .entry") == wanted, (f"its entries, {where}", texts(browser, "#results .entry"))
    summary = texts(browser, "#summary")[0]
    is_well = summary.startswith("5 lookups: 5 valid under the demonstration's key, 0 consistent") and "authentic," not in summary
    assert is_well, (f"it is counted, {where}", summary)
    assert count(browser, ".authentic") == 0, f"nothing of it is authentic, {where}"
    found = texts(browser, "#timeline li > span:last-child")
    assert found and all(it.startswith("forgeable: ") for it in found), (f"its epochs are forgeable, {where}", found)
    set_keys(browser, "demonstration", key=OTHER_KEY)
    paste(browser, DEMONSTRATION)
    assert set(standings(browser)) == {"refused"}, (f"another key, {where}", standings(browser))
    printed = [it for it in texts(browser, "#results .entry") if "the signature isn't valid for this body" in it]
    assert len(printed) == 3, (f"entries under another key, {where}", texts(browser, "#results .entry"))
    set_keys(browser)


def check_provider(browser: Browser, where: str) -> None:
    """A provider's lines under its keys, under others, and without one of them."""
    own, others = {"signing": SIGNING, "vrf": VRF}, {"signing": OTHER_SIGNING, "vrf": OTHER_VRF}
    wrong = "the signature of its entry isn't valid under this key"
    for what, keys, wanted, verdict in [
        ("its keys", own, {AUTHENTIC}, '"alice" is bound to this key at epoch 1'),
        ("another signing key", own | {"signing": OTHER_SIGNING}, {"refused"}, f'refused: "alice" at epoch 1: {wrong}'),
        ("another VRF key", own | {"vrf": OTHER_VRF}, {"refused"}, "the VRF proof isn't one of this name under this VRF key"),
        ("its signing key alone", {"signing": SIGNING}, {NO_VRF_KEY}, f'{AT_AN_INDEX}"alice", this key is registered at epoch 1'),
        ("other keys", others, {"refused"}, wrong),
    ]:
        set_keys(browser, "provider", **keys)
        paste(browser, PROVIDED)
        assert set(standings(browser)) == wanted, (f"{what}, {where}", standings(browser))
        assert texts(browser, ".verdict")[0].endswith(verdict), (f"{what}: the first verdict, {where}", texts(browser, ".verdict"))
        is_good = count(browser, ".authentic") == (4 if what == "its keys" else 0)
        assert is_good, (f"{what}: what is shown as authentic, {where}", count(browser, ".authentic"))
    found = note(browser, "signing")
    assert found == ["wrong key: no signature of 3 entries is one under it", "true"], (f"other keys are told, {where}", found)
    set_keys(browser)


def test_demonstration(browser: Browser) -> None:
    check_demonstration(browser, "from a file")


def test_provider(browser: Browser) -> None:
    check_provider(browser, "from a file")


def test_key_texts(browser: Browser) -> None:
    """A text that is no key is reported beside its field, and then nothing is authentic."""
    small = "not a key: the signing key is no point of prime order: take the one of the policy document"
    for what, keys, field, printed in [
        ("a short signing key", {"signing": "00", "vrf": VRF}, "signing", f"{NOT_A_KEY}2 digits"),
        ("a long signing key", {"signing": f"{SIGNING}0", "vrf": VRF}, "signing", f"{NOT_A_KEY}65 digits"),
        ("a signing key of letters", {"signing": f"{SIGNING[:-1]}g", "vrf": VRF}, "signing", f"{NOT_A_KEY}other characters"),
        ("a signing key of small order", {"signing": KEY, "vrf": VRF}, "signing", small),
        ("a VRF key of small order", {"signing": SIGNING, "vrf": KEY}, "vrf", small.replace("signing key", "VRF's key")),
        ("a short VRF key", {"signing": SIGNING, "vrf": "0"}, "vrf", f"{NOT_A_KEY}1 digit"),
        ("a VRF key alone", {"vrf": VRF}, "signing", "missing: without the signing key nothing is verified but paths"),
    ]:
        set_keys(browser, "provider", **keys)
        paste(browser, PROVIDED)
        assert note(browser, field) == [printed, "true"], (f"{what} is told", note(browser, field))
        assert count(browser, ".authentic") == 0 and "0 authentic" in texts(browser, "#summary")[0], f"{what}: nothing is authentic"
    for key, printed in [
        ("00", f"{NOT_A_KEY}2 digits"),
        (OTHER_KEY, "wrong key: no signature of 3 entries is one under it"),
        (KEY, ""),
    ]:
        set_keys(browser, "demonstration", key=key)
        paste(browser, DEMONSTRATION)
        found = note(browser, "key")
        assert found == [printed, str(printed != "").lower()], (f"the demonstration's key {key[:3]}..", found)
    set_keys(browser)


def test_without_ed25519(browser: Browser) -> None:
    """A browser that can't verify Ed25519 says so, and shows nothing as authentic."""
    browser.value("crypto.subtle.importKey = () => Promise.reject(new DOMException('no', 'NotSupportedError')); 1")
    set_keys(browser, "provider", signing=SIGNING, vrf=VRF)
    paste(browser, PROVIDED)
    browser.value("delete crypto.subtle.importKey; 1")
    found = note(browser, "signing")
    assert found[0].startswith("not verified: ") and found[1] == "false", ("a browser without Ed25519", found)
    assert count(browser, ".authentic") == 0 and set(standings(browser)) == {UNSIGNED}, "nothing is authentic then"
    set_keys(browser)


def test_typed_keys(browser: Browser) -> None:
    """Keys that are typed after the lines are taken, and those of the example are dropped when other lines come."""
    press(browser, "unkeyed")
    for step in [
        "(it => { it.checked = true; it.dispatchEvent(new Event('change', { bubbles: true })); })(document.querySelector('input[value=provider]'))",
        f"(it => {{ it.value = '{VRF}'; it.dispatchEvent(new Event('input')); }})(document.getElementById('vrf'))",
        f"(it => {{ it.value = '{SIGNING}'; it.dispatchEvent(new Event('input')); }})(document.getElementById('signing'))",
    ]:
        browser.value(f"{FRESH} {step}; 1")
        wait(browser)
    assert count(browser, ".lookup.authentic") == 4, ("keys that are typed", standings(browser))
    press(browser, "example")
    paste(browser, DEMONSTRATION)
    chosen = browser.value("document.querySelector('input[name=keys]:checked').value")
    assert chosen == "none" and note(browser, "signing")[0] == "", ("the example's keys are dropped for other lines", chosen)
    assert browser.value("document.getElementById('of-provider').hidden") is True, "and their fields are hidden"
    for what, lines, wanted in [
        ("some of its lines", "".join(PROVIDED.splitlines(True)[1:]), "provider"),
        ("a part of one of its lines", '{"', "none"),
        ("one of its lines, and others", f"{PROVIDED.splitlines()[0]}\n{case('fork')}", "none"),
        ("its lines, one of them edited", PROVIDED.replace('"epoch":1', '"epoch":7', 1), "none"),
    ]:
        press(browser, "example")
        paste(browser, lines)
        chosen = browser.value("document.querySelector('input[name=keys]:checked').value")
        assert chosen == wanted, (f"the example's keys, and {what}", chosen)
    set_keys(browser)


def test_example_keys(browser: Browser) -> None:
    """The example's keys are called so wherever they count, also if they are typed, and other keys are not."""
    for what, keys, lines, wanted in [
        ("both", {"signing": SIGNING, "vrf": VRF}, PROVIDED, True),
        ("capitals", {"signing": SIGNING.upper(), "vrf": VRF.upper()}, PROVIDED, True),
        ("the signing key alone", {"signing": SIGNING}, PROVIDED, True),
        ("another signing key", {"signing": CASE_SIGNING, "vrf": OTHER_VRF}, case("fork"), False),
    ]:
        set_keys(browser, "provider", **keys)
        paste(browser, lines)
        assert browser.value("document.getElementById('of-example').checkVisibility()") is wanted, (what, "beside the keys")
        printed = ["the example's key" in it for it in [*texts(browser, "#summary"), *texts(browser, "#results .entry")[:1]]]
        assert printed == [wanted] * 2, (what, texts(browser, "#summary"), texts(browser, "#results .entry"))
    set_keys(browser)


def test_provider_lines(browser: Browser) -> None:
    """Lines that are changed, left out, mixed with others, or overtaken by others."""
    set_keys(browser, "provider", signing=SIGNING, vrf=VRF)
    bare = [{name: value for name, value in it.items() if name != "vrf"} for it in LOOKUPS]
    for what, lines, standing in [
        ("without VRF proofs", [*ENTRIES, *bare], UNPROVED),
        ("without entries", LOOKUPS, "consistent, not authenticated: its entry isn't in the pasted chain"),
        ("with another VRF proof", [*ENTRIES, LOOKUPS[0] | {"vrf": LOOKUPS[3]["vrf"]}], "refused"),
        ("with a VRF proof that is no text", [*ENTRIES, LOOKUPS[0] | {"vrf": 7}], "refused"),
        ("with a VRF proof of one byte", [*ENTRIES, LOOKUPS[0] | {"vrf": "00"}], "refused"),
        ("with a VRF proof of no byte", [*ENTRIES, LOOKUPS[0] | {"vrf": ""}], "refused"),
        ("with a VRF proof of 70,000 bytes", [*ENTRIES, LOOKUPS[0] | {"vrf": "00" * 70_000}], "refused"),
        ("with another root", [*ENTRIES, LOOKUPS[0] | {"root": LOOKUPS[1]["root"]}], "refused"),
        ("with another nonce", [*ENTRIES, LOOKUPS[0] | {"nonce": "00" * 32}], "refused"),
        ("with another name", [*ENTRIES, LOOKUPS[0] | {"name": "bob"}], "refused"),
        ("with another index, which isn't used", [*ENTRIES, LOOKUPS[0] | {"index": LOOKUPS[3]["index"]}], AUTHENTIC),
    ]:
        paste(browser, text_of(lines))
        assert set(standings(browser)) == {standing}, (f"lookups {what}", standings(browser))
        assert (count(browser, ".authentic") > 0) == (standing == AUTHENTIC), f"lookups {what}: colours"
    changed = ENTRIES[1] | {"entry": ENTRIES[1]["entry"][:-1] + "8"}
    paste(browser, text_of([ENTRIES[0], changed, ENTRIES[2], *LOOKUPS]))
    wanted = (
        "4 lookups: 1 authentic under the example's keys, 3 consistent but not authenticated, 0 refused. "
        "3 entries: 1 follows in the chain, its signature is verified (the example's key); 2 refused."
    )
    assert texts(browser, "#summary") == [wanted], ("an entry whose signature is changed", texts(browser, "#summary"))
    wanted = 'Under an entry that isn\'t in the pasted chain, "alice" is bound to this key at epoch 2'
    assert texts(browser, ".verdict")[1] == wanted, ("the lookups of its epoch", texts(browser, ".verdict"))
    paste(browser, text_of([*LOOKUPS, *ENTRIES]))
    assert standings(browser) == [AUTHENTIC] * 4, ("lookups before their entries", standings(browser))
    paste(browser, text_of([ENTRIES[0], ENTRIES[0], *LOOKUPS[:1]]))
    assert standings(browser) == [AUTHENTIC], ("an entry twice", standings(browser))
    others: list[dict[str, Any]] = [
        {"ok": "open"},
        {"body": "00" * 145, "epoch": 1, "nodes": 3, "ok": "prepare", "root": "00" * 32},
        {"epoch": 3, "link": "00" * 32, "names": 3, "nodes": 9, "ok": "latest"},
    ]
    paste(browser, PROVIDED + text_of(others))
    printed = texts(browser, "#summary")[0]
    assert "4 authentic" in printed and printed.endswith("3 other lines."), ("other lines of a provider", printed)
    check_overtaken(browser)
    set_keys(browser)


def check_overtaken(browser: Browser) -> None:
    """While a long text is read nothing of the text before is shown, and a shorter one takes over."""
    many = PROVIDED + "".join(json.dumps({"entry": f"{it:0418x}", "ok": "install"}) + "\n" for it in range(3000))
    browser.value(
        f"(it => {{ it.value = {json.dumps(many)}; it.dispatchEvent(new Event('input')); }})(document.getElementById('lines')); 1"
    )
    shown = browser.value("[document.getElementById('results').childElementCount, document.getElementById('summary').textContent]")
    assert shown == [0, "Reading\u2026"], ("nothing stale is shown while lines are read", shown)
    time.sleep(0.4)
    paste(browser, PROVIDED)
    is_well = texts(browser, "#summary")[0].startswith("4 lookups: 4 authentic") and count(browser, "#results > li") == 7
    assert is_well, ("a reading that is overtaken while signatures are verified", texts(browser, "#summary"))


def test_missing(browser: Browser) -> None:
    """An epoch of which no line shows the name is missing, never the same."""
    set_keys(browser, "provider", signing=SIGNING, vrf=VRF)
    for what, lines, wanted in [
        ("epoch 2", [*ENTRIES, LOOKUPS[0], LOOKUPS[2]], ["first", "missing", "changed"]),
        ("epochs 2 and 3", [*ENTRIES, LOOKUPS[0]], ["first", "missing"]),
        ("epoch 1", [*ENTRIES, LOOKUPS[1], LOOKUPS[2]], ["missing", "first", "changed"]),
        ("a refused epoch", [*ENTRIES, LOOKUPS[0], LOOKUPS[1] | {"name": "alicf"}, LOOKUPS[2]], ["first", "missing", "changed"]),
    ]:
        paste(browser, text_of(lines))
        found = browser.value("[...document.querySelectorAll('#timeline li')].map(it => it.className)")
        assert found == wanted, (f"missing: {what}", found)
    paste(browser, text_of([*ENTRIES, LOOKUPS[0]]))
    printed = texts(browser, "#timeline li")[1]
    assert printed == "epochs 2 to 3missing: no line shows the name", ("several missing epochs are one row", printed)
    set_keys(browser)


def test_spoofs(browser: Browser) -> None:
    """A line whose epoch or index isn't its entry's or its name's is marked."""
    for kind, keys in [("none", dict[str, str]()), ("demonstration", {"key": KEY})]:
        set_keys(browser, kind, **keys)
        paste(browser, case("spoof-epoch"))
        printed = standings(browser)[-1]
        assert printed.endswith("; the line calls it epoch 2, which its entry does not"), (f"another epoch, {kind}", printed)
        paste(browser, case("spoof-index"))
        printed = texts(browser, ".verdict")[-1]
        wanted = AT_AN_INDEX if kind == "none" else "the proof's other index is the requested index"
        assert wanted in printed, (f"another index, {kind}", printed)
        assert count(browser, ".authentic") == 0, f"another index isn't good, {kind}"
    set_keys(browser)
    line = next(it for it in lines_of(DEMONSTRATION) if it["ok"] == "batch") | {"epoch": 0}
    paste(browser, json.dumps(line).replace('"epoch": 0', '"epoch": 18446744073709551615'))
    greatest = [it for it in texts(browser, "#results .entry") if "the line calls it epoch 18446744073709551615," in it]
    assert greatest, ("the greatest epoch is exact", texts(browser, "#results .entry"))


def test_kinds(browser: Browser) -> None:
    """A refusal, a malformed entry, a lookup without a proof and a line that is none have texts of their own, and are counted."""
    lookup = lines_of(DEMONSTRATION)[6]
    unproved = {it: lookup[it] for it in lookup if it != "proof"}
    given = [
        {"fault": "UnknownEpoch"},
        {"entry": "00"},
        unproved,
        lookup | {"root": "00" * 32},
        unproved | {"name": 7, "epoch": "x"},
    ]
    paste(browser, "\n".join([*map(json.dumps, given), "{", "7"]))
    wanted = [
        'the directory refused a request: "UnknownEpoch"',
        "refused: the entry isn't 418 hexadecimal digits",
        'refused: "alice" at an epoch that the line calls 3: the answer has no proof',
        'refused: "alice" at epoch 3: the root computed from the proof isn\'t the expected root',
        "refused: a lookup: the answer has no proof",
        "refused: the line isn't a JSON object",
        "refused: the line isn't a JSON object",
    ]
    found = texts(browser, "#results .plain, #results .verdict")
    assert found == wanted, ("each kind of line has its words", found)
    summary = "1 lookup: 0 authentic, 0 consistent but not authenticated, 1 refused. 1 entry; 1 refused, 1 of them malformed. 2 answers without a proof. 1 request that the directory refused. 2 lines that aren't JSON objects."
    assert texts(browser, "#summary") == [summary], ("each kind of line is counted", texts(browser, "#summary"))
    paste(browser, json.dumps(given[3] | {"root": "0"}))
    wanted = ['refused: "alice" at epoch 3: the member "root" is missing or malformed']
    assert texts(browser, ".verdict") == wanted, ("a refused member is named, with name and epoch", texts(browser, ".verdict"))
    paste(browser, "")
    assert texts(browser, "#summary") == ["Nothing is pasted."], "an empty page says so"


def test_menu(browser: Browser) -> None:
    """A name that is registered later is no change, and a cut menu says so."""
    lines = DEMONSTRATION.splitlines()
    paste(browser, "\n".join([*lines[:2], lines[8]]))
    assert texts(browser, "#timeline li") == ["epoch 1not authenticated: not registered"], (
        "a name that is absent",
        texts(browser, "#timeline li"),
    )
    assert count(browser, "#timeline .changed, #timeline .absent, #timeline .missing") == 0, "an absence isn't shown as bad"
    lookup = json.loads(lines[4])
    for many, printed in [(500, ""), (501, "The menu has the first 500 of 501 names.")]:
        paste(browser, "\n".join(json.dumps(lookup | {"name": f"n{it}"}) for it in range(many)))
        is_well = browser.value("document.getElementById('watched').length") == 500 and texts(browser, "#unlisted") == [printed]
        assert is_well, (f"{many} names in the menu", texts(browser, "#unlisted"))


def test_registered(browser: Browser, keydir: str, tmp_path: Path) -> None:
    """A name that is registered at the second epoch, and another key after it."""
    batches: list[list[tuple[str, str]]] = [[], [("register", "b25l")], [("change", "dHdv")], []]
    script: list[object] = [{"cmd": "open", "key": KEY, "nonce": "11" * 32, "policy": "33" * 32}]
    for epoch, ops in enumerate(batches, 1):
        listed = [{"op": op, "name": "late", "key": key, "opening": "aa" * 32} for op, key in ops]
        script.append({"cmd": "batch", "epoch": epoch, "ops": listed})
    script += [{"cmd": "lookup", "epoch": epoch, "name": "late"} for epoch in range(1, 5)]
    file = tmp_path / "late.jsonl"
    file.write_text("".join(f"{json.dumps(it)}\n" for it in script), "utf-8")
    paste(browser, text_of(samples.lines_of(keydir, file)))
    seen = ["not registered", 'registered with the key "one"', 'changed from "one" to "two"', 'changed from "one" to "two"']
    wanted = [f"not authenticated: {it}" for it in seen]
    found = texts(browser, "#timeline li > span:last-child")
    assert found == wanted, ("a name that is registered later", found)
    kinds = browser.value("[...document.querySelectorAll('#timeline li')].map(it => it.className)")
    assert kinds == ["unregistered", "registered", "changed", "changed"], ("only a change is shown as bad", kinds)


def test_shown_faults(browser: Browser, lines: Sequence[samples.Line]) -> None:
    """A refused proof is shown with the place that doesn't fit."""
    line = next(it for it in lines if it["proof"]["end"]["kind"] == "here")
    deep = line | {"proof": line["proof"] | {"siblings": ["00" * 32] * 257}}
    # Proofs of 80,000 bytes and more: the module's memory grows.
    growing = {many: line | {"proof": line["proof"] | {"siblings": ["00" * 32] * many}} for many in (2500, 3500)}
    for what, changed, where in [
        ("another root", line | {"root": "00" * 32}, ".root.wrong"),
        ("another name", line | {"name": line["name"] + "x"}, ".here .fact.wrong"),
        ("257 siblings", deep, ".deep.wrong"),
        *((f"{many} siblings", it, ".deep.wrong") for many, it in growing.items()),
        ("no name", line | {"name": ""}, ".asked.wrong"),
    ]:
        paste(browser, json.dumps(changed))
        assert count(browser, where) == 1, (f"{what} is marked", texts(browser, ".verdict"))
        assert texts(browser, ".verdict")[0].startswith("refused: "), f"{what} is refused"
    paste(browser, json.dumps(deep))
    assert count(browser, ".level") == 256, "256 levels are drawn"
    paste(browser, json.dumps(line | {"entry": "00" * 209}))
    printed = texts(browser, ".verdict")[0]
    assert printed.endswith(": the root or the nonce isn't that of its entry"), ("an entry of another root is told", printed)
    paste(browser, json.dumps(line))
    found = texts(browser, ".verdict") + standings(browser)
    wanted = [
        f'Under an entry that isn\'t in the pasted chain, and at the index in this line, which nobody has verified as that of "{line["name"]}", this key is registered at epoch {line["epoch"]}',
        "consistent, not authenticated: its entry isn't in the pasted chain; no signature is verified",
    ]
    assert found == wanted, ("an entry that isn't pasted is told", found)
    paste(browser, json.dumps({it: line[it] for it in line if it != "entry"}))
    printed = texts(browser, ".verdict")[0]
    assert printed.startswith("Under the root in this line, which has no entry, and at"), (
        "a line without an entry is told",
        printed,
    )
    terms = texts(browser, ".path dt")
    assert {"Index", "VRF proof", "Nonce", "Root", "Sibling"} <= set(terms), ("the terms of the drawing are explained", terms)
