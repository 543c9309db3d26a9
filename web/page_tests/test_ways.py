"""The ways in which lines come into the page, large inputs, where the page comes from, and what it looks like."""

from __future__ import annotations

import base64
import json
import os
import random
import threading
from functools import partial
from http.server import SimpleHTTPRequestHandler, ThreadingHTTPServer
from pathlib import Path
from typing import Any, Callable, Sequence

import pytest
import samples
from browser import FRESH, HOST, PAGE, WEB, Browser, count, note, paste, press, set_keys, standings, texts, wait
from computing import Computing
from given import DEMONSTRATION, ENTRIES, LOOKUPS, PROVIDED, SIGNING, UNSIGNED, VRF, case, text_of
from test_results import check_demonstration, check_provider

SEED = 30

# Adds a line to the end of the run.
Say = Callable[[str], None]

# Milliseconds for which the page may compute without an answer, and how often that is tried. On idle cores it is less than 100, to
# which STOP=100 holds it. Time for which the machine lets the browser wait is none of the page's.
STOP, TRIES = int(os.environ.get("STOP", "250")), 4

# Seconds in which the page shows its example, milliseconds of a lookup with all its steps, and bytes of the page.
OPENS, SLOWEST, LARGEST = 1, 50, 150_000

# Lists the stops of the page: between which times, in Unix milliseconds, nothing else could run.
TICKING = """window.stops = []; window.last = Infinity; (function tick() { const now = performance.timeOrigin + performance.now();
    if (now - window.last > 50) window.stops.push([window.last, now]); window.last = now; window.ticking = setTimeout(tick); })(); 1"""
WHEN_READING = """window.seen = false; new MutationObserver(() => { const it = document.getElementById('reading');
    if (!it.hidden) { window.seen = document.getElementById('progress').value > 0; document.getElementById('cancel').click(); } }).observe(document.getElementById('reading'), { attributes: true }); 1"""


def paste_long(browser: Browser, text: str) -> None:
    """Pastes a text as the browser does from its clipboard, and waits for the results."""
    browser.value(
        f"""{FRESH} (data => {{ data.setData('text/plain', {json.dumps(text)}); window.stops = []; window.begun = window.last = performance.timeOrigin + performance.now(); document.getElementById('lines').dispatchEvent(new ClipboardEvent('paste', {{ clipboardData: data, cancelable: true, bubbles: true }})); }})(new DataTransfer()); 1"""
    )
    wait(browser)


def check_insecure(browser: Browser) -> None:
    """From plain http no signature of a provider can be verified, and the page says so."""
    set_keys(browser, "provider", signing=SIGNING, vrf=VRF)
    paste(browser, PROVIDED)
    found = note(browser, "signing")
    assert found[0].startswith("not verified: ") and found[1] == "false", ("a provider's lines from plain http", found)
    assert count(browser, ".authentic") == 0 and set(standings(browser)) == {UNSIGNED}, "nothing is authentic from plain http"
    set_keys(browser)


class Quiet(SimpleHTTPRequestHandler):
    """Serves the page, and prints nothing."""

    def log_message(self, *words: Any) -> None:
        pass


def test_origins(anywhere: Browser) -> None:
    """From localhost the results are the same, and from plain http those that need no WebCrypto."""
    server = ThreadingHTTPServer(("127.0.0.1", 0), partial(Quiet, directory=PAGE.parent))
    threading.Thread(target=server.serve_forever, daemon=True).start()
    try:
        for host, is_secure in [("localhost", True), (HOST, False)]:
            anywhere.open(f"http://{host}:{server.server_port}/index.html")
            wait(anywhere)
            is_well = anywhere.value("window.isSecureContext && crypto.subtle !== undefined") is is_secure
            assert is_well, f"{host} is a secure context or none"
            check_demonstration(anywhere, f"from {host}")
            if is_secure:
                check_provider(anywhere, f"from {host}")
            else:
                check_insecure(anywhere)
    finally:
        server.shutdown()
        server.server_close()


def set_files(browser: Browser, files: Sequence[Path]) -> None:
    """Opens files by the page's field, and waits for the results."""
    browser.value(f"{FRESH} 1")
    root = browser.call("DOM.getDocument")["root"]["nodeId"]
    node = browser.call("DOM.querySelector", nodeId=root, selector="#file")["nodeId"]
    browser.call("DOM.setFileInputFiles", files=[str(it) for it in files], nodeId=node)
    wait(browser)


def test_lines(browser: Browser, keydir: str, tmp_path: Path) -> None:
    """Lines of a file are read as the program reads them: bytes that aren't UTF-8, blank lines, and members hidden by others."""
    good = next(it for it in DEMONSTRATION.splitlines() if '"ok":"lookup"' in it).encode()
    others = [b"\xef\xbb\xbf" + good, b"", b"\xff", good, good.decode().encode("utf-16"), b" ", good]
    given = case("mini").encode() + b"\n".join(others)
    files = [tmp_path / "first.jsonl", tmp_path / "second.jsonl"]
    files[0].write_bytes(given)
    files[1].write_bytes(good + b"\n")
    printed = samples.run(keydir, "check", input=given + b"\n" + good).stdout.splitlines()
    wanted = [[it, json.loads(answer).get("fault") == "Json"] for it, answer in enumerate(printed, 1)]
    for what in ["files", "the same files again"]:
        set_files(browser, files)
        found = browser.value(
            """[...document.querySelectorAll('#results > li')].map(it =>
            [Number(it.querySelector('.number').textContent.slice(5)), it.textContent.includes("isn't a JSON object")])"""
        )
        assert found == wanted, (f"{what}, line by line", [it for it in zip(found, wanted) if it[0] != it[1]][:3])


def wrong_lines(lines: Sequence[samples.Line]) -> list[str]:
    """Lines that are refused before any proof is checked."""
    line = lines[0]
    made = ["{", "[]", '{"index":1e999}', json.dumps(line)[:-1]]
    for part in ["index", "name", "nonce", "root", "proof"]:
        made += [json.dumps(line | {part: 7}), json.dumps({it: line[it] for it in line if it != part})]
    made += [json.dumps(line | {"root": line["root"][:-1]}), json.dumps(line | {"nonce": line["nonce"].upper()})]
    end = next(it for it in lines if it["proof"]["end"]["kind"] == "here")["proof"]["end"]
    for changed in [{"key": "Zh=="}, {"key": "Zg"}, {"opening": "00"}, {"kind": "leaf"}, {"name": None}]:
        made.append(json.dumps(line | {"proof": {"siblings": [], "end": end | changed}}))
    return made


def some_lines(lines: Sequence[samples.Line], count: int) -> list[str]:
    """Lookup lines, good ones and changed ones."""
    chance, made = random.Random(SEED), wrong_lines(lines)
    while len(made) < count:
        given, name, proof = samples.mutated(chance, chance.choice(lines))
        it = None if samples.wire_status(proof) else samples.object_of(proof)
        if it is not None:
            parts = {part: value.hex() for part, value in given.items()}
            made.append(json.dumps({"name": name.decode(errors="replace"), "proof": it} | parts))
    return made


def test_verdicts(browser: Browser, keydir: str, lines: Sequence[samples.Line], pytestconfig: pytest.Config) -> None:
    """Each result and fault is the program's."""
    many = pytestconfig.getoption("lines")
    requested = some_lines(lines, many)
    printed = samples.run(keydir, "check", input="".join(f"{it}\n" for it in requested).encode()).stdout.splitlines()
    found = browser.value(
        f"""(async lines => {{
            const coniks = await coniks_.Coniks.of(await packed_.unpacked(document.getElementById("module").textContent));
            const reading = new reading_.Reading(coniks, {{ kind: "none", key: null, signatures: null, indices: null }});
            return lines.map(it => {{
                const object = lines_.objectOf(it);
                const verdict = object === null ? {{ fault: "Json" }} : reading.lookupRow(it, object, null, null).verdict;
                return "key" in verdict ? {{ answer: "key", key: bytes_.toBase64(verdict.key) }} : "answer" in verdict ? verdict : {{ fault: verdict.fault, ...(verdict.member ? {{ member: verdict.member }} : {{}}) }};
            }});
        }})({json.dumps(requested)})"""
    )
    wanted = [{key: value for key, value in json.loads(it).items() if key != "ok"} for it in printed]
    wrong = [(a, b, line[:200]) for a, b, line in zip(found, wanted, requested, strict=True) if a != b]
    assert not wrong, (f"{many:,} verdicts are the program's", wrong[:3])
    faults = {it.get("fault", "none") for it in wanted}
    all_faults = set("Json Member TooDeep NameLength KeyLength WrongName OtherIsSame OtherOffPath RootMismatch none".split())
    assert faults == all_faults, ("among them each fault", all_faults - faults)


def test_hostile(browser: Browser, lines: Sequence[samples.Line]) -> None:
    """Markup in a name is text."""
    markup = "<img src=x onerror=\"document.title='broken'\"><script>document.title='broken'</script>"
    line = next(it for it in lines if it["proof"]["end"]["kind"] == "here")
    end = line["proof"]["end"] | {"name": markup, "key": base64.b64encode(markup.encode()).decode()}
    paste(browser, json.dumps(line | {"name": markup, "proof": line["proof"] | {"end": end}}))
    assert count(browser, "#results img, #results script") == 0, "markup makes no element"
    shown = [json.dumps(markup) in "".join(texts(browser, f"#results {it}")) for it in ["code", ".end .named"]]
    assert shown == [True, True], ("markup is shown as a key and as a name", shown)
    assert browser.value("document.title") == "Check a CONIKS proof", "markup does nothing"


def test_ways_in(browser: Browser) -> None:
    """Files that are dropped, a text that is pasted beside the field, and one that is pasted into it, which is folded."""
    lines = DEMONSTRATION.splitlines(keepends=True)
    parts, whole = json.dumps(["".join(lines[:4]), "".join(lines[4:])]), json.dumps(DEMONSTRATION)
    dropped = "document.body.dispatchEvent(new DragEvent('drop', { dataTransfer: data, bubbles: true, cancelable: true }))"
    pasted = "document.body.dispatchEvent(new ClipboardEvent('paste', { clipboardData: data, bubbles: true, cancelable: true }))"
    typed = "document.getElementById('lines').dispatchEvent(new InputEvent('input', { inputType: 'insertFromPaste' }))"
    for what, event in [
        ("two files dropped", f"{parts}.forEach((it, i) => data.items.add(new File([it], `${{i}}.jsonl`))); {dropped}"),
        ("a text dropped", f"data.setData('text/plain', {whole}); {dropped}"),
        ("a text pasted beside the field", f"data.setData('text/plain', {whole}); {pasted}"),
        (
            "a text pasted into the field",
            f"document.getElementById('pasted').open = true; document.getElementById('lines').value = {whole}; {typed}",
        ),
    ]:
        paste(browser, "")
        browser.value(f"{FRESH} (data => {{ {event}; }})(new DataTransfer()); 1")
        wait(browser)
        found = browser.value(
            "[Number(document.getElementById('summary').dataset.done), document.getElementById('pasted').open, document.getElementById('folded').textContent]"
        )
        assert found == [9, False, "9 lines: show them, or paste others"], (what, found)
    assert "drop them here" in texts(browser, ".button")[0], "dropping is mentioned"


def test_reach(browser: Browser) -> None:
    """Headings are in order, targets have 24 pixels, a path is visible with forced colours, and a browser without script shows a note."""
    press(browser, "example")
    levels = browser.value(
        "[...document.querySelectorAll('h1, h2, h3, h4, h5, h6')].filter(it => it.checkVisibility()).map(it => Number(it.tagName[1]))"
    )
    assert levels[0] == 1 and all(b <= a + 1 for a, b in zip(levels, levels[1:])), ("headings are in order", levels)
    small = browser.value(
        """[...document.querySelectorAll('button, .button, select, textarea, input:not(.unseen):not([type]), summary, #choice label')].filter(it => it.checkVisibility())
        .filter(it => it.getBoundingClientRect().height < 24 || it.getBoundingClientRect().width < 24).map(it => it.outerHTML.slice(0, 80))"""
    )
    assert not small, ("targets have 24 pixels", small)
    browser.call("Emulation.setEmulatedMedia", features=[{"name": "forced-colors", "value": "active"}])
    line = browser.value(
        "(it => [it.borderLeftStyle, it.borderLeftWidth, it.borderLeftColor !== getComputedStyle(document.body).backgroundColor])(getComputedStyle(document.querySelector('.level'), '::before'))"
    )
    browser.call("Emulation.setEmulatedMedia", features=[])
    assert line == ["solid", "2px", True], ("a path is seen where colours are forced", line)
    assert "<noscript>" in PAGE.read_text("utf-8"), "who has no script is told"


# The contrast of two colours (WCAG 2.2, relative luminance), in the page.
CONTRAST = """((front, back) => { const light = text => { const [r, g, b] = text.match(/[0-9.]+/g).map(it => it / 255).map(it => it <= 0.03928 ? it / 12.92 : ((it + 0.055) / 1.055) ** 2.4);
    return 0.2126 * r + 0.7152 * g + 0.0722 * b; }; const [a, b] = [light(front), light(back)].sort((x, y) => y - x); return (a + 0.05) / (b + 0.05); })"""


def check_contrast(browser: Browser, scheme: str) -> None:
    """Borders of fields and buttons have a contrast of 3:1 to both sides, and verdicts one of 4.5:1."""
    found = browser.value(
        f"""[...document.querySelectorAll('button, .button, select, textarea, input:not(.unseen):not([type])')].map(it => {{
        const style = getComputedStyle(it), ground = getComputedStyle(document.body).backgroundColor;
        return Math.min({CONTRAST}(style.borderTopColor, ground), {CONTRAST}(style.borderTopColor, style.backgroundColor)); }})"""
    )
    assert len(found) > 8 and min(found) >= 3, (f"the contrast of borders, {scheme}", min(found))
    found = browser.value(
        f"[...document.querySelectorAll('.verdict, .standing, .note, .number')].map(it => {CONTRAST}(getComputedStyle(it).color, getComputedStyle(document.body).backgroundColor))"
    )
    assert min(found) >= 4.5, (f"the contrast of texts, {scheme}", min(found))


def stopped_for(browser: Browser, text: str, what: str, say: Say) -> float:
    """Pastes a long text, and returns the seconds that it took, without those for which the machine let the page wait: the page answers
    meanwhile, in one of some tries."""
    longest: float = STOP
    for _ in range(TRIES):
        browser.value(TICKING)
        with Computing(browser.driver.service.process.pid) as computing:
            paste_long(browser, text)
            stops, *times = browser.value(
                "clearTimeout(window.ticking); [window.stops, window.begun, performance.timeOrigin + performance.now()]"
            )
        longest = max([0.0, *(computing.between(*it) for it in stops)])
        waited = max([0.0, *(end - begin for begin, end in stops)])
        took = computing.without_waits(*times) / 1000
        say(f"{what} in {took:.1f} s, the longest stop {waited:.0f} ms, in which the page computed for at most {longest:.0f} ms")
        if longest < STOP:
            break
    assert longest < STOP, (f"the page answers meanwhile: {what}", longest)
    return took


def test_many(browser: Browser, lines: Sequence[samples.Line], say: Say) -> None:
    """10,000 lines, with progress, while the page responds."""
    text = "\n".join(json.dumps(lines[it % len(lines)]) for it in range(10_000))
    took = stopped_for(browser, text, "10,000 lookups", say)
    assert took < 10, ("10,000 lookups within ten seconds", took)
    assert count(browser, "#results > li") == 200, "200 rows are shown at first"
    browser.value("document.getElementById('more').click(); 1")
    browser.until("document.querySelectorAll('#results > li').length >= 400")
    assert count(browser, "#results > li") == 400, "200 more are shown when asked for"


def seconds_of(browser: Browser, call: Callable[[], object]) -> float:
    """The seconds that a call takes, without those for which the machine lets the page wait."""
    with Computing(browser.driver.service.process.pid) as computing:
        call()
    return computing.seconds


def open_page(browser: Browser) -> None:
    """Opens the page, and waits until it has shown its example."""
    browser.open("about:blank")
    browser.open(PAGE.as_uri())
    wait(browser)


def test_opening(browser: Browser, say: Say) -> None:
    """The page shows its example soon. A browser that has just started takes longer."""
    took = [seconds_of(browser, partial(open_page, browser)) for _ in range(3)]
    say(f"the page shows its example in {min(took):.1f} s")
    assert min(took) < OPENS, (f"the first verdict comes within {OPENS} s", took)


def test_speed(browser: Browser, say: Say) -> None:
    """A lookup with all its steps, none of which was done before: the time for each of some whose names and proofs are wrong ones."""
    set_keys(browser, "provider", signing=SIGNING, vrf=VRF)
    many = [LOOKUPS[0] | {"name": f"alice {it}"} for it in range(50)]
    press_time = [seconds_of(browser, partial(paste, browser, text_of(it))) for it in (ENTRIES, [*ENTRIES, *many])]
    each = 1000 * (press_time[1] - press_time[0]) / len(many)
    say(f"a lookup with all steps takes {each:.1f} ms in the browser")
    assert each <= SLOWEST, (f"a lookup takes at most {SLOWEST} ms", each)
    set_keys(browser)


def test_long(browser: Browser, lines: Sequence[samples.Line], say: Say) -> None:
    """Long lines and many of them, while the page responds; reading can be cancelled."""
    line = next(it for it in lines if it["proof"]["end"]["kind"] == "here")
    fifty = "\n".join(json.dumps(lines[it % len(lines)]) for it in range(24_300))
    stopped_for(browser, fifty, "50 MB of lookups", say)
    stopped_for(browser, "{}\n" * 1_700_000, "1,700,000 lines {}", say)
    long_key = line["proof"] | {"end": line["proof"]["end"] | {"key": "A" * 50_000_000}}
    for what, changed in [("a key of 50 MB", {"proof": long_key}), ("a name of 20 MB", {"name": "a" * 20_000_000})]:
        stopped_for(browser, json.dumps(line | changed), what, say)
        printed = texts(browser, "#results .plain")
        assert printed == ["refused: the line is longer than 262144 bytes"], (f"{what} is refused", printed)
    set_keys(browser, "provider", signing=SIGNING, vrf=VRF)
    for what, text in [("1,700,000 lines", "{}\n" * 1_700_000), ("50 MB of lookups", fifty)]:
        browser.value(f"document.getElementById('reading').hidden = true; {WHEN_READING}")
        paste_long(browser, text)
        found = browser.value(
            "[window.seen, document.getElementById('summary').textContent, Number(document.getElementById('summary').dataset.done)]"
        )
        is_well = found[0] and found[1].startswith("Cancelled after ") and 0 < found[2] < text.count("\n")
        assert is_well, (f"reading of {what} shows progress, and can be cancelled", found)
    set_keys(browser)


def test_size(module: None) -> None:
    assert PAGE.stat().st_size <= LARGEST


def test_pictures(browser: Browser) -> None:
    """The page on a screen and on a phone, in light and dark: pictures for people, and where the first verdict is."""
    for width, height in [(1280, 800), (390, 844), (360, 740)]:
        for scheme in ["light", "dark"]:
            browser.wide(width, height)
            browser.call("Emulation.setEmulatedMedia", features=[{"name": "prefers-color-scheme", "value": scheme}])
            browser.open(PAGE.as_uri())
            wait(browser)
            (WEB / f"out/{width}-{scheme}.png").write_bytes(browser.picture())
            is_well = browser.value("document.documentElement.scrollWidth <= window.innerWidth")
            assert is_well, f"nothing is wider than the page, {width} {scheme}"
            lowest = ".path .end" if width == 1280 else ".verdict"
            bottom = browser.value(f"document.querySelector('{lowest}').getBoundingClientRect().bottom")
            assert 0 < bottom <= height, (f"{lowest} is seen without scrolling, {width} {scheme}", bottom)
            check_contrast(browser, f"{width} {scheme}")
    browser.call("Emulation.setEmulatedMedia", features=[])
