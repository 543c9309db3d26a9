"""The page that follows a service, as examples/service serves it, with two auditors."""

from __future__ import annotations

import json
import os
import sys
from pathlib import Path
from typing import Iterator

import pytest
import tools

pytest.importorskip("aiohttp")
pytest.importorskip("nacl.signing")

from auditing import Auditing
from browser import WEB, Browser, count, texts
from services import Running, until

DONE = "document.getElementById('state')?.dataset.done === 'true'"


@pytest.fixture
def audited(
    module: None, library: None, program: str, tmp_path: Path, monkeypatch: pytest.MonkeyPatch
) -> Iterator[tuple[Running, list[Auditing]]]:
    """A service that carries the notes of two auditors. Its epochs are long enough for them on a busy machine."""
    if not tools.has("prometheus_client"):
        pytest.skip("prometheus_client is missing")
    monkeypatch.setenv("PYTHONPATH", os.pathsep.join(it for it in sys.path if it))
    service, auditors = Running(tmp_path, program, period=5), [Auditing(tmp_path, it) for it in range(2)]
    service.make()
    service.start("--rate", "100000", *[word for it in auditors for word in ("--auditor", it.url, str(it.key))])
    for it in auditors:
        it.start(service, [peer for peer in auditors if peer is not it])
    yield service, auditors
    for it in auditors:
        it.process.terminate()
        it.process.wait(60)
    assert service.end() == 0


def press(browser: Browser, button: str, **fields: str) -> str:
    """Fills fields, presses a button, and returns the result."""
    for name, text in fields.items():
        browser.value(f"document.getElementById('{name}').value = {json.dumps(text)}; 1")
    browser.value(f"document.getElementById('{button}').click(); 1")
    browser.until(DONE)
    return "".join(texts(browser, "#result"))


def test_served(anywhere: Browser, audited: tuple[Running, list[Auditing]]) -> None:
    """Someone registers a name, and another one sees it in a browser with the word of both auditors, again after the service ended."""
    service, auditors = audited
    policy = (service.room / "keys/policy").read_text()
    assert service.operate("register", "alice", b"key of alice").status == 200
    until(lambda: service.get("/v1/note").status == 200, 120)
    anywhere.open(f"http://127.0.0.1:{service.port}/")
    anywhere.until(DONE)
    anywhere.forget()
    press(anywhere, "start", policy=policy, auditors="\n".join(str(it.key) for it in auditors))

    def agreed() -> bool:
        printed = press(anywhere, "look", name="ALICE")
        return '"alice" has the key "key of alice"' in printed and count(anywhere, "#opinions .sum.good") == 1

    until(agreed, 120)
    assert count(anywhere, "#alarms > div") == 0
    assert {it.partition("?")[0] for it in anywhere.requests()} == {
        f"http://127.0.0.1:{service.port}/v1/{it}" for it in ("entries", "lookup", "note")
    }
    assert not anywhere.complaints()
    assert service.end() == 0
    assert press(anywhere, "look", name="alice").startswith("Not verified: the service gives no reply")
    service.start("--rate", "100000", port=service.port)
    assert "no key at epoch" in until(lambda: it if "epoch" in (it := press(anywhere, "look", name="bob")) else None)


def test_headers(module: None, program: str, tmp_path: Path) -> None:
    """The page comes as it was made, with its policy as a header too, and in no frame."""
    service = Running(tmp_path, program)
    service.make()
    service.start()
    answer = service.get("/")
    page = (WEB / "out/follow.html").read_bytes()
    assert answer.status == 200 and answer.body == page
    policy = answer.headers["content-security-policy"]
    assert policy.endswith("; frame-ancestors 'none'") and policy.rpartition(";")[0].encode() in page
    assert (answer.headers["cache-control"], answer.headers["referrer-policy"]) == ("no-cache", "no-referrer")
    assert service.get("/?name=alice").fault == "Request"
    assert service.end() == 0
