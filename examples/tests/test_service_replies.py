"""What examples/service replies to requests: each is one of openapi.json, and what it returns is accepted by a client."""

from __future__ import annotations

import asyncio
import hashlib
import re
import threading
import time
from pathlib import Path
from typing import Any, Optional, Sequence, Union
from unittest.mock import Mock
from urllib.parse import quote

import pytest

pytest.importorskip("aiohttp")
pytest.importorskip("nacl.signing")

import looking
from coniks import Policy
from coniks.client import Client, Watched
from coniks.names import BadName, canonical
from coniks.provider import NotText, ProviderError
from connections import Bounds
from looking import Looker
from outside import KeyFailed
from services import OPENAPI, Running, described, named, until

FAR = 2**64 - 1


def client_of(service: Running) -> Client:
    policy = Policy.read(service.get("/v1/policy").body)
    client = Client(policy.signing_key, policy.vrf_key, policy, max_age=60)
    feed(client, service)
    return client


def feed(client: Client, service: Running) -> None:
    head = client.head()
    client.feed(service.get(f"/v1/entries?after={head.epoch if head else 0}").body)


def test_a_client(service: Running, library: None) -> None:
    """A name is registered and changed, and a client verifies each reply."""
    client = client_of(service)
    absent = service.get(named("alice smith/Ω".casefold()))
    feed(client, service)
    assert client.lookup("alice smith/ω", absent.body, int.from_bytes(absent.body[2:10], "big")).key is None
    receipt = service.operate("register", "alice smith/ω", b"key 1").json
    assert service.entry(receipt["epoch"]).hex() == receipt["entry"]
    client.watch("alice smith/ω", b"key 1", since=receipt["epoch"])
    changed = service.operate("change", "alice smith/ω", b"key 2").json
    feed(client, service)
    for epoch, key in [(receipt["epoch"], b"key 1"), (changed["epoch"], b"key 2")]:
        found = service.get(f"{named('alice smith/ω')}&epoch={epoch}")
        assert client.lookup("alice smith/ω", found.body, epoch).key == key
        assert found.headers["cache-control"] == "private, max-age=31536000, immutable"
    history = service.get(f"/v1/history?name={quote('alice smith/ω')}&first={receipt['epoch']}&last={FAR}").body
    feed(client, service)
    seen = client.history("alice smith/ω", history)
    assert [it.seen for it in seen][0] is Watched.SAME and seen[-1].key == b"key 2"
    head = service.get("/v1/head").json
    assert head["entry"] == service.entry(head["epoch"]).hex()
    assert head["epoch"] >= changed["epoch"] and len(head["link"]) == 64


def test_receipts(service: Running) -> None:
    """Without patience an operation waits, and has its receipt later. The same operation again is the same one."""
    waiting = service.operate("register", "bob", b"key", Prefer="return=minimal")
    assert waiting.status == 202 and waiting.json["state"] == "waiting"
    again = service.operate("register", "bob", b"key", Prefer="")
    assert again.headers["location"] == waiting.headers["location"]
    other = service.operate("register", "bob", b"other", Prefer="")
    assert (other.status, other.fault) == (409, "NameWaits")
    stored = service.get(waiting.headers["location"], Prefer="respond-async, wait=9")
    assert stored.status == 200 and stored.json["state"] == "stored"
    taken = service.operate("register", "bob", b"other")
    assert (taken.status, taken.fault) == (409, "NameTaken")


# Targets that are refused, by the status and the fault.
REFUSED = {
    (400, "Name"): ["", "?name=", "?name=A", "?name=a%00", "?name=%CD%B8", "?name=e%CC%81", "?name=" + "a" * 256],
    (400, "Request"): [
        *["?name=%ED%A0%80", "?name=%FF", "?name=a+b", "?name=a&name=a", "?name=a&epcoh=1", "?name=a&epoch=01"],
        *["?name=a&epoch=%D9%A1", "?name=a&epoch=18446744073709551616", "/v1/history?name=a&first=1", "/v1/entries?after=-1"],
        *["/v1/entries?after=x", "/v1/entries?after", "/v1/entries?after=1&", "/v1/head?x=1"],
    ],
    (404, "UnknownEpoch"): ["?name=a&epoch=18446744073709551615", "?name=a&epoch=0"],
    (404, "UnknownOperation"): ["/v1/operations/x", "/v1/operations/" + "a" * 24],
    (404, "Http"): ["/v1"],
}


@pytest.mark.parametrize("target, wanted", [(target, it) for it, targets in REFUSED.items() for target in targets])
def test_refusals(service: Running, target: str, wanted: tuple[int, str]) -> None:
    answer = service.get(target if target.startswith("/") else "/v1/lookup" + target)
    assert (answer.status, answer.fault) == wanted, answer


BODIES = [
    (b"", 400),
    (b"[]", 400),
    (b"{}", 400),
    (b"[" * 30000, 400),
    (b'{"op":"register","name":"carol","key":"a2V5","more":"1"}', 400),
    (b'{"op":"register","name":"carol","name":"carol","key":"a2V5"}', 400),
    (b'{"op":"register","name":"\\ud800","key":"a2V5"}', 400),
    (b'{"op":"register","name":"Carol","key":"a2V5"}', 400),
    (b'{"op":"register","name":"carol","key":""}', 400),
    (b'{"op":"register","name":"carol","key":"a2V5="}', 400),
    (b'{"op":"register","name":"carol","key":"a2V6\\n"}', 400),
    (b'{"op":"register","name":7,"key":"a2V5"}', 400),
    (b'{"op":"remove","name":"carol","key":"a2V5"}', 400),
    (b'{"op":"register","name":"carol","key":"a2V5"}\xff', 400),
    (b'{"op":"change","name":"carol","key":"a2V5"}', 409),
    (b"x" * 32769, 413),
]


@pytest.mark.parametrize("body, status", BODIES)
def test_wrong_bodies(service: Running, body: bytes, status: int) -> None:
    headers = {"Content_Type": "application/json", "Authorization": "Bearer one token"}
    assert service.ask("/v1/operations", "POST", body, **headers).status == status


def test_credentials(service: Running) -> None:
    body, lower = b'{"op":"register","name":"lower","key":"a2V5"}', {
        "content_type": "application/json",
        "authorization": "bearer one token",
    }
    assert service.ask("/v1/operations", "POST", body, **lower).status == 202, "the case of a header means nothing"
    for credentials in ["", "Bearer", "Bearer other", "Basic one token", "Bearer one token ", "Bearer \xff"]:
        refused = service.operate("register", "dave", b"key", Authorization=credentials)
        assert (refused.status, refused.fault) == (403, "Forbidden"), credentials
    assert service.operate("register", "dave", b"key", Content_Type="text/plain").status == 415
    assert service.get(named("dave")).body[292] != 2, "nobody registered dave"


def test_caches(service: Running) -> None:
    """What never changes may be kept for ever, and what is somebody's by nobody else."""
    first = service.first()
    for target, printed in [
        ("/v1/policy", "public, max-age=3600"), ("/v1/entries", "no-store"),
        ("/v1/head", "no-store"), (named("a"), "no-store"), (f"/v1/history?name=a&first={first}&last={first}", "no-store"),
        (f"{named('a')}&epoch={first}", "private, max-age=31536000, immutable"), (named(""), "no-store"), ("/healthz", "no-store"),
    ]:  # fmt: skip
        answer = service.get(target)
        assert answer.headers["cache-control"] == printed, target
        assert service.ask(target, "HEAD").headers["content-length"] == str(len(answer.body)) or target == "/v1/entries"


def test_description(service: Running) -> None:
    """Each path of openapi.json has a route and each route a path, and each schema is one."""
    jsonschema = pytest.importorskip("jsonschema")
    from endpoints import Endpoints

    nothing: Any = Mock()
    listing = Endpoints(nothing, nothing, nothing, Bounds()).routes()
    routes = {(it.method.lower(), it.path.replace("{number}", "{operation}")) for it in listing}
    listed = {(method, path) for path, it in OPENAPI["paths"].items() for method in it}
    assert routes == listed
    for schema in OPENAPI["components"]["schemas"].values():
        jsonschema.Draft202012Validator.check_schema(schema)
    for method, path in listed:
        other = {"get": "POST", "post": "PUT"}[method]
        answer = service.ask(path.replace("{epoch}", "1").replace("{operation}", "x"), other)
        assert answer.status == 405 or described(path) == "/v1/operations", (method, path, answer)


def test_operators(service: Running) -> None:
    """What operators ask, and metrics that say what the service has."""
    assert service.get("/healthz").json == {"state": "running"}
    assert service.get("/readyz").json == {"state": "ready"}
    service.operate("register", "erin", b"key")
    before, metrics, after = service.get("/v1/entries").body, metrics_of(service), service.get("/v1/entries").body
    epochs = [int.from_bytes(it[-208:-200], "big") for it in (before, after)]
    assert epochs[0] <= metrics["coniks_epoch"] <= epochs[1] and -1 < metrics["coniks_epoch_age_seconds"] < 60
    assert metrics["coniks_names"] >= 1
    assert metrics["coniks_writer"] == 1 and metrics["coniks_commit_failures"] == 0 and metrics["coniks_unexpected_total"] == 0
    assert metrics['coniks_request_seconds_count{route="/healthz",status="200"}'] >= 1
    present = metrics.get('coniks_lookups_total{outcome="present"}', 0)
    service.get(named("erin"))
    assert metrics_of(service)['coniks_lookups_total{outcome="present"}'] == present + 1
    for size in ["coniks_child_process_resident_memory_bytes", "process_resident_memory_bytes"]:
        assert 10**6 < metrics[size] < 10**9


def metrics_of(service: Running) -> dict[str, float]:
    rows = [it.rpartition(" ") for it in service.get("/metrics").body.decode().splitlines() if not it.startswith("#")]
    return {name: float(value) for name, _, value in rows}


def test_nothing_secret_is_logged(service: Running) -> None:
    """Neither logs nor metrics have names, keys, openings or tokens."""
    secret = "Zebra-9f3a"
    service.get(f"/v1/lookup?name={secret.lower()}")
    service.get(f"/v1/lookup?name={secret}")
    service.get(f"/{secret}/x")
    service.operate("register", secret.lower(), secret.encode())
    service.operate("register", secret.lower(), secret.encode())
    service.operate("register", secret.lower(), b"x", Authorization=f"Bearer {secret}")
    service.send(f"GET /{secret}\x00 HTTP/1.1\r\n{secret}\r\n\r\n".encode(), seconds=3)
    printed = service.errors.read_text() + service.get("/metrics").body.decode()
    assert secret.lower() not in printed.lower() and '"event": "request"' in printed
    for line in service.lines():
        assert {"time", "level", "event"} <= line.keys()
    opening = re.search(r'"opening":"([0-9a-f]{64})"', (service.room / "log").read_text())
    assert opening and opening[1] not in printed


def test_canonical_names() -> None:
    """One function has one form of each name. The expected ones are those of Unicode (CaseFolding.txt, NFC)."""
    for text, form in [("Alice", "alice"), ("Straße", "strasse"), ("E\u0301", "\u00e9"), ("ΣΑΣ", "σασ"), ("ǅ", "ǆ"), ("ﬀ", "ff")]:
        assert canonical(text) == canonical(form) == form
    for text in ["", "\ud800", "a\n", "\x7f", "a" * 256, "é" * 128, "\u0378", "\U0010ffff"]:
        with pytest.raises(BadName):
            canonical(text)
    assert canonical("a" * 255) and canonical("é" * 127)


def test_pages(packages: None, program: str, tmp_path: Path, monkeypatch: pytest.MonkeyPatch) -> None:
    """A chain of more entries than a page has comes page by page, without gap or repetition."""
    pytest.importorskip("prometheus_client")
    import asyncio

    import endpoints
    from holders import made
    from aiohttp.test_utils import make_mocked_request

    monkeypatch.setattr(endpoints, "PAGE", 4)
    with made(program, tmp_path) as holder:
        for epoch in range(3, 13):
            holder.provider.commit(epoch, [], force=True)
        nothing: Any = Mock(holder=holder)
        served, got = endpoints.Endpoints(nothing, nothing, nothing, Bounds()), b""
        while True:
            after = int.from_bytes(got[-208:-200], "big")
            request = make_mocked_request("GET", "/v1/entries")
            request["query"] = {"after": str(after)}
            page: Any = asyncio.run(served.entries(request))
            assert ("immutable" in page.headers["Cache-Control"]) == (len(page.body) == 4 * 209)
            if not page.body:
                break
            got += page.body
        assert got == b"".join(holder.directory.chain()) and len(got) == 11 * 209


def test_rates() -> None:
    """So many requests in four seconds, for each address and each network of IPv6. One of IPv4 counts once in all its forms."""
    import connections
    from problems import Problem

    now = [8.0]
    rate = connections.Rate(1, lambda: now[0])

    def wait(address: str) -> float:
        try:
            rate.count(address)
        except Problem as problem:
            return problem.wait
        return 0

    assert [wait("192.0.2.1") for _ in range(5)] == [0, 0, 0, 0, 4] and wait("192.0.2.2") == 0
    now[0] = 11.5
    assert wait("192.0.2.1") == 0.5 and wait("192.0.2.2") == 0
    now[0] = 12
    assert [wait("192.0.2.1") for _ in range(5)] == [0, 0, 0, 0, 4]
    assert [wait(f"2001:db8::{it}") for it in range(5)] == [0, 0, 0, 0, 4]
    assert wait("2001:db8:0:1::1") == 0 and wait("fe80::1%eth0") == 0
    # The forms of RFC 4291, RFC 3056 and RFC 6052, each of one address and of another one.
    for forms in [["192.0.2.3", "::ffff:192.0.2.3", "::ffff:c000:203", "2002:c000:203::1", "64:ff9b::192.0.2.3"]]:
        assert [wait(it) for it in forms] == [0, 0, 0, 0, 4]
    assert [wait(it) for it in ("::ffff:192.0.2.4", "2002:c000:204::1", "64:ff9b::192.0.2.4", "192.0.2.4", "192.0.2.4")] == [
        0,
        0,
        0,
        0,
        4,
    ]
    assert [wait(it) for it in ("no address", "192.0.2", "192.0.2.1:80", "", "\ud800")] == [0, 0, 0, 0, 4]


def test_turns() -> None:
    """Sixteen requests of an address are worked on at once, and the others at its rate, whenever they come."""
    import connections

    now = [8.0]
    rate = connections.Rate(10, lambda: now[0])
    assert [rate.count("192.0.2.1") for _ in range(18)] == [*[0] * 16, pytest.approx(0.1), pytest.approx(0.2)]
    assert rate.count("192.0.2.2") == 0
    now[0] = 8.5
    assert [rate.count("192.0.2.1") for _ in range(4)] == pytest.approx([0, 0, 0, 0.1])
    # At the end of the four seconds, and at the begin of the next ones.
    now[0] = 11.9
    assert [rate.count("192.0.2.1") for _ in range(18)] == pytest.approx([*[0] * 16, 0.1, 0.2])
    now[0] = 12
    assert [rate.count("192.0.2.1") for _ in range(2)] == pytest.approx([0.2, 0.3])
    # What it had to wait for is over.
    now[0] = 16
    assert rate.count("192.0.2.2") == 0 and [*rate._turns] == ["192.0.2.2"]


def test_epochs_that_are_forgotten_meanwhile(packages: None) -> None:
    """A history begins with the oldest epoch that is left, also if the service has not found that out yet."""
    from coniks.provider import UnknownEpoch
    from endpoints import Endpoints

    requested, metrics, nothing = list[int](), Mock(first=0), Mock()

    def history(name: str, proof: object, first: int, last: int) -> bytes:
        requested.append(first)
        if first < 5 or last > 9:
            raise UnknownEpoch
        return b"history"

    metrics.find_first = lambda: setattr(metrics, "first", 4)
    chain = [bytes(1) + number.to_bytes(8, "big") + bytes(200) for number in range(1, 10)]
    nothing.holder.directory = Mock(history=history, chain=lambda: chain)
    served: Any = Endpoints(nothing, nothing, metrics, Bounds())
    assert served._history("alice", 1, 9) == b"history" and requested == [1, 5]
    assert served._history("alice", 7, 9) == b"history" and requested[2:] == [7]
    with pytest.raises(UnknownEpoch):
        served._history("alice", 1, 10)


def test_old_epochs(other: Running) -> None:
    """Anyone sees a name at the recent epochs, and its owner at all."""
    owner = f"{hashlib.sha256(b'of alice').hexdigest()} alice\n"
    with open(other.room / "tokens", "a") as tokens:
        tokens.write(owner)
    other.start("--recent", "2", "--rate", "1000")
    other.operate("register", "alice", b"key", Authorization="Bearer of alice")
    chain = until(lambda: found if len(found := other.get("/v1/entries").body) >= 5 * 209 else None)
    oldest = int.from_bytes(chain[1:9], "big")
    old = [f"{named(it)}&epoch={oldest}" for it in ("alice", "nobody")]
    history = f"/v1/history?name=alice&first={oldest}&last={FAR}"
    for target in [*old, history]:
        for credentials in ["", "Bearer of bob"]:
            refused = other.get(target, Authorization=credentials)
            assert (refused.status, refused.fault) == (403, "OldEpoch"), target
    for target in [old[0], history]:
        assert other.get(target, Authorization="Bearer of alice").status == 200
    assert other.get(old[1], Authorization="Bearer of alice").status == 403
    assert other.get(named("alice")).status == 200
    until(lambda: is_latest_seen(other))
    assert other.operate("register", "bob", b"key", Authorization="Bearer of alice").status == 403


def is_latest_seen(service: Running) -> bool:
    """Whether anyone sees the latest epoch. It is an old one if two others follow before it is asked for."""
    latest = service.get("/v1/head").json["epoch"]
    targets = [f"{named('alice')}&epoch={latest}", f"/v1/history?name=alice&first={latest}&last={FAR}"]
    return all(service.get(it).status == 200 for it in targets)


def test_too_many_requests(other: Running) -> None:
    """Each address has its own requests, as the proxy says it, and others later."""
    other.start("--rate", "1", "--behind-proxy")
    printed = [other.get("/v1/policy", X_Forwarded_For="10.9.9.9, 192.0.2.1") for _ in range(40)]
    refused = [it for it in printed if it.status != 200]
    assert len(refused) >= 20 and {it.fault for it in refused} == {"TooOften"}
    assert {it.headers["retry-after"] for it in refused} <= {"1", "2", "3", "4"}
    assert other.get("/v1/policy", X_Forwarded_For="192.0.2.1, 192.0.2.2").status == 200
    line = b"GET /v1/policy HTTP/1.1\r\nHost: a\r\nConnection: close\r\nX-Forwarded-For: 10.0.0.%d\r\nX-Forwarded-For: 192.0.2.3\r\n\r\n"
    assert sum(b" 429 " in other.send(line % it) for it in range(40)) >= 20, "the proxy's own line is the last one"
    made_up = [other.get("/v1/policy", X_Forwarded_For=f"no address {it}").status for it in range(40)]
    assert made_up.count(429) >= 20, "what is no address counts as one"
    until(lambda: other.get("/v1/policy", X_Forwarded_For="192.0.2.1").status == 200)


def test_too_many_requests_of_operators(other: Running) -> None:
    """What is for operators counts for everyone but this host, which is served at any time: also by "not ready" while an epoch is late."""
    other.start("--rate", "1", "--behind-proxy")
    for number, target in enumerate(["/healthz", "/readyz", "/metrics"]):
        until(lambda: other.get(target, X_Forwarded_For=f"192.0.2.{number}").status == 429)
        refused = {it.fault for it in (other.get(target) for _ in range(9)) if it.status != 200}
        assert refused <= ({"NotReady"} if target == "/readyz" else set()), target


def test_one_history(packages: None) -> None:
    """One history is made at a time, and those of an address wait until the others have had their turn."""
    import asyncio

    from aiohttp.test_utils import make_mocked_request
    from endpoints import Endpoints
    from problems import Problem

    order, now = list[str](), [0]

    def history(name: str, *_: object) -> bytes:
        now[0] += 1
        assert now == [1]
        time.sleep(0.05)
        now[0] -= 1
        order.append(name)
        return name.encode()

    nothing: Any = Mock()
    nothing.holder.directory = Mock(history=history, chain=lambda: [bytes(209)])
    served: Any = Endpoints(nothing, nothing, Mock(first=0), Bounds(is_behind_proxy=True))

    async def requested(name: str, address: str) -> Any:
        request = make_mocked_request("GET", "/v1/history", headers={"X-Forwarded-For": address})
        request["query"] = {"name": name, "first": "0", "last": "9"}
        return (await served.history(request)).body

    async def all_requested() -> Any:
        return await asyncio.gather(*(requested(*it) for it in wanted.items()))

    wanted = {
        "a1": "192.0.2.1",
        "a2": "::ffff:192.0.2.1",
        "a3": "192.0.2.1",
        "b1": "2001:db8::1",
        "b2": "2001:db8::2",
        "c1": "192.0.2.3",
    }
    assert asyncio.run(all_requested()) == [it.encode() for it in wanted]
    assert order == ["a1", "b1", "c1", "a2", "b2", "a3"]


def test_tokens(packages: None, tmp_path: Path, caplog: pytest.LogCaptureFixture) -> None:
    """The file is read when it changes, and a request with a bad token costs no reading of it."""
    from authorising import Request, Tokens

    path, one, two = tmp_path / "tokens", "token one", "token two"

    def line(token: str, name: str) -> str:
        return f"{hashlib.sha256(token.encode()).hexdigest()} {name}\n"

    def may(token: str, name: str = "alice") -> bool:
        return tokens(Request(name, None, None, {"Authorization": token}))

    path.write_text(
        "".join(line(f"{it}", "bob") for it in range(100_000)) + line(one, "alice") + line(one, "carol") + line(two, "*")
    )
    tokens, start = Tokens(path), time.monotonic()
    for token in ["Bearer another", "Bearer ", "Basic x", "", f"Bearer {'x' * 100_000}"] * 100:
        assert not may(token)
    assert time.monotonic() - start < 5, "as 500 readings of the file would take minutes"
    assert may(f"Bearer {one}") and may(f"bearer {one}", "carol") and not may(f"Bearer {one}", "bob") and may(f"Bearer {two}", "x")
    path.write_text(line(two, "alice"))
    assert not may(f"Bearer {one}") and may(f"Bearer {two}") and not may(f"Bearer {two}", "bob")
    for text in ["secret token alice\n", line(two, "alice") + "\n", line(two, "").rstrip(" \n") + "\n"]:
        path.write_text(text)
        assert may(f"Bearer {two}"), "what is no file of tokens changes nothing"
        reported = str(vars(caplog.records[-1])["members"])
        assert "of the tokens is not" in reported and "secret" not in reported
        with pytest.raises(ValueError, match="of the tokens is not"):
            Tokens(path)
    path.unlink()
    assert not may(f"Bearer {two}"), "without the file nobody writes"
    with pytest.raises(FileNotFoundError):
        Tokens(path)
    assert not Tokens(None)(Request("alice", None, None, {"Authorization": f"Bearer {two}"}))


class Together:
    """A directory and keys in the place of a holder's: how many names were looked up together, and what some of them are."""

    def __init__(self) -> None:
        self.keys = self.directory = self
        self.sizes: list[int] = []
        self.is_free = threading.Event()

    def stored_proof(self, name: str) -> Optional[bytes]:
        return None if name.startswith("new") else b"proof of " + name.encode()

    def proof(self, name: str) -> bytes:
        if name == "new and lost":
            raise KeyFailed(name)
        return b"proof of " + name.encode()

    def replies(self, names: Sequence[tuple[str, bytes]]) -> list[Union[bytes, ProviderError]]:
        self.is_free.wait()
        self.sizes.append(len(names))
        if any(name == "lost" for name, _ in names):
            raise KeyFailed("lost")
        if any(name == "all" for name, _ in names):
            raise ProviderError("all")
        return [NotText(name) if name == "wrong" else name.encode() + b" " + proof for name, proof in names]


def test_lookups_together(monkeypatch: pytest.MonkeyPatch) -> None:
    """Lookups that come together get each its own reply or error, also if one has no index any more. One that hangs ends in time."""
    holder: Any = Together()
    holder.is_free.set()

    async def ask() -> None:
        looker = Looker(holder)
        names = [*map(str, range(150)), "new", "new and lost", "wrong"]
        made = await asyncio.gather(*map(looker.reply, names), return_exceptions=True)
        assert made[:151] == [it.encode() + b" proof of " + it.encode() for it in names[:151]]
        assert [type(it) for it in made[151:]] == [KeyFailed, NotText]
        # The name whose proof is new comes in a later turn, perhaps with the last of the others.
        assert holder.sizes in ([64, 64, 23, 1], [64, 64, 24]), holder.sizes
        for name, error, is_alone in [("lost", KeyFailed, True), ("all", ProviderError, False)]:
            made = await asyncio.gather(*map(looker.reply, ["first", name, "last"]), return_exceptions=True)
            assert [isinstance(it, Exception) for it in made] == ([False, True, False] if is_alone else [True] * 3)
            assert type(made[1]) is error
        holder.is_free.clear()
        gone, beside = (asyncio.create_task(looker.reply(it)) for it in ("gone", "beside"))
        await asyncio.sleep(0.05)
        gone.cancel()
        holder.is_free.set()
        assert await beside == b"beside proof of beside" and gone.cancelled()
        holder.is_free.clear()
        monkeypatch.setattr(looking, "LONGEST", 0.2)
        with pytest.raises(TimeoutError):
            await looker.reply("late")
        holder.is_free.set()
        assert await looker.reply("alice") == b"alice proof of alice"

    asyncio.run(ask())
