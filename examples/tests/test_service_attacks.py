"""What strangers can do to examples/service: slow clients, idle and half-open connections, bodies and heads beyond the limits, and
random requests. Each is refused, memory stays bounded, and other clients are served."""

from __future__ import annotations

import random
import re
import resource
import select
import socket
import threading
import time
from collections import Counter
from concurrent.futures import ThreadPoolExecutor
from contextlib import ExitStack, suppress
from functools import partial
from http.client import HTTPException
from ipaddress import IPv4Address
from itertools import count
from typing import Callable, Iterator, NamedTuple, Optional, Sequence

import pytest

pytest.importorskip("aiohttp")
pytest.importorskip("nacl.signing")

from facts import Facts
from services import TOKEN, Running, named, received_once, sent, until

# The most connections of the service in these tests, and the seconds in which a connection must send a whole head.
CONNECTIONS, PATIENCE = 300, "4"
# How many random requests are under way at once.
SENDERS = 32
# Addresses of this host, one for each connection.
ADDRESSES = map(str, map(IPv4Address, count(int(IPv4Address("127.1.0.1")))))
MIB = 1 << 20
GET = b"GET /v1/policy HTTP/1.1\r\nHost: a\r\n"
POST = b"POST /v1/operations HTTP/1.1\r\nHost: a\r\nContent-Type: application/json\r\n"
# What clients send that never send a whole head: nothing, half of one, a byte, and a second one after a whole one.
HALVES: list[list[bytes]] = [[], [GET], [b"G"], [GET + b"\r\n", b"GET"]]


def is_served(service: Running) -> bool:
    """Whether the service replies as ever. A connection beyond the limit is reset."""
    with suppress(OSError, HTTPException):
        return service.ask("/healthz").status == 200 and service.ask(named("a")).status == 200
    return False


@pytest.fixture(autouse=True)
def _memory(service: Running) -> Iterator[None]:
    """No test may cost the service more than some memory, and it serves afterwards."""
    before = service.resident()
    yield
    until(lambda: is_served(service))
    assert service.resident() < before + 40 * MIB
    assert not [it for it in service.lines() if it["level"] == "error"], service.errors.read_text()[-3000:]


def connected(service: Running, address: Optional[str] = None) -> socket.socket:
    """A connection from an address, by default one that no other has."""
    return socket.create_connection(("127.0.0.1", service.port), 60, (address or next(ADDRESSES), 0))


def ends(connection: socket.socket) -> bool:
    """Whether the service ends a connection in a minute, which is longer than it has patience."""
    connection.settimeout(60)
    with suppress(ConnectionError):
        while True:
            try:
                if not connection.recv(65536):
                    break
            except socket.timeout:
                return False
    return True


@pytest.mark.parametrize("is_closing", [False, True], ids=["open", "half closed"])
def test_half_requests(service: Running, is_closing: bool) -> None:
    """A connection that sends no whole head is ended, also if the client has closed its side."""
    with ExitStack() as opened:
        connections = [opened.enter_context(connected(service)) for _ in HALVES]
        for connection, parts in zip(connections, HALVES):
            for part in parts:
                connection.sendall(part)
            if is_closing:
                connection.shutdown(socket.SHUT_WR)
        # All wait at once.
        assert [parts for connection, parts in zip(connections, HALVES) if not ends(connection)] == []


def test_slow_head(service: Running) -> None:
    """A byte now and then doesn't keep a connection."""
    with connected(service) as connection:
        connection.sendall(GET + b"A: ")
        until(lambda: not sent(connection, b"x"))


def test_slow_reader(service: Running) -> None:
    """A client that takes no reply is ended."""
    with connected(service) as connection:
        connection.setsockopt(socket.SOL_SOCKET, socket.SO_RCVBUF, 4096)
        end = time.monotonic() + 60
        while sent(connection, b"GET /metrics HTTP/1.1\r\nHost: a\r\n\r\n"):
            assert time.monotonic() < end
            time.sleep(0.005)
        until(lambda: b"coniks_connections 1.0" in service.get("/metrics").body)


def test_idle_connections(service: Running) -> None:
    """More connections than the service takes: all end, those beyond at once, and then others are served."""
    with ExitStack() as opened:
        idle = []
        for _ in range(3 * CONNECTIONS):
            with suppress(OSError):
                idle.append(opened.enter_context(connected(service)))
        assert len(idle) > CONNECTIONS and all(ends(it) for it in idle)


def test_one_connection_too_many(other: Running) -> None:
    """A connection beyond the limit is reset at once, while the others stay. One that has ended leaves room at once."""
    other.start("--connections", "50", "--patience", "600")
    with ExitStack() as opened:
        stored = [opened.enter_context(connected(other)) for _ in range(50)]
        for _ in range(20):
            with connected(other) as refused:
                assert ends(refused)
        assert not is_served(other) and not select.select(stored, [], [], 0)[0]
        stored[0].close()
        until(lambda: is_served(other))
        # One after another, each as soon as that before has ended.
        assert {other.ask("/healthz").status for _ in range(50)} == {200}


def test_connections_of_one_address(other: Running) -> None:
    """An address has a part of all connections: those beyond end at once, while the others stay and others are served."""
    other.start("--connections", "400", "--patience", "600")
    with ExitStack() as opened:
        stored = [opened.enter_context(connected(other, "127.0.0.2")) for _ in range(20)]
        for _ in range(20):
            with connected(other, "127.0.0.2") as refused:
                assert ends(refused)
        assert is_served(other) and not select.select(stored, [], [], 0)[0]
        stored[0].close()
        until(lambda: b"200 OK" in answered(other, "127.0.0.2", GET + b"\r\n"))
        # Others take all that are left.
        for _ in range(400 - len(stored[1:])):
            opened.enter_context(connected(other))
        until(lambda: not is_served(other))


def test_connections_of_a_proxy(other: Running) -> None:
    """The connections of a proxy are the proxy's to bound."""
    other.start("--connections", "100", "--patience", "600", "--behind-proxy")
    with ExitStack() as opened:
        stored = [opened.enter_context(connected(other, "127.0.0.2")) for _ in range(90)]
        assert is_served(other) and not select.select(stored, [], [], 0)[0]


def answered(service: Running, address: str, part: bytes) -> bytes:
    """What comes for a request from an address, nothing if the connection is refused."""
    with suppress(OSError), connected(service, address) as connection:
        sent(connection, part)
        return replied(connection, 60)
    return b""


# Each is refused, or replied to, by another part of the service.
COUNTED = {
    "a policy": GET + b"\r\n",
    "a page": b"GET / HTTP/1.1\r\nHost: a\r\n\r\n",
    "an unknown route": b"GET /nothing HTTP/1.1\r\nHost: a\r\n\r\n",
    "another method": b"DELETE /v1/policy HTTP/1.1\r\nHost: a\r\n\r\n",
    "an unknown parameter": b"GET /v1/head?x=y HTTP/1.1\r\nHost: a\r\n\r\n",
    "a bad token": POST + b"Content-Length: 2\r\n\r\n{}",
    "a long body": POST + b"Content-Length: 40000\r\n\r\n" + b"x" * 40_000,
    "a long line": b"GET /" + b"x" * 10_000 + b" HTTP/1.1\r\n\r\n",
    "no HTTP": b"no HTTP\r\n\r\n",
    "an expectation": GET + b"Expect: x\r\n\r\n",
    "an expectation that is no text": GET + b"Expect: \xed\xa0\x80\r\n\r\n",
    "a host that is no text": b"CONNECT /v1/h\xc3\xa9ad HTTP/1.1\r\nHost: a\r\n\r\n",
}


def test_refusals_count(other: Running) -> None:
    """A request counts for its address whatever it is, and an address that asks on and on is not replied to."""
    other.start("--rate", "2")

    def is_refused(address: str, part: bytes) -> bool:
        for _ in range(10):
            answered(other, address, part)
        return b" 200 OK" not in answered(other, address, GET + b"\r\n")

    def is_dropped(address: str, part: bytes) -> bool:
        return [answered(other, address, part) for _ in range(18)][-1] == b""

    for number, part in enumerate(COUNTED.values()):
        address = f"127.0.2.{number}"
        # Another time begins now and then.
        until(lambda: is_refused(address, part))
        until(lambda: is_dropped(address, part))
    assert b" 200 OK" in answered(other, "127.0.0.2", GET + b"\r\n")


def test_ten_thousand_connections(other: Running) -> None:
    """As many idle connections as the machine allows, of 10,000: others are served meanwhile, and memory is bounded."""
    soft, hard = resource.getrlimit(resource.RLIMIT_NOFILE)
    count = min(10_000, hard - 500)
    resource.setrlimit(resource.RLIMIT_NOFILE, (hard, hard))
    try:
        other.start("--rate", "1000000", "--connections", "20000", "--patience", "60")
        before = other.resident()
        with ExitStack() as opened:
            for _ in range(count):
                opened.enter_context(connected(other))
            until(lambda: f"coniks_connections {count + 1}.0".encode() in other.get("/metrics").body)
            assert other.operate("register", "alice", b"key").status == 200 and other.get(named("alice")).body.endswith(b"key")
            assert other.resident() - before < count * 32 * 1024
        until(lambda: b"coniks_connections 1.0" in other.get("/metrics").body)
    finally:
        resource.setrlimit(resource.RLIMIT_NOFILE, (soft, hard))


def test_many_keep_alive(service: Running) -> None:
    """Clients that keep their connections, and ask now and then, are served."""
    with ExitStack() as opened:
        clients = [opened.enter_context(connected(service)) for _ in range(50)]
        for _ in range(3):
            for it in clients:
                it.sendall(GET + b"\r\n")
                assert b"200 OK" in replied(it, 60)


@pytest.mark.parametrize("size, is_taken", [(60_000, True), (70_000, False)])
def test_bytes_of_a_request(service: Running, size: int, is_taken: bool) -> None:
    """A request has at most 65,536 bytes, also if no header is too long and there are not too many."""
    head = GET + b"".join(b"A%04d: %b\r\n" % (it, b"x" * 991) for it in range(size // 1000))
    with connected(service) as connection:
        sent(connection, head + b"\r\n")
        assert (b"200 OK" in replied(connection, 60)) == is_taken
        assert is_taken or ends(connection)


LONG = b"x" * (64 * 1024)
# As many of these are sent as the service takes, of a GiB.
GIB = 16384
BOMBS: dict[str, tuple[list[bytes], Optional[bytes]]] = {
    "a long line": ([b"GET /" + LONG], b"400"),
    "a long header": ([GET + b"A: " + LONG], b"400"),
    "many headers": ([GET, *[b"A%d: %b\r\n" % (it, b"x" * 100) for it in range(100_000)]], None),
    "endless headers": ([GET, *[b"A: b\r\n" * 1000] * 2000], None),
    "a long body": ([POST + b"Content-Length: 1073741824\r\n\r\n", *[LONG] * GIB], b"413"),
    "a body that is announced": ([POST + b"Content-Length: 99999999999999999999\r\n\r\n"], None),
    "an endless chunk": ([POST + b"Transfer-Encoding: chunked\r\n\r\n7FFFFFFF\r\n", *[LONG] * GIB], b"413"),
    "endless chunks": ([POST + b"Transfer-Encoding: chunked\r\n\r\n", *[b"1\r\nx\r\n" * 10000] * 500], None),
    "a body that is compressed": ([POST + b"Content-Encoding: gzip\r\nContent-Length: 5\r\n\r\nabcde"], b"400"),
    "a body of a GET": ([GET + b"Content-Length: 100000000\r\n\r\n", *[LONG] * 1000], b"200"),
    "an expectation that is no text": ([GET + b"Expect: \xed\xa0\x80\r\n\r\n"], b"400"),
    "the same elsewhere": ([b"GET /x HTTP/1.1\r\nHost: a\r\nExpect: \xff\r\n\r\n"], b"400"),
    "a host that is no text": ([b"CONNECT /v1/h\xc3\xa9ad HTTP/1.1\r\nHost: a\r\n\r\n"], b"400"),
    "two lengths": ([POST + b"Content-Length: 5\r\nContent-Length: 6\r\n\r\nabcdef"], b"400"),
    "length and chunks": ([POST + b"Content-Length: 5\r\nTransfer-Encoding: chunked\r\n\r\n0\r\n\r\n"], None),
    "no HTTP": ([b"\x16\x03\x01\x02\x00\x01\x00\x01\xfc\x03\x03" * 1000], b"400"),
}


@pytest.mark.parametrize("parts, status", BOMBS.values(), ids=BOMBS)
def test_bombs(service: Running, parts: list[bytes], status: Optional[bytes]) -> None:
    """The service takes a bounded part of what is sent. If a reply is expected, it comes unless the connection was reset first."""
    printed = service.send(*parts)
    found = re.match(rb"HTTP/1.1 (\d+)", printed)
    assert not (status and found) or (found and found[1] == status), printed[:300]
    assert not found or found[1] != b"500"


def test_endless_body(service: Running) -> None:
    """What is sent after a reply isn't read: it fills the buffers of both sides, and no more is taken."""
    total, end = 0, time.monotonic() + 30
    with suppress(OSError), connected(service) as connection:
        connection.sendall(POST + b"Transfer-Encoding: chunked\r\n\r\nFFFFFFFF\r\n")
        while time.monotonic() < end:
            total += connection.send(LONG)
    assert total < 32 * MIB


def test_slow_body(service: Running) -> None:
    """A body that comes slowly costs nobody else anything."""
    with connected(service) as connection:
        connection.sendall(POST + b"Authorization: Bearer " + TOKEN.encode() + b"\r\nContent-Length: 1000\r\n\r\n")
        for _ in range(5):
            connection.sendall(b"{")
            assert service.get("/v1/policy").status == 200


def test_pipelined_flood(service: Running) -> None:
    """Requests sent ahead of their replies don't fill the memory: the connection ends."""
    before, most, flood = service.resident(), 0, GET.replace(b"/v1/policy", b"/healthz") + b"\r\n"
    with ThreadPoolExecutor(8) as pool:
        floods = [pool.submit(service.send, *[flood * 500] * 200) for _ in range(40)]
        while not all(it.done() for it in floods):
            most = max(most, service.resident())
            time.sleep(0.05)
    assert most < before + 60 * MIB, f"{(most - before) // MIB} MiB more"
    assert max(it.result().count(b"200 OK") for it in floods) < 50, "of 100,000"


# Random requests.

TARGETS = [
    "/", "/v1/policy", "/v1/head", "/v1/note", "/v1/entries?after=3", "/v1/lookup?name=alice", "/v1/lookup?name=bob&epoch=2",
    "/v1/history?name=alice&first=1&last=9", "/v1/operations", "/v1/operations/abc", "/healthz", "/readyz", "/metrics",
]  # fmt: skip
OTHER_TARGETS = ["*", "//", "//v1//head", "/v1/../metrics", "http://a/v1/head", "/v1/entries", "/v1/operations/"]
METHODS = ["GET", "GET", "GET", "POST", "HEAD", "PUT", "DELETE", "OPTIONS", "PATCH", "CONNECT", "TRACE", "get", "X"]
HEADERS = [
    "Host: b", "Connection: keep-alive", "Connection: close", "Content-Type: application/json", "Content-Length: 10",
    "Content-Length: -1", "Transfer-Encoding: chunked", "Expect: 100-continue", "Upgrade: websocket", "If-None-Match: *",
    "Prefer: wait=1", "Prefer: wait=99999", "Accept: text/html", "Authorization: Bearer one token", "Range: bytes=0-",
    "Content-Encoding: deflate", "Cookie: a=b", "X-Forwarded-For: ::1", "Accept-Encoding: gzip", "Sec-WebSocket-Key: x",
]  # fmt: skip
BODY = ['{"op":"register","name":"alice","key":"a2V5"}', '{"op":"change","name":"%s","key":"a2V5"}', "{}", "[1e999]", '"', "\x00"]
PIECES = ["%", "%ff", "%ed%a0%80", "\ud800", "&", "=", "?", "#", "/", "..", ";", "+", "\t", "\x00", "é", "９", "name=", "epoch="]


def mutated(draw: random.Random, text: str) -> str:
    """A text with some changes."""
    for _ in range(draw.choice([0, 0, 0, 1, 1, 2, 4])):
        at = draw.randrange(len(text) + 1)
        text = text[:at] + draw.choice([*PIECES, chr(draw.randrange(256)), ""]) + text[at + draw.randrange(2) :]
    return text


def text_of(draw: random.Random, text: str) -> bytes:
    """A text with some changes, some of which are no text."""
    return mutated(draw, text).encode("utf-8", "surrogatepass")


def well_formed(draw: random.Random, target: str) -> bytes:
    """A request whose head is as it should be, with a random target or body."""
    if target != "/v1/operations":
        return b"GET " + text_of(draw, target) + b" HTTP/1.1\r\nHost: a\r\n\r\n"
    body = text_of(draw, draw.choice(BODY))
    return POST + b"Authorization: Bearer %b\r\nContent-Length: %d\r\n\r\n%b" % (TOKEN.encode(), len(body), body)


class Request(NamedTuple):
    """A request, and whether its head is as it should be: then it has a reply."""

    part: bytes
    is_well_formed: bool


def drawn(draw: random.Random, target: str) -> Request:
    """A random request of an endpoint."""
    if draw.random() < 0.5:
        return Request(well_formed(draw, target), True)
    return Request(malformed(draw, target), False)


def malformed(draw: random.Random, target: str) -> bytes:
    """A request whose head may be any."""
    lines = [f"{draw.choice(METHODS)} {mutated(draw, target)} HTTP/1.{draw.choice('11110')}"]
    lines += [mutated(draw, it) if draw.random() < 0.2 else it for it in ["Host: a", *draw.sample(HEADERS, draw.randrange(5))]]
    body = text_of(draw, draw.choice(BODY))
    if draw.random() < 0.6:
        lines.append(f"Content-Length: {len(body)}")
    if draw.random() < 0.05:
        lines = lines[:1]
    return "\r\n".join(lines).encode("utf-8", "surrogatepass") + b"\r\n\r\n" + (body if draw.random() < 0.7 else b"")


def replied(connection: socket.socket, seconds: float) -> bytes:
    """The first reply, or what comes of it until nothing comes for some seconds."""
    printed = b""
    while more := received_once(connection, seconds):
        printed += more
        head, _, body = printed.partition(b"\r\n\r\n")
        length = re.search(rb"^content-length: (\d+)\r?$", head, re.M | re.I)
        if length and len(body) >= int(length[1]):
            break
    return printed


def statuses(printed: bytes) -> list[int]:
    return [int(it) for it in re.findall(rb"^HTTP/1\.[01] (\d{3}) ", printed, re.M)]


def tried(service: Running, facts: Facts, seconds: float, request: Request) -> int:
    """Sends a request. Checks the reply, if one comes within some seconds, and returns its status, 0 without one."""
    latest, printed, part = facts.latest, b"", request.part
    with suppress(OSError), connected(service) as connection:
        sent(connection, part)
        printed = replied(connection, 20 if request.is_well_formed else seconds)
    assert printed == b"" or printed.startswith(b"HTTP/"), (part, printed[:300])
    assert 500 not in statuses(printed), (part, printed[:500])
    requested = re.match(rb"GET (\S+) HTTP/1\.[01]\r\n", part)
    head, _, body = printed.partition(b"\r\n\r\n")
    length = re.search(rb"^content-length: (\d+)\r?$", head, re.M | re.I)
    if requested and length and len(body) == int(length[1]) and statuses(printed) == [200]:
        facts.take(requested[1].decode("utf-8", "surrogateescape"), body, latest)
    return (statuses(printed) or [0])[-1]


def changes(service: Running, names: Sequence[str], end: threading.Event) -> None:
    """Changes the keys of names, some in each epoch."""
    for number in count():
        if end.wait(0.3):
            break
        # On a busy machine the service may have no patience left.
        with suppress(OSError, HTTPException):
            service.operate("change", names[number % len(names)], b"%d" % number, Prefer="")


def test_random_requests(service: Running, request: pytest.FixtureRequest, say: Callable[[str], None]) -> None:
    """While keys change, no random request of an endpoint is an error of the service, and no reply contradicts another one."""
    draw, facts, found = random.Random(request.config.getoption("seed")), Facts(), Counter[int]()
    each, end, names = request.config.getoption("requests"), threading.Event(), ["alice", "bob"]
    receipts = [service.operate("register", it, b"key").headers["location"] for it in names]
    start = time.monotonic()
    assert service.get("/healthz").status == 200
    # Some of the malformed requests have no reply. Others have it by then, also on a busy machine.
    pause = max(0.5, 20 * (time.monotonic() - start))
    parts = [drawn(draw, it) for it in [*TARGETS, receipts[0]] for _ in range(each)]
    parts += [drawn(draw, draw.choice(OTHER_TARGETS)) for _ in range(each)]
    draw.shuffle(parts)
    with ThreadPoolExecutor(SENDERS + 1) as pool:
        changing = pool.submit(changes, service, names, end)
        try:
            found.update(pool.map(partial(tried, service, facts, pause), parts))
        finally:
            end.set()
        changing.result()
    say(f"{each} random requests of each endpoint: {dict(sorted(found.items()))}; {len(facts)} facts, none contradicted")
    assert {200, 400, 404, 405} <= found.keys() and len(facts) > 10


def test_replies_agree(service: Running, request: pytest.FixtureRequest) -> None:
    """While keys change, lookups, histories and catch-ups show one reply for one name and epoch, and one entry for one epoch."""
    draw, facts, names = random.Random(request.config.getoption("seed")), Facts(), [f"fuzz{it}" for it in range(6)]
    for name in names[:4]:
        service.operate("register", name, b"0", Prefer="")
    facts.take("/v1/entries", service.get("/v1/entries").body, 0)
    for number in range(3 * request.config.getoption("requests")):
        name, latest = draw.choice(names), facts.latest
        if number % 40 == 0:
            service.operate("change", name, b"%d" % number, Prefer="")
        epoch = draw.choice(sorted(facts.epochs))
        history = f"/v1/history?name={name}&first={epoch}&last={latest}"
        for target in [named(name), f"{named(name)}&epoch={epoch}", history, "/v1/head", f"/v1/entries?after={epoch}"]:
            facts.take(target, service.get(target).body, latest)
