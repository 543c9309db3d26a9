"""Requests to services and auditors, of which neither the bytes nor the seconds of a reply are theirs to choose."""

from __future__ import annotations

import socket
import threading
import time
from contextlib import closing, suppress
from dataclasses import dataclass
from http.client import HTTPConnection, HTTPException, HTTPSConnection
from ipaddress import ip_address
from typing import Iterator, Mapping, Optional
from urllib.parse import urlsplit

from . import ENTRY_LENGTH, Body, Head, link
from ._layout import body_of, epoch_before, epoch_of
from ._telling import Unusable, Verdict
from .client import Client, Refusal, entries_of
from .notes import SKEW
from .policy import Policy

# The most seconds that a connection and a whole reply may take.
CONNECTING, SECONDS = 10.0, 30.0
# The most bytes of a page, which has 1,000 entries, and the most pages and seconds of a call.
PAGE, PAGES, LONGEST = 1000 * ENTRY_LENGTH, 100, 300.0


@dataclass(frozen=True)
class Answer:
    """A reply, whatever its status is. The names of `headers` are in lower case."""

    status: int
    headers: Mapping[str, str]
    body: bytes


def answered(url: str, most: int, body: Optional[bytes] = None, headers: Mapping[str, str] = {}) -> Answer:
    """Returns the reply to a request. The reply's body has at most `most` bytes. A request with a body is a POST. It follows no redirect,
    and a server that sends a byte now and then doesn't keep it waiting. Raises `Unusable`."""
    timer = None
    try:
        parts = urlsplit(url)
        kind = {"http": HTTPConnection, "https": HTTPSConnection}.get(parts.scheme)
        if kind is None:
            raise Unusable(Verdict.BAD_URL, url=url)
        connection = kind(parts.hostname or "", parts.port, timeout=CONNECTING)
        with closing(connection):
            connection.connect()
            connection.sock.settimeout(SECONDS)
            timer = threading.Timer(SECONDS, connection.sock.shutdown, [socket.SHUT_RDWR])
            timer.start()
            target = parts._replace(scheme="", netloc="", fragment="").geturl()
            connection.request("GET" if body is None else "POST", target, body, dict(headers))
            found = connection.getresponse()
            text: bytes = found.read(most + 1)
    except (OSError, HTTPException, ValueError) as error:
        raise Unusable(Verdict.UNREACHABLE, url=url, kind=type(error).__name__, reason=error) from error
    finally:
        if timer:
            timer.cancel()
    if len(text) > most:
        raise Unusable(Verdict.TOO_LONG, url=url, most=most)
    return Answer(found.status, {name.lower(): it for name, it in found.getheaders()}, text)


def check_token(url: str, token: str) -> None:
    """Checks that nobody on the way reads a token that is sent to a URL: it is encrypted, or it stays on this host. Raises `Unusable`."""
    parts = urlsplit(url)
    is_private = not token or parts.scheme == "https" or parts.hostname == "localhost"
    with suppress(ValueError):
        is_private = is_private or ip_address(parts.hostname or "").is_loopback
    if not is_private:
        raise Unusable(Verdict.WITHOUT_TLS, url=url)


def fetched(url: str, most: int = PAGE) -> bytes:
    """Returns the body that a URL has. Raises `Unusable`."""
    found = answered(url, most)
    if found.status != 200:
        raise Unusable(Verdict.BAD_STATUS, url=url, status=found.status)
    return found.body


def check_time(client: Client, policy: Policy, entry: bytes, source: str) -> None:
    """Raises `Unusable` for an entry of an epoch that begins later than now, unless it convicts the directory. Else one entry of a far
    epoch would end the chain of whoever takes it."""
    epoch, start, period = epoch_of(entry), policy.epoch_start, policy.epoch_period
    if (
        start is not None
        and period is not None
        and start + (epoch - 1) * period > time.time() + SKEW
        and not client.evidence(entry)
    ):
        raise Unusable(Verdict.TO_COME, source=source, epoch=epoch)


def is_signed_again(entry: bytes, latest: bytes) -> bool:
    """Whether an entry has the body of a client's latest one, and other bytes."""
    return body_of(entry) == body_of(latest) and entry != latest


def new_entries(client: Client, source: str, is_whole: bool = False, again: bool = False, query: str = "") -> Iterator[bytes]:
    """The entries that a service or an auditor has and a client lacks. They are asked for from the client's latest one on, so that
    another one in its place is noticed; or from the first one on, since only whole entries convict. With `again` those are among them
    whose body the client has with another signature. Raises `Unusable` and `Refusal`. A source that never ends is left after some pages
    or minutes, and the next call goes on. `query` is added to the targets, `&policy=` and a digest for a directory that has ended.
    """
    entries = client.entries
    latest = (entries or [bytes(ENTRY_LENGTH)])[-1]
    known = {it if again else body_of(it) for it in entries}
    start = after = 0 if is_whole else epoch_before(latest)
    pages, until = 0, time.monotonic() + LONGEST
    while page := entries_of(fetched(f"{source}/v1/entries?after={after}{query}")):
        if pages and (pages >= PAGES or time.monotonic() > until):
            raise Unusable(Verdict.MORE_ENTRIES, source=source)
        pages += 1
        epochs = [after, *map(epoch_of, page)]
        if epochs != sorted(set(epochs)):
            raise Unusable(Verdict.NOT_RISING, source=source)
        yield from (it for it in page if (it if again else body_of(it)) not in known)
        after = epochs[-1]
    if known and after == start:
        raise Unusable(Verdict.OLDER, source=source)


def has_other_signature(client: Client, source: str, head: Head) -> bool:
    """Whether a source shows the entry of a head that differs from the client's, and that entry is no evidence: it has the same body, and
    another signature."""
    shown = (it for it in new_entries(client, source, is_whole=True, again=True) if Head(Body.of_entry(it).epoch, link(it)) == head)
    with suppress(Refusal):
        return any(not client.evidence(it) for it in shown)
    return False
