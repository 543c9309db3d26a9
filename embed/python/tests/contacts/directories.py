"""Directories for `coniks-client`: each has the second implementation's replies, takes operations, and may lie."""

from __future__ import annotations

import base64
import json
import threading
from contextlib import AbstractContextManager, suppress
from http.server import BaseHTTPRequestHandler, ThreadingHTTPServer
from typing import Any, Callable, Mapping, NamedTuple, Optional, Sequence
from urllib.parse import parse_qs, urlsplit

from client_world import FIRST, POLICY, Batch, World, digest, policy_text

# A directory whose epochs begin each hour, and the policy of one that promises records of owners.
BEGUN = [(1, FIRST), (2, {"carol": b"key of carol"})]
VOUCHED = policy_text(records_vouched=True)
Batches = Sequence[tuple[int, Mapping[str, bytes]]]


def vouched_world(batches: Sequence[tuple[int, Batch]]) -> World:
    """A directory that promises records of owners."""
    return World(batches, policy=digest(VOUCHED))


class Reply(NamedTuple):
    """What is sent in the place of an honest reply."""

    body: bytes
    status: int = 200
    headers: Mapping[str, str] = {}


class Directory(AbstractContextManager["Directory"]):
    """A service on a port of its own. `lies` has a function for each path whose replies it makes, None for an honest one."""

    def __init__(self, batches: Batches = BEGUN, policy: str = POLICY):
        self.policy, self.batches = policy, [(epoch, dict(it)) for epoch, it in batches]
        self.renew()
        self.lies: dict[str, Callable[[Mapping[str, str]], Optional[Reply]]] = {}
        self.headers: dict[str, str] = {}
        self.note = b""
        self.requested: list[str] = []
        self.operations: list[dict[str, Any]] = []
        # The paths that want a token, and those with which one came.
        self.private, self.tokens = set[str](), list[str]()
        # Whether an operation is committed at once, and what refuses it.
        self.commits, self.refusal = True, ""
        directory = self

        class Handler(BaseHTTPRequestHandler):
            def do_GET(self) -> None:
                directory.send(self, b"")

            def do_POST(self) -> None:
                directory.send(self, self.rfile.read(int(self.headers["Content-Length"])))

            def log_message(self, *_: object) -> None:
                pass

        self._server = ThreadingHTTPServer(("127.0.0.1", 0), Handler)
        self._server.daemon_threads = True
        threading.Thread(target=self._server.serve_forever, args=(0.02,), daemon=True).start()
        self.url = f"http://127.0.0.1:{self._server.server_address[1]}"

    def commit(self, epoch: int, **keys: bytes) -> None:
        """Makes an epoch."""
        self.batches.append((epoch, keys))
        self.renew()

    def renew(self) -> None:
        """Makes all epochs of the batches again."""
        self.world = World(self.batches, policy=digest(self.policy))

    @property
    def latest(self) -> int:
        return self.batches[-1][0]

    def send(self, handler: BaseHTTPRequestHandler, body: bytes) -> None:
        self.requested.append(handler.path)
        parts = urlsplit(handler.path)
        query = {name: it[0] for name, it in parse_qs(parts.query).items()}
        lie, token = self.lies.get(parts.path), handler.headers["Authorization"]
        self.tokens += [parts.path] if token else []
        reply = (lie(query) if lie else None) or self.honest(parts.path, query, body)
        if parts.path in self.private and token != "Bearer a token":
            reply = Reply(b'{"detail":"only the owner"}', 403)
        handler.send_response(reply.status)
        for name, value in {**self.headers, **reply.headers}.items():
            handler.send_header(name, value)
        handler.end_headers()
        with suppress(OSError):
            handler.wfile.write(reply.body)

    def honest(self, path: str, query: Mapping[str, str], body: bytes) -> Reply:
        if path == "/v1/entries":
            later = [it for it in self.world.epochs if it > int(query["after"])]
            return Reply(b"".join(self.world[it] for it in later))
        if path == "/v1/lookup":
            return Reply(self.world.reply(query["name"], int(query.get("epoch", self.latest))))
        if path == "/v1/history":
            epochs = [it for it in self.world.epochs if int(query["first"]) <= it <= int(query["last"])]
            return Reply(self.world.history(query["name"], *epochs))
        if path == "/v1/operations":
            return self.operated(json.loads(body))
        return Reply(self.note) if path == "/v1/note" and self.note else Reply(b"", 404)

    def operated(self, operation: dict[str, Any]) -> Reply:
        self.operations.append(operation)
        if self.refusal:
            return Reply(json.dumps({"detail": self.refusal}).encode(), 403)
        if not self.commits:
            return Reply(b'{"state":"waiting"}', 202)
        self.commit(self.latest + 1, **{operation["name"]: base64.b64decode(operation["key"])})
        return Reply(json.dumps({"state": "stored", "epoch": self.latest, "entry": self.world[self.latest].hex()}).encode())

    def __exit__(self, *_: object) -> None:
        self._server.shutdown()
        self._server.server_close()
