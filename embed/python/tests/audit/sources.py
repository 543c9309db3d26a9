"""Services for auditors: each has entries of the second implementation's directories, and may lie."""

from __future__ import annotations

import socket
import threading
import time
from contextlib import AbstractContextManager, contextmanager, suppress
from http.server import BaseHTTPRequestHandler, ThreadingHTTPServer
from typing import Callable, Iterator, Optional, Sequence

from client_world import BATCHES, FIRST, World

WORLD = World(BATCHES)
# Directories under the same keys that part from it: by another entry of epoch 6, by a later key, and by other numbers.
FORKS = {
    "the last entry": World([*BATCHES[:4], (6, {"user3": b"other"}), (7, {})]),
    "an earlier entry": World([(1, FIRST), (2, {"carol": b"other"}), (3, {}), (5, {}), (6, {}), (7, {})]),
    "other numbers": World([*BATCHES[:3], (7, {"alice": b"other"})]),
    "another beginning": World([(4, {"alice": b"other"}), (9, {})]),
}


class Source(AbstractContextManager["Source"]):
    """A service on a port of its own. `entries` are what it has, and `page` what it sends in their place if it is there. `succession` is
    what it shows of the directory's end, under whatever digest, and `status` its status."""

    def __init__(self, entries: Sequence[bytes]):
        self.entries, self.note = list(entries), b""
        self.succession, self.status = b"", 200
        self.page: Optional[Callable[[int], Optional[bytes]]] = None
        self.requested: list[str] = []
        source = self

        class Handler(BaseHTTPRequestHandler):
            def do_GET(self) -> None:
                source.requested.append(self.path)
                body = source.body(self.path)
                self.send_response(source.status_of(self.path, body))
                self.end_headers()
                self.wfile.write(body or b"")

            def log_message(self, *_: object) -> None:
                pass

        self._server = ThreadingHTTPServer(("127.0.0.1", 0), Handler)
        threading.Thread(target=self._server.serve_forever, args=(0.02,), daemon=True).start()
        self.url = f"http://127.0.0.1:{self._server.server_address[1]}"

    def status_of(self, path: str, body: Optional[bytes]) -> int:
        if path.startswith("/v1/succession?policy="):
            return self.status if body else 404
        return 200 if body is not None else 500

    def body(self, path: str) -> Optional[bytes]:
        if path == "/v1/note":
            return self.note or None
        if path.startswith("/v1/succession?policy="):
            return self.succession
        after = int(path.partition("after=")[2].partition("&")[0])
        if self.page:
            return self.page(after)
        return b"".join(it for it in self.entries if int.from_bytes(it[1:9], "big") > after)

    def __exit__(self, *_: object) -> None:
        self._server.shutdown()
        self._server.server_close()


@contextmanager
def dripping(head: bytes) -> Iterator[str]:
    """The URL of a server that begins a reply with a head, and then sends a byte now and then."""
    with socket.create_server(("127.0.0.1", 0)) as server:
        threading.Thread(target=_drip, args=(server, head), daemon=True).start()
        yield f"http://127.0.0.1:{server.getsockname()[1]}"


def _drip(server: socket.socket, head: bytes) -> None:
    connection, _ = server.accept()
    with suppress(OSError), connection:
        connection.sendall(head)
        while True:
            connection.sendall(b"x")
            time.sleep(0.1)
