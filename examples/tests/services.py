"""Runs examples/service as a process, and sends it requests. Each reply is compared with openapi.json."""

from __future__ import annotations

import base64
import hashlib
import http.client
import importlib
import json
import os
import re
import select
import signal
import socket
import subprocess
import time
from contextlib import suppress
from dataclasses import dataclass
from functools import lru_cache
from pathlib import Path
from typing import Any, Callable, Mapping, Optional, TypeVar
from urllib.parse import quote

TOP = Path(__file__).resolve().parents[2]
HOME = TOP / "examples/service"
PYTHON = "/usr/bin/python3"
TOKEN = "one token"
Result = TypeVar("Result")
OPENAPI: dict[str, Any] = json.loads((HOME / "openapi.json").read_text("utf-8"))


@dataclass(frozen=True)
class Answer:
    status: int
    headers: Mapping[str, str]
    body: bytes

    @property
    def json(self) -> Any:
        return json.loads(self.body)

    @property
    def fault(self) -> Optional[str]:
        found: Optional[str] = self.json.get("fault") if self.status >= 400 else None
        return found


def named(name: str) -> str:
    """The target of a lookup."""
    return "/v1/lookup?name=" + quote(name, safe="")


class Running:
    """A service over a directory in a folder, which can be ended and started again."""

    def __init__(self, room: Path, program: str, period: int = 1, place: tuple[str, ...] = ()):
        self.room, self._program, self.period = room, program, period
        self.place = place or ("--log", str(room / "log"), "--guard", str(room / "guard"))
        (room / "tokens").write_text(f"{hashlib.sha256(TOKEN.encode()).hexdigest()} *\n")
        self.errors = room / "errors"
        self.port = 0

    def _words(self, command: str) -> list[str]:
        keys = ["--keys", str(self.room / "keys"), "--program", self._program]
        return [PYTHON, str(HOME / "serve"), command, *keys, *self.place]

    def make(self, *options: str) -> None:
        more = ["--origin", "keys.example.com", "--period", str(self.period), *options]
        ran = subprocess.run([*self._words("make"), *more], capture_output=True, text=True)
        assert ran.returncode == 0, ran.stderr

    def start(self, *options: str, port: int = 0) -> None:
        """Starts the service, and waits until it takes requests, on a free port if none is given."""
        with socket.socket() as free:
            free.bind(("127.0.0.1", 0))
            self.port = port or free.getsockname()[1]
        words = [*self._words("run"), "--listen", f"127.0.0.1:{self.port}", "--tokens", str(self.room / "tokens"), *options]
        with open(self.errors, "ab") as errors:
            start = errors.tell()
            self.process = subprocess.Popen(words, stderr=errors, start_new_session=True)
        until(lambda: b'"serving"' in self.errors.read_bytes()[start:] or self.process.poll() is not None)
        assert self.process.poll() is None, self.errors.read_text()[-3000:]

    def end(self, number: int = signal.SIGTERM) -> int:
        self.process.send_signal(number)
        return self.process.wait(60)

    def lines(self) -> list[dict[str, Any]]:
        """What the service has logged."""
        return [json.loads(it) for it in self.errors.read_text().splitlines(keepends=True) if it.endswith("\n")]

    def connection(self) -> http.client.HTTPConnection:
        return http.client.HTTPConnection("127.0.0.1", self.port, timeout=60)

    def ask(self, target: str, method: str = "GET", body: Optional[bytes] = None, **headers: str) -> Answer:
        """A reply, which is one of openapi.json."""
        connection = self.connection()
        try:
            connection.request(method, target, body, {name.replace("_", "-"): it for name, it in headers.items()})
            found = connection.getresponse()
            answer = Answer(found.status, {name.lower(): it for name, it in found.getheaders()}, found.read())
        finally:
            connection.close()
        check_described(method, target, answer)
        return answer

    def get(self, target: str, **headers: str) -> Answer:
        """The reply to a GET. It is sent again if the service ended the connection before its head was there, as on a busy machine."""

        def replied() -> Optional[Answer]:
            with suppress(ConnectionResetError):
                return self.ask(target, "GET", None, **headers)
            return None

        return until(replied)

    def first(self) -> int:
        """The first epoch of the directory, which is that of the clock when it was made."""
        return int.from_bytes(self.get("/v1/entries").body[1:9], "big")

    def entry(self, epoch: int) -> bytes:
        """The entry of an epoch."""
        return self.get(f"/v1/entries?after={epoch - 1}").body[:209]

    def operate(self, op: str, name: str, key: bytes, **headers: str) -> Answer:
        body = json.dumps({"op": op, "name": name, "key": base64.b64encode(key).decode()}).encode()
        more = {"Content_Type": "application/json", "Authorization": f"Bearer {TOKEN}", "Prefer": "wait=15"}
        answer = self.ask("/v1/operations", "POST", body, **more | headers)
        return answer if "Prefer" in headers else self.decided(answer)

    def decided(self, answer: Answer) -> Answer:
        """What becomes of an operation that waits."""
        if answer.status != 202:
            return answer
        return until(
            lambda: it if (it := self.get(answer.headers["location"], Prefer="wait=15")).status not in (202, 503) else None
        )

    def resident(self) -> int:
        """The memory of the service in bytes."""
        pages = int(Path(f"/proc/{self.process.pid}/statm").read_text().split()[1])
        return pages * os.sysconf("SC_PAGE_SIZE")

    def send(self, *parts: bytes, pause: float = 0, seconds: float = 60) -> bytes:
        """Sends bytes as they are, and returns what comes until the service closes."""
        with socket.create_connection(("127.0.0.1", self.port), seconds) as connection:
            for part in parts:
                if not sent(connection, part):
                    break
                time.sleep(pause)
            return received(connection, seconds)


def sent(connection: socket.socket, part: bytes) -> bool:
    try:
        connection.sendall(part)
    except OSError:
        return False
    return True


def received_once(connection: socket.socket, seconds: float) -> bytes:
    """What comes next. Nothing if the other side closes, or if nothing comes for some seconds."""
    if not select.select([connection], [], [], seconds)[0]:
        return b""
    with suppress(OSError):
        return connection.recv(65536)
    return b""


def received(connection: socket.socket, seconds: float) -> bytes:
    """All that comes until then."""
    return b"".join(iter(lambda: received_once(connection, seconds), b""))


def until(call: Callable[[], Optional[Result]], seconds: float = 60) -> Result:
    """Waits until a call returns something true, and returns it."""
    end = time.monotonic() + seconds
    while not (found := call()) and time.monotonic() < end:
        time.sleep(0.05)
    assert found
    return found


@lru_cache(None)
def described(target: str) -> Optional[str]:
    """The path in openapi.json that has a target."""
    path = target.partition("?")[0]
    paths = {it: re.sub(r"\\\{.*?\\\}", "[^/]+", re.escape(it)) for it in OPENAPI["paths"]}
    return next((it for it, pattern in paths.items() if re.fullmatch(pattern, path)), None)


def resolved(it: dict[str, Any]) -> dict[str, Any]:
    """What a reference of openapi.json leads to."""
    while "$ref" in it:
        found: dict[str, Any] = OPENAPI
        for part in it["$ref"].split("/")[1:]:
            found = found[part]
        it = found
    return it


def check_described(method: str, target: str, answer: Answer) -> None:
    """Checks that openapi.json has a reply: its path, method, status, headers, type and members."""
    path = described(target)
    operations = OPENAPI["paths"].get(path, {})
    operation = operations.get("get" if method == "HEAD" else method.lower())
    if operation is None:
        wanted = {405, 429} if path else {404}
        assert answer.status in wanted and is_problem(answer, method), (method, target, answer)
        return
    reply = operation["responses"].get(str(answer.status))
    assert reply, f"openapi.json has no status {answer.status} for {method} {path}: {answer.body[:300]!r}"
    for name, header in reply.get("headers", {}).items():
        found = resolved(header)
        given = answer.headers.get(name.lower())
        assert given is not None or not found["required"], (target, name, answer.headers)
        assert given is None or re.search(found["schema"].get("pattern", ""), given), (target, name, given)
    check_content(reply, method, answer)


def check_content(reply: Mapping[str, Any], method: str, answer: Answer) -> None:
    assert answer.headers["x-content-type-options"] == "nosniff"
    kind = answer.headers.get("content-type", "").partition(";")[0]
    if "content" not in reply:
        assert answer.body == b"", answer
        return
    assert kind in reply["content"], (kind, reply["content"])
    if method != "HEAD" and kind.endswith("json"):
        check_members(answer.json, reply["content"][kind]["schema"])
    if answer.status >= 400:
        assert is_problem(answer, method), answer


def check_members(members: Any, schema: dict[str, Any]) -> None:
    """Checks what a JSON object has by its schema. Without jsonschema it checks nothing, and the test of the schemas is skipped."""
    with suppress(ImportError):
        validator: Any = importlib.import_module("jsonschema").Draft202012Validator
        validator({**schema, "components": OPENAPI["components"]}).validate(members)


def is_problem(answer: Answer, method: str = "GET") -> bool:
    if answer.headers["content-type"].partition(";")[0] != "application/problem+json":
        return False
    return method == "HEAD" or answer.json["status"] == answer.status
