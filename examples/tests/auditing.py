"""Runs coniks-audit beside a service."""

from __future__ import annotations

import socket
import subprocess
from pathlib import Path

from coniks.notes import Auditor
from services import PYTHON, Running


class Auditing:
    """An auditor as a process, with its folder."""

    def __init__(self, room: Path, number: int):
        self.home, self.name = room / f"auditor{number}", f"audit{number}.example.org"
        (self.home / "audit").mkdir(parents=True)
        with socket.socket() as free:
            free.bind(("127.0.0.1", 0))
            self.port = free.getsockname()[1]
        self.url = f"http://127.0.0.1:{self.port}"
        self.key = Auditor.read(self._ran("--new-key", str(self.home / "key")).strip())

    def _ran(self, *words: str) -> str:
        return subprocess.run([PYTHON, "-m", "coniks.audit", "--name", self.name, *words], capture_output=True, text=True).stdout

    def start(self, service: Running, peers: list[Auditing]) -> None:
        self._start(service, "audit", [word for it in peers for word in ("--peer", it.url, str(it.key))])

    def go_on(self, service: Running) -> None:
        """Goes on in the directory that its own one's succession names."""
        (self.home / "next").mkdir()
        self._start(service, "next", ["--before", str(self.home / "audit")])

    def _start(self, service: Running, folder: str, more: list[str]) -> None:
        (self.home / "policy").write_bytes(service.get("/v1/policy").body)
        files = ["--policy", str(self.home / "policy"), "--folder", str(self.home / folder), "--key", str(self.home / "key")]
        words = ["--service", f"http://127.0.0.1:{service.port}", "--listen", f"127.0.0.1:{self.port}", "--interval", "0.3"]
        command = [PYTHON, "-m", "coniks.audit", "--name", self.name, *files, *words, *more]
        self.process = subprocess.Popen(command, stderr=subprocess.DEVNULL)

    def alarms(self) -> list[str]:
        return [it.name for it in (self.home / "audit").glob("alarm*")]
