"""A private PostgreSQL: a folder, a Unix socket, no port. It takes the programs of Debian's package."""

from __future__ import annotations

import os
import shutil
import signal
import subprocess
import time
from contextlib import AbstractContextManager, suppress
from pathlib import Path
from typing import Any, Callable

import psycopg

# PostgreSQL refuses to run as root: Debian's package makes this user.
USER = "postgres"
OPTIONS = ["-c", "listen_addresses=", "-c", "unix_socket_permissions=0700", "-c", "shared_buffers=16MB"]


def soon(call: Callable[[], object], seconds: float = 20) -> bool:
    """Waits until a call returns something true. Returns whether it did."""
    until = time.monotonic() + seconds
    while not (is_so := bool(call())) and time.monotonic() < until:
        time.sleep(0.005)
    return is_so


def runs(process: str) -> bool:
    """Whether a process has not ended."""
    with suppress(FileNotFoundError, ProcessLookupError):
        return Path(f"/proc/{process}/stat").read_text().rpartition(")")[2].split()[0] != "Z"
    return False


class Database(AbstractContextManager["Database"]):
    """A PostgreSQL in an empty folder, which can be killed and started again. Only its user and root reach the socket."""

    def __init__(self, folder: Path):
        self._programs = sorted(Path("/usr/lib/postgresql").glob("*/bin"))[-1]
        self._as: dict[str, Any] = {"user": USER, "group": USER, "extra_groups": []} if os.geteuid() == 0 else {}
        self.folder, self.conninfo = folder, f"host={folder} dbname=postgres user={USER}"
        if self._as:
            shutil.chown(folder, USER, USER)
        self._begin("initdb", "--no-sync", "--auth=trust", f"--username={USER}", "--wal-segsize=1", "--locale=C", "data").wait()
        self.start()

    def _begin(self, program: str, *words: str) -> subprocess.Popen[bytes]:
        # It ends when this process does, even if that is killed.
        whole = ["setpriv", "--pdeathsig=QUIT", f"{self._programs}/{program}", *words]
        with open(self.folder / "said", "ab") as reply:
            return subprocess.Popen(whole, stdout=reply, stderr=reply, cwd=self.folder, start_new_session=True, **self._as)

    def start(self) -> None:
        """Starts PostgreSQL, and waits until it answers."""
        self._server = self._begin("postgres", "-D", "data", "-k", str(self.folder), *OPTIONS)
        soon(lambda: self._begin("pg_isready", "--quiet", f"--host={self.folder}").wait() == 0 or not self.is_running(), 60)
        if not self.is_running():
            raise ChildProcessError(f"PostgreSQL ended: {(self.folder / 'reply').read_text()[-2000:]}")

    def execute(self, query: str) -> list[Any]:
        """Executes a query, and returns its rows."""
        with psycopg.connect(self.conninfo, autocommit=True) as connection:
            cursor = connection.execute(query)
            return cursor.fetchall() if cursor.description else []

    def is_running(self) -> bool:
        return self._server.poll() is None

    def send(self, number: int) -> list[str]:
        """Sends a signal to the processes that the server started, and returns their numbers."""
        started: list[str] = []
        with suppress(FileNotFoundError):
            started = Path(f"/proc/{self._server.pid}/task/{self._server.pid}/children").read_text().split()
        for it in started:
            with suppress(ProcessLookupError):
                os.kill(int(it), number)
        return started

    def kill(self) -> None:
        """Kills the server and the processes that it started, as a crash of its machine does, and waits until they have ended."""
        # It starts no other one meanwhile.
        self._server.send_signal(signal.SIGSTOP)
        killed = self.send(signal.SIGKILL)
        self._server.kill()
        self._server.wait()
        soon(lambda: not any(map(runs, killed)), 60)

    def stop(self) -> None:
        """Stops the server and the processes that it started, until `go_on`. It accepts connections, and answers none."""
        self._server.send_signal(signal.SIGSTOP)
        self.send(signal.SIGSTOP)

    def go_on(self) -> None:
        self.send(signal.SIGCONT)
        self._server.send_signal(signal.SIGCONT)

    def __exit__(self, *_: object) -> None:
        self.kill()
