"""A directory that is operated for a year by the steps of RUNBOOK.md alone, by a clock that the test drives: an epoch lasts an hour.

The default year is shorter, with all that happens in one. `--days 365` is a whole one.
"""

from __future__ import annotations

import base64
import ctypes
import http.client
import json
import socket
import time
from concurrent.futures import ThreadPoolExecutor
from contextlib import suppress
from pathlib import Path
from typing import Callable, Iterator, Mapping, Optional

import pytest

pytest.importorskip("aiohttp")
pytest.importorskip("nacl.signing")

from coniks import Policy
from coniks.client import Client
from machines import SHARED, Machine
from services import until
from test_runbook import SERVICE, block, blocks, checkout, replaced, shared

__all__ = ["checkout", "shared"]

# Has all programs in Python of a machine read the clock of the test.
CLOCK = f"""
import time
def now():
    with open("{SHARED}/clock") as file:
        return float(file.read())
time.time = now
"""
HOUR, DAY = 3600, 24
# What waits for the clock looks at it more often, since its hours are short.
PAUSES = {
    "collecting.py": ("_PAUSE, _LONGEST_PAUSE = 0.3, 5", "_PAUSE, _LONGEST_PAUSE = 0.01, 1"),
    "stapling.py": ("_PAUSE, _LONGEST = 3.0", "_PAUSE, _LONGEST = 0.2"),
}
AUDITORS = (1, 2, 3)
KILL = "systemctl kill --signal SIGKILL --kill-who main coniks-directory; sleep 0.2"


class Clock:
    """The time in seconds, which all machines have. It goes on by whole hours."""

    def __init__(self, folder: Path):
        self._file, self._next = folder / "clock", folder / "clock.next"
        self.now = int(time.time()) // HOUR * HOUR + 10
        self.add(0)

    def add(self, hours: int) -> None:
        self.now += hours * HOUR
        self._next.write_text(str(self.now))
        self._next.chmod(0o644)
        self._next.rename(self._file)


def connected(machine: Machine) -> socket.socket:
    """A connection to the service, made in the network of a machine."""

    def connect() -> socket.socket:
        with open(machine.root.parent / "ns/net") as network:
            assert ctypes.CDLL(None).setns(network.fileno(), 0) == 0
        return socket.create_connection(("127.0.0.1", 8080), 30)

    # The thread stays in that network, and ends.
    with ThreadPoolExecutor(1) as thread:
        return thread.submit(connect).result()


class Year:
    """The directory, at the machine that has it now, its users, and what they were told is stored."""

    def __init__(self, room: Path, checkout: Path, shared: Path):
        self._room, self._checkout, self._shared, self._count = room, checkout, shared, 0
        shared.chmod(0o755)
        (shared / "sitecustomize.py").write_text(CLOCK)
        self.clock, self.stored, self.version = Clock(shared), dict[str, bytes](), 0
        self._start = self.clock.now // HOUR
        self._connection: Optional[http.client.HTTPConnection] = None
        # Users and auditors have one machine, and the directory another one in the same network.
        self.users = self._begun()
        self.machine = self._begun()

    def _begun(self) -> Machine:
        """Another machine, with a small disk for the log."""
        self._count += 1
        network = self.users if self._count > 1 else None
        made = Machine(self._room / f"machine{self._count}", self._checkout, self._shared, network)
        made.do(f"install -m 0644 -T {SHARED}/sitecustomize.py /etc/python3.11/sitecustomize.py")
        made.do("mkdir /var/lib/coniks; mount -t tmpfs -o size=64m tmpfs /var/lib/coniks")
        return made

    def end(self) -> None:
        for it in (self.users, self.machine):
            it.end()

    def make(self, saved: int) -> None:
        """Makes the directory, three auditors, and two users."""
        self.do("Install")
        # All that happens in an hour happens in some milliseconds, at one address.
        self.machine.do("sed -i 's/$/ --rate 1000000/' /etc/coniks/options")
        self.do("Make the directory", given={"--kept 7776000": f"--kept {saved}"})
        self.do("Make the directory", 1)
        self.token = self.do("Tokens", given={"alice\\n": "*\\n"}).strip()
        self.machine.do(f"install -m 0644 /etc/coniks/keys/policy {SHARED}")
        self.users.do(f"useradd --create-home client; scripts/install /usr/local; install -m 0644 {SHARED}/policy /home/client")
        for number in AUDITORS:
            self._audit(number)
        self.until_confirmed()
        auditors = " ".join(f"--auditor {self._auditor(it)}" for it in AUDITORS)
        for name in ("alice", "bob"):
            self.user(
                f"echo {self.token} > token; coniks-client begin --state {name} --service {SERVICE} --policy policy {auditors} --token token"
            )

    def _audit(self, number: int) -> None:
        """Starts an auditor, as a user's process: the runbook's own test has its unit."""
        home, name = f"/home/client/audit{number}", f"audit{number}.example.org"
        self.user(f"mkdir {home}; coniks-audit --name {name} --new-key {home}/key > {home}/verifier")
        options = f"--service {SERVICE} --policy policy --folder {home} --listen 127.0.0.1:808{number} --interval 0.2"
        self.user(f"setsid coniks-audit --name {name} --key {home}/key {options} > {home}/said 2>&1 < /dev/null &")
        until(lambda: self.users.run(f"test -f {home}/note").returncode == 0)
        url, key = self._auditor(number).split()
        self.do("Add and retire an auditor", 0, {"https://audit.example.org": url, "audit.example.org+..": key})
        self.wait()

    def _auditor(self, number: int) -> str:
        """The URL and the verifier key of an auditor."""
        return f"http://127.0.0.1:808{number} " + self.user(f"cat audit{number}/verifier").strip()

    # What it is asked.

    def do(self, section: str, number: int = 0, given: Mapping[str, str] = {}) -> str:
        """Runs a block of a section of the runbook at the machine."""
        return self.machine.do(block(section, number, given))

    def user(self, words: str, status: int = 0) -> str:
        """What a command prints to a user, with this status."""
        ran = self.users.run(f"export HOME=/home/client; cd /home/client; {words}", "client")
        assert ran.returncode == status, f"{words}: {ran.returncode}\n{ran.stdout}{ran.stderr}{self.machine.printed()}"
        return ran.stdout

    def ask(self, method: str, target: str, body: Optional[bytes] = None, **headers: str) -> tuple[int, bytes]:
        """The status and the body of a reply. A connection that the service has ended meanwhile is made anew, once."""
        for is_last in (False, True):
            try:
                if self._connection is None:
                    self._connection = http.client.HTTPConnection("127.0.0.1")
                    self._connection.sock = connected(self.users)
                self._connection.request(method, target, body, {name.replace("_", "-"): it for name, it in headers.items()})
                found = self._connection.getresponse()
                return found.status, found.read()
            except (OSError, http.client.HTTPException):
                self._connection = None
                if is_last:
                    raise
        raise AssertionError

    def got(self, target: str) -> bytes:
        """The body of a reply with status 200, nothing if there is none."""
        with suppress(OSError, http.client.HTTPException):
            status, body = self.ask("GET", target)
            return body if status == 200 else b""
        return b""

    def epoch(self) -> int:
        """The latest epoch, 0 while the service is away."""
        return int(json.loads(self.got("/v1/head") or b'{"epoch":0}')["epoch"])

    def wait(self) -> None:
        """Waits until the service has the epoch of the clock."""
        until(lambda: self.epoch() >= self.clock.now // HOUR - self._start + 1)

    def until_confirmed(self) -> None:
        """Waits until each auditor has the latest epoch."""
        epoch = self.epoch()
        seen = "for note in audit*/note; do sed -n 2p $note; done"
        until(lambda: all(int(it) >= epoch for it in self.user(seen).split()))

    def register(self) -> bool:
        """Registers a name. Whether the service says that the operation is stored."""
        name = f"name{len(self.stored)}"
        key = f"key of {name}".encode()
        body = json.dumps({"op": "register", "name": name, "key": base64.b64encode(key).decode()}).encode()
        headers = {"Authorization": f"Bearer {self.token}", "Content_Type": "application/json"}
        status, _ = self.ask("POST", "/v1/operations", body, **headers)
        if status == 202:
            self.stored[name] = key
        return status == 202

    # What happens.

    def hours(self, count: int, names: int = 0) -> None:
        """Lets hours pass, in the first of which names are registered."""
        for number in range(count):
            assert number >= names or self.register()
            self.clock.add(1)
            self.wait()

    def meanwhile(self, words: str) -> str:
        """What a user's command prints that waits for epochs."""
        with ThreadPoolExecutor(1) as thread:
            ran = thread.submit(self.user, words)
            while not ran.done():
                time.sleep(0.3)
                self.hours(1)
            return ran.result()

    def day(self) -> None:
        """A day on which nothing happens."""
        self.hours(DAY, names=2)
        self.until_confirmed()
        assert "has your key" in self.user("coniks-client watch --state alice")

    def look(self) -> None:
        """A friend looks the name up now and then."""
        assert '"alice" has the key' in self.user("coniks-client lookup --state bob alice")

    def change(self) -> None:
        self.meanwhile("coniks-client register --state alice alice 'the second key'")

    def restore(self) -> None:
        """The disk of the log is lost just after a backup."""
        self.do("Back up and restore")
        self.machine.do(f"{KILL}; shred -n 1 /var/lib/coniks/names.log")
        self.do("Back up and restore", 2)
        self.wait()

    def restore_old(self) -> None:
        """A backup lacks the latest epochs, and the damaged disk has them."""
        self.do("Back up and restore")
        self.hours(2, names=1)
        self.machine.do("rm -rf /root/damaged")
        self.do("Back up and restore", 2)
        until(lambda: "LogBehind" in self.machine.printed())
        self.machine.do("cp /root/damaged/names.log* /root/backup/")
        self.do("Back up and restore", 2)
        self.wait()

    def lose_guard(self) -> None:
        """The disk of the guard is lost. Lookups go on, and what is requested meanwhile waits until another record begins."""
        self.machine.do(f"{KILL}; rm /var/lib/coniks-guard/*; systemctl start coniks-directory")
        epoch = until(self.epoch)
        assert self.register()
        self.clock.add(1)
        until(lambda: "serve adopt" in self.machine.printed())
        assert self.epoch() == epoch and self.got("/v1/lookup?name=name0")
        seen = int(self.users.do(block("A lost record of the guard")))
        self.do("A lost record of the guard", 1, {"latest=..": f"latest={max(seen, epoch)}"})
        self.wait()

    def fill_disk(self) -> None:
        """While the disk is full nothing is committed, and nothing is lost that was stored before."""
        assert self.register()
        self.machine.do("fallocate -l $(df --output=avail -B1 /var/lib/coniks | tail -n 1) /var/lib/coniks/other")
        self.clock.add(1)
        until(lambda: b"\nconiks_commit_failures 0.0" not in (self.got("/metrics") or b"\nconiks_commit_failures 0.0"))
        assert not self.register() and self.got("/v1/lookup?name=name0")
        self.machine.do("rm /var/lib/coniks/other")
        self.wait()

    def compact(self) -> None:
        """Old epochs are forgotten, and then old lines are dropped."""
        printed = self.machine.root / "var/log/coniks-directory"
        before = printed.read_text().count('"event": "compact"')
        self.do("Compact")
        until(lambda: printed.read_text().count('"event": "compact"') > before)
        self.do("Back up and restore")
        self.do("Drop log lines")
        self.wait()

    def upgrade(self) -> None:
        """Each version is beside the one before. The second one is taken back."""
        self.version += 1
        self.do("Upgrade and roll back", 0, {"version=1.1.0": f"version=1.{self.version}.0"})
        self.wait()
        if self.version == 2:
            self.do("Upgrade and roll back", 1, {"zenithlamb-1.0.0": "zenithlamb-1.1.0"})
            self.wait()

    def move(self) -> None:
        """Another machine goes on, and the old one is gone."""
        old, self.machine = self.machine, self._begun()
        out, into = blocks("Move to another machine")
        self.do("Install")
        old.do(out)
        old.do(f"mv /root/coniks.tar.gz {SHARED}")
        self.machine.do(f"mv {SHARED}/coniks.tar.gz /root/")
        self.machine.do(into)
        old.end()
        self.version = 0
        self.wait()

    def retire(self) -> None:
        """Users and the service do without the third auditor."""
        url, _ = self._auditor(3).split()
        given = {"https://audit.example.org": url}
        command = replaced(blocks("Add and retire an auditor")[2], given)
        for name in ("alice", "bob"):
            self.user(command.replace("coniks-client set", f"coniks-client set --state {name}"))
        self.do("Add and retire an auditor", 3, given)
        its = "'[a]udit3.example.org'"
        self.user(f"pkill -f {its}; while pgrep -f {its} > ended; do sleep 0.05; done; rm -r audit3")
        self.wait()

    # What is so at the end.

    def check(self) -> None:
        """One chain has all that was stored, and nobody has an alarm."""
        policy = Policy.read((self._shared / "policy").read_bytes())
        client, last = Client(policy.signing_key, policy.vrf_key, policy), 0
        while page := self.got(f"/v1/entries?after={last}"):
            client.feed(page)
            last = int.from_bytes(page[-208:-200], "big")
        assert last == self.clock.now // HOUR - self._start + 1
        for name, key in self.stored.items():
            reply = self.got(f"/v1/lookup?name={name}")
            assert client.lookup(name, reply, int.from_bytes(reply[2:10], "big")).key == key, name
        assert self.user("find . -name 'alarm*'") == ""
        for name in ("alice", "bob"):
            self.user(f"coniks-client compare --state {name}; coniks-client evidence --state {name}")
        assert 'has your key "the second key"' in self.user("coniks-client watch --state alice")


def events(year: Year, months: int) -> Iterator[tuple[float, Callable[[], None]]]:
    """What happens in a year of so many months, and when, in parts of it."""
    for month in range(months):
        yield from [((month + 0.4) / months, year.look), ((month + 0.5) / months, year.compact)]
    yield from ((it / 4 + 0.02, year.fill_disk) for it in range(4))
    yield from [(0.1, year.restore), (0.36, year.restore_old), (0.6, year.restore), (0.9, year.restore)]
    yield from [(0.16, year.upgrade), (0.18, year.upgrade), (0.8, year.upgrade)]
    yield from [(0.3, year.move), (0.65, year.move)]
    yield from [(0.4, year.change), (0.5, year.retire), (0.7, year.lose_guard)]


@pytest.fixture
def year(checkout: Path, shared: Path, tmp_path: Path) -> Iterator[Year]:
    for name, (old, new) in PAUSES.items():
        file = checkout / "examples/service" / name
        file.write_text(replaced(file.read_text("utf-8"), {old: new}))
    made = Year(tmp_path, checkout, shared)
    yield made
    made.end()


def test_year(year: Year, request: pytest.FixtureRequest) -> None:
    days = request.config.getoption("days")
    # The owner's client looks once a day, and what happens takes hours: proofs are promised for longer.
    year.make(max(days, 6) * DAY * HOUR // 4)
    year.meanwhile("coniks-client register --state alice alice 'the first key'")
    waiting = sorted(events(year, 12 if days >= 48 else 4), key=lambda it: it[0])
    for day in range(days):
        while waiting and waiting[0][0] * days < day + 1:
            waiting.pop(0)[1]()
        year.day()
    assert not waiting and len(year.stored) >= 2 * days
    year.check()
