"""What RUNBOOK.md has operators do, on machines of their own: the commands of its blocks as they are, but for the placeholders.

No systemd runs there: examples/tests/systemctl starts the units. `apt-get` does nothing. An epoch lasts two seconds.
"""

from __future__ import annotations

import base64
import json
import re
import shutil
from pathlib import Path
from typing import Iterator, Mapping, Optional

import pytest

pytest.importorskip("aiohttp")
pytest.importorskip("nacl.signing")

import machines
import tools
from checkouts import TOP, copied, put_archive, put_program
from machines import SHARED, Machine
from services import HOME, until

TEXT = (HOME / "RUNBOOK.md").read_text("utf-8")
SERVICE = "http://127.0.0.1:8080"
PERIOD = {"--period 3600 --kept 7776000": "--period 2 --kept 6"}

# How many blocks each section has that are run here.
RUN = {
    "Install": 1,
    "Make the directory": 4,
    "Tokens": 2,
    "Compact": 1,
    "Back up and restore": 3,
    "Drop log lines": 1,
    "Move to another machine": 2,
    "Upgrade and roll back": 2,
    "Install an auditor": 2,
    "Add and retire an auditor": 4,
    "A lost record of the guard": 2,
    "A user has lost her secret key": 5,
    "Go on in another directory": 4,
}
# test_service_operation.py has that.
RUN_ELSEWHERE = {"Take over": 1}


def blocks(section: str) -> list[str]:
    """The blocks of a section."""
    text = TEXT.partition(f"\n## {section}\n")[2].partition("\n## ")[0]
    return [re.sub("^    ", "", it, flags=re.M) for it in re.findall(r"(?:^    .*\n)+", text, re.M)]


def replaced(text: str, given: Mapping[str, str]) -> str:
    """A block with what is given in place of its placeholders."""
    for old, new in given.items():
        assert old in text, f"{old} is not in\n{text}"
        text = text.replace(old, new)
    return text


def block(section: str, number: int = 0, given: Optional[Mapping[str, str]] = None) -> str:
    """A block of a section with what is given in place of its placeholders."""
    return replaced(blocks(section)[number], given or {})


def test_there_are_no_other_blocks() -> None:
    sections = re.findall(r"^## (.*)$", TEXT, re.M)
    assert {it: len(found) for it in sections if (found := blocks(it))} == {**RUN, **RUN_ELSEWHERE}


@pytest.fixture(scope="module")
def checkout(packages: None, program: str, keydir: str, tmp_path_factory: pytest.TempPathFactory) -> Path:
    """A copy of the checkout in which the programs and the library for C are built."""
    if why := machines.missing():
        pytest.skip(why)
    room = tmp_path_factory.mktemp("checkout")
    copied(room)
    put_program(room, "provider", Path(program))
    put_program(room, "keydir", Path(keydir))
    shutil.copytree(TOP / "embed/out", room / "embed/out")
    put_archive(room)
    return room


@pytest.fixture(scope="module")
def shared(tmp_path_factory: pytest.TempPathFactory) -> Path:
    return tmp_path_factory.mktemp("shared")


@pytest.fixture(scope="module")
def machine(checkout: Path, shared: Path, tmp_path_factory: pytest.TempPathFactory) -> Iterator[Machine]:
    """A machine whose service runs, before and after each test."""
    made = Machine(tmp_path_factory.mktemp("one") / "machine", checkout, shared)
    try:
        made.do(block("Install"))
        successor = made.do(block("Make the directory", 1)).strip()
        made.do(block("Make the directory", 0, {**PERIOD, "successor=none": f"successor={successor}"}))
        made.do(block("Make the directory", 2))
        yield made
    finally:
        made.end()


def wait(machine: Machine) -> None:
    """Waits until the service takes requests."""
    until(lambda: machine.run(f"curl -fs {SERVICE}/readyz").returncode == 0)


def lookup(machine: Machine, name: str) -> bytes:
    return base64.b64decode(machine.do(f"curl -fsS '{SERVICE}/v1/lookup?name={name}' | base64"))


def operate(machine: Machine, op: str, key: bytes, token: str, name: str = "alice", wait: int = 20) -> str:
    """The status of an operation, after at most some seconds."""
    body = json.dumps({"op": op, "name": name, "key": base64.b64encode(key).decode()})
    headers = f"-H 'Authorization: Bearer {token}' -H 'Content-Type: application/json' -H 'Prefer: wait={wait}'"
    return machine.do(f"curl -s -o /dev/null -w '%{{http_code}}' {headers} -d '{body}' {SERVICE}/v1/operations")


@pytest.fixture(scope="module")
def token(machine: Machine) -> str:
    """A token of alice, whose key is b"first"."""
    found = machine.do(block("Tokens")).strip()
    assert operate(machine, "register", b"first", found) == "200"
    return found


def test_install(machine: Machine) -> None:
    """The service runs as its user, nothing belongs to root that it writes, and nobody else reads what is secret."""
    assert machine.do("ps -o user= -C provider").split() == ["coniks"]
    assert machine.do("find /var/lib/coniks /var/lib/coniks-guard ! -user coniks") == ""
    assert machine.do("find /etc/coniks -user coniks") == ""
    for place in ["/etc/coniks/tokens", "/etc/coniks/keys/signing.key", "/var/lib/coniks/names.log", "/root/keys/signing.key"]:
        assert machine.run(f"cat {place}", "nobody").returncode, place
        machine.do(f"cat {place} > /dev/null")
    assert machine.run("cat /etc/coniks/keys/signing.key", "coniks").returncode
    assert machine.run("touch /opt/zenithlamb/examples/service/serve", "coniks").returncode


def test_proxy(machine: Machine) -> None:
    if not tools.has("nginx"):
        pytest.skip("nginx is missing")
    certificate = "openssl req -x509 -newkey ec -pkeyopt ec_paramgen_curve:P-256 -nodes -days 1 -subj /CN=keys.example.com"
    machine.do(f"mkdir -p /etc/ssl/coniks; cd /etc/ssl/coniks; {certificate} -keyout privkey.pem -out fullchain.pem")
    machine.do(block("Make the directory", 3))
    requested = "curl -sk --resolve keys.example.com:443:127.0.0.1 -w '%{http_code}' -o /dev/null https://keys.example.com"
    assert [machine.do(f"{requested}{it}") for it in ("/v1/policy", "/v1/entries", "/metrics")] == ["200", "200", "404"]


def test_tokens(machine: Machine, token: str) -> None:
    """A token counts until it is revoked, without a restart, and those of others stay."""
    bob = machine.do(block("Tokens", 0, {"alice\\n": "bob\\n"})).strip()
    assert operate(machine, "register", b"key", bob, "bob") == "200"
    assert operate(machine, "change", b"other", bob, "alice") == "403"
    machine.do(block("Tokens", 1, {" alice$": " bob$"}))
    assert operate(machine, "change", b"other", bob, "bob") == "403"
    assert operate(machine, "change", b"other", token) == "200"
    assert machine.do("stat -c '%A %U %G' /etc/coniks/tokens") == "-rw-r----- root coniks\n"


def compact(machine: Machine) -> None:
    """Compacts when there is an epoch to forget."""
    printed = machine.root / "var/log/coniks-directory"
    before = printed.read_text().count('"event": "compact"')
    machine.do(block("Compact"))
    until(lambda: printed.read_text().count('"event": "compact"') > before)


def test_back_up_and_restore(machine: Machine, token: str) -> None:
    """What is restored is the directory, also if a line was dropped and the disk is empty. The record of the guard stays as it is."""
    key = lookup(machine, "alice")[-5:]
    compact(machine)
    machine.do(block("Back up and restore"))
    machine.do("systemctl stop coniks-directory")
    machine.do(block("Back up and restore"))
    reported = json.loads(machine.do(block("Back up and restore", 1)))
    assert reported["ok"] == "replay" and reported["names"] >= 1, reported
    entries = machine.do("sha256sum < /var/lib/coniks/names.log")
    record = machine.do("cat /var/lib/coniks-guard/names.guard")
    machine.do("shred -n 1 /var/lib/coniks/names.log")
    machine.do(block("Back up and restore", 2))
    assert machine.do("sha256sum < /root/backup/names.log") == entries
    wait(machine)
    assert lookup(machine, "alice").endswith(key)
    until(lambda: machine.do("cat /var/lib/coniks-guard/names.guard") != record)
    assert machine.do("find /var/lib/coniks ! -user coniks -o -name 'names.log*' -perm /077") == ""


def test_old_backup(machine: Machine, token: str) -> None:
    """A copy that lacks signed epochs is refused, and the way out is the damaged folder's log."""
    machine.do(block("Back up and restore"))
    assert operate(machine, "change", b"other", token) == "200"
    machine.do("rm -rf /root/damaged")
    machine.do(block("Back up and restore", 2))
    until(lambda: "LogBehind" in machine.do("tail -n 1 /var/log/coniks-directory"))
    machine.do("cp /root/damaged/names.log* /root/backup/; rm -r /root/damaged")
    machine.do(block("Back up and restore", 2))
    wait(machine)
    assert lookup(machine, "alice").endswith(b"other")


def test_drop(machine: Machine, token: str) -> None:
    """The log is smaller, and is that of the same directory, with its first entry."""
    key = lookup(machine, "alice")[-5:]
    first = machine.do(f"curl -fsS {SERVICE}/v1/entries | head -c 209 | sha256sum")
    compact(machine)
    machine.do(block("Back up and restore"))
    size = int(machine.do("stat -c %s /root/backup/names.log"))
    machine.do(block("Drop log lines"))
    wait(machine)
    assert int(machine.do("stat -c %s /var/lib/coniks/names.log")) < size
    assert machine.do("find /var/lib/coniks ! -user coniks") == ""
    assert machine.do(f"curl -fsS {SERVICE}/v1/entries | head -c 209 | sha256sum") == first
    assert lookup(machine, "alice").endswith(key)


def test_upgrade(machine: Machine, token: str) -> None:
    """The files of the new version come beside those that run, and a way back is there."""
    running = "readlink /proc/$(pidof provider)/exe"
    assert machine.do(running) == "/opt/zenithlamb-1.0.0/crates/provider/out/provider\n"
    machine.do(block("Upgrade and roll back"))
    wait(machine)
    assert machine.do(running) == "/opt/zenithlamb-1.1.0/crates/provider/out/provider\n"
    assert machine.run("cat /opt/zenithlamb-1.1.0/examples/service/serve", "nobody").returncode == 0
    machine.do(block("Upgrade and roll back", 1))
    wait(machine)
    assert machine.do(running) == "/opt/zenithlamb-1.0.0/crates/provider/out/provider\n"
    assert machine.do("find /var/lib/coniks /var/lib/coniks-guard ! -user coniks") == ""


def test_move(machine: Machine, token: str, checkout: Path, shared: Path, tmp_path: Path) -> None:
    """The directory goes on at another machine, whose users have other numbers, and the old one signs nothing."""
    out, into = blocks("Move to another machine")
    other = Machine(tmp_path / "machine", checkout, shared)
    try:
        other.do("useradd --system another")
        other.do(block("Install"))
        operate(machine, "change", b"waits", token, wait=0)
        machine.do(out)
        machine.do(f"mv /root/coniks.tar.gz {SHARED}")
        other.do(f"mv {SHARED}/coniks.tar.gz /root/")
        other.do(into)
        wait(other)
        until(lambda: lookup(other, "alice").endswith(b"waits"))
        assert operate(other, "change", b"moved", token) == "200"
        assert lookup(other, "alice").endswith(b"moved")
        assert other.do("find /var/lib/coniks /var/lib/coniks-guard ! -user coniks") == ""
        assert other.do("stat -c '%A %U %G' /etc/coniks/tokens") == "-rw-r----- root coniks\n"
        other.do("systemctl stop coniks-directory; tar -C / -cf - var/lib/coniks var/lib/coniks-guard > /srv/shared/back.tar")
    finally:
        other.end()
    machine.do("rm /var/log/coniks-directory; systemctl start coniks-directory")
    until(lambda: '"commit failed"' in machine.do("cat /var/log/coniks-directory"))
    assert machine.do("ls /var/lib/coniks-guard") == ""
    machine.do("systemctl stop coniks-directory; rm -r /var/lib/coniks /var/lib/coniks-guard")
    machine.do(
        f"tar -C / -xf {SHARED}/back.tar; chown -R coniks: /var/lib/coniks /var/lib/coniks-guard; systemctl start coniks-directory"
    )
    wait(machine)


# A slow machine makes an epoch late: then a client says so, and is asked again. `begin` has begun by then.
AGAIN = """
coniks-client() {
    local said status
    while said=$(command coniks-client "$@") && status=0 || status=$?; [[ $said == *"too old by the policy's clock"* ]]; do
        [ "$1" != begin ] || return 0
        sleep 0.5
    done
    echo "$said"
    return "$status"
}
"""


def client(machine: Machine, words: str, status: int = 0) -> str:
    """What commands print to the user."""
    ran = machine.run(f"export HOME=/home/client; cd /home/client; {AGAIN}{words}", "client")
    assert ran.returncode == status, ran.stdout + ran.stderr + machine.printed()
    return ran.stdout


@pytest.fixture(scope="module")
def user(machine: Machine, auditor: str) -> str:
    """A user with the policy document, in whose home clients and other auditors are, and the options by which both name the directory."""
    machine.do("useradd --create-home client; install -m 0644 -t /home/client /root/policy")
    return f"--service {SERVICE} --policy policy"


@pytest.fixture(scope="module")
def auditor(machine: Machine) -> str:
    """The verifier key of the auditor that its operator installs."""
    machine.do("install -m 0600 /etc/coniks/keys/policy /root/policy")
    given = {"https://keys.example.com": SERVICE, ":8081": ":8081 --interval 1"}
    key = machine.do(block("Install an auditor", 0, given)).strip().splitlines()[-1]
    until(lambda: machine.run("curl -fs http://127.0.0.1:8081/v1/note").returncode == 0)
    return key


@pytest.fixture(scope="module")
def others(machine: Machine, user: str) -> str:
    """The options by which the user begins with two other auditors."""
    words = user
    for number in (2, 3):
        name, home = f"audit{number}.example.org", f"/home/client/audit{number}"
        key = client(machine, f"mkdir {home}; coniks-audit --name {name} --new-key {home}/key").strip()
        more = f"--listen 127.0.0.1:808{number} --interval 1 > {home}/said 2>&1 < /dev/null &"
        command = f"coniks-audit --name {name} --key {home}/key {user} --folder {home} {more}"
        client(machine, f"setsid {command}")
        words += f" --auditor http://127.0.0.1:808{number} {key}"
    return words


def test_auditor(machine: Machine, auditor: str) -> None:
    """The auditor runs as its user, and serves what it cosigns."""
    assert "audit.example.org" in machine.do("curl -fsS http://127.0.0.1:8081/v1/note")
    assert machine.do("find /var/lib/coniks-audit /var/lib/coniks-audit-head ! -user coniks-audit") == ""
    assert machine.run("cat /etc/coniks-audit/audit.key", "coniks-audit").returncode
    assert auditor.startswith("audit.example.org+")
    machine.do("systemctl stop coniks-audit; rm /var/lib/coniks-audit/*; systemctl start coniks-audit")
    until(lambda: "the entries lack the head that was cosigned" in machine.do("tail -n 1 /var/log/coniks-audit"))
    machine.do(block("Install an auditor", 1, {"https://keys.example.com": SERVICE}))
    until(lambda: machine.run("curl -fs http://127.0.0.1:8081/v1/note").returncode == 0)


def test_lost_record(machine: Machine, auditor: str, token: str) -> None:
    """Without a record nothing is signed, until another one begins with the epoch that was seen last. What waited is committed then."""
    ask, adopt = blocks("A lost record of the guard")
    machine.do(
        "systemctl stop coniks-directory; rm /var/lib/coniks-guard/* /var/log/coniks-directory; systemctl start coniks-directory"
    )
    wait(machine)
    until(lambda: '"serve adopt"' in machine.do("cat /var/log/coniks-directory"))
    latest = int(json.loads(machine.do(f"curl -fsS {SERVICE}/v1/head"))["epoch"])
    assert operate(machine, "change", b"later", token, wait=0) == "202"
    until(lambda: int(machine.do(ask)) == latest)
    for other in (latest - 1, latest + 1):
        ran = machine.run(replaced(adopt, {"latest=..": f"latest={other}"}))
        assert ran.returncode == 1 and f"epoch {latest}" in ran.stderr, ran
    assert machine.do("ls /var/lib/coniks-guard") == ""
    machine.do(replaced(adopt, {"latest=..": f"latest={latest}"}))
    wait(machine)
    until(lambda: lookup(machine, "alice").endswith(b"later"))
    assert machine.do("find /var/lib/coniks /var/lib/coniks-guard ! -user coniks") == ""


def test_add_and_retire(machine: Machine, auditor: str, others: str, token: str) -> None:
    """The service carries the new auditor's notes, and clients that exist take it. Without it both go on."""
    url, section = "http://127.0.0.1:8081", "Add and retire an auditor"
    ours = {"https://audit.example.org": url, "audit.example.org+..": auditor}
    metric = f"curl -s {SERVICE}/metrics | grep -c 'coniks_auditor_failures.*8081' || true"
    until(lambda: machine.run("test -f /home/client/audit2/note -a -f /home/client/audit3/note").returncode == 0)
    client(machine, f"coniks-client begin {others}")
    machine.do(block(section, 0, ours))
    wait(machine)
    assert machine.do(metric) == "1\n"
    until(lambda: machine.run(f"curl -s '{SERVICE}/v1/note?auditor=audit.example.org' | grep audit.example.org").returncode == 0)
    assert "fingerprint" in client(machine, block(section, 1, ours))
    # An auditor has the latest epoch once it has fetched it.
    until(lambda: "3 of your 3 auditors" in client(machine, "coniks-client compare"))
    client(machine, block(section, 2, {"https://audit.example.org": url}))
    until(lambda: "2 of your 2 auditors" in client(machine, "coniks-client compare"))
    machine.do(block(section, 3, {"https://audit.example.org": url}))
    wait(machine)
    assert machine.do(metric) == "0\n" and "--auditor" not in machine.do("cat /etc/coniks/options")


def test_lost_state(machine: Machine, user: str) -> None:
    """A backup goes on with the key that was changed after it. Without one the name's key is ended, and contacts refuse what follows."""
    restore, _, _, _, end = blocks("A user has lost her secret key")
    token = machine.do(block("Tokens", 0, {"alice\\n": "carol\\n"})).strip()
    given = {"alice": "carol", "~/.coniks-client": "own"}
    begin = f"coniks-client begin {user} --without-auditors --state"
    client(
        machine,
        f"echo {token} > token; {begin} own --token token; coniks-client register --state own carol 'first key'; cp own backup",
    )
    client(
        machine,
        f"coniks-client register --state own carol 'the present key'; {begin} friend; coniks-client lookup --state friend carol",
    )
    restore = replaced(restore, {**given, "coniks-client register": "coniks-client register --state own"})
    assert 'has your key "the present key"' in client(machine, f"rm own; {restore}")
    assert "is taken" in client(machine, f"{begin} new --token token; coniks-client register --state new carol 'new key'", 1)
    machine.do(replaced(end, {"token=..": f"token={token}", "alice": "carol"}))
    assert "was not signed with the secret key of the one before" in client(machine, "coniks-client lookup --state friend carol", 1)


def test_lost_secret(checkout: Path, shared: Path, tmp_path: Path) -> None:
    """A directory that promises records resets a name to a new device after a notice, and takes a notice back."""
    _, device, announce, withdraw, _ = blocks("A user has lost her secret key")
    machine = Machine(tmp_path / "machine", checkout, shared)
    try:
        machine.do(block("Install"))
        machine.do(block("Make the directory", 0, {"--period 3600 --kept 7776000": "--period 2 --kept 600 --vouched"}))
        wait(machine)
        token = machine.do(block("Tokens")).strip()
        machine.do("useradd --create-home client; install -m 0644 -t /home/client /etc/coniks/keys/policy")
        machine.do("ln -s /opt/zenithlamb/embed/python/bin/coniks-client /usr/local/bin/")
        begin = f"coniks-client begin --service {SERVICE} --policy policy --without-auditors --token token --state"
        client(machine, f"echo {token} > token; {begin} old; coniks-client register --state old --reset 4 alice 'first key'")
        client(machine, f"{begin} friend; coniks-client lookup --state friend alice; {begin} ~/.coniks-client")
        asked = client(machine, device, 3)
        [voucher] = re.findall("give the voucher ([0-9a-f]{64}) to", asked)
        for is_first in (True, False):
            printed = machine.do(replaced(announce, {"voucher=..": f"voucher={voucher}"}))
            assert f'a reset of "alice" to {voucher} is announced' in printed
            until(lambda: b"notice-1" in lookup(machine, "alice"))
            if is_first:
                assert "is taken back" in machine.do(withdraw)
                until(lambda: b"notice-1" not in lookup(machine, "alice"))
        assert 'a reset of "alice" is announced' in client(machine, "coniks-client watch --state old", 1)
        until(lambda: 'has your key "the new key"' in machine.run(f"export HOME=/home/client; cd; {device}", "client").stdout)
        assert "was reset after 8 seconds of notice" in client(machine, "coniks-client lookup --state friend alice", 1)
        assert machine.do("stat -c '%U %a' /var/lib/coniks/names.log.resets") == "coniks 600\n"
        assert machine.do("find /var/lib/coniks ! -user coniks") == ""
    finally:
        machine.end()


def test_go_on(machine: Machine, user: str, auditor: str, token: str) -> None:
    """Another directory goes on with all names, and a client and an auditor follow. The old one can't be opened again."""
    end, sign, take, follow = blocks("Go on in another directory")
    client(machine, f"coniks-client begin {user} --without-auditors --go-on --state moving")
    client(machine, "coniks-client lookup --state moving alice")
    key = lookup(machine, "alice")[-5:]
    machine.do(end)
    machine.do(sign)
    machine.do(take)
    wait(machine)
    said = client(machine, "coniks-client lookup --state moving alice")
    assert "goes on from epoch" in said and '"alice" has the key' in said
    assert lookup(machine, "alice").endswith(key) and operate(machine, "change", b"after", token) == "200"
    assert machine.do("find /var/lib/coniks /var/lib/coniks-guard ! -user coniks") == ""
    options = "--keys /root/keys.ended --log /var/lib/coniks/names.log --guard /var/lib/coniks-guard/names.guard"
    opened = machine.run(f"/opt/zenithlamb/examples/service/serve run {options}")
    assert opened.returncode == 1 and "has ended" in opened.stderr
    digest = machine.do("sha256sum < /root/keys.ended/policy").split()[0]
    shown = machine.do("cat /root/succession")
    assert machine.do(f"curl -fsS '{SERVICE}/v1/succession?policy={digest}'") == shown
    asked = f"curl -fs 'http://127.0.0.1:8081/v1/succession?policy={digest}'"
    until(lambda: machine.run(asked).stdout.startswith(shown))
    origin = machine.do("curl -fsS http://127.0.0.1:8081/v1/note | head -n 1")
    machine.do("install -m 0600 /etc/coniks/keys/policy /root/policy")
    machine.do(follow)
    until(lambda: machine.run("curl -fs http://127.0.0.1:8081/v1/note | head -n 1").stdout not in ("", origin))
    assert machine.do(asked).startswith(shown) and "audit.example.org" in machine.do(asked)
