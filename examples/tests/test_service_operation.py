"""What operates examples/service: its unit, proxy and container file, and what RUNBOOK.md says of keys, backups, disks, snapshots and
another machine."""

from __future__ import annotations

import json
import re
import resource
import shutil
import signal
import socket
import ssl
import subprocess
import tempfile
import urllib.error
import urllib.request
from contextlib import suppress
from pathlib import Path
from typing import Iterator

import pytest

pytest.importorskip("aiohttp")
pytest.importorskip("nacl.signing")

import tools
from holding import Keys, Terms, make_keys
from replies import History
from services import HOME, Running, named, until

DEPLOY = HOME / "deploy"
UNITS = sorted(it.name for it in DEPLOY.glob("*.service"))


@pytest.mark.parametrize("unit", UNITS)
def test_units(unit: str, tmp_path: Path) -> None:
    """systemd reads each unit without a complaint, and finds it well hardened."""
    if not tools.has("systemd-analyze"):
        pytest.skip("systemd-analyze is missing")
    text = (DEPLOY / unit).read_text("utf-8")
    # The paths of an installation aren't there.
    (tmp_path / unit).write_text(re.sub(r"^(Exec\w+=)\S+", r"\1/bin/true", text, flags=re.M).replace("Documentation=file:", "#"))
    ran = subprocess.run(["systemd-analyze", "verify", "--man=no", tmp_path / unit], capture_output=True, text=True)
    assert (ran.returncode, [it for it in ran.stderr.splitlines() if unit in it]) == (0, []), ran.stderr
    words = ["systemd-analyze", "security", "--offline=yes", "--threshold=25", str(tmp_path / unit)]
    ran = subprocess.run(words, capture_output=True, text=True)
    assert ran.returncode == 0, ran.stdout[-3000:] + ran.stderr


@pytest.fixture
def proxied(other: Running, tmp_path: Path) -> Iterator[str]:
    """The URL of nginx before a service, with the configuration as it is but for paths and ports."""
    if not tools.has("nginx"):
        pytest.skip("nginx is missing")
    other.start("--rate", "3", "--behind-proxy", "--recent", "1000")
    words = "openssl req -x509 -newkey rsa:2048 -nodes -days 1 -subj /CN=keys.example.com -keyout privkey.pem -out fullchain.pem"
    subprocess.run(words.split(), cwd=tmp_path, capture_output=True, check=True)
    with socket.socket() as free:
        free.bind(("127.0.0.1", 0))
        port, text = free.getsockname()[1], (DEPLOY / "nginx.conf").read_text("utf-8")
    for old, new in [
        ("127.0.0.1:8080", f"127.0.0.1:{other.port}"), ("listen 443", f"listen 127.0.0.1:{port}"), ("listen [::]:443 ssl http2;", ""),
        ("/etc/ssl/coniks", str(tmp_path)), ("/var/log/nginx", str(tmp_path)), ("/var/cache", str(tmp_path)),
    ]:  # fmt: skip
        assert old in text
        text = text.replace(old, new)
    own = "".join(f"{it}_temp_path {tmp_path}/{it};" for it in ["client_body", "proxy", "fastcgi", "uwsgi", "scgi"])
    (tmp_path / "nginx.conf").write_text(f"pid {tmp_path}/pid; user root; events {{}} http {{ {own}\n{text} }}")
    words_of = ["nginx", "-c", str(tmp_path / "nginx.conf"), "-e", str(tmp_path / "nginx.errors")]
    ran = subprocess.run([*words_of, "-t"], capture_output=True, text=True)
    assert ran.returncode == 0 and "warn" not in ran.stderr, ran.stderr
    server = subprocess.Popen([*words_of, "-g", "daemon off;"], stderr=subprocess.PIPE)
    try:
        yield f"https://127.0.0.1:{port}"
    finally:
        server.terminate()
        server.wait(10)


def fetched(url: str, **headers: str) -> tuple[int, bytes]:
    trusting = ssl._create_unverified_context()
    requested = urllib.request.Request(url, headers={name.replace("_", "-"): it for name, it in headers.items()})
    try:
        with urllib.request.urlopen(requested, context=trusting, timeout=10) as found:
            return found.status, found.read()
    except urllib.error.HTTPError as error:
        return error.code, error.read()
    except urllib.error.URLError:
        return 0, b""


def test_proxy(proxied: str, other: Running, tmp_path: Path) -> None:
    """Names go through the proxy as they are, addresses can't be made up, and what is for operators isn't there."""
    until(lambda: fetched(f"{proxied}/v1/policy")[0] == 200)
    first = int.from_bytes(until(lambda: fetched(f"{proxied}/v1/entries")[1])[1:9], "big")
    for name in ["%2F..%2Fa%2F%2Fb", "%25%32%66", "a%20b%2Bc%26d", "%C3%A9", "..", "."]:
        target = f"/v1/lookup?name={name}&epoch={first}"
        through = until(lambda: it if (it := fetched(proxied + target))[0] != 429 else None)
        own = until(lambda: it if (it := other.get(target, X_Forwarded_For="192.0.2.9")).status != 429 else None)
        assert through == (200, own.body), name
    for target in ["/metrics", "/healthz", "/readyz", "/v1/../metrics", "//metrics", "/v1/%2e%2e/metrics"]:
        assert fetched(proxied + target)[0] in (400, 404), target
    found = {fetched(f"{proxied}/v1/head", X_Forwarded_For=f"192.0.2.{it}")[0] for it in range(40)}
    assert 429 in found, "a client that makes up addresses is counted as one"
    printed = (tmp_path / "coniks.log").read_text()
    assert "/v1/lookup" in printed and "name=" not in printed


def test_container_file() -> None:
    """The container file names what is there, pins its base, and ends as an unprivileged user. It is built if Docker runs."""
    text = re.sub(r"\\\n", " ", (DEPLOY / "Dockerfile").read_text("utf-8"))
    lines = [it.split(maxsplit=1) for it in text.splitlines() if it and not it.startswith("#")]
    known = ["FROM", "RUN", "COPY", "USER", "EXPOSE", "STOPSIGNAL", "HEALTHCHECK", "ENTRYPOINT", "CMD"]
    assert [it for it, _ in lines if it not in known] == [] and re.fullmatch(r"debian:[a-z]+-slim", dict(lines)["FROM"])
    for source in [rest.split()[0] for what, rest in lines if what == "COPY"]:
        assert (HOME.parents[1] / source).exists() or source.startswith("crates/"), source
    for words in [dict(lines)["ENTRYPOINT"], dict(lines)["CMD"], dict(lines)["HEALTHCHECK"].partition("CMD ")[2]]:
        assert all(isinstance(it, str) for it in json.loads(words))
    assert int(dict(lines)["USER"]) > 0
    if subprocess.run(["docker", "info"], capture_output=True).returncode == 0 if tools.has_program("docker") else False:
        subprocess.run(["docker", "build", "--file", DEPLOY / "Dockerfile", "."], cwd=HOME.parents[1], check=True)


def refused_start(service: Running) -> str:
    """The one line by which a start ends."""
    words = [*service._words("run"), "--listen", "127.0.0.1:0"]
    ran = subprocess.run(words, capture_output=True, text=True, timeout=120)
    assert ran.returncode == 1 and "Traceback" not in ran.stderr, ran.stderr
    printed: str = json.loads(ran.stderr.splitlines()[-1])["error"]
    return printed


def test_wrong_keys(other: Running) -> None:
    """A start with another key ends with what to do, and signs nothing."""
    other.start()
    other.operate("register", "alice", b"key")
    other.end()
    before = (other.room / "guard").read_bytes()
    path = other.room / "keys/vrf.key"
    key = path.read_bytes()
    path.write_bytes(bytes(32))
    assert "not those of its policy" in refused_start(other)
    path.write_bytes(key)
    path.chmod(0o644)
    assert "chmod 600" in refused_start(other)
    path.chmod(0o600)
    policy = other.room / "keys/policy"
    text = policy.read_bytes()
    policy.write_bytes(text.replace(b"epoch-period 1\n", b"epoch-period 2\n"))
    assert "another policy" in refused_start(other)
    policy.write_bytes(text)
    assert (other.room / "guard").read_bytes() == before
    other.start()
    assert other.get(named("alice")).body.endswith(b"key")


def test_keys_of_a_replica(packages: None, tmp_path: Path) -> None:
    """A replica verifies and computes indices without a signing key, and reads none that is there. Its VRF key is that of the policy."""
    make_keys(tmp_path, Terms("keys.example.com", 0, 1, 10, False))
    signing, vrf, writer = tmp_path / "signing.key", tmp_path / "vrf.key", Keys(tmp_path)
    body = bytes(145)
    signature = writer.sign(body)
    for is_there in (True, False):
        signing.write_bytes(b"no key") if is_there else signing.unlink()
        replica = Keys(tmp_path, is_replica=True)
        assert (replica.index("alice"), bytes(replica.policy)) == (writer.index("alice"), bytes(writer.policy))
        assert replica.verify(body, signature) and not replica.verify(body, bytes(64))
        with pytest.raises((ValueError, FileNotFoundError)):
            Keys(tmp_path)
    vrf.write_bytes(bytes(32))
    with pytest.raises(ValueError, match="not those of its policy"):
        Keys(tmp_path, is_replica=True)


def test_credentials(tmp_path: Path, monkeypatch: pytest.MonkeyPatch) -> None:
    """A key may have the rights of a credential in the folder of credentials alone, and others may never read it."""
    make_keys(tmp_path, Terms("keys.example.com", 0, 1, None))

    def is_taken(rights: int) -> bool:
        (tmp_path / "vrf.key").chmod(rights)
        with suppress(ValueError):
            return bool(Keys(tmp_path))
        return False

    every = [0o400, 0o600, 0o440, 0o460, 0o444, 0o644]
    assert [is_taken(it) for it in every] == [True, True, False, False, False, False]
    monkeypatch.setenv("CREDENTIALS_DIRECTORY", str(tmp_path.parent))
    assert not is_taken(0o440)
    monkeypatch.setenv("CREDENTIALS_DIRECTORY", str(tmp_path))
    assert [is_taken(it) for it in every] == [True, True, True, False, False, False]


@pytest.mark.parametrize(
    "words", [["run"], ["make", "--origin", "keys.example.com"], ["adopt", "--latest", "1"], ["run", "--replica", "--database"]]
)
def test_guard_of_a_writer(packages: None, tmp_path: Path, words: list[str]) -> None:
    """Whoever signs has a guard, and a replica needs none."""
    places = ["--keys", str(tmp_path / "keys"), "--log", str(tmp_path / "log")]
    ran = subprocess.run([HOME / "serve", *words, *places], capture_output=True, text=True)
    is_missing = ran.returncode == 2 and "--guard is missing: only a replica signs nothing" in ran.stderr
    assert is_missing is ("--replica" not in words) and not any(tmp_path.iterdir()), ran.stderr
    assert is_missing or "vrf.key" in ran.stderr


def test_old_backup(other: Running) -> None:
    """A restored log that lacks signed epochs is refused, and nothing is signed. The whole log is taken."""
    log = other.room / "log"
    old = log.read_bytes()
    other.start()
    other.operate("register", "alice", b"key")
    other.end()
    whole = log.read_bytes()
    log.write_bytes(old)
    assert "LogBehind" in refused_start(other)
    log.unlink()
    assert "NoDirectory" in refused_start(other)
    log.write_bytes(whole)
    log.chmod(0o600)
    other.start()
    assert other.get(named("alice")).body.endswith(b"key")


def adopted(service: Running, latest: int) -> subprocess.CompletedProcess[str]:
    return subprocess.run([*service._words("adopt"), "--latest", str(latest)], capture_output=True, text=True, timeout=60)


def test_lost_guard(other: Running) -> None:
    """Without the guard's record lookups go on, at each start, and the log stays as it is. Operations wait for another record, which begins
    only with an epoch that nobody has seen a later one of."""
    other.start()
    other.operate("register", "alice", b"key")
    other.end()
    (other.room / "guard").unlink()
    log = (other.room / "log").read_bytes()
    for key in (b"one", b"two"):
        other.start()
        waiting = other.operate("register", f"bob {key.decode()}", key, Prefer="wait=3")
        assert waiting.status == 202 and other.get(named("alice")).body.endswith(b"key")
        [*_, failed] = [it for it in other.lines() if it["event"] == "commit failed"]
        assert "has no signed entry" in failed["error"] and failed["if the record is lost"] == "serve adopt"
        latest = int(other.get("/v1/head").json["epoch"])
        assert other.end() == 0 and (other.room / "log").read_bytes() == log
    for number in (latest - 1, latest + 1):
        refused = adopted(other, number)
        assert (
            refused.returncode == 1 and f"the log ends at epoch {latest}" in refused.stderr and not (other.room / "guard").exists()
        )
    assert adopted(other, latest).returncode == 0 and (other.room / "guard").exists()
    other.start()
    until(lambda: other.get(named("bob two")).body.endswith(b"two"))
    assert other.get(named("bob one")).body.endswith(b"one")
    other.end()
    # Another record is not begun where there is one.
    record = (other.room / "guard").read_bytes()
    latest += 1
    while (ran := adopted(other, latest)).returncode == 1 and "ends at" in ran.stderr:
        latest += 1
    assert ran.returncode == 0 and (other.room / "guard").read_bytes() == record, "the record that is there has this entry"


def test_full_disk(other: Running) -> None:
    """While the log can't grow operations wait and lookups go on. Then they are stored. The queue has room here: it is smaller."""
    other.start()
    other.operate("register", "alice", b"key")
    for number in range(4):
        other.operate("change", "alice", bytes([number]) * 16384)
    other.operate("change", "alice", b"key")
    size = (other.room / "log").stat().st_size
    resource.prlimit(other.process.pid, resource.RLIMIT_FSIZE, (size, resource.RLIM_INFINITY))
    waiting = other.operate("change", "alice", b"other", Prefer="wait=3")
    assert waiting.status == 202 and other.get(named("alice")).body.endswith(b"key")
    until(lambda: '"event": "commit failed", "error": "LogRefused: ' in other.errors.read_text())
    resource.prlimit(other.process.pid, resource.RLIMIT_FSIZE, (resource.RLIM_INFINITY, resource.RLIM_INFINITY))
    until(lambda: other.get(waiting.headers["location"], Prefer="wait=15").status == 200)
    assert other.get(named("alice")).body.endswith(b"other")


def test_compact(other: Running) -> None:
    """The order to compact keeps all entries, and each epoch that the policy promises."""
    other.start("--recent", "1000")
    for key in [b"1", b"2", b"3"]:
        other.operate("change" if key != b"1" else "register", "alice", key)
    other.process.send_signal(signal.SIGUSR2)
    [compacted] = until(lambda: [it for it in other.lines() if it["event"] == "compact"])
    assert compacted["forgotten"] == 0 and compacted["oldest"] == other.first()
    chain, first = other.get("/v1/entries").body, other.first()
    assert chain[:209] == other.entry(first) and len(chain) >= 4 * 209
    assert other.get(f"{named('alice')}&epoch={first}").status == 200, "the policy promises it"
    other.end()
    other.start()
    assert other.get(named("alice")).body.endswith(b"3") and other.get("/v1/entries").body.startswith(chain)


def test_forgotten_epochs(packages: None, program: str, tmp_path: Path) -> None:
    """Epochs that are forgotten don't keep back the history of the others."""
    other = Running(tmp_path, program)
    other.make("--kept", "1")
    other.start("--recent", "1000")
    try:
        first = other.operate("register", "alice", b"key").json["epoch"]
        until(lambda: bool(other.get("/v1/head").json["epoch"] > first + 4))
        other.process.send_signal(signal.SIGUSR2)
        until(lambda: other.get(f"{named('alice')}&epoch={first}").status == 404)
        found = other.get(f"/v1/history?name=alice&first={first}&last={2**64 - 1}")
        epochs = [epoch for epoch, _ in History(found.body).steps]
        assert found.status == 200 and epochs == sorted(epochs) and epochs[0] > first
    finally:
        other.process.kill()
        other.process.wait()


@pytest.mark.postgres
def test_take_over(packages: None, program: str, tmp_path: Path) -> None:
    """The writer stops answering, the process of its replica writes in its place, and the old writer ends."""
    if not (tools.has("PostgreSQL") and tools.has("psycopg")):
        pytest.skip("PostgreSQL or psycopg is missing")
    from database import Database

    rooms = [tmp_path / it for it in ["writer", "replica"]]
    for it in rooms:
        it.mkdir()
    with tempfile.TemporaryDirectory() as folder, Database(Path(folder)) as database:
        place = ("--database", "--log", database.conninfo, "--guard", database.conninfo)
        writer, replica = (Running(it, program, place=place) for it in rooms)
        writer.make()
        shutil.copytree(rooms[0] / "keys", rooms[1] / "keys", ignore=shutil.ignore_patterns("signing.key"))
        writer.start()
        replica.start("--replica")
        try:
            check_take_over(writer, replica)
        finally:
            for ended in [writer, replica]:
                ended.process.kill()
                ended.process.wait()


def check_take_over(writer: Running, replica: Running) -> None:
    writer.operate("register", "alice", b"key")
    until(lambda: replica.get(named("alice")).body.endswith(b"key"))
    until(lambda: replica.get("/readyz").status == 200)
    refused = replica.operate("change", "alice", b"other")
    assert (refused.status, refused.fault) == (503, "NoWriter")
    metrics = replica.get("/metrics").body
    assert b"coniks_lag_seconds" in metrics and b"coniks_writer 0.0" in metrics and b"coniks_lag" not in writer.get("/metrics").body
    accepted = writer.operate("register", "bob", b"key", Prefer="")
    writer.process.send_signal(signal.SIGSTOP)
    replica.end()
    shutil.copy(writer.room / "keys/signing.key", replica.room / "keys")
    replica.start()
    assert b"coniks_writer 1.0" in replica.get("/metrics").body
    assert accepted.status == 202
    until(lambda: replica.get(named("bob")).body.endswith(b"key"))
    until(lambda: replica.operate("change", "alice", b"other").status in (200, 409))
    writer.process.send_signal(signal.SIGCONT)
    assert writer.process.wait(60) == 2 and "Overtaken" in writer.lines()[-1]["error"]
    writer.start("--replica")
    until(lambda: writer.get(named("alice")).body.endswith(b"other"))
    assert writer.operate("change", "alice", b"a third").fault == "NoWriter"
    chains = [it.get("/v1/entries").body for it in (writer, replica)]
    assert chains[0][: len(chains[1])] == chains[1][: len(chains[0])]
