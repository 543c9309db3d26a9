"""Resets of names whose secret keys are lost: `serve reset`, and what examples/service takes of them."""

from __future__ import annotations

import asyncio
import json
import subprocess
import tempfile
import time
from dataclasses import replace
from pathlib import Path
from typing import Any, Callable, Optional

import pytest

pytest.importorskip("aiohttp")
pytest.importorskip("nacl.signing")

import tools
from authorising import Vouched
from collecting import OPERATORS, Collector, Judged
from coniks import Policy
from coniks.provider import Register
from coniks.vouching import Notice, Place, Value, announced, first, following, of_reply, reset
from holders import made
from nacl.signing import SigningKey
from problems import Problem
from resetting import Resetting, Shown
from services import Running, named, until

OWNER, NEXT, THIRD = (SigningKey(it.encode().ljust(32)) for it in ("owner", "next", "third"))
POLICY = ("--vouched",)


class Operator:
    """Who runs `serve reset` beside a service."""

    def __init__(self, service: Running):
        self.service = service
        self.policy = Policy.read(service.get("/v1/policy").body)

    def run(self, *words: str) -> tuple[int, str, str]:
        more = ["--service", f"http://127.0.0.1:{self.service.port}"]
        ran = subprocess.run([*self.service._words("reset"), *more, *words], capture_output=True, text=True)
        assert "Traceback" not in ran.stderr
        return ran.returncode, ran.stdout, ran.stderr

    def shown(self, name: str) -> tuple[int, Any]:
        """The latest epoch, and what it shows of a name."""
        body, value = of_reply(self.policy, name, self.service.get(named(name)).body)
        return body.epoch, Value.read(value)

    def noticed(self, name: str) -> Notice:
        """The notice over a name, once there is one."""

        def shown() -> Optional[Notice]:
            found: Optional[Notice] = self.shown(name)[1].notice
            return found

        return until(shown)

    def change(self, name: str, key: bytes) -> int:
        """The status of a change, once no other operation of the name waits."""

        def status() -> int:
            found = self.service.operate("change", name, key).status
            return 0 if found == 409 else found

        return until(status)

    def kept(self) -> list[dict[str, Any]]:
        return [json.loads(it) for it in (self.service.room / "log.resets").read_text().splitlines()]


def voucher(secret: SigningKey) -> str:
    return bytes(secret.verify_key).hex()


def test_reset(service: Running) -> None:
    """A name is reset by the operator's notice, and by the next voucher alone, from the notice's effect on."""
    operator = Operator(service)
    place = Place.of(operator.policy, "alice")
    record = first(place, OWNER, b"key", notice=2)
    assert service.operate("register", "alice", record).status == 200
    status, printed, errors = operator.run("alice", voucher(NEXT))
    assert status == 0 and f'a reset of "alice" to {voucher(NEXT)} is announced' in printed and "UTC" in printed, errors
    notice = operator.noticed("alice")
    assert bytes(notice.voucher) == bytes(NEXT.verify_key) and f"epoch {notice.effect}, " in printed
    kept = operator.kept()[-1]
    logged = json.loads(errors.splitlines()[-1])
    assert (logged["event"], logged["name"], logged["effect"]) == ("reset announced", "alice", notice.effect)
    assert (kept["event"], kept["name"], kept["voucher"], kept["effect"]) == (
        "reset announced",
        "alice",
        voucher(NEXT),
        notice.effect,
    )
    assert kept["operator"] and abs(kept["time"] - time.time()) < 60
    ended = reset(place, NEXT, announced(record, *notice), b"new key")
    for early in [ended, reset(place, THIRD, announced(record, bytes(THIRD.verify_key), notice.effect), b"x")]:
        if operator.shown("alice")[0] + 1 < notice.effect:
            assert operator.change("alice", early) == 403
    until(lambda: operator.shown("alice")[0] >= notice.effect)
    assert operator.change("alice", ended) == 200
    epoch, value = operator.shown("alice")
    assert value.record.key == b"new key" and value.notice is None and epoch >= notice.effect
    assert operator.change("alice", following(place, OWNER, record, b"x")) == 403, "the lost key is over"
    assert operator.change("alice", following(place, NEXT, ended, b"x")) == 200


def test_taken_back(service: Running) -> None:
    """The operator takes a notice back by `--withdraw`, and the owner by a next record. A request can do neither, and announces nothing."""
    operator = Operator(service)
    place = Place.of(operator.policy, "bob")
    record = first(place, OWNER, b"key", notice=1000)
    assert service.operate("register", "bob", record).status == 200
    assert operator.change("bob", announced(record, bytes(NEXT.verify_key), 1 << 40)) == 403
    assert operator.run("bob", voucher(NEXT))[0] == 0
    operator.noticed("bob")
    assert operator.change("bob", record) == 403
    status, printed, _ = operator.run("bob", "--withdraw")
    assert status == 0 and 'the reset of "bob" is taken back' in printed and operator.kept()[-1]["event"] == "reset taken back"
    until(lambda: operator.shown("bob")[1].notice is None)
    assert operator.run("bob", voucher(NEXT))[0] == 0
    operator.noticed("bob")
    assert operator.change("bob", following(place, OWNER, record, b"key")) == 200
    assert operator.shown("bob")[1].record.number == 2 and not operator.shown("bob")[1].notice


@pytest.mark.postgres
def test_in_postgres(packages: None, program: str, tmp_path: Path) -> None:
    """With a log in PostgreSQL the queue and what is kept are there too."""
    if not (tools.has("PostgreSQL") and tools.has("psycopg")):
        pytest.skip("PostgreSQL or psycopg is missing")
    import psycopg
    from database import Database

    with tempfile.TemporaryDirectory() as folder, Database(Path(folder)) as database:
        running = Running(tmp_path, program, place=("--database", "--log", database.conninfo, "--guard", database.conninfo))
        running.make("--vouched")
        running.start()
        try:
            operator = Operator(running)
            record = first(Place.of(operator.policy, "alice"), OWNER, b"key", notice=2)
            assert running.operate("register", "alice", record).status == 200
            assert operator.run("alice", voucher(NEXT))[0] == 0
            notice = operator.noticed("alice")
        finally:
            running.process.kill()
            running.process.wait()
        with psycopg.connect(database.conninfo) as connection:
            table = f"coniks_resets_{operator.policy.digest[:8].hex()}"
            [(line,)] = connection.execute(f"SELECT line FROM {table}").fetchall()
    assert json.loads(line)["effect"] == notice.effect and json.loads(line)["event"] == "reset announced"


def test_refused(service: Running) -> None:
    """What the operator can't announce, in words."""
    operator = Operator(service)
    place = Place.of(operator.policy, "carol")
    assert service.operate("register", "carol", first(place, OWNER, b"key")).status == 200
    refused = {
        ("nobody", voucher(NEXT)): "the name is not registered",
        ("carol", voucher(NEXT)): "never reset",
        ("carol", "--withdraw"): "no reset of the name is announced",
        ("carol", "00" * 32): None,
    }
    for words, why in refused.items():
        status, printed, errors = operator.run(*words)
        assert status == 1 and not printed and (why is None or why in errors), words
    assert operator.run("carol")[0] == 2 and operator.run("carol", voucher(NEXT), "--withdraw")[0] == 2
    assert not (service.room / "log.resets").exists() or "carol" not in (service.room / "log.resets").read_text()


def test_refused_by_words(packages: None, program: str, tmp_path: Path) -> None:
    """The same without a service: each error, and a notice that would come too late is refused at its batch."""
    with made(program, tmp_path, records_vouched=True) as holder:
        policy = holder.keys.policy
        record = first(Place.of(policy, "alice"), OWNER, b"key", notice=3)
        noticed = announced(record, bytes(NEXT.verify_key), 9)
        cases: list[tuple[Policy, Any, Callable[[Resetting], object], str]] = [
            (replace(policy, records_vouched=False), record, lambda it: it, "promises no records"),
            (policy, None, lambda it: it, "not registered"),
            (policy, b"plain", lambda it: it, "has no record"),
            (policy, record, lambda it: it.announced("x"), "no voucher"),
            (policy, record, lambda it: it.announced("00" * 32), "no voucher"),
            (policy, record, lambda it: it.announced(voucher(OWNER)), "has this voucher"),
            (policy, first(Place.of(policy, "alice"), OWNER, b"key"), lambda it: it.announced(voucher(NEXT)), "never reset"),
            (policy, noticed, lambda it: it.announced(voucher(NEXT)), "announced already, and takes effect at epoch 9"),
            (policy, record, lambda it: it.withdrawn(), "no reset of the name is announced"),
        ]
        for it, value, call, why in cases:
            with pytest.raises(ValueError, match=why):
                call(Resetting(it, "alice", Shown(1, value)))


@pytest.mark.parametrize("late, is_stored", [(0, True), (1, True), (2, False)])
def test_late(program: str, tmp_path: Path, monkeypatch: pytest.MonkeyPatch, late: int, is_stored: bool) -> None:
    """A notice is in time at the next epoch and at the one after, and refused later: its effect would be too early. Another operation of
    the same epoch is committed all the same."""
    with made(program, tmp_path, records_vouched=True) as holder:
        policy = holder.keys.policy
        record = first(Place.of(policy, "alice"), OWNER, b"key", notice=3)
        holder.provider.commit(2, [Register("alice", record)], force=True)
        monkeypatch.setattr(time, "time", lambda: policy.epoch_start + policy.epoch_period + 1)
        notice = Resetting(policy, "alice", Shown(2, record)).announced(voucher(NEXT))
        assert notice.effect == 3 + 1 + 3 and notice.row.op == OPERATORS
        monkeypatch.setattr(type(holder.provider), "epoch_now", lambda _: 3 + late)
        collector = Collector(holder, Vouched(policy, lambda _: True))

        async def story() -> list[Any]:
            assert await holder.queue.put(notice.row)
            bob = Judged(Register("bob", first(Place.of(policy, "bob"), THIRD, b"key")), {}, None, 2)
            requested = await collector.collect(bob)
            await collector.commit()
            return [collector.outcomes[notice.row.number].result(), requested.outcome.result()]

        alice, bob = asyncio.run(story())
        assert isinstance(alice, bytes) is is_stored and isinstance(bob, bytes)
        assert is_stored or (isinstance(alice, Problem) and alice.status == 403)
        value = Value.read(collector_shown(holder, "alice"))
        assert value and bool(value.notice) is is_stored and holder.provider.latest().epoch == 3 + late


def collector_shown(holder: Any, name: str) -> Any:
    from collecting import shown_key

    return shown_key(holder.provider.lookup(name))


def test_a_row_that_is_no_notice(program: str, tmp_path: Path, monkeypatch: pytest.MonkeyPatch) -> None:
    """The operator's way announces resets and takes them back, and does nothing else: no record of an owner, and no reset itself."""
    with made(program, tmp_path, records_vouched=True) as holder:
        policy = holder.keys.policy
        place = Place.of(policy, "alice")
        record = first(place, OWNER, b"key", notice=1)
        holder.provider.commit(2, [Register("alice", record)], force=True)
        collector = Collector(holder, Vouched(policy, lambda _: True))
        clock = [2]
        monkeypatch.setattr(type(holder.provider), "epoch_now", lambda _: clock[0])

        async def story(key: bytes) -> Any:
            clock[0] += 1
            row = replace(Resetting(policy, "alice", Shown(2, record)).announced(voucher(NEXT)).row, key=key)
            await holder.queue.put(row)
            await collector.commit()
            return collector.outcomes[row.number].result()

        for key in [following(place, OWNER, record, b"x"), first(place, NEXT, b"x"), b"plain"]:
            assert isinstance(asyncio.run(story(key)), Problem)
        assert collector_shown(holder, "alice") == record and holder.provider.latest().epoch >= 2
