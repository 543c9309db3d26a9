"""`coniks-client` over random schedules of a hostile service: no status 0 without cause."""

from __future__ import annotations

import functools
import random
import time
from contextlib import closing
from pathlib import Path
from typing import Iterator

import pytest

pytest.importorskip("nacl.signing")

import client_world
from coniks import contacts
from coniks.client import Client
from schedules import CONTACTS, OWN, Run, Schedule, unjustified
from people import Person

STEPS = 12


@pytest.fixture(autouse=True)
def _quick(monkeypatch: pytest.MonkeyPatch) -> None:
    """Signatures and proofs of the second implementation are made once."""
    for name in ("signed", "vrf_proof", "index"):
        monkeypatch.setattr(client_world, name, functools.lru_cache(None)(getattr(client_world, name)))


def drawn(schedule: Schedule, number: int) -> tuple[int, list[str]]:
    """Who runs a command, and which. The first is the user, who has a name, and the second is a friend."""
    user = [["watch"], ["watch"], ["register", OWN, f"key {number // 4}"], ["lookup", OWN], ["lookup", "alice"]]
    friend = [["lookup", it] for it in CONTACTS] + [["verify", "alice", "--key", "key of alice"], ["compare"]]
    who = schedule.draw.randrange(2)
    return who, schedule.draw.choice([user, friend][who])


def run(seed: int, people: list[Person], monkeypatch: pytest.MonkeyPatch) -> Schedule:
    """Runs a schedule, and checks each status."""
    with closing(Schedule(seed)) as schedule:
        clock = lambda: schedule.seconds
        monkeypatch.setattr(time, "time", clock)
        monkeypatch.setitem(Client.__init__.__kwdefaults__, "clock", clock)
        lying, schedule.service.lying = schedule.service.lying, 0.0
        for it in people:
            it.begin(schedule.service, *[a.pair for a in schedule.auditors], faulty=schedule.faulty)
        schedule.service.lying = lying
        for number in range(STEPS):
            schedule.step()
            who, words = drawn(schedule, number)
            schedule.transcript.sent_now.clear()
            status, lines = people[who].run(words[0], *words[1:])
            schedule.transcript.runs.append(Run(who == 0, words, schedule.seconds, status, lines))
            why = unjustified(schedule.transcript, schedule.transcript.runs[-1])
            assert why is None, f"--seed {seed}: {words} has status 0: {why}: {lines}"
            assert not any("error of the program" in it["text"] for it in lines), f"--seed {seed}: {lines}"
    return schedule


def test_schedules(
    tmp_path: Path, capsys: pytest.CaptureFixture[str], monkeypatch: pytest.MonkeyPatch, request: pytest.FixtureRequest
) -> None:
    """New schedules each time; `--seed` repeats one."""
    count, seed = request.config.getoption("schedules"), request.config.getoption("seed")
    first = random.SystemRandom().randrange(1 << 32) if seed == 1 else seed
    statuses = list[int]()
    for number in range(first, first + (count if seed == 1 else 1)):
        people = [Person(tmp_path, capsys) for _ in range(2)]
        for who, it in enumerate(people):
            it.state = tmp_path / f"{number}.{who}"
        statuses += [it.status for it in run(number, people, monkeypatch).transcript.runs]
    assert seed != 1 or {0, 1, 3} <= set(statuses), "no schedule told well from wrong"
