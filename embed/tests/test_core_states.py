"""Histories, catch-ups and states of the core of a client for C beside the second implementation: alterations of cases that have them."""

from __future__ import annotations

import copy
import ctypes
import random
from typing import Callable, Iterator, Sequence

import pytest

pytest.importorskip("nacl.signing")

import client as second
import core_client
import core_states
from alterations import Alterer
from case_runner import Answer, cases
from members import Fault
from replies import entries_of
from running import Say

CASES = [*cases()]
HISTORIES = [it for it in CASES if any(step["do"] == "history" for step in it["steps"])]
CATCH_UPS = [bytes.fromhex(step["bytes"]) for it in CASES for step in it["steps"] if step["do"] == "catch up"]
STATES = [it for it in CASES if it.get("state") is not None]


@pytest.fixture(autouse=True)
def _beside(embedded: None, monkeypatch: pytest.MonkeyPatch) -> Iterator[None]:
    """Makes each client of the second implementation one that has the core beside it."""
    monkeypatch.setattr(second, "Client", core_states.Beside)
    yield


def test_histories(pytestconfig: pytest.Config, say: Say) -> None:
    """Altered histories: whatever the second implementation gives, the core gives too."""
    alterer = Alterer(HISTORIES)
    alterations = [alterer.bytes_of_step, alterer.bytes_of_step, alterer.order, alterer.number]
    alter(alterer, alterations, pytestconfig, say, "history")


def test_states(pytestconfig: pytest.Config, say: Say) -> None:
    """Altered states: most have the digest of what is in them."""
    alterer = Alterer(STATES)
    alterations = [alterer.state, alterer.state, alterer.state, alterer.bytes_of_step]
    alter(alterer, alterations, pytestconfig, say, "state_read")


def alter(
    alterer: Alterer,
    alterations: Sequence[Callable[[Answer], None]],
    config: pytest.Config,
    say: Say,
    call: str,
) -> None:
    count, before = config.getoption("alterations"), core_client.CALLS.copy()
    found: dict[str, int] = {}
    for number in range(count):
        chance = random.Random(f"{config.getoption('seed')} {number}")
        alterer.chance = chance
        case = altered(alterer, alterations)
        answer = second.verdicts(case)
        for it in [answer["begin"], *answer["steps"]]:
            name = it.get("refused")
            found |= {name: found.get(name, 0) + 1} if name else {}
    calls = core_client.CALLS - before
    say(f"{count} alterations: calls of the core: {dict(sorted(calls.items()))}; errors: {dict(sorted(found.items()))}")
    assert calls[call] > count // 8


def altered(alterer: Alterer, alterations: Sequence[Callable[[Answer], None]]) -> Answer:
    """A case with one or two alterations of these kinds."""
    case: Answer = copy.deepcopy(alterer.chance.choice(alterer.cases))
    for _ in range(alterer.chance.choice([1, 1, 2])):
        alterer.chance.choice(alterations)(case)
    return case


def test_catch_ups() -> None:
    assert CATCH_UPS
    for whole in [*CATCH_UPS, *(it[:size] for it in CATCH_UPS for size in range(len(it)))]:
        count = core_client.SIZE(core_client.NOWHERE)
        status = core_client.LIBRARY.coniks_core_catch_up(whole, core_client.SIZE(len(whole)), ctypes.byref(count))
        try:
            assert (status, count.value) == (0, len(entries_of(whole)))
        except Fault as fault:
            assert (status, count.value) == (second.NUMBERS[str(fault.answer["fault"])], core_client.NOWHERE)
