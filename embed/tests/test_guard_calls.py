"""The calls of include/coniks_guard.h beside the second implementation, on records that guards make and on any others."""

from __future__ import annotations

import ctypes
import hashlib
import random
import re
from collections import Counter
from dataclasses import astuple
from pathlib import Path
from typing import Any, Callable, Optional

import guard as second
import guarded
import pytest
from running import EMBED, SHARED, TOP, Say, stack_of

from coniks import _Bytes145, _guarding
from coniks._formats import GuardRefusal as Refusal
from coniks._guarding import Bytes64, Record, Reply, StepRefused

CALLS = {"answer", "ask", "sign", "abandon", "adopt"}
STACK = 8192
NONCE, POLICY = b"\x11" * 32, b"\x33" * 32


@pytest.fixture(autouse=True)
def _guarded(embedded: None, monkeypatch: pytest.MonkeyPatch) -> None:
    """Puts each argument of a call beside inaccessible pages."""
    monkeypatch.setattr(_guarding, "library", guarded.Library(str(SHARED)))


def body_after(chance: random.Random, last: bytes) -> bytes:
    """A body that follows an entry, or the first one; sometimes with a mistake."""
    before = int.from_bytes(last[1:9], "big")
    link = hashlib.sha256(b"S" + last).digest() if last else bytes(32)
    version, nonce, policy = (last[0], last[81:113], last[113:145]) if last else (1, NONCE, POLICY)
    epoch, mistake = min(before + chance.randrange(1, 4), 2**64 - 1), chance.randrange(24)
    if mistake == 0:
        epoch = before
    elif mistake == 1:
        before, epoch = min(before + 1, 2**64 - 1), min(epoch + 1, 2**64 - 1)
    elif mistake == 2:
        link = bytes(32) if last else b"\x01" * 32
    elif mistake == 3:
        version = chance.randrange(4)
    elif mistake == 4:
        nonce = bytes(32)
    elif mistake == 5:
        policy = bytes(32)
    elif mistake == 6:
        version, nonce = 2, chance.randbytes(32)
    elif mistake == 7 and chance.random() < 0.1:
        epoch = 2**64 - 1
    numbers = bytes([version]) + epoch.to_bytes(8, "big") + before.to_bytes(8, "big")
    return numbers + bytes([chance.randrange(3)]) * 32 + link + nonce + policy


class Walk:
    """Steps on one record, made by both. Each one's outcome must be the same: the record, or the number of the refusal."""

    def __init__(self, chance: random.Random, counted: Counter[str]) -> None:
        self.chance, self.counted, self.record = chance, counted, Record()
        self.bodies, self.entries = [body_after(chance, b"")], list[bytes]()

    def body(self) -> bytes:
        if self.chance.random() < 0.5:
            return self.chance.choice(self.bodies[-5:])
        old = self.entries and self.chance.random() < 0.2
        self.bodies.append(body_after(self.chance, self.chance.choice(self.entries) if old else self.record.signed))
        return self.bodies[-1]

    def step(self) -> None:
        chance, record = self.chance, self.record
        mine, theirs = record, second.Record(*astuple(record))
        body, signature, flag = self.body(), self.chance.randbytes(64), chance.random() < 0.5
        name = chance.choice(["ask", "ask", "sign", "sign", "sign", "abandon", "adopt"])
        given: tuple[Any, ...] = {"ask": (body, flag), "sign": (body, signature, flag), "abandon": (body,)}.get(
            name, (chance.choice([body + signature, *self.entries]),)
        )
        try:
            wanted: Optional[second.Record] = getattr(second, name)(theirs, *given)
            number = 0
        except second.Refused as refused:
            wanted, number = None, refused.number
        self.counted[f"{name} {number}"] += 1
        call: Callable[[], Any] = lambda: getattr(mine, name)(*given)
        if wanted is None:
            with pytest.raises(StepRefused) as raised:
                call()
            assert raised.value.refusal == number, (name, record, given)
        else:
            self.record = call()
            assert astuple(self.record) == astuple(wanted), (name, record, given)
            if self.record.signed != record.signed:
                self.entries.append(self.record.signed)
        for it in (body, *self.bodies[-3:]):
            printed, found = self.record.answer(it)
            assert (printed.value, found) == second.answer(second.Record(*astuple(self.record)), it), (self.record, it)
            self.counted[f"answer {printed.value}"] += 1

    def exchange(self) -> None:
        """Takes another record: any bodies in any place."""
        some: Callable[[], bytes] = lambda: self.chance.choice([b"", *self.bodies[-6:]])
        signed = self.chance.choice([b"", *self.entries, some() + bytes(64)])
        abandoned = tuple(it for it in (some() for _ in range(self.chance.randrange(5))) if it)
        self.record = Record(signed if len(signed) == 209 else b"", some(), abandoned)


def test_walks(pytestconfig: pytest.Config, say: Say) -> None:
    """Walks of 60 steps, in half of which the record is exchanged now and then."""
    count, seed = pytestconfig.getoption("alterations"), pytestconfig.getoption("seed")
    counted = Counter[str]()
    for number in range(count):
        walk = Walk(random.Random(f"{seed} {number}"), counted)
        for turn in range(60):
            if number % 2 and turn % 6 == 5:
                walk.exchange()
            walk.step()
    say(f"{count} walks of a guard's record: {dict(sorted(counted.items()))}")
    refusals = {int(it.split()[1]) for it in counted} - {0, 1, 2}
    assert refusals == {it.value for it in Refusal} - {Refusal.NO_ROOM}, "each refusal was met"
    assert {f"answer {it.value}" for it in Reply} <= {*counted}


def test_room() -> None:
    """A count that is greater than the room, and no room for a body more. Nothing is written then."""
    library, chance = _guarding.library, random.Random(1)
    first, other = (_Bytes145.from_buffer_copy(body_after(random.Random(it), b"")) for it in (3, 5))
    assert bytes(first) != bytes(other)
    record, bodies, count, room = _guarding.GuardRecord(), (_Bytes145 * 1)(first), ctypes.c_size_t(1), ctypes.c_size_t(1)
    of, before = ctypes.byref, (bytes(first), 1)
    assert library.coniks_guard_abandon(of(record), bodies, room, of(count), other) == Refusal.NO_ROOM
    assert library.coniks_guard_abandon(of(record), bodies, room, of(count), first) == 0, "an abandoned one needs no room"
    count.value = 2
    signature = Bytes64.from_buffer_copy(chance.randbytes(64))
    assert library.coniks_guard_abandon(of(record), bodies, room, of(count), other) == Refusal.NO_ROOM
    assert library.coniks_guard_sign(of(record), bodies, room, of(count), 0, other, signature) == Refusal.NO_ROOM
    assert (bytes(bodies), count.value) == (before[0], 2) and bytes(record) == bytes(len(bytes(record)))
    assert library.coniks_guard_adopt(of(record), None, ctypes.c_size_t(0), bytes(208), ctypes.c_size_t(208)) == 48


def numbers() -> list[int]:
    """The numbers of the guard's record in docs/STORED.md."""
    text = (TOP / "docs/STORED.md").read_text("utf-8").partition("\n## The guard's record\n")[2].partition("\n## ")[0]
    return [int(it) for it in re.findall(r"^- (\d+): ", text, re.M)]


def test_numbers() -> None:
    """The numbers of the page, of the header and of Python are the same."""
    header = (TOP / "include/coniks_guard.h").read_text("utf-8")
    found = {name: int(it) for name, it in re.findall(r"CONIKS_GUARD_E_(\w+) = (\d+)", header)}
    assert found == {it.name: it.value for it in Refusal}
    assert numbers() == sorted(it for it in found.values() if it < 128)
    answers = {name: int(it) for name, it in re.findall(r"CONIKS_GUARD_([A-DF-Z]\w+) = (\d+)", header)}
    assert answers == {it.name: it.value for it in Reply}


def test_stack(tmp_path: Path, say: Say) -> None:
    """Each call takes at most 8,192 bytes of stack."""
    taken = stack_of(tmp_path, EMBED / "c/guard_stack.c", say)
    assert taken.keys() == CALLS and max(taken.values()) <= STACK, taken
