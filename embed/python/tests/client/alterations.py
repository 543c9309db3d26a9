"""Random alterations of the cases of cases/client, over `coniks.client` and over the second implementation: both must return the same.

An alteration changes bytes of what a client is given, or takes them from another case. It signs an altered entry again, or renews
the digest of an altered state. Or it leaves a step out, repeats one or moves it, or changes a number.
"""

from __future__ import annotations

import copy
import random
from hashlib import sha256
from typing import Any, Callable, Iterator

import client_world
from case_runner import Answer
from nacl.signing import SigningKey


SIGNER = SigningKey(client_world.SIGNING)
ENTRY, BODY = 418, 290
# The members that have bytes as digits, and those that have numbers.
TEXTS = ["reply", "history", "bytes", "entry", "link", "name", "key"]
NUMBERS = ["epoch", "since", "by", "now"]


def digits_changed(chance: random.Random, text: str, pool: list[str]) -> str:
    """Hexadecimal digits of other bytes."""
    whole = bytearray.fromhex(text)
    kind = chance.randrange(7)
    if kind == 0 or not whole:
        return chance.choice(pool)
    place = chance.randrange(len(whole))
    if kind <= 3:
        whole[place] ^= 1 << chance.randrange(8)
    elif kind == 4:
        whole[place] = chance.choice([0, 1, 2, 3, 255])
    elif kind == 5:
        del whole[place : place + chance.choice([1, 1, 32, 209])]
    else:
        other = bytes.fromhex(chance.choice(pool))
        size = chance.choice([1, 8, 32, 209, len(other)])
        whole[place : place + chance.choice([0, size])] = other[:size]
    return whole.hex()


def resigned(chance: random.Random, text: str) -> str:
    """An entry with another body, which its signer signs."""
    body = bytearray.fromhex(text[:BODY])
    if len(body) != BODY // 2:
        return text
    start, size = chance.choice([(0, 1), (1, 8), (9, 8), (17, 32), (49, 32), (81, 32), (113, 32)])
    place = start + size - 1 if size == 8 else start + chance.randrange(size)
    body[place] = chance.choice([body[place] ^ 1 << chance.randrange(8), (body[place] + chance.choice([1, -1])) % 256, 0])
    return (bytes(body) + SIGNER.sign(bytes(body)).signature).hex()


def renewed(text: str) -> str:
    """A state with the digest of what is in it."""
    state = bytes.fromhex(text)
    return (state[:-32] + sha256(state[:-32]).digest()).hex()


class Alterer:
    """Alters cases at random."""

    def __init__(self, cases: list[Answer]) -> None:
        self.cases, self.chance = cases, random.Random(0)
        self.pools: dict[str, list[str]] = {it: [] for it in [*TEXTS, "entries", "state"]}
        self.steps: list[Answer] = []
        for case in cases:
            self.steps += case["steps"]
            self.pools["state"] += [case["state"]] if case.get("state") else []
            for step in case["steps"]:
                for name in TEXTS:
                    self.pools[name] += [step[name]] if step.get(name) is not None else []
                self.pools["entries"] += step.get("entries", [])
        # What is very long is altered seldom, and compared slowly.
        for name, pool in self.pools.items():
            self.pools[name] = [it for it in pool if len(it) < 10000]

    def altered(self, chance: random.Random) -> Answer:
        """One of the cases, with one to three alterations."""
        self.chance = chance
        case = copy.deepcopy(self.chance.choice(self.cases))
        for _ in range(self.chance.choice([1, 1, 1, 2, 3])):
            self.chance.choice(
                [self.bytes_of_step, self.bytes_of_step, self.entry, self.entry, self.number, self.order, self.state]
            )(case)
        return case

    def step_of(self, case: Answer) -> Answer:
        return self.chance.choice(case["steps"]) if case["steps"] else {}

    def bytes_of_step(self, case: Answer) -> None:
        step = self.step_of(case)
        names = [it for it in TEXTS if step.get(it) is not None]
        if names:
            name = self.chance.choice(names)
            step[name] = digits_changed(self.chance, step[name], self.pools[name])

    def entry(self, case: Answer) -> None:
        """Alters an entry of a step, or of a reply."""
        step = self.step_of(case)
        if step.get("entries"):
            place = self.chance.randrange(len(step["entries"]))
            step["entries"][place] = self.other_entry(step["entries"][place])
        if "reply" in step:
            step["reply"] = step["reply"][:2] + self.other_entry(step["reply"][2 : 2 + ENTRY]) + step["reply"][2 + ENTRY :]
        if step.get("do") == "evidence":
            step["entry"] = self.other_entry(step["entry"])

    def other_entry(self, text: str) -> str:
        kind = self.chance.randrange(3)
        if kind == 0:
            return digits_changed(self.chance, text, self.pools["entries"])
        return self.chance.choice(self.pools["entries"]) if kind == 1 else resigned(self.chance, text)

    def number(self, case: Answer) -> None:
        step = self.step_of(case)
        name = self.chance.choice(NUMBERS)
        if name in step or (name == "epoch" and step.get("do") == "lookup"):
            before = step.get(name) or 0
            step[name] = self.chance.choice([0, 1, 2, 3, 5, 6, min(before + 1, 2**64 - 1), max(0, before - 1), 2**64 - 1])
        if name == "now" and step:
            step["now"] = client_world.hour(self.chance.randrange(8), self.chance.choice([-300, 0, 600, 3599]))
        if step.get("do") == "lookup" and step.get("epoch") == 2**64 - 1:
            step["epoch"] = None

    def order(self, case: Answer) -> None:
        """Leaves a step out, repeats it, moves it, or takes one of another case."""
        steps, kind = case["steps"], self.chance.randrange(4)
        place = self.chance.randrange(len(steps) + 1)
        if kind == 0 or not steps:
            steps.insert(place, copy.deepcopy(self.chance.choice(self.steps)))
        elif kind == 1:
            steps.insert(place, copy.deepcopy(self.chance.choice(steps)))
        elif kind == 2:
            self.chance.shuffle(steps)
        else:
            del steps[place % len(steps)]

    def state(self, case: Answer) -> None:
        """Gives the client a state, or alters the one that it has."""
        if case.get("vouched"):
            it = case["vouched"]
            it["entry"] = self.other_entry(it["entry"])
            return
        text = case.get("state")
        if not text or self.chance.random() < 0.3:
            case["state"] = self.chance.choice(self.pools["state"])
            return
        text = digits_changed(self.chance, text, self.pools["state"])
        case["state"] = renewed(text) if self.chance.random() < 0.8 and len(text) > 64 else text


def verdict(call: Callable[[Answer], Answer], case: Answer) -> Any:
    """What an implementation returns, or the exception that it must not raise."""
    try:
        return call(case)
    except Exception as error:
        return f"{type(error).__name__}: {error}"


def causes_in(answer: Answer) -> Iterator[str]:
    for it in [answer["begin"], *answer["steps"]]:
        yield it.get("refused") or next(iter(it))
