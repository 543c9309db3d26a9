"""Random walks of the owner of a name, over `coniks.client` and over the second implementation. Epochs are fed, the key is looked up
in any order, and changes are expected. Auditors cover the chain, and the client is started again from its state."""

from __future__ import annotations

import random
from typing import Any, Optional

import case_runner
from case_runner import Answer, Clock
from client_world import PERIOD, SIGNING_KEY, VRF_KEY, World, digest, hour, policy_text


# The key that alice gets at each epoch, `-` if none. Some numbers have no epoch.
KEYS = "-AB-ABCCBA"
NUMBERS = [1, 2, 3, 4, 6, 7, 8, 9, 11, 12]
POLICY = policy_text(stored=2 * PERIOD)
NAME = b"alice".hex()


def world_of(keys: str) -> World:
    return World([(epoch, {} if key == "-" else {"alice": key.encode()}) for epoch, key in zip(NUMBERS, keys)], 8, digest(POLICY))


class Walk:
    """The steps of one walk, which are chosen at random."""

    world = world_of(KEYS)

    def __init__(self, chance: random.Random) -> None:
        self.chance, self.fed, self.requested = chance, 0, 0

    def case(self, state: Optional[bytes]) -> Answer:
        steps = [self.step() for _ in range(self.chance.randrange(4, 14))]
        keys: Answer = {"signing_key": SIGNING_KEY.hex(), "vrf_key": VRF_KEY.hex(), "policy": POLICY}
        return {**keys, "now": hour(12), "state": None if state is None else state.hex(), "steps": steps}

    def step(self) -> Answer:
        kinds = [self.feed, self.feed, self.lookup, self.lookup, self.lookup, self.history, self.watch, self.expect, self.cover]
        return self.chance.choice([*kinds, self.missing])()

    def missing(self) -> Answer:
        """By turns the lost epochs, as the proofs of one of the last epochs end or a second before, and the missing ones."""
        self.requested += 1
        if self.requested % 2 == 0:
            return {"do": "missing"}
        latest = NUMBERS[self.fed - 1] if self.fed else 0
        return {"do": "lost", "now": hour(latest + self.requested % 3, -(self.requested // 2 % 2))}

    def key(self) -> Optional[str]:
        it = self.chance.choice(["A", "A", "B", "B", "C", None])
        return None if it is None else it.encode().hex()

    def epoch(self) -> int:
        """An epoch that was fed, or sometimes another one."""
        return self.chance.choice(NUMBERS[: self.fed] or [1]) if self.chance.random() < 0.95 else self.chance.randrange(14)

    def feed(self) -> Answer:
        start, self.fed = self.fed, min(len(NUMBERS), self.fed + self.chance.choice([1, 1, 2, 3]))
        return {"do": "feed", "entries": [self.world[it].hex() for it in NUMBERS[start : self.fed]]}

    def lookup(self) -> Answer:
        epoch = self.epoch()
        shown = epoch if epoch in NUMBERS else 1
        return {"do": "lookup", "name": NAME, "reply": self.world.reply("alice", shown).hex(), "epoch": epoch}

    def history(self) -> Answer:
        fed = NUMBERS[: self.fed] or [1]
        epochs = sorted(self.chance.sample(fed, self.chance.randrange(1, len(fed) + 1)))
        return {"do": "history", "name": NAME, "history": self.world.history("alice", *epochs).hex()}

    def watch(self) -> Answer:
        return {"do": "watch", "name": NAME, "key": self.key(), "since": self.chance.choice([None, None, 1, 3, 7])}

    def expect(self) -> Answer:
        latest = NUMBERS[self.fed - 1] if self.fed else 0
        return {"do": "expect", "key": self.key(), "by": latest + self.chance.choice([0, 1, 2, 3, 5])}

    def cover(self) -> Answer:
        epoch = self.epoch()
        return {"do": "cover", "epoch": epoch, "link": self.world.link(epoch if epoch in NUMBERS else 1).hex()}


def state_of(case: Answer) -> bytes:
    """The state of the client after the steps of a case."""
    clock = Clock()
    clock.now = case["now"]
    client = case_runner.begun(case, clock)
    for step in case["steps"]:
        clock.now = step.get("now", clock.now)
        case_runner.outcome(lambda: case_runner.CALLS[step["do"]](client, step), client)
    return client.state


def seen_in(answer: Any) -> list[str]:
    """What the owner was told in a walk."""
    listed = [found for it in answer["steps"] for found in it.get("found", [it])]
    outcome = [it["report"][0] for it in answer["steps"] if "report" in it] + [
        "dropped" for it in answer["steps"] if it.get("cover")
    ]
    return [it["seen"] for it in listed if it.get("seen")] + outcome + ["misuse" for it in answer["steps"] if "misuse" in it]
